#!/usr/bin/env python3
"""Tries the edits that the gate doesn't, and proves the twins of all edits.

    checks/more_edits.py [--folder FOLDER] [--keep] [NAME ..]
    checks/more_edits.py --twins [--whole] [--folder FOLDER] [--keep] [NAME ..]

The edits of crates/NAME/more-edits/ are as those of must-fail/: each makes one body wrong, so
that the check must refuse the crate. This clones the repository that it stands in, puts the edits
of more-edits/ in place of those of must-fail/ there, and runs `rt must-fail` on the crates that
have some, or on those named. The clone has what is committed, and the check begins from nothing
there, with the crates below: minutes for a crate low down, and hours for the commands.

A twin, crates/NAME/twins/X.edit, changes the place that the edit X changes, and the result stays
right. An edit whose twin is proved is refused for its result, not for its form. With --twins each
twin is put into a copy of the repository as it is, with the libraries that are proved, and `rt
check --only` proves the function that it changes; with --whole `rt check` proves the crate. It
prints a line for each twin.

Clone and copy are made in a temporary folder, or in FOLDER, which must not be there yet. They are
removed at the end; with --keep they stay. Ends with 1 where an edit isn't refused, a twin isn't
proved, or one can't be tried.
"""
import argparse
import pathlib
import re
import shutil
import subprocess
import sys
import tempfile
import time

from edits import BLOCK, FUNCTION, ROOT, Edit, all_edits


def put_in_place(crates: pathlib.Path) -> list[str]:
    """Puts the edits of more-edits/ in place of must-fail/; gives the crates that have some."""
    some = []
    for crate in sorted(crates.iterdir()):
        shutil.rmtree(crate / "must-fail", ignore_errors=True)
        if (crate / "more-edits").is_dir():
            (crate / "more-edits").rename(crate / "must-fail")
            some.append(crate.name)
    return some


def try_edits(clone: pathlib.Path, names: list[str]) -> int:
    """Tries the further edits of these crates, or of all, in a clone; gives the status."""
    subprocess.run(["git", "clone", "--quiet", ROOT, clone], check=True)
    some = put_in_place(clone / "crates")
    lacking = [name for name in names if name not in some]
    if lacking or not some:
        sys.exit(f"no crates/{lacking[0] if lacking else 'NAME'}/more-edits/")
    return subprocess.run(["rt", "must-fail", *(names or some)], cwd=clone).returncode


def path_of(edit: Edit, text: str) -> str:
    """The path of the function that an edit changes, as `rt check --only` takes it."""
    end = text.index(edit.pairs[0][0]) + len(edit.pairs[0][0])
    head = list(FUNCTION.finditer(text, 0, end))[-1]
    parts = list(pathlib.PurePath(edit.file).with_suffix("").parts[1:])
    if parts[-1] in ("lib", "main", "mod"):
        parts.pop()
    if head["indent"]:
        owners = [block["owner"] for block in BLOCK.finditer(text, 0, head.start())]
        parts += owners[-1:]
    return "::".join([*parts, head["name"]])


def is_proved(copy: pathlib.Path, twin: Edit, whole: bool) -> tuple[bool, str]:
    """Whether the check passes with a twin in place, and the last line that it said."""
    file = copy / "crates" / twin.crate / twin.file
    before = file.read_text()
    only = [] if whole else ["--only", path_of(twin, before)]
    try:
        file.write_text(twin.applied(before))
        said = subprocess.run(
            ["rt", "check", *only],
            cwd=copy / "crates" / twin.crate,
            stdout=subprocess.PIPE,
            stderr=subprocess.STDOUT,
            text=True,
        )
    finally:
        file.write_text(before)
    goals = re.findall(r"^.*(?:error|note).*$", said.stdout, re.M)
    last = (goals or said.stdout.strip().split("\n"))[0]
    return said.returncode == 0, last[:200]


def prove_twins(copy: pathlib.Path, names: list[str], whole: bool) -> int:
    """Proves the twins of these crates, or of all, in a copy; gives the status."""
    twins = [edit for edit in all_edits() if edit.folder == "twins"]
    lacking = [name for name in names if name not in {twin.crate for twin in twins}]
    if lacking:
        sys.exit(f"no crates/{lacking[0]}/twins/")
    shutil.copytree(ROOT, copy, ignore=shutil.ignore_patterns(".git"), dirs_exist_ok=True)
    chosen = [twin for twin in twins if not names or twin.crate in names]
    failed = 0
    for twin in chosen:
        start = time.monotonic()
        proved, last = is_proved(copy, twin, whole)
        failed += not proved
        took = f"{time.monotonic() - start:.0f} s"
        print(
            f"{twin}: proved, {took}" if proved else f"{twin}: NOT proved, {took}, {last}",
            flush=True,
        )
    print(f"{len(chosen)} twins, {failed} not proved")
    return 1 if failed else 0


def main() -> int:
    words = argparse.ArgumentParser(
        description=__doc__, formatter_class=argparse.RawDescriptionHelpFormatter
    )
    words.add_argument("--twins", action="store_true", help="prove the twins")
    words.add_argument(
        "--whole", action="store_true", help="prove the crate of each twin, not its function alone"
    )
    words.add_argument("--folder", type=pathlib.Path, help="the folder of the clone or copy")
    words.add_argument("--keep", action="store_true", help="leave the clone or copy where it is")
    words.add_argument("names", nargs="*", metavar="NAME", help="a crate")
    given = words.parse_args()
    if given.folder and given.folder.exists():
        sys.exit(f"{given.folder} is there already")
    folder = (given.folder or pathlib.Path(tempfile.mkdtemp(prefix="more-edits-"))).absolute()
    try:
        if given.twins:
            return prove_twins(folder, given.names, given.whole)
        return try_edits(folder, given.names)
    finally:
        if given.keep:
            print(f"the copy is {folder}")
        else:
            shutil.rmtree(folder, ignore_errors=True)


if __name__ == "__main__":
    sys.exit(main())
