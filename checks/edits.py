#!/usr/bin/env python3
"""Tries that every edit applies, and says which stand in bodies that no other crate can call.

    checks/edits.py [--internal]

Edits are the files crates/NAME/must-fail/X.edit, which the gate tries, and
crates/NAME/more-edits/X.edit. A twin is a file crates/NAME/twins/X.edit: it changes the same
place as the edit of its name, and the result stays right. An edit applies where each of its old
texts stands once in its file.

The daggers of docs/WRONG_BODIES.md have to mark the edits of internal bodies: of functions that
no other crate can call. With --internal all of these are listed.

Ends with 1 where an edit doesn't apply, where a twin has no edit, changes another place or is the
edit itself, or where a dagger is missing or too many.
"""
import argparse
import pathlib
import re
import sys
from typing import Iterator, NamedTuple

ROOT = pathlib.Path(__file__).resolve().parent.parent
FOLDERS = ("must-fail", "more-edits", "twins")
FUNCTION = re.compile(r"^(?P<indent> *)(?P<public>pub )?(?:const )?fn (?P<name>\w+)", re.M)
BLOCK = re.compile(r"^(?:impl|pub trait|trait)(?:<[^\n{]*?>)? (?P<owner>\w+)[^\n]*", re.M)
TRAIT = re.compile(r"impl\b[^\n{]*\bfor\b|pub trait\b")


class Edit(NamedTuple):
    """An edit or a twin: crate, folder, name, the file that it changes, and pairs of texts."""

    crate: str
    folder: str
    name: str
    file: str
    pairs: tuple[tuple[str, str], ...]

    def __str__(self) -> str:
        return f"{self.crate}/{self.name}"

    def applied(self, text: str) -> str:
        """The text of the file with the edit; ValueError where an old text isn't there once."""
        for old, new in self.pairs:
            if text.count(old) != 1:
                raise ValueError(
                    f"{self.crate}/{self.folder}/{self.name}: {text.count(old)} times {old!r}"
                )
            text = text.replace(old, new)
        return text


def read_edit(path: pathlib.Path) -> Edit:
    """The edit of a file. A text begins after the blank that follows `old:` or `new:`."""
    lines = path.read_text().split("\n")
    file = next(line.removeprefix("file:").strip() for line in lines if line.startswith("file:"))
    olds = [line[5:] for line in lines if line.startswith("old: ")]
    news = [line[5:] for line in lines if line.startswith("new: ")]
    if not olds or len(olds) != len(news):
        raise ValueError(f"{path}: {len(olds)} old texts and {len(news)} new ones")
    folder = path.parent
    return Edit(folder.parent.name, folder.name, path.stem, file, tuple(zip(olds, news)))


def all_edits(root: pathlib.Path = ROOT) -> Iterator[Edit]:
    """The edits and twins of all crates, in the order of their paths."""
    for folder in FOLDERS:
        for path in sorted(root.glob(f"crates/*/{folder}/*.edit")):
            yield read_edit(path)


def text_of(edit: Edit) -> str:
    """The text of the file that an edit changes."""
    return (ROOT / "crates" / edit.crate / edit.file).read_text()


def exported(crate: str) -> tuple[set[str], set[str]]:
    """The public modules of a crate, and the names that its root exports of others."""
    root = ROOT / "crates" / crate / "src/lib.rt"
    code = root.read_text() if root.exists() else ""
    names = set()
    for used in re.findall(r"^pub use ([^;]*);", code, re.M):
        names.update(re.findall(r"(\w+)(?=\s*(?:[,}]|$))", used))
    return set(re.findall(r"^pub mod (\w+);", code, re.M)), names


def is_internal(edit: Edit, text: str) -> bool:
    """Whether no other crate can call the function that the edit stands in."""
    end = text.index(edit.pairs[0][0]) + len(edit.pairs[0][0])
    heads = list(FUNCTION.finditer(text, 0, end))
    if not heads or edit.file.endswith(".antt"):
        return False
    head = heads[-1]
    blocks = list(BLOCK.finditer(text, 0, head.start())) if head["indent"] else []
    if blocks and TRAIT.match(blocks[-1][0]):
        return False
    if not head["public"]:
        return True
    modules, names = exported(edit.crate)
    if edit.file == "src/lib.rt" or pathlib.Path(edit.file).stem in modules:
        return False
    owner = blocks[-1]["owner"] if blocks else head["name"]
    return owner not in names


def fault_of_twin(twin: Edit, edits: dict[str, Edit]) -> str | None:
    """What is wrong of a twin, if anything is."""
    edit = edits.get(str(twin))
    if edit is None:
        return f"{twin}: a twin without an edit"
    if edit.file != twin.file or [old for old, _ in edit.pairs] != [old for old, _ in twin.pairs]:
        return f"{twin}: the twin changes another place"
    return f"{twin}: the twin is the edit" if edit.pairs == twin.pairs else None


def marked_names() -> Iterator[tuple[str, bool]]:
    """The edits that docs/WRONG_BODIES.md names, and whether a dagger follows."""
    document = (ROOT / "docs/WRONG_BODIES.md").read_text()
    for crate, name, dagger in re.findall(r"\b([a-z]\w*)/([a-z]\w*)\b(?:\*\*)?(†?)", document):
        if (ROOT / "crates" / crate / "src").is_dir():
            yield f"{crate}/{name}", bool(dagger)


def main() -> int:
    words = argparse.ArgumentParser(
        description=__doc__, formatter_class=argparse.RawDescriptionHelpFormatter
    )
    words.add_argument("--internal", action="store_true", help="list the edits of internal bodies")
    given = words.parse_args()
    faults: list[str] = []
    edits: dict[str, Edit] = {}
    twins: list[Edit] = []
    internal: set[str] = set()
    for edit in all_edits():
        text = text_of(edit)
        try:
            edit.applied(text)
        except ValueError as error:
            faults.append(str(error))
            continue
        if edit.folder == "twins":
            twins.append(edit)
            continue
        edits[str(edit)] = edit
        if is_internal(edit, text):
            internal.add(str(edit))
    faults += filter(None, (fault_of_twin(twin, edits) for twin in twins))
    for name, is_marked in marked_names():
        if name in edits and is_marked != (name in internal):
            faults.append(
                f"docs/WRONG_BODIES.md: {name}: the dagger is {'missing' if name in internal else 'wrong'}"
            )
    if given.internal:
        print(*sorted(internal), sep="\n")
    gate = [edit for edit in edits.values() if edit.folder == "must-fail"]
    without = [str(edit) for edit in gate if str(edit) not in set(map(str, twins))]
    print(*faults, *(f"{name}: no twin" for name in without), sep="\n")
    print(
        f"{len(gate)} edits of the gate, {len(without)} without a twin; "
        f"{len(edits) - len(gate)} further edits;"
        f" {len(internal)} of both stand in internal bodies; {len(faults)} faults"
    )
    return 1 if faults else 0


if __name__ == "__main__":
    sys.exit(main())
