#!/usr/bin/env python3
"""Tries ./build over a small repository of its own: three crates in a temporary folder.

    checks/build.py          with a stand-in for the kit, whose provers only sleep: a minute
    checks/build.py --kit    and with the kit on the PATH too, which proves the crates: ten minutes

Tried are changed bytes of the program, of a library, of an object file and of what is noted of
them; changed sources, one of them while it is proved; INT, TERM, HUP and KILL; two builds at once;
a full disk; a folder that can't be written; a kit that is missing, broken or another; too little
memory; wrong words; and a second program of the table. Each build has to end with its status and
one line, to leave no prover, and to leave no program or the right one. It mounts file systems, so
it runs as root, in a mount namespace of its own. Ends with 1 where something is wrong.
"""
import os
import re
import shutil
import signal
import subprocess
import sys
import tempfile
import time
from collections.abc import Callable
from pathlib import Path

TOP = Path(__file__).resolve().parent.parent
OTHER_PROGRAM = '    "other": ("weave", ["--cpu", "x86-64-v3"]),\n}'
TABLE_END = '    "fuzz": ("fuzz", []),\n}'

PROGRAM = """// Prints a bound.
#![tactic(auto)]

use limits::GREATEST_AXIS;
use std::io;

fn main(rt: HostRuntime) -> io::Result<()> {
    println!(rt; "{GREATEST_AXIS}")?;
    Ok(())
}
"""

# The stand-in for a prover. It starts a process of its own, as provers do, sleeps as long as the
# file `seconds` of the kit says, fails where a source has the word `wrong`, and makes a file of all
# that it reads: its words, and the files of the crate.
PROVER = """#!/bin/sh
set -e
kit=$(dirname "$0")/..
while [ $# -gt 0 ]; do
    case $1 in
        -o) made=$2; shift ;;
        --cpu) processor=$2; shift ;;
    esac
    shift
done
if grep -q wrong -r src; then echo "refused by the stand-in"; exit 1; fi
sleep "$(cat "$kit/seconds")" &
wait
case $made in
    *.rlib) mkdir "$made"; made=$made/interface ;;
esac
{ cat src/*; echo "$processor"; head -c 100000 /dev/zero; } >"$made"
"""

LINKER = """#!/bin/sh
while [ $# -gt 0 ]; do
    case $1 in
        -o) made=$2; shift 2; object=$1 ;;
    esac
    shift
done
{ echo "#!/bin/sh"; echo "exit 0"; cat "$object"; } >"$made" && chmod +x "$made"
"""


class Wrong(Exception):
    """What a build did otherwise than it should."""


def hold(what: str, found: object, wanted: object) -> None:
    """Two values have to be the same."""
    if found != wanted:
        raise Wrong(f"{what}: {found!r}, and not {wanted!r}")


def make_repository(folder: Path) -> None:
    """Writes the small repository: `limits` and `items` of this one, and a program over both."""
    folder.mkdir(parents=True)
    shutil.copy(TOP / "build", folder)
    identity = re.search(r"rattle-kit-\S+ logic \w+", (TOP / "README.md").read_text())
    (folder / "README.md").write_text(f"{identity[0] if identity else ''}\n")
    (folder / "crates.txt").write_text("# Crates\nlimits:\nitems:\nweave: limits items\n")
    for crate in ("limits", "items"):
        for part in ("src", "specs", "proofs"):
            if (TOP / "crates" / crate / part).is_dir():
                shutil.copytree(TOP / "crates" / crate / part, folder / "crates" / crate / part)
    (folder / "crates/weave/src").mkdir(parents=True)
    (folder / "crates/weave/src/main.rt").write_text(PROGRAM)


def make_kit(folder: Path, identity: str) -> None:
    """Writes the stand-in for the kit."""
    (folder / "bin").mkdir(parents=True)
    (folder / "KIT-ID").write_text(identity)
    (folder / "seconds").write_text("0.1")
    for name, text in (("rattle", PROVER), ("rattle-link", LINKER)):
        (folder / "bin" / name).write_text(text)
        (folder / "bin" / name).chmod(0o755)


def left_in(folder: Path) -> list[str]:
    """The processes at work in a folder or below it."""
    found = []
    for process in Path("/proc").glob("[0-9]*"):
        try:
            place = os.readlink(process / "cwd")
            if f"{place}/".startswith(f"{folder}/") and int(process.name) != os.getpid():
                found.append((process / "cmdline").read_bytes().replace(b"\0", b" ").decode())
        except OSError:
            continue
    return found


class Repository:
    """The small repository, and the builds that are tried in it."""

    def __init__(self, folder: Path, kit: Path | None) -> None:
        self.folder, self.kit = folder, kit
        make_repository(folder)
        self.sum = ""

    def environment(self) -> dict[str, str]:
        """The environment of a build: with the stand-in first on the PATH, if there is one."""
        path = os.environ["PATH"]
        return {**os.environ, "PATH": f"{self.kit}/bin:{path}" if self.kit else path}

    def start(self, *words: str) -> "subprocess.Popen[str]":
        """Starts a build."""
        return subprocess.Popen(
            [str(self.folder / "build"), *words],
            env=self.environment(),
            stdout=subprocess.PIPE,
            stderr=subprocess.PIPE,
            text=True,
        )

    def sleep(self, seconds: float) -> None:
        """Has the stand-in sleep so long before it makes something."""
        if self.kit:
            (self.kit / "seconds").write_text(str(seconds))

    def proved(self, out: str) -> list[str]:
        """The crates that a build says to have proved, sorted."""
        return sorted(re.findall(r"^ *\d+ of \d+ +\d+ s +(\w+)$", out, re.M))

    def builds(self, what: str, *proved: str, words: tuple[str, ...] = ()) -> str:
        """A build that ends well, proves just these crates, and leaves the program as ever."""
        program = self.start(*words)
        out, err = program.communicate()
        hold(f"{what}: status, {out}{err}", program.returncode, 0)
        hold(f"{what}: standard error", err, "")
        hold(f"{what}: proved", self.proved(out), sorted(proved))
        last = out.splitlines()[-1]
        found = re.match(r"\./(\w+)  SHA-256 (\w{64})", last)
        if not found:
            raise Wrong(f"{what}: the last line is {last}")
        if found[1] == "weave":
            self.sum = self.sum or found[2]
            hold(f"{what}: sum", found[2], self.sum)
        self.left_alone(what)
        return last

    def ends(
        self,
        what: str,
        program: "subprocess.Popen[str]",
        status: int,
        line: str,
        stays: bool = False,
    ) -> None:
        """A build that makes no program, with its status and one line on the standard error."""
        out, err = program.communicate()
        hold(f"{what}: status, {out}{err}", program.returncode, status)
        if not re.fullmatch(line, err):
            raise Wrong(f"{what}: the line is {err!r}")
        if "Traceback" in out + err:
            raise Wrong(f"{what}: {out}{err}")
        hold(f"{what}: ./weave", (self.folder / "weave").is_file(), stays)
        self.left_alone(what)

    def left_alone(self, what: str) -> None:
        """No process may be left. Those that were killed get a moment to end."""
        for _ in range(20):
            if not left_in(self.folder):
                return
            time.sleep(0.1)
        raise Wrong(f"{what}: left are {left_in(self.folder)}")

    def wait_for_provers(self) -> None:
        """Waits until provers are at work. The stand-in has a process of its own besides."""
        for _ in range(600):
            if len(left_in(self.folder / "crates")) > (1 if self.kit else 0):
                return
            time.sleep(0.05)
        raise Wrong("no prover begins")

    def library(self, crate: str) -> Path:
        """A file of a library."""
        folder = self.folder / f"crates/{crate}/out/rlib/{crate}.rlib"
        return next(path for path in sorted(folder.rglob("*")) if path.is_file())

    def forget(self, crate: str) -> None:
        """Has a crate proved again."""
        name = "weave.sum" if crate == "weave" else f"rlib/{crate}.sum"
        (self.folder / f"crates/{crate}/out" / name).unlink(missing_ok=True)


def umask() -> int:
    """The modes that new files don't get."""
    mode = os.umask(0)
    os.umask(mode)
    return mode


def change_byte(file: Path) -> None:
    """Changes the last byte of a file."""
    data = bytearray(file.read_bytes())
    data[-1] ^= 1
    file.write_bytes(data)


def try_changes(tried: Repository) -> None:
    """Whatever is changed of what was made is made again, and nothing else."""
    tried.builds("the first build", "items", "limits", "weave")
    weave, crates = tried.folder / "weave", tried.folder / "crates"
    before = weave.stat()
    tried.builds("a build with nothing to do")
    hold("the program was left as it is", weave.stat().st_mtime_ns, before.st_mtime_ns)
    hold("the program can be run", weave.stat().st_mode & 0o777, 0o777 & ~umask())
    for what, text in (("a changed program", "junk\n"), ("an empty program", "")):
        weave.write_text(text)
        tried.builds(what)
    change_byte(weave)
    tried.builds("a changed byte of the program")
    weave.unlink()
    tried.builds("a removed program")
    change_byte(tried.library("limits"))
    tried.builds("a changed byte of a library", "limits")
    tried.library("items").unlink()
    tried.builds("a removed file of a library", "items")
    (tried.library("items").parent / "more").write_text("")
    tried.builds("a further file in a library", "items")
    change_byte(crates / "weave/out/weave.o")
    tried.builds("a changed byte of the object file", "weave")
    for crate, name in (("limits", "rlib/limits.sum"), ("weave", "weave.sum")):
        change_byte(crates / crate / "out" / name)
        tried.builds(f"a changed byte of {name}", crate)
        (crates / crate / "out" / name).write_text("")
        tried.builds(f"an empty {name}", crate)


def try_sources(tried: Repository) -> None:
    """A changed source is proved again with what stands on it; a wrong one leaves no program."""
    source = tried.folder / "crates/limits/src/lib.rt"
    text = source.read_text()
    source.write_text(text + "// A comment.\n")
    tried.sum = ""
    tried.builds("a changed source", "limits", "weave")
    source.write_text(text + "fn wrong( {\n")
    line = (
        r"build: limits isn't proved: there is no \./weave \(see crates/limits/out/build\.log\)\n"
    )
    tried.ends("a wrong source", tried.start(), 1, line)
    source.write_text(text)
    tried.sum = ""
    tried.builds("the source as before", "limits", "weave")
    tried.forget("limits")
    tried.sleep(1)
    program = tried.start()
    tried.wait_for_provers()
    source.write_text(text + "\n")
    line = r"build: files of limits changed meanwhile: there is no \./weave\n"
    tried.ends("a source that changes meanwhile", program, 1, line)
    tried.sleep(0.1)
    source.write_text(text)
    tried.builds("the source as before", "limits")


def try_signals(tried: Repository) -> None:
    """A build that is stopped leaves no prover and no program, and the next one makes it."""
    stopped = r"build: stopped; the crates that were proved are kept\n"
    for number in (signal.SIGINT, signal.SIGTERM, signal.SIGHUP, signal.SIGKILL):
        for crate in ("items", "limits"):
            tried.forget(crate)
        tried.sleep(60)
        program = tried.start()
        tried.wait_for_provers()
        program.send_signal(number)
        is_kill = number == signal.SIGKILL
        tried.ends(number.name, program, -9 if is_kill else 1, "" if is_kill else stopped)
        tried.sleep(0.1)
        tried.builds(f"after {number.name}", "items", "limits")


def try_two(tried: Repository) -> None:
    """Of two builds at once the second says so at once, and the first isn't disturbed."""
    tried.forget("limits")
    tried.sleep(4)
    first = tried.start()
    tried.wait_for_provers()
    began = time.monotonic()
    line = r"build: another build is at work here\n"
    second = tried.start()
    out, err = second.communicate()
    hold("a second build: status", second.returncode, 2)
    hold("a second build: line", bool(re.fullmatch(line, err)) and not out, True)
    hold("a second build: at once", time.monotonic() - began < 3, True)
    out, err = first.communicate()
    tried.sleep(0.1)
    hold("the first build", (first.returncode, tried.proved(out), err), (0, ["limits"], ""))


def try_lacks(tried: Repository, room: Path) -> None:
    """Each thing that is missing has its line, and what was there stays."""
    weave = tried.folder / "weave"
    kit, path = tried.kit, os.environ["PATH"]
    without = [part for part in path.split(":") if not Path(part, "rattle").exists()]
    os.environ["PATH"], tried.kit = ":".join(without), None
    line = r"build: no kit is here: `rattle` isn't on the PATH\. README names rattle-kit-.*\n"
    tried.ends("no kit", tried.start(), 2, line, True)
    os.environ["PATH"], tried.kit = path, room / "broken"
    make_kit(tried.kit, "")
    (tried.kit / "KIT-ID").unlink()
    line = r"build: the kit in \S+ isn't whole: it has no KIT-ID\. README names rattle-kit-.*\n"
    tried.ends("a broken kit", tried.start(), 2, line, True)
    tried.kit = kit
    os.rename(weave, room / "weave")
    weave.mkdir()
    line = r"build: \./weave is a folder: the program can't be put there\n"
    tried.ends("a folder called weave", tried.start(), 2, line)
    weave.rmdir()
    os.rename(room / "weave", weave)
    for words in (["other"], ["weave", "bench"], ["0"], ["1", "2"], ["-h"]):
        line = r"build: \./build \[PROGRAM\] \[NUMBER\], where PROGRAM is of weave, bench, fuzz\n"
        tried.ends(" ".join(words), tried.start(*words), 2, line, True)
    tried.ends(
        "no crate", tried.start("bench"), 2, r"build: crates\.txt has no crate bench\n", True
    )
    tried.builds("at most one at a time", words=("weave", "1"))


def try_memory(tried: Repository, room: Path) -> None:
    """Too little memory for a proof is said before anything begins."""
    tried.forget("limits")
    (room / "meminfo").write_text("MemTotal: 4000000 kB\nMemAvailable:    2000000 kB\n")
    mount("--bind", room / "meminfo", Path("/proc/meminfo"))
    line = r"build: too little memory: 1\.9 GB are free, a proof takes 3\.5 GB\n"
    try:
        tried.ends("little memory", tried.start(), 2, line, True)
    finally:
        unmount(Path("/proc/meminfo"))
    tried.builds("enough memory", "limits")


def mount(*words: object) -> None:
    """Runs `mount`."""
    subprocess.run(["mount", *map(str, words)], check=True)


def unmount(place: Path) -> None:
    """Runs `umount`."""
    subprocess.run(["umount", str(place)], check=True)


def try_read_only(tried: Repository) -> None:
    """In a folder that can't be written a build says so, and the program stays."""
    tried.forget("limits")
    mount("--bind", tried.folder, tried.folder)
    mount("-o", "remount,bind,ro", tried.folder)
    try:
        line = r"build: \S+: Read-only file system\n"
        tried.ends("a folder that can't be written", tried.start(), 2, line, True)
    finally:
        unmount(tried.folder)
    tried.builds("a folder that can be written again", "limits")


def try_full_disk(room: Path, kit: Path | None, sizes: list[int]) -> None:
    """On a disk of each of these sizes in KiB a build leaves no program, or the whole one."""
    whole = 0
    for size in sizes:
        place = room / f"disk{size}"
        place.mkdir()
        mount("-t", "tmpfs", "-o", f"size={size}k", "none", place)
        try:
            tried = Repository(place / "repository", kit)
            program = tried.start()
            out, err = program.communicate()
            weave = tried.folder / "weave"
            hold(f"disk of {size} KiB: lines", len(err.splitlines()), int(program.returncode > 0))
            hold(f"disk of {size} KiB: {err}", weave.is_file(), program.returncode == 0)
            tried.left_alone(f"disk of {size} KiB")
            if program.returncode == 0:
                whole += 1
                hold("its status", subprocess.run([weave], capture_output=True).returncode, 0)
            mount("-o", "remount,size=64m", place)
            proved = tried.proved(out)
            rest = [crate for crate in ("limits", "items", "weave") if crate not in proved]
            tried.builds(f"after a disk of {size} KiB", *rest)
        finally:
            unmount(place)
    print(f"full disks: {whole} of {len(sizes)} sufficed")


def try_release(tried: Repository) -> None:
    """The last line says whether the program is that of the release."""
    sums, changes = tried.folder / "SHA256SUMS", tried.folder / "CHANGELOG.md"
    changes.write_text("# Changes\n\n## 1.0.0\n\nAll.\n\n## 0.9.0\n")
    sums.write_text(f"{tried.sum}  weave\n{'0' * 64}  other\n")
    hold("a release", tried.builds("a release").partition(", ")[2], "that of release 1.0.0")
    sums.write_text(f"{'0' * 64}  weave\n")
    hold("no release", tried.builds("no release").partition(", ")[2], "not that of release 1.0.0")
    sums.unlink()
    hold("without sums", tried.builds("without sums").partition(", ")[2], "")


def try_another_program(tried: Repository) -> None:
    """A further program is a line of the table, also one of the same crate by other options."""
    build = tried.folder / "build"
    text = build.read_text()
    build.write_text(text.replace(TABLE_END, TABLE_END.replace("}", OTHER_PROGRAM)))
    line = tried.builds("another program", "weave", words=("other",))
    hold("another program has its own sum", tried.sum in line, False)
    tried.builds("another program, again", words=("other",))
    tried.builds("the program beside it")
    build.write_text(build.read_text().replace("x86-64-v3", "x86-64"))
    tried.builds("another program by other options", "weave", words=("other",))
    hold(
        "both are there",
        [(tried.folder / name).is_file() for name in ("weave", "other")],
        [True] * 2,
    )
    build.write_text(text)


def try_all(room: Path, kit: Path | None, sizes: list[int]) -> None:
    """Tries everything with a kit, or with the one on the PATH."""
    tried = Repository(room / "a repository", kit)
    parts: list[tuple[str, Callable[[], None]]] = [
        ("what was made", lambda: try_changes(tried)),
        ("the release", lambda: try_release(tried)),
        ("another program", lambda: try_another_program(tried)),
        ("signals", lambda: try_signals(tried)),
        ("two at once", lambda: try_two(tried)),
        ("lacks", lambda: try_lacks(tried, room)),
        ("memory", lambda: try_memory(tried, room)),
        ("a folder that can't be written", lambda: try_read_only(tried)),
        ("sources", lambda: try_sources(tried)),
        ("full disks", lambda: try_full_disk(room, kit, sizes)),
    ]
    for name, part in parts:
        began = time.monotonic()
        part()
        print(f"{name}: as it should be ({time.monotonic() - began:.0f} s)", flush=True)
    elsewhere = Repository(room / "elsewhere" / "repository", kit)
    elsewhere.sum = tried.sum
    elsewhere.builds("the same in another folder", "items", "limits", "weave")
    print("another folder: the same sum")


def main() -> int:
    """Tries all of it, in a mount namespace of its own."""
    if os.geteuid():
        print("it mounts file systems: run it as root", file=sys.stderr)
        return 2
    if "--inside" not in sys.argv:
        words = ["unshare", "--mount", sys.executable, __file__, "--inside", *sys.argv[1:]]
        os.execvp("unshare", words)
    try:
        with tempfile.TemporaryDirectory(prefix="build-") as folder:
            room = Path(folder)
            identity = re.search(r"rattle-kit-\S+ logic \w+", (TOP / "README.md").read_text())
            make_kit(room / "kit", identity[0] if identity else "")
            print("with a stand-in for the kit")
            try_all(
                room / "stand-in",
                room / "kit",
                [70, 80, 150, 200, 260, 320, 400, 450, 500, 550, 1000],
            )
            if "--kit" in sys.argv:
                print("with the kit")
                try_all(room / "real", None, [300, 2500, 5300])
    except Wrong as wrong:
        print(f"wrong: {wrong}")
        return 1
    return 0


if __name__ == "__main__":
    sys.exit(main())
