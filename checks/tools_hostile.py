#!/usr/bin/env python3
"""Tries that no tool loses a user's file, whatever gives out: each is listed before and after.

    checks/tools_hostile.py [PART ..]      all parts where none is named

`inputs`: each program that writes is given its own inputs to write, by name, by links of both kinds
and by other paths. `replace`: moving results into place fails at each step. `foreign`: folders that
aren't the result's. `killed`: a run is killed. `limits`: files may not grow, and memory is short.
`beside`: two runs into the same names. `words`: wrong words of each program. It wants Debian's
package netpbm. Build the program first: ./build.
"""
import hashlib
import os
import resource
import shutil
import signal
import subprocess
import sys
import tempfile
import time
from typing import Any, Callable, Dict, List, Optional, Sequence

from beside import EXAMPLES, TOOLS, WEAVE
from texture_runs import LIFE, PEBBLES, TEXTURE, bytes_of, hold, made, put, run, sh

VERIFY, COLOURS, DRAW = (
    os.path.join(TOOLS, name) for name in ("verify.py", "map_colours.py", "draw.py")
)
MEMORY = 300 << 20


def listing(folder: str) -> Dict[str, str]:
    """The sum of each file below a folder."""
    found = {}
    for place, _, names in os.walk(folder):
        for name in names:
            path = os.path.join(place, name)
            found[os.path.relpath(path, folder)] = hashlib.sha256(bytes_of(path)).hexdigest()
    return found


def refused(folder: str, words: Sequence[str], status: int, says: str, **more: Any) -> None:
    """A program ends with a status and a line, and leaves every file as it was."""
    before = listing(folder)
    done = sh(*words, cwd=folder, **more)
    said = done.stderr.decode(errors="replace")
    if done.returncode != status or says not in said or len(said.strip().splitlines()) != 1:
        sys.exit(f"{' '.join(words)}: {done.returncode}, and not {status}: {said} (wanted: {says})")
    hold(f"{' '.join(words)}: the files", listing(folder), before)


def make_runs(folder: str) -> None:
    """A grown picture, a quilt and a loop, with their files."""
    shutil.copy(PEBBLES, os.path.join(folder, "s"))
    shutil.copy(LIFE, os.path.join(folder, "c"))
    size = ["width=60", "height=50"]
    made(WEAVE, "grow", "sample=s", "out=o", "map=m", "record=r", *size, cwd=folder)
    made(WEAVE, "quilt", "sample=s", "out=qo", "map=qm", "record=qr", *size, cwd=folder)
    made(WEAVE, "loop", "sample=c", "out=lo", "map=lm", "record=lr", "length=12", cwd=folder)


def try_inputs(folder: str) -> None:
    """No program overwrites what it reads, whatever name it has."""
    make_runs(folder)
    os.mkdir(os.path.join(folder, "deep"))
    rows = [
        ("s", [VERIFY, "--redraw", "NEW", "m", "s"]),
        ("m", [VERIFY, "--redraw", "NEW", "m", "s"]),
        ("m", [COLOURS, "m", "NEW"]),
        ("lm", [DRAW, "walk", "lm", "NEW", "3"]),
        ("c", [DRAW, "frames", "c", "NEW", "1", "0"]),
        ("qr", [DRAW, "blocks", "qr", "s", "NEW"]),
        ("s", [DRAW, "blocks", "qr", "s", "NEW"]),
        ("p.png", [TEXTURE, "grow", "p.png", "NEW", "40x40", "--replace"]),
        (
            "h.png",
            [TEXTURE, "grow", "p.png", "x.png", "40x40", "--layer", "h.png=NEW", "--replace"],
        ),
        ("p.png", [TEXTURE, "grow", "p.png", "x.png", "40x40", "--tries", "2", "--sheet", "NEW"]),
    ]
    for name in ("p.png", "h.png"):
        made("convert", PEBBLES, os.path.join(folder, name))
    count = 0
    for name, words in rows:
        ending = os.path.splitext(name)[1]
        makers: List[Any] = [("soft", os.symlink), ("hard", os.link)]
        for link, make in makers:
            path = os.path.join(folder, link + ending)
            if os.path.lexists(path):
                os.remove(path)
            make(os.path.join(folder, name), path)
        for other in (name, "./" + name, "deep/../" + name, "soft" + ending, "hard" + ending):
            refused(folder, [other if word == "NEW" else word for word in words], 2, "is")
            count += 1
    print(f"inputs: {count} ways to overwrite one are refused")


def try_replace(folder: str) -> None:
    """Where any step of putting results in place fails, the old ones are back, each byte."""
    words = ["grow", PEBBLES, "o.png", "50x40", "--layer", f"{PEBBLES}=l.png"]
    run(*words, cwd=folder)
    before = listing(folder)
    program = (
        "import os, sys\n"
        f"sys.path.insert(0, {TOOLS!r})\n"
        "from weave_tools import command\n"
        "at, real = [int(sys.argv.pop(1))], os.rename\n"
        "def rename(a, b):\n"
        "    at[0] -= 1\n"
        "    if at[0] == 0:\n"
        "        raise OSError(28, 'No space left on device', b)\n"
        "    real(a, b)\n"
        "os.rename = rename\n"
        "sys.exit(command.main(sys.argv[1:], ''))\n"
    )
    new = [*words[:3], "60x40", *words[4:], "seed=5", "--replace"]
    for step in range(1, 7):
        done = sh(sys.executable, "-c", program, str(step), *new, cwd=folder)
        hold(f"step {step}", (done.returncode, b"No space left" in done.stderr), (6, True))
        hold(f"the files after step {step}", listing(folder), before)
    done = sh(sys.executable, "-c", program, "0", *new, cwd=folder)
    hold("with no fault", done.returncode, 0)
    run("verify", "o.png.weave", cwd=folder)
    print("replace: a fault at each of 6 steps leaves the old results and the old folder")


def try_foreign(folder: str) -> None:
    """A folder that isn't the result's, or that has more than its list, isn't replaced."""
    grow = [TEXTURE, "grow", PEBBLES, "o.png", "50x40", "--replace"]
    made(*grow, cwd=folder)
    kept = os.path.join(folder, "o.png.weave")
    put(os.path.join(kept, "notes"), b"mine")
    refused(folder, grow, 2, "has notes, which isn't in its list")
    os.remove(os.path.join(kept, "notes"))
    made(TEXTURE, "grow", PEBBLES, "o.jpg", "50x40", cwd=folder)
    made(TEXTURE, "verify", "o.png.weave", cwd=folder)
    made(TEXTURE, "verify", "o.jpg.weave", cwd=folder)
    shutil.rmtree(kept)
    shutil.copytree(os.path.join(folder, "o.jpg.weave"), kept)
    refused(folder, grow, 2, "belongs to another result")
    shutil.rmtree(kept)
    os.mkdir(kept)
    put(os.path.join(kept, "mine"), b"mine")
    refused(folder, grow, 2, "isn't a folder of texture's")
    shutil.rmtree(kept)
    put(kept, b"a file")
    refused(folder, grow, 2, "isn't a folder of texture's")
    os.remove(kept)
    os.remove(os.path.join(folder, "o.png"))
    os.mkdir(os.path.join(folder, "o.png"))
    refused(folder, grow, 2, "is a folder, and isn't replaced")
    print("foreign: folders and files that aren't the result's are left as they are")


def try_killed(folder: str) -> None:
    """What a killed run has left is named at the next one, and the results before it are whole."""
    run("grow", PEBBLES, "o.png", "50x40", cwd=folder)
    before = listing(folder)
    words = [TEXTURE, "grow", PEBBLES, "o.png", "900x900", "rounds=50", "--replace"]
    quiet: Any = {"stdout": subprocess.DEVNULL, "stderr": subprocess.DEVNULL}
    process = subprocess.Popen(words, cwd=folder, **quiet)
    while not [name for name in os.listdir(folder) if name.startswith(".texture")]:
        time.sleep(0.02)
    time.sleep(0.3)
    process.send_signal(signal.SIGKILL)
    process.wait()
    left = [name for name in os.listdir(folder) if name.startswith(".texture")]
    hold("how many rooms are left", len(left), 1)
    found = {name: value for name, value in listing(folder).items() if not name.startswith(".")}
    hold("what was there", found, before)
    run(
        "grow",
        PEBBLES,
        "p.png",
        "50x40",
        cwd=folder,
        says=f"{left[0]}: a run that was killed has left it",
    )
    print("killed: the results before it are whole, and what is left is named")


def limited(kind: int, most: int) -> Callable[[], None]:
    """What sets a limit in a process before it runs."""
    return lambda: resource.setrlimit(kind, (most, most))


def try_limits(folder: str) -> None:
    """Files that may not grow, and records that are longer than any run's."""
    make_runs(folder)
    for most in (100, 5000, 20000):
        before = listing(folder)
        words = [TEXTURE, "grow", PEBBLES, "o.png", "120x90"]
        done = sh(*words, cwd=folder, preexec_fn=limited(resource.RLIMIT_FSIZE, most))
        said = done.stderr.decode()
        hold(f"with files of {most} bytes", (done.returncode, len(said.splitlines())), (6, 1))
        hold("the files", listing(folder), before)
    long = os.path.join(folder, "long")
    shutil.copyfile(os.path.join(folder, "r"), long)
    whole = os.path.getsize(long)
    os.truncate(long, 1200 << 20)
    done = sh(
        VERIFY, "o", "m", "long", "s", cwd=folder, preexec_fn=limited(resource.RLIMIT_AS, MEMORY)
    )
    line = f"weave: record: form at {whole}\n".encode()
    hold("an overlong record", (done.returncode, done.stderr), (3, line))
    print("limits: a line each, and an overlong record takes less than 300 MB")


def try_beside(folder: str) -> None:
    """Two runs into the same names leave the whole results of one of them."""
    for number in range(6):
        words = ["grow", PEBBLES, "o.png", "90x70", "--replace"]
        quiet: Any = {"stdout": subprocess.DEVNULL, "stderr": subprocess.DEVNULL}
        runs = [
            subprocess.Popen([TEXTURE, *words, f"seed={2 * number + i}"], cwd=folder, **quiet)
            for i in range(2)
        ]
        ended = [one.wait() for one in runs]
        hold("whether one ended well", 0 in ended, True)
        run("verify", "o.png.weave", cwd=folder)
    print("beside: two runs into the same names leave one whole result")


def try_words(folder: str) -> None:
    """Wrong words of each program are a line or its usage, and leave nothing."""
    make_runs(folder)
    made("ffmpeg", "-v", "error", "-i", LIFE, os.path.join(folder, "c.mp4"))
    rows = [
        ([VERIFY, "--redraw", "deep", "m", "s"], 6, "deep: Is a directory"),
        ([VERIFY, "--redraw", "none/x", "m", "s"], 6, "there is no such folder"),
        ([VERIFY, "--redraw", "", "m", "s"], 2, "is empty"),
        ([VERIFY, "o", "m", "none", "s"], 5, "weave: record: read fault"),
        ([COLOURS, "m", "x", "zoom"], 2, "ZOOM is from 1 to 16"),
        ([COLOURS, "m", "x", "²"], 2, "ZOOM is from 1 to 16"),
        ([DRAW, "walk", "m", "x", "3"], 2, "isn't the map of a loop"),
        ([DRAW, "frames", "c", "x", "1", "99999"], 2, "there is no frame"),
        ([DRAW, "frames", "c", "x", "1", "first"], 2, "the number of a frame is wanted"),
        ([TEXTURE, "loop", "c.mp4", "x.mp4", "9", "--crop", "900x9+0+0"], 2, "outside of its"),
        (
            [TEXTURE, "grow", "c.mp4", "x.mp4", "10x10x9", "--crop", "10x10+900+0"],
            2,
            "outside of its",
        ),
        ([TEXTURE, "grow", "a=b.png", "x.png", "40x40"], 2, "a file of that name is ./a=b.png"),
        ([TEXTURE, "grow", "", "x.png", "40x40"], 2, "the name of a file is empty"),
        ([TEXTURE, "grow", "s", "x.png", "40x40", "--tr", "2"], 2, "--tr"),
    ]
    os.mkdir(os.path.join(folder, "deep"))
    for words, status, says in rows:
        refused(folder, words, status, says)
    for program in (VERIFY, COLOURS, DRAW):
        done = sh(program, cwd=folder)
        hold("the usage", (done.returncode, b"Traceback" in done.stderr), (2, False))
    missing = sh(os.path.join(EXAMPLES, "samples.py"), "bricks", os.path.join(folder, "none", "x"))
    hold("samples.py into no folder", b"Traceback" in missing.stderr, False)
    print(f"words: {len(rows)} are a line each")


PARTS: Dict[str, Callable[[str], None]] = {
    "inputs": try_inputs,
    "replace": try_replace,
    "foreign": try_foreign,
    "killed": try_killed,
    "limits": try_limits,
    "beside": try_beside,
    "words": try_words,
}


def main(names: List[str]) -> Optional[str]:
    """Tries the parts that are named, or all."""
    for name in names or list(PARTS):
        if name not in PARTS:
            return f"{name}: is none of {', '.join(PARTS)}"
        with tempfile.TemporaryDirectory() as folder:
            PARTS[name](folder)
    return None


if __name__ == "__main__":
    sys.exit(main(sys.argv[1:]))
