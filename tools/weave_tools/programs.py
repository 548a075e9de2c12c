"""The other programs that texture runs."""
import functools
import os
import re
import shutil
import subprocess
import sys
import threading
from typing import List, Optional, Sequence, Set

from .faults import Stop

BESIDE = os.path.join(os.path.dirname(os.path.realpath(__file__)), "..", "..", "weave")


def run(
    words: Sequence[str],
    data: Optional[bytes] = None,
    what: str = "a file",
    folder: Optional[str] = None,
) -> bytes:
    """The standard output of a converter, which has to end well. What it complains about all the
    same is passed on. It is never left the standard input of texture, which ffmpeg would read as
    keys."""
    pipe = subprocess.PIPE
    done = subprocess.run(words, input=data or b"", cwd=folder, stdout=pipe, stderr=pipe)
    program = os.path.basename(words[0])
    first = done.stderr.decode(errors="replace").strip().partition("\n")[0]
    said = re.sub(f"^{re.escape(program)}: | `.*", "", first)
    if done.returncode:
        raise Stop(f"{what}: {program} can't convert it: {said or done.returncode}", 3)
    if said:
        print(f"texture: {what}: {program} says: {said}", file=sys.stderr)
    return done.stdout


@functools.lru_cache(maxsize=None)
def imagemagick() -> Optional[str]:
    """ImageMagick's program; a stand-in that says otherwise doesn't count."""
    for name in filter(shutil.which, ("magick", "convert")):
        done = subprocess.run([name, "-version"], stdout=subprocess.PIPE, stderr=subprocess.DEVNULL)
        if done.stdout.startswith(b"Version: ImageMagick"):
            return name
    return None


def have(*names: str) -> bool:
    """Whether all of these programs are on the path."""
    return all(shutil.which(name) for name in names)


def needs(what: str, *packages: str) -> Stop:
    """The line where none of these packages is there."""
    return Stop(f"{what}: needs one of these packages: {', '.join(packages)}", 3)


def find_weave(given: Optional[str]) -> Optional[str]:
    """The path of weave: the one that is named, or beside tools/, or on the path; None where there
    is none."""
    if given is not None:
        found = shutil.which(given)
        if not found:
            raise Stop(f"{given}: there is no such program")
        return os.path.abspath(found)
    found = BESIDE if os.access(BESIDE, os.X_OK) else shutil.which("weave")
    return os.path.abspath(found) if found else None


class Runs:
    """Runs of weave that can be stopped, each in a process of its own."""

    def __init__(self, program: str) -> None:
        self.program, self.stopped = program, False
        self.there: Set["subprocess.Popen[bytes]"] = set()
        self.lock = threading.Lock()

    def report(self, folder: str, words: List[str]) -> str:
        """The report of a run in a folder; a Stop with its line where it has none.

        A limit on the size of files is a write fault of weave's, and not a signal that ends it:
        such signals, which Python ignores, stay ignored."""
        with self.lock:
            if self.stopped:
                raise Stop("stopped", 130)
            process = subprocess.Popen(
                [self.program, *words],
                cwd=folder,
                stdin=subprocess.DEVNULL,
                stdout=subprocess.PIPE,
                stderr=subprocess.PIPE,
                restore_signals=False,
            )
            self.there.add(process)
        try:
            out, said = process.communicate()
        except BaseException:
            process.kill()
            process.wait()
            raise
        finally:
            with self.lock:
                self.there.discard(process)
        if not process.returncode or out:
            return out.decode()
        raise refusal(words, said, process.returncode)

    def stop(self) -> None:
        """Ends all runs that are there, and lets no other begin."""
        with self.lock:
            self.stopped = True
            for process in self.there:
                process.kill()


def refusal(words: Sequence[str], said: bytes, status: int) -> Stop:
    """The line of weave, with the word that it counts, and what to do."""
    line = said.decode(errors="replace").strip() or f"weave was ended, with {status}"
    at = re.match(r"weave: word (\d+): (.*)", line)
    if at:
        line = f"{words[int(at[1]) - 1]}: {at[2]}"
    if re.match(r"weave: limit (axis|cells)", line):
        line += ". Take a part of the sample with --crop or --frames, or scale it with --scale"
    if re.match(r"weave: limit output", line):
        line += ". Cells of KxK pixels make more of a picture: --cell K"
    return Stop(line, status if status > 0 else 1)


def weave(program: str, folder: str, words: List[str]) -> str:
    """The report of one run of weave in a folder."""
    return Runs(program).report(folder, words)
