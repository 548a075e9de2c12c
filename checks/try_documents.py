#!/usr/bin/env python3
"""Runs the commands of the documents as they are written, in a scratch folder.

    checks/try_documents.py [WEAVE]       the program is ./weave where none is named

Each block that is fenced as `sh` in README.md, docs/MANUAL.md and docs/RECIPES.md is run by bash, in its order, and
has to end with status 0. Where a block fenced as `text` follows it, its standard output has to be that text. The
literal blocks of docs/weave.1 are run too. The folder has the program as ./weave, a copy of examples/, docs/, tools/ and checks/,
and the pictures and clips that the documents take as given. It wants Netpbm, ImageMagick, ffmpeg and xxd. Ends with 1
where a block fails, and with 0 where none does."""
import os
import pathlib
import re
import shutil
import subprocess
import sys
import tempfile

ROOT = pathlib.Path(__file__).resolve().parent.parent
DOCUMENTS = ["README.md", "docs/MANUAL.md", "docs/RECIPES.md", "docs/weave.1"]

# Blocks that aren't run, by their first line, with the reason.
LEFT_OUT = {
    "./build": "proves all crates, which takes more than an hour",
    "rt ci": "is the gate, which takes hours",
    "install -Dm755 weave /usr/local/bin/weave": "writes to folders of the system",
}

# The files that the recipes and the manual page take as given.
GIVEN = """
examples/samples.py bricks photo.ppm
pnmtopng photo.ppm > photo.png
pnmtojpeg photo.ppm > photo.jpg
ppmtopgm photo.ppm | pnmtopng > grey.png
pnmdepth 65535 photo.ppm > deep.ppm
cat photo.ppm photo.ppm > several.ppm
ffmpeg -v error -f lavfi -i "testsrc=size=384x288:rate=25" -frames:v 125 -pix_fmt yuv420p clip.mp4
examples/shots.py .
ppmchange rgb:01/00/00 rgb:ff/00/00 rgb:02/00/00 rgb:00/ff/00 marks.ppm | pnmtopng > strokes.png
cp photo.ppm s.ppm
cp photo.png s.png
cp clip.mp4 v.mp4
"""

LITERAL = re.compile(r"^\.Bd -literal[^\n]*\n(.*?)^\.Ed$", re.M | re.S)
FENCE = re.compile(r"^```(\w*)\n(.*?)^```$", re.M | re.S)


def blocks(text):
    """Each block of commands with the output that the document shows, or None."""
    for commands in LITERAL.findall(text):
        yield commands.replace("\\e\n", "\\\n"), None
    fenced = FENCE.findall(text)
    for (kind, commands), (next_kind, shown) in zip(fenced, fenced[1:] + [("", "")]):
        if kind == "sh":
            yield commands, shown if next_kind == "text" else None


def run(commands, folder):
    words = ["bash", "-euo", "pipefail", "-c", commands]
    place = {**os.environ, "PATH": f"{folder}:{os.environ['PATH']}"}
    return subprocess.run(words, cwd=folder, env=place, stdin=subprocess.DEVNULL, capture_output=True, text=True)


def prepare(folder, weave):
    shutil.copy(weave, folder / "weave")
    for name in ("examples", "docs", "tools", "checks"):
        shutil.copytree(ROOT / name, folder / name, ignore=shutil.ignore_patterns("results"))
    made = run(GIVEN, folder)
    if made.returncode:
        sys.exit(f"try_documents: the given files can't be made: {made.stderr}")


def why_failed(commands, shown, folder):
    done = run(commands, folder)
    if done.returncode:
        return f"status {done.returncode}: {done.stderr or done.stdout}"
    if shown is not None and done.stdout != shown:
        return f"shows {shown!r}, and prints {done.stdout!r}"
    return None


def main(weave=str(ROOT / "weave")):
    failed = tried = 0
    for document in DOCUMENTS:
        with tempfile.TemporaryDirectory() as name:
            folder = pathlib.Path(name)
            prepare(folder, weave)
            for commands, shown in blocks((ROOT / document).read_text()):
                first = commands.split("\n")[0]
                if first in LEFT_OUT:
                    print(f"{document}: left out, since it {LEFT_OUT[first]}: {first}")
                    continue
                tried += 1
                why = why_failed(commands, shown, folder)
                if why:
                    failed += 1
                    print(f"{document}: {first}\n    {why}")
    print(f"{tried} blocks, {failed} failed")
    return 1 if failed else 0


if __name__ == "__main__":
    sys.exit(main(*sys.argv[1:]))
