#!/usr/bin/env python3
"""Makes the pictures of docs/GALLERY.md by the commands that are beside them, and compares them with those in docs/images.

    checks/gallery.py [--write] [WEAVE]       the program is ./weave where none is named

The blocks that are fenced as `sh` are run by bash in a scratch folder, in their order. The picture images/NAME.png is what
they wrote as NAME.ppm, or moves where they wrote NAME.y4m. Each has to have these pixels; with --write it is written. It
wants Netpbm and ffmpeg. Ends with 1 where a block fails or a picture is another."""
import pathlib
import re
import subprocess
import sys
import tempfile

from try_documents import ROOT, blocks, prepare, why_failed

IMAGES = ROOT / "docs/images"
MOST_BYTES = 8_000_000  # of all pictures of the documents together

# Pictures that other scripts make, with the script.
LEFT_OUT = {"view_cell": "checks/view.py", "view_patches": "checks/view.py"}


def output(*words, given=b""):
    return subprocess.run(words, check=True, capture_output=True, input=given).stdout


def moving(name, folder, *words):
    """What ffmpeg makes of a clip, each pixel two pixels wide and high."""
    scaled = ["-vf", "scale=iw*2:ih*2:flags=neighbor", "-pix_fmt", "rgb24"]
    return output("ffmpeg", "-v", "error", "-y", "-i", folder / f"{name}.y4m", *scaled, *words)


def png_of(name, folder):
    if (folder / f"{name}.ppm").exists():
        return output("pnmtopng", "-quiet", "-compression", "9", folder / f"{name}.ppm")
    moving(name, folder, "-plays", "0", "-f", "apng", folder / f"{name}.png")
    return (folder / f"{name}.png").read_bytes()


def is_same(name, folder):
    stored, made = IMAGES / f"{name}.png", folder / f"{name}.ppm"
    if not stored.exists():
        return False
    if made.exists():
        return output("ppmtoppm", given=output("pngtopnm", stored)) == output("ppmtoppm", given=made.read_bytes())
    return output("ffmpeg", "-v", "error", "-i", stored, "-pix_fmt", "rgb24", "-f", "rawvideo", "-") == moving(
        name, folder, "-f", "rawvideo", "-")


def faults(text, folder, is_written):
    for commands, shown in blocks(text):
        why = why_failed(commands, shown, folder)
        if why:
            yield f"{commands}    {why}"
    for name in sorted(set(re.findall(r"images/(\w+)\.png", text)) - LEFT_OUT.keys()):
        if not any((folder / f"{name}.{ending}").exists() for ending in ("ppm", "y4m")):
            yield f"{name}: no command makes it"
        elif is_written:
            (IMAGES / f"{name}.png").write_bytes(png_of(name, folder))
        elif not is_same(name, folder):
            yield f"{name}: it has other pixels"


def main(*words):
    weave = next((word for word in words if word != "--write"), str(ROOT / "weave"))
    with tempfile.TemporaryDirectory() as name:
        folder = pathlib.Path(name)
        prepare(folder, weave)
        found = list(faults((ROOT / "docs/GALLERY.md").read_text(), folder, "--write" in words))
    total = sum(path.stat().st_size for path in IMAGES.iterdir())
    if total > MOST_BYTES:
        found.append(f"the pictures have {total} bytes, and at most {MOST_BYTES} may be")
    print(*found, f"{len(found)} faults; the pictures of all documents have {total} bytes", sep="\n")
    return 1 if found else 0


if __name__ == "__main__":
    sys.exit(main(*sys.argv[1:]))
