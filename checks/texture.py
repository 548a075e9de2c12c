#!/usr/bin/env python3
"""Tries tools/texture on pictures and videos of many forms.

    checks/texture.py [SECTION ..]      all sections where none is named

The sections are those of the table SECTIONS below: forms of pictures and videos, names, tiles,
transfers, merges, refusals and signals here; PNGs of all depths, floats, layers, turned normals,
transparency and cells in texture_layers.py; forged folders, signatures and inputs that are shown in
texture_provenance.py; tries, figures and time in texture_candidates.py. What tools may lose is tried
by tools_hostile.py. It wants Debian's packages netpbm, imagemagick, ffmpeg and openssh-client.
Build the program first: ./build.
"""
import os
import random
import re
import shutil
import signal
import struct
import subprocess
import sys
import tempfile
import time
from typing import Callable, Dict, List

import texture_candidates
import texture_layers
import texture_provenance
from beside import EXAMPLES
from texture_runs import LIFE, PEBBLES, TEXTURE, bytes_of, hold, made, put, run, sh, try_result
from weave_tools.keys import box_for, closing_keys, overlap_for, shared_cells

PICTURES: Dict[str, List[str]] = {
    "a.png": [],
    "b.jpg": ["-quality", "92"],
    "c.webp": [],
    "d.tif": [],
    "e.bmp": [],
    "f.ppm": ["-depth", "8"],
    "g.tga": ["-orient", "TopLeft"],
}
CLIPS: Dict[str, List[str]] = {
    "a.mp4": ["-c:v", "libx264", "-crf", "10"],
    "b.webm": ["-c:v", "libvpx", "-b:v", "1M"],
    "c.gif": [],
    "d.y4m": [],
}


def try_forms(folder: str, chance: random.Random) -> None:
    """Samples and results of each form of pictures and videos."""
    changes = 0
    for name in PICTURES:
        changes += try_result(["grow", name, "grown_" + name, "90x70"], folder, chance)
    changes += try_result(["quilt", "a.png", "quilted.png", "90x70"], folder, chance)
    changes += try_result(["grow", "a.png", "f.ppm", "mixed.png", "90x70"], folder, chance)
    changes += try_result(
        ["grow", "a.png", "turned.png", "90x70", "turns=all", "--tries", "2"], folder, chance
    )
    for name in CLIPS:
        changes += try_result(["grow", name, "more_" + name, "60x40x6"], folder, chance)
        run("grow", name, "longer_" + name, "20x20x40", cwd=folder, says="chosen: box=10 overlap=4")
        changes += try_result(["loop", name, "loop_" + name, "12"], folder, chance)
    changes += try_result(
        [
            "loop",
            "a.mp4",
            "short.gif",
            "8",
            "--frames",
            "2-11",
            "--crop",
            "60x40+3+5",
            "--scale",
            "30x20",
        ],
        folder,
        chance,
    )
    forms = f"{len(PICTURES)} forms of pictures and {len(CLIPS)} of videos"
    print(f"{forms}: verified, and {changes} changed bytes were seen")


def try_colours(folder: str) -> None:
    """Pictures whose numbers aren't red, green and blue, or whose files have a comment or name no
    form."""
    plain = os.path.join(folder, "a.png")
    found = os.path.join(folder, "colours.png.weave", "sample.ppm")
    kinds: Dict[str, List[str]] = {
        "cmyk.jpg": ["-colorspace", "CMYK", "-quality", "98"],
        "lab.tif": ["-colorspace", "Lab"],
        "plain.tga": [],
        "said.jpg": ["-set", "comment", "said", "-quality", "98"],
        "turned.jpg": ["-quality", "98"],
    }
    for name, words in kinds.items():
        made("convert", plain, "-orient", "TopLeft", *words, os.path.join(folder, name))
        run("grow", name, "colours.png", "40x40", "--replace", cwd=folder)
        said = sh("compare", "-metric", "MAE", plain, found, "null:").stderr.decode()
        differs = float(said.split("(")[1].rstrip(")"))
        if differs > 0.02:
            sys.exit(f"{name}: its colours differ by {differs}")
    print("pictures of other colours are taken as red, green and blue, and comments left out")


def try_names(folder: str) -> None:
    """Names with blanks, letters that aren't ASCII, and what other programs take for more than a
    name."""
    names = [
        "my wall",
        "größer",
        "it's [1] (2)",
        "a:b%d",
        "*?",
        "%03d",
        "-v",
        os.fsdecode(b"caf\xe9"),
        "line\u2028break",
    ]
    for name, ending in zip(
        names, [".jpg", ".webp", ".tif", ".jpg", ".webp", ".jpg", ".tif", ".jpg", ".webp"]
    ):
        shutil.copyfile(os.path.join(folder, "b.jpg"), os.path.join(folder, name + ".jpg"))
        run("grow", f"./{name}.jpg", f"./{name} out{ending}", "50x40", cwd=folder)
        run("verify", f"./{name} out{ending}.weave", cwd=folder)
    for name, ending in zip(
        names, [".mp4", ".webm", ".gif", ".mp4", ".gif", ".gif", ".mp4", ".webm", ".mp4"]
    ):
        shutil.copyfile(os.path.join(folder, "a.mp4"), os.path.join(folder, name + ".mp4"))
        run("loop", f"./{name}.mp4", f"./{name} again{ending}", "8", cwd=folder)
        run("verify", f"./{name} again{ending}.weave", cwd=folder)
    print(f"{len(names)} odd names of pictures and of videos are taken, and verified")


def try_tiles(folder: str, chance: random.Random) -> None:
    """Tiles, and how many patches they have on each axis: as many as the steps by which cells are
    shared."""
    redrawn = "verify.py: samples and map draw the output\n"
    changes = try_result(["tile", "a.png", "tile.png", "96x80"], folder, chance, redrawn)
    changes += try_result(
        ["tile", "a.mp4", "cyclic.mp4", "48x40x9", "wrap=xyf", "--tries", "2"],
        folder,
        chance,
        redrawn,
    )
    for _ in range(12):
        try_patches(folder, chance)
    closed = [
        closing_keys(chance.randint(20, 150), [chance.randint(300, 1024)] * 2, {})
        for _ in range(50)
    ]
    assert all(box <= 4 * overlap <= 4 * (box // 2) for box, overlap in closed), closed
    overlaps = [overlap_for(box) for box in (1, 10, 64, 95, 96, 128, 256)]
    assert overlaps == [0, 4, 25, 38, 24, 32, 64], overlaps
    boxes = [box_for(shortest) for shortest in (1, 96, 192, 256, 384, 512, 1024)]
    assert boxes == [1, 48, 96, 96, 96, 128, 256], boxes
    print(f"tiles: {changes} changed bytes were seen, and patches are as many as it counts on")


def try_patches(folder: str, chance: random.Random) -> None:
    """A tile has as many patches as the steps are by which cells are shared."""
    size, box = [chance.randint(20, 150), chance.randint(20, 150)], chance.randint(8, 40)
    overlap = chance.randint(box // 4, box // 2)
    said = run(
        "tile",
        "a.png",
        "n.png",
        "x".join(map(str, size)),
        f"box={box}",
        f"overlap={overlap}",
        "--replace",
        cwd=folder,
    )
    steps = [
        (shared_cells(axis, box, overlap) + axis - overlap) // (min(box, axis - 1) - overlap)
        for axis in size
    ]
    placements = re.findall(r"placements (\d+)", said)
    hold(f"patches of {size}, box {box}", placements, [str(steps[0] * steps[1])])


def try_transfers(folder: str, chance: random.Random) -> None:
    """Pictures painted with blocks of another, in their own size and in another one."""
    changes = try_result(
        ["transfer", "a.png", "shot1.ppm", "painted.png", "alpha=30"], folder, chance
    )
    changes += try_result(
        ["transfer", "a.png", "shot2.ppm", "small.png", "80x56", "--tries", "2"], folder, chance
    )
    made("convert", "-size", "20x20", "xc:blue", os.path.join(folder, "blue.png"))
    words = ["transfer", "a.png", "blue.png", "blue_out.png"]
    run(*words, "--no-match", cwd=folder, says="the sample has too few lights")
    run(*words, "--replace", cwd=folder, says="the target's lights and colours were brought")
    print(f"transfers: {changes} changed bytes were seen")


def make_strokes(folder: str) -> None:
    """The marks of the two shots as strokes in colours, on black and on nothing."""
    marks, strokes = os.path.join(folder, "marks.ppm"), os.path.join(folder, "strokes.png")
    made(
        "convert",
        marks,
        "-fill",
        "#ff0000",
        "-opaque",
        "#010000",
        "-fill",
        "#00ff00",
        "-opaque",
        "#020000",
        strokes,
    )
    made("convert", strokes, "-transparent", "black", os.path.join(folder, "clear_strokes.png"))


def try_merges(folder: str, chance: random.Random) -> None:
    """Merges by marks in numbers and in colours, on black and on nothing; other colours are
    refused."""
    changes, outs = 0, []
    for name in ("marks.ppm", "strokes.png", "clear_strokes.png"):
        merged = "by_" + name.replace(".ppm", ".png")
        words = ["merge", "shot1.ppm", "shot2.ppm", name, merged]
        changes += try_result(words, folder, chance, "each marked pixel is of its picture")
        outs.append(bytes_of(os.path.join(folder, merged)))
    assert len(set(outs)) == 1, "marks and strokes give different merges"
    print(f"merges: {changes} changed bytes were seen, and strokes are taken as marks")


# Runs a program in Python, and says the processor time that it takes without what it runs.
ITSELF = """import os, runpy, sys
path = sys.argv.pop(1)
sys.path[0] = os.path.dirname(path)
try:
    runpy.run_path(path, run_name="__main__")
except SystemExit:
    print(sum(os.times()[:2]))
"""


def say_times(folder: str) -> None:
    """The processor time that texture takes itself, without weave and the conversion."""
    large = os.path.join(folder, "longer.png")
    run("grow", os.path.join(folder, "a.png"), large, "512x512", "place=random", "rounds=0")
    words = [
        "grow",
        large,
        os.path.join(folder, "timed.png"),
        "1024x1024",
        "box=32",
        "overlap=8",
        "rounds=0",
    ]
    said = sh(sys.executable, "-c", ITSELF, TEXTURE, *words)
    taken = float(said.stdout.split()[-1])
    print(f"texture takes {taken:.2f} s of processor time itself for 1024x1024")
    if taken > 2:
        sys.exit("that is above two seconds")


# Words that are refused, with the status and what is said.
REFUSED = [
    (["grow", "deep.png", "no.jpg", "40x40"], 3, "no.jpg: a result .jpg can't keep 16 bits"),
    (["grow", "deep.tif", "no.webp", "40x40"], 3, "can't keep 16 bits; take .png or .tif"),
    (["grow", "clear.png", "no.jpg", "40x40"], 3, "can't keep transparency"),
    (["grow", "clear8.png", "no.ppm", "40x40"], 3, "can't keep transparency; take .png"),
    (["grow", "light.pfm", "no.png", "40x40"], 3, "can't keep floats"),
    (["grow", "float.tif", "no.png", "40x40"], 3, "has floats or more than 16 bits"),
    (["grow", "list.mp4", "no.mp4", "40x40x4"], 3, "its first bytes are of no picture or video"),
    (["grow", "drawing.jpg", "no.png", "40x40"], 3, "its first bytes are of no picture or video"),
    (["grow", "", "no.png", "40x40"], 2, "the name of a file is empty"),
    (["grow", "a.png", "", "40x40"], 2, "the name of a file is empty"),
    (["grow", "x=y.png", "no.png", "40x40"], 2, "a file of that name is ./x=y.png"),
    (["grow", "a.png", "no.png", "40x40", "--cell", "0"], 2, "another value is wanted"),
    (
        ["grow", "a.png", "no.png", "40x40", "--cell", "64", "--crop", "9x9+0+0"],
        2,
        "smaller than a",
    ),
    (["tile", "a.png", "no.png", "41x40", "--cell", "2"], 2, "take 40x40"),
    (["grow", "a.png", "no.png", "40x40", "--layer", "b60.png"], 3, "or k times that"),
    (["grow", "a.png", "no.png", "40x40", "--layer", "a.png="], 2, "result is empty"),
    (["grow", "a.png", "no.png", "40x40", "--layer", "a.png=x/y.png"], 6, "no such folder"),
    (["grow", "a.png", "no.png", "40x40", "--layer", "a.png=a.png"], 2, "is the result too"),
    (["grow", "a.png", "no.png", "40x40", "--layer", "e.bmp=no.png"], 2, "two results"),
    (["grow", "a.png", "no.png", "40x40", "--normals", "grey.png"], 3, "no picture of normals"),
    (["grow", "a.png", "no.png", "40x40", "--avoid", "b60.png"], 3, "b60.png: is of 60x60, and"),
    (["grow", "a.png", "no.png", "40x40", "--avoid", "white.png"], 3, "leaves no part"),
    (["grow", "a.png", "no.png", "40x40", "--sheet", "s.png"], 2, "--sheet shows"),
    (["grow", "a.png", "no.png", "40x40", "--over", "red"], 2, "--over takes a colour"),
    (["grow", "a.png", "no.png", "40x40", "--sign", "nokey"], 3, "ssh-keygen can't sign"),
    (["grow", "deep.mp4", "no.mp4", "40x40x4"], 3, "8 bits"),
    (["grow", "cut.png", "no.png", "40x40"], 3, "damaged"),
    (["grow", "bit.png", "no.png", "40x40"], 3, "bit.png: is a damaged PNG"),
    (["grow", "cut.webp", "no.png", "40x40"], 3, "cut.webp: convert can't convert it"),
    (["grow", "cut.mp4", "no.mp4", "40x40x4"], 3, "cut.mp4: ffprobe can't convert it"),
    (["grow", "a.png", "no.xyz", "40x40"], 2, "an ending is wanted"),
    (["grow", "a.png", "no", "40x40"], 2, "an ending is wanted"),
    (["grow", "a.png", "n\no.png", "40x40"], 2, "without a line break"),
    (["grow", "a.png", "no.png", "40000x40000"], 4, "even with cells of 8x8 pixels"),
    (["grow", "a.png", "no.png", "2000x2000", "--cell", "1"], 4, "weave: limit output"),
    (["grow", "a.png", "no.mp4", "40x40"], 2, "all pictures or all videos"),
    (["grow", "there isn't one.png", "no.png", "40x40"], 5, "no such file"),
    (["grow", "a.png", "no.png", "40by40"], 2, "a size is wanted"),
    (["grow", "a.png", "no.png", "40x40x2"], 2, "a size is wanted"),
    (["grow", "a.png", "no.png", "40x40", "width=3"], 2, "grow takes place, box"),
    (["grow", "a.png", "no.png", "40x40", "tol=x"], 2, "texture: tol=x: bad value"),
    (["grow", "a.png", "no.png", "40x40", "seed=1", "seed=2"], 2, "seed is given twice"),
    (["grow", "a.png", "no.png", "40x40", "--tries", "none"], 2, "another value is wanted"),
    (["grow", "a.png", "no.png", "40x40", "--wide"], 2, "--wide"),
    (["grow", "a.png", "no.png", "40x40", "--crop", "200x9+0+0"], 2, "outside of its 128x128"),
    (["grow", "a.png", "no.png", "40x40", "--frames", "0-3"], 2, "--frames takes"),
    (["grow", "a.png", "a.png", "40x40"], 2, "is the result too"),
    (["grow", "a.png", "none/no.png", "40x40"], 6, "there is no such folder"),
    (["grow", "a.mp4", "no.mp4", "41x40x3"], 2, "multiple of 2"),
    (["loop", "a.mp4", "no.png", "12"], 2, "all pictures or all videos"),
    (["loop", "a.png", "no.png", "12"], 2, "loop makes videos"),
    (["loop", "a.mp4", "no.mp4", "12", "--tries", "2"], 2, "takes no seed"),
    (
        ["loop", "a.mp4", "no.mp4", "12", "--frames", "0-1", "gap=3"],
        8,
        "weave: no loop of length 12",
    ),
    (["quilt", "a.png", "a.png", "no.png", "40x40"], 2, "quilt wants a sample, RESULT and SIZE"),
    (["tile", "a.png", "no.png", "2x40"], 2, "wrapped axis x under 3"),
    (["transfer", "a.png", "a.mp4", "no.png"], 2, "all pictures or all videos"),
    (["transfer", "a.png", "no.png"], 2, "transfer wants a sample, TARGET and RESULT"),
    (["transfer", "a.png", "shot1.ppm", "no.png", "40000x40000"], 4, "more than"),
    (["merge", "shot1.ppm", "shot2.ppm", "smooth.png", "no.png"], 3, "marks no picture"),
    (["merge", "shot1.ppm", "shot2.ppm", "marks.ppm", "no.png", "seed=1"], 2, "takes no keys"),
    (["merge", "shot1.ppm", "a.png", "marks.ppm", "no.png"], 3, "weave: sample2: unlike"),
    (["paint", "a.png", "no.png", "40x40"], 2, "is none of grow"),
    (["verify", "."], 1, "isn't whole"),
]


def make_unfit(folder: str) -> None:
    """Pictures and a video that are refused."""

    def at(name: str) -> str:
        return os.path.join(folder, name)

    made("convert", PEBBLES, "-depth", "16", "-evaluate", "Add", "77", "PNG48:" + at("deep.png"))
    made(
        "convert",
        PEBBLES,
        "(",
        "-size",
        "128x128",
        "gradient:",
        ")",
        "-alpha",
        "off",
        "-compose",
        "CopyOpacity",
        "-composite",
        "PNG32:" + at("clear.png"),
    )
    made("convert", at("clear.png"), "-colors", "9", "PNG8:" + at("clear8.png"))
    made("convert", at("clear.png"), at("clear.webp"))
    made("convert", at("deep.png"), at("deep.tif"))
    made("convert", at("strokes.png"), "-blur", "0x1", at("smooth.png"))
    made(
        "ffmpeg",
        "-v",
        "error",
        "-i",
        LIFE,
        "-pix_fmt",
        "yuv420p10le",
        "-c:v",
        "libx264",
        at("deep.mp4"),
    )
    made("convert", PEBBLES, "-resize", "60x60!", at("b60.png"))
    made("convert", PEBBLES, "-fill", "white", "-colorize", "100", at("white.png"))
    made("convert", PEBBLES, "-colorspace", "Gray", at("grey.png"))
    put(at("light.pfm"), b"PF\n64 64\n-1.0\n" + bytes(12 * 64 * 64))
    put(at("float.tif"), tiff_of_floats())
    put(at("list.mp4"), b"#EXTM3U\n#EXTINF:1,\na.mp4\n")
    svg = (
        b'<svg xmlns="http://www.w3.org/2000/svg"><image href="a.png" width="9" height="9"/></svg>'
    )
    put(at("drawing.jpg"), svg)
    shutil.copyfile(at("a.png"), at("x=y.png"))
    made("convert", PEBBLES, "-resize", "300%", at("large.png"))
    large = bytearray(bytes_of(at("large.png")))
    large[len(large) // 2] ^= 1
    cut = {
        "cut.png": bytes_of(at("a.png"))[:900],
        "cut.webp": bytes_of(at("c.webp"))[:900],
        "bit.png": large,
        "cut.mp4": bytes_of(at("a.mp4"))[:900],
    }
    for name, data in cut.items():
        put(at(name), bytes(data))


def tiff_of_floats() -> bytes:
    """The head of a TIFF whose numbers are floats of 32 bits."""
    entries = [(256, 3, 1, 4), (257, 3, 1, 4), (258, 3, 1, 32), (339, 3, 1, 3)]
    tags = b"".join(struct.pack("<HHIHH", *entry, 0) for entry in entries)
    return b"II*\0\x08\0\0\0" + struct.pack("<H", len(entries)) + tags + bytes(4 + 64)


def try_refusals(folder: str) -> None:
    """What is refused is said in a line, and nothing is left."""
    make_unfit(folder)
    before = sorted(os.listdir(folder))
    for words, status, says in REFUSED:
        run(*words, cwd=folder, status=status, says=says)
    assert sorted(os.listdir(folder)) == before, "a refusal left something"
    print(f"{len(REFUSED)} refusals say why in a line and leave nothing")


def try_options(folder: str) -> None:
    """Parts of a sample, an odd size, a result that is there, and seeds."""
    odd = "scale=50:34,crop=49:33:exact=1,format=yuv444p"
    made(
        "ffmpeg",
        "-v",
        "error",
        "-i",
        LIFE,
        "-vf",
        odd,
        "-c:v",
        "libx264",
        os.path.join(folder, "odd.mp4"),
    )
    run("grow", "odd.mp4", "odd_grown.mp4", "30x31x3", cwd=folder)
    run(
        "grow",
        "a.png",
        "part.png",
        "60x60",
        "--crop",
        "40x30+8+9",
        "--scale",
        "50x20",
        cwd=folder,
        says="box=10",
    )
    run("grow", "a.png", "part.png", "60x60", status=2, says="already there", cwd=folder)
    run(
        "grow",
        "a.png",
        "part.png",
        "60x60",
        "--replace",
        "--tries",
        "3",
        says="kept seed=",
        cwd=folder,
    )
    run("verify", "part.png.weave", says="has the pixels of the output", cwd=folder)
    os.mkdir(os.path.join(folder, "mine.png.weave"))
    run(
        "grow",
        "a.png",
        "mine.png",
        "60x60",
        "--replace",
        status=2,
        says="isn't a folder of texture's",
        cwd=folder,
    )


def try_alone(folder: str) -> None:
    """With one of the three packages alone."""
    programs: Dict[str, List[str]] = {
        "imagemagick": ["convert"],
        "ffmpeg": ["ffmpeg", "ffprobe"],
        "none": [],
        "netpbm": ["jpegtopnm", "pnmtopng", "pnmtojpeg", "pnmscale"],
    }
    real = {"convert": "/usr/bin/convert"}
    for package, names in programs.items():
        bin_folder = os.path.join(folder, "bin_" + package)
        os.mkdir(bin_folder)
        for name in names + ["python3", "env"]:
            os.symlink(real.get(name) or shutil.which(name) or "", os.path.join(bin_folder, name))
        env = dict(os.environ, PATH=bin_folder)
        run(
            "grow",
            os.path.join(folder, "a.png"),
            os.path.join(folder, package + "_png.png"),
            "50x40",
            env=env,
        )
        words = [
            "grow",
            os.path.join(folder, "b.jpg"),
            os.path.join(folder, package + "_jpg.jpg"),
            "50x40",
            "--scale",
            "60x50",
        ]
        if package == "none":
            run(
                *words,
                env=env,
                status=3,
                says="needs one of these packages: imagemagick, ffmpeg, netpbm",
            )
            run(
                "grow",
                os.path.join(folder, "a.png"),
                os.path.join(folder, "none.webp"),
                "4000x4000",
                env=env,
                status=3,
                says="none.webp: needs one of these packages: imagemagick, ffmpeg",
            )
            run(
                "loop",
                os.path.join(folder, "d.y4m"),
                os.path.join(folder, "none.webm"),
                "12",
                env=env,
                status=3,
                says="none.webm: needs one of these packages: ffmpeg",
            )
        else:
            run(*words, env=env)
            run("verify", os.path.join(folder, package + "_jpg.jpg.weave"), env=env)
    print("each of the three packages serves alone; where none is there, they are named")


def try_stopped(folder: str) -> None:
    """A signal at any time leaves a whole result or none."""
    before = sorted(os.listdir(folder))
    ended: List[int] = []
    for number in range(12):
        words = ["grow", "a.png", "stopped.png", "250x250", "--tries", "2"]
        process = subprocess.Popen(
            [TEXTURE] + words, cwd=folder, stdout=subprocess.DEVNULL, stderr=subprocess.DEVNULL
        )
        time.sleep(0.1 + 0.2 * number)
        process.send_signal(signal.SIGTERM if number % 2 else signal.SIGINT)
        ended.append(process.wait())
        there = [name for name in sorted(os.listdir(folder)) if name not in before]
        if there == ["stopped.png", "stopped.png.weave"]:
            run("verify", os.path.join(folder, "stopped.png.weave"))
            os.remove(os.path.join(folder, "stopped.png"))
            shutil.rmtree(os.path.join(folder, "stopped.png.weave"))
        elif there:
            sys.exit(f"stopped: {there} is left")
    print(f"stopped 12 times, it ended with {sorted(set(ended))} and left nothing half")


# The sections, each over a folder that the ones before it have filled. `forms`, `transfers` and
# `merges` make files that others take.
SECTIONS: Dict[str, Callable[[str, random.Random], None]] = {
    "forms": try_forms,
    "colours": lambda folder, chance: try_colours(folder),
    "names": lambda folder, chance: try_names(folder),
    "tiles": try_tiles,
    "transfers": try_transfers,
    "merges": try_merges,
    "refusals": lambda folder, chance: try_refusals(folder),
    "options": lambda folder, chance: try_options(folder),
    "alone": lambda folder, chance: try_alone(folder),
    "stopped": lambda folder, chance: try_stopped(folder),
    "times": lambda folder, chance: say_times(folder),
    **texture_layers.SECTIONS,
    **texture_provenance.SECTIONS,
    **texture_candidates.SECTIONS,
}


def prepare(folder: str) -> None:
    """The files that sections take from those before them, where these weren't asked for."""
    for name, words in PICTURES.items():
        made("convert", PEBBLES, *words, os.path.join(folder, name))
    for name, words in CLIPS.items():
        made("ffmpeg", "-v", "error", "-y", "-i", LIFE, *words, os.path.join(folder, name))
    made(os.path.join(EXAMPLES, "shots.py"), folder)
    make_strokes(folder)


def main() -> None:
    """Tries the sections that the words name, or all."""
    names = sys.argv[1:] or list(SECTIONS)
    for name in names:
        if name not in SECTIONS:
            sys.exit(f"{name}: is none of {', '.join(SECTIONS)}")
    with tempfile.TemporaryDirectory() as folder:
        prepare(folder)
        for name in names:
            begun = time.monotonic()
            chance = random.Random(name)
            SECTIONS[name](folder, chance)
            print(f"  {name} took {time.monotonic() - begun:.0f} s", flush=True)


if __name__ == "__main__":
    main()
