"""Tries texture's pictures of all depths: layers, turned normals, transparency, and cells."""
import json
import os
import random
import shutil
import struct
import sys
import time
import zlib
from itertools import product
from typing import Callable, Dict, List, Tuple

from texture_runs import PEBBLES, bytes_of, hold, made, put, run
from weave_tools.faults import Stop
from weave_tools.floats import exr, hdr, pfm, read_exr, read_hdr, read_pfm
from weave_tools.folder import Files, words_in
from weave_tools.forms import read_raster
from weave_tools.layers import free_rectangles, turned_vector
from weave_tools.map_files import is_map_of_turns, read_map
from weave_tools.png import Raster, interleaved, png, read_png

GRADIENT = ["(", "-size", "61x37", "gradient:", ")", "-alpha", "off"]
GRADIENT += ["-compose", "CopyOpacity", "-composite"]
PART = ["-crop", "61x37+5+7", "+repage"]
MOST_SECONDS = 1.0


def pam_of(name: str, depth: int) -> bytes:
    """The numbers that ImageMagick reads of a picture."""
    deep = ["-depth", "16"] if depth == 16 else []
    return made("convert", name, *deep, "pam:-").split(b"ENDHDR\n", 1)[1]


def try_depths(folder: str, chance: random.Random) -> None:
    """PNGs of all colour types and depths, in both orders of rows and with all filters, have the
    numbers that others read, and are written so that all is read again."""
    name, count = os.path.join(folder, "depth.png"), 0
    more = ["-evaluate", "Add", "77"]
    kinds: Dict[str, List[str]] = {"PNG24": [], "PNG48": ["-depth", "16", *more]}
    kinds.update({"PNG32": GRADIENT, "PNG64": ["-depth", "16", *more, *GRADIENT]})
    for lines, kind in product(("None", "PNG"), range(5)):
        how = ["-interlace", lines, "-define", f"png:compression-filter={kind}"]
        for form, words in kinds.items():
            made("convert", PEBBLES, *PART, *words, *how, f"{form}:{name}")
            raster = read_png(bytes_of(name), name)
            hold(f"{form} {how}", raster.data == pam_of(name, raster.depth), True)
            count += written_again(raster)
        for depth in (1, 2, 4, 8, 16):
            grey = ["-colorspace", "Gray", "-depth", str(depth)]
            grey += ["-define", f"png:bit-depth={depth}", "-define", "png:color-type=0"]
            made("convert", PEBBLES, *PART, *grey, *how, name)
            raster = read_png(bytes_of(name), name)
            hold(f"the depth of grey, {how}", raster.depth, depth)
            numbers = made("pngtopnm", name).split(b"\n", 2 if depth == 1 else 3)[-1]
            hold(f"grey of {depth}, {how}", depth == 1 or raster.data == numbers, True)
            count += written_again(raster)
        for colours in (2, 4, 16, 37, 256):
            palette = ["-colors", str(colours), "-type", "Palette"]
            made("convert", PEBBLES, *PART, *palette, *how, "PNG8:" + name)
            raster = read_png(bytes_of(name), name)
            rgb = made("convert", name, "-depth", "8", "ppm:-")[-3 * 61 * 37 :]
            hold(f"{colours} colours, {how}", interleaved(raster.rgb()) == rgb, True)
            count += written_again(raster)
    print(f"{count} PNGs of 1 to 16 bits have the numbers that others read, there and back")


def written_again(raster: Raster) -> int:
    """A picture that is written has all bits when it is read; 1."""
    again = read_png(png(raster), "again")
    hold("a PNG, written again", (again.same_pixels(raster), again.form()), (True, raster.form()))
    return 1


def try_damaged(folder: str, chance: random.Random) -> None:
    """1000 damaged PNGs each end in a line within a second, and so does one of 300,000 texts."""
    name, slowest = os.path.join(folder, "bad.png"), 0.0
    wholes = []
    kinds: List[List[str]] = [[], ["-colors", "9"], ["-depth", "16"], GRADIENT]
    for words in [*kinds, ["-interlace", "PNG"]]:
        made("convert", PEBBLES, *PART, *words, name)
        wholes.append(bytes_of(name))
    for number in range(1000):
        data = damaged(wholes[number % len(wholes)], chance)
        begun = time.process_time()
        try:
            read_png(data, "bad.png")
            sys.exit(f"damaged PNG {number} is read")
        except Stop as stop:
            hold("the line", "\n" in str(stop), False)
        slowest = max(slowest, time.process_time() - begun)
    hold("whether each takes less than a second", slowest < MOST_SECONDS, True)
    text = struct.pack(">I4s", 9, b"tEXt") + b"Comment\0x"
    text += struct.pack(">I", 0x100000000 + zlib.crc32(text[4:]) & 0xFFFFFFFF)
    whole = wholes[0][:33] + 300_000 * text + wholes[0][33:]
    begun = time.process_time()
    raster = read_png(whole, "texts")
    taken = time.process_time() - begun
    hold("300,000 texts", (raster.width, taken < 2), (61, True))
    huge = wholes[0][:16] + struct.pack(">II", 100_000, 100_000) + wholes[0][24:29]
    huge += struct.pack(">I", zlib.crc32(huge[12:29])) + wholes[0][33:]
    put(name, huge)
    run("grow", name, os.path.join(folder, "no.png"), "40x40", status=4, says="100000x100000")
    print(
        f"1000 damaged PNGs are refused, the slowest in {slowest:.3f} s; 300,000 texts in {taken:.1f}"
    )


def damaged(whole: bytes, chance: random.Random) -> bytes:
    """A PNG that is cut off, has another bit, or has a chunk twice, out of place or left out."""
    how = chance.randrange(4)
    if how == 0:
        return whole[: chance.randrange(8, len(whole) - 12)]
    if how == 1:
        at = chance.randrange(8, len(whole) - 12)
        return whole[:at] + bytes([whole[at] ^ 1 << chance.randrange(8)]) + whole[at + 1 :]
    if how == 2:
        return whole[:8] + whole[33:]
    return whole[:33] + whole[8:]


def try_floats(folder: str, chance: random.Random) -> None:
    """Pictures of floats there and back, bit by bit: OpenEXR by ffmpeg, PFM and Radiance."""
    odd = [0.0, -0.0, 1e-42, float("inf"), float("-inf"), float("nan"), -5.5, 3.4e38]
    for channels in (1, 3, 4):
        values = [chance.choice([*odd, chance.uniform(-9, 9)]) for _ in range(40 * 30 * channels)]
        raster = Raster(40, 30, channels, 32, struct.pack(f"<{len(values)}f", *values), "float")
        hold("a PFM", read_pfm(pfm(raster), "x").same_pixels(raster), True)
        name = os.path.join(folder, "floats.exr")
        put(name, exr(raster))
        hold(f"an OpenEXR of {channels} channels", read_exr(name).same_pixels(raster), True)
    pixels = bytes(chance.randrange(2, 256) for _ in range(4 * 40 * 30))
    raster = Raster(40, 30, 4, 8, pixels, "rgbe")
    hold("a Radiance picture", read_hdr(hdr(raster), "x").same_pixels(raster), True)
    light = os.path.join(folder, "light.exr")
    values = [chance.random() ** 4 * 90 for _ in range(3 * 64 * 64)]
    put(light, exr(Raster(64, 64, 3, 32, struct.pack(f"<{len(values)}f", *values), "float")))
    run("grow", "light.exr", "lit.exr", "96x80", "--layer", "light.exr=lit.pfm", cwd=folder)
    said = run("verify", "lit.exr.weave", "--sample", "light.exr", cwd=folder)
    hold("what verify says", "lit.exr: has what the map draws, colour of floats" in said, True)
    found = read_raster(os.path.join(folder, "lit.exr"))
    compare_cells(os.path.join(folder, "lit.exr"), found, read_raster(light), 1)
    print("floats are the same bits there and back, and by the map")


def map_and_words(result: str) -> Tuple[List[Tuple[int, ...]], int]:
    """The entries of the map of a result, and the width of the output in cells."""
    kept = result + ".weave"
    with open(os.path.join(kept, "words"), encoding="utf-8") as file:
        files = Files(kept, words_in(file.read()))
    name = files.at("map")
    read = read_map(name, is_map_of_turns(name))
    return list(zip(*read.columns)), read.output[0]


def cell_of(raster: Raster, x: int, y: int, each: int) -> List[bytes]:
    """The rows of a cell of a picture."""
    pixel = raster.pixel
    places = [pixel * (each * x + raster.width * (each * y + i)) for i in range(each)]
    return [raster.data[at : at + pixel * each] for at in places]


def compare_cells(result: str, drawn: Raster, sample: Raster, each: int) -> int:
    """Each cell of a result is the one of the sample that the map names; how many there are. Cells
    that are cut at the result's edge are compared as far as they go."""
    entries, width = map_and_words(result)
    for i, entry in enumerate(entries):
        x, y = i % width, i // width
        rows = min(each, drawn.height - each * y)
        cut = drawn.pixel * min(each, drawn.width - each * x)
        wanted = [row[:cut] for row in cell_of(sample, entry[-3], entry[-2], each)[:rows]]
        found = [row[:cut] for row in cell_of(drawn, x, y, each)[:rows]]
        if found != wanted:
            sys.exit(f"{result}: cell {x},{y} isn't the sample's at {entry}")
    return len(entries)


def make_layers(folder: str) -> None:
    """Layers of 1 to 16 bits over the pebbles, and some of twice their size."""
    for depth in (1, 2, 4, 8, 16):
        words = ["-colorspace", "Gray", "-depth", str(depth), "-define", "png:color-type=0"]
        words += ["-define", f"png:bit-depth={depth}"]
        made("convert", PEBBLES, *words, os.path.join(folder, f"grey{depth}.png"))
    made("convert", PEBBLES, "-resize", "200%", os.path.join(folder, "twice.png"))
    made("convert", PEBBLES, "-colors", "37", "PNG8:" + os.path.join(folder, "palette.png"))
    words = ["-depth", "16", "-evaluate", "Add", "77"]
    made("convert", PEBBLES, *words, "PNG48:" + os.path.join(folder, "deep.png"))
    alpha = ["(", "-size", "128x128", "gradient:", ")", *GRADIENT[-5:]]
    made("convert", PEBBLES, *alpha, "PNG32:" + os.path.join(folder, "clear.png"))
    made("convert", os.path.join(folder, "deep.png"), os.path.join(folder, "deep.tif"))
    normals = ["-define", "convolve:scale=!", "-colorspace", "Gray", "-morphology", "Convolve"]
    made("convert", PEBBLES, *normals, "Sobel", "-depth", "16", os.path.join(folder, "slope.png"))


def try_layers(folder: str, chance: random.Random) -> None:
    """Layers of 1 to 16 bits and of twice the size are cell by cell what the map names."""
    make_layers(folder)
    names = [f"grey{depth}.png" for depth in (1, 2, 4, 8, 16)]
    names += ["palette.png", "deep.png", "clear.png", "twice.png"]
    words = [word for name in names for word in ("--layer", f"{name}=of_{name}")]
    run("grow", "a.png", "base.png", "150x111", *words, cwd=folder)
    shown = [word for name in ["a.png", *names] for word in ("--layer", name)]
    run("verify", "base.png.weave", *shown, cwd=folder, says="twice.png: was shown")
    base, cells = os.path.join(folder, "base.png"), 0
    for name in names:
        drawn = read_raster(os.path.join(folder, "of_" + name))
        sample = read_raster(os.path.join(folder, name))
        form = (drawn.depth, drawn.colour, drawn.channels, drawn.chunks)
        hold(name, form, (sample.depth, sample.colour, sample.channels, sample.chunks))
        cells += compare_cells(base, drawn, sample, 2 if name == "twice.png" else 1)
    run(
        "grow",
        "a.png",
        "f.ppm",
        "pair.png",
        "90x70",
        "--layer",
        "deep.png,grey16.png=pair_deep.png",
        cwd=folder,
    )
    deep = read_raster(os.path.join(folder, "pair_deep.png"))
    hold("a layer of two pictures", (deep.depth, deep.channels, deep.width), (16, 3, 90))
    print(f"layers of 1 to 16 bits: {cells} cells are those that the map names")


def try_deep(folder: str, chance: random.Random) -> None:
    """Samples of 16 bits and with alpha: the result has all of it, and verify holds it."""
    make_layers(folder)
    for name in ("deep.png", "clear.png", "deep.tif"):
        result = "all_" + name
        run("grow", name, result, "150x111", cwd=folder)
        run(
            "verify", result + ".weave", "--sample", name, cwd=folder, says="has what the map draws"
        )
        drawn, sample = (read_raster(os.path.join(folder, one)) for one in (result, name))
        hold(name, (drawn.depth, drawn.channels), (sample.depth, sample.channels))
        compare_cells(os.path.join(folder, result), drawn, sample, 1)
    made("convert", PEBBLES, "-alpha", "on", "PNG32:" + os.path.join(folder, "opaque.png"))
    run("grow", "opaque.png", "solid.png", "60x50", cwd=folder)
    hold("opaque alpha", read_raster(os.path.join(folder, "solid.png")).channels, 3)
    run(
        "grow", "clear.png", "over.png", "60x50", "--over", "ff00ff", cwd=folder, says="over ff00ff"
    )
    for name in ("tile", "quilt"):
        run(name, "clear.png", f"{name}_clear.png", "90x70", cwd=folder)
        run("verify", f"{name}_clear.png.weave", cwd=folder, says="colour and alpha of 8 bits")
    print("16 bits and transparency come along by the map")


# Of each turn: the worked row, where x, y become these, with y up and with y down.
TURNED = {
    0: ("+x +y", "+x +y"),
    1: ("+y -x", "-y +x"),
    2: ("-x -y", "-x -y"),
    3: ("-y +x", "+y -x"),
    4: ("-x +y", "-x +y"),
    5: ("+y +x", "-y -x"),
    6: ("+x -y", "+x -y"),
    7: ("-y -x", "+y +x"),
}


def try_normals(folder: str, chance: random.Random) -> None:
    """A worked row for each of the eight turns, at 8 and 16 bits, and a run with turns whose normals
    are those of the sample, turned."""
    for turn, rows in TURNED.items():
        for green, row in zip(("up", "down"), rows):
            names = {"x": 0, "y": 1}
            wanted = tuple((names[text[1]], text[0] == "-") for text in row.split())
            hold(f"turn {turn}, y {green}", turned_vector(turn, green), wanted)
    make_layers(folder)
    made("convert", PEBBLES, "-depth", "8", os.path.join(folder, "n8.png"))
    for name, green in (("n8.png", "up"), ("deep.png", "down")):
        result = f"turned_{name}"
        words = ["grow", "a.png", result, "120x90", "turns=all", "box=24", "--normals-y", green]
        run(*words, "--normals", f"{name}=v_{name}", cwd=folder)
        run("verify", result + ".weave", "--layer", name, cwd=folder, says="v_" + name)
        seen = compare_normals(os.path.join(folder, result), folder, name, green)
        hold("whether cells of several turns were compared", len(seen) > 3, True)
    print("eight worked turns of a normal, and cells of turned normals at 8 and 16 bits")


def compare_normals(result: str, folder: str, name: str, green: str) -> set:
    """Each cell has the sample's vector, turned by the worked row; the turns that came."""
    entries, width = map_and_words(result)
    sample, drawn = (read_raster(os.path.join(folder, one)) for one in (name, "v_" + name))
    unit, most, seen = sample.unit, sample.maxval, set()
    for i, (_, turn, x, y, _) in enumerate(entries):
        cell = cell_of(sample, x, y, 1)[0]
        vector = [int.from_bytes(cell[unit * c : unit * c + unit], "big") for c in range(3)]
        row = TURNED[turn][green == "down"].split()
        values = {"+x": vector[0], "-x": most - vector[0], "+y": vector[1], "-y": most - vector[1]}
        wanted = b"".join(
            n.to_bytes(unit, "big") for n in (values[row[0]], values[row[1]], vector[2])
        )
        if cell_of(drawn, i % width, i // width, 1)[0] != wanted:
            sys.exit(f"{name}: the vector of cell {i}, turned by {turn}, is another one")
        seen.add(turn)
    return seen


def try_cells(folder: str, chance: random.Random) -> None:
    """Cells of 2 to 8 pixels, compared cell by cell with a sample at full size; a result past the
    bounds takes them by itself. The search sees their means."""
    big = os.path.join(folder, "big.png")
    made("convert", PEBBLES, "-resize", "301x263!", big)
    sample, cells = read_raster(big), 0
    for each in (2, 3, 4, 8):
        result = os.path.join(folder, f"cells{each}.png")
        run("grow", big, result, "333x222", "--cell", str(each))
        run("verify", result + ".weave", "--sample", big, says="has what the map draws")
        drawn = read_raster(result)
        hold("the size", (drawn.width, drawn.height), (333, 222))
        cells += compare_cells(result, drawn, sample, each)
        means = bytes_of(os.path.join(result + ".weave", "sample.ppm")).split(b"\n", 3)[3]
        hold(f"the means of cells of {each}", means, plain_means(sample, each))
    run("quilt", big, os.path.join(folder, "q.png"), "1500x900", says="cells of 2x2 pixels")
    run("tile", big, os.path.join(folder, "t.png"), "240x180", "--cell", "3")
    run("verify", os.path.join(folder, "t.png.weave"), "--sample", big)
    words = [os.path.join(folder, "a.png"), big, os.path.join(folder, "p.png"), "--cell", "2"]
    run("transfer", *words, "block=8")
    run("verify", os.path.join(folder, "p.png.weave"), "--target", big)
    for number in (1, 2):
        shot = os.path.join(folder, f"shot{number}.ppm")
        made("convert", shot, "-scale", "200%", os.path.join(folder, f"large{number}.png"))
    made(
        "convert",
        os.path.join(folder, "marks.ppm"),
        "-scale",
        "200%",
        os.path.join(folder, "m2.ppm"),
    )
    run("merge", "large1.png", "large2.png", "m2.ppm", "joined.png", "--cell", "2", cwd=folder)
    run("verify", "joined.png.weave", "--marks", "m2.ppm", "--sample", "large1.png", cwd=folder)
    print(f"cells of 2 to 8 pixels: {cells} are those that the map names")


def plain_means(sample: Raster, each: int) -> bytes:
    """The means of all cells, pixel by pixel."""
    width, height = sample.width // each, sample.height // each
    found = bytearray()
    for y, x, c in product(range(height), range(width), range(3)):
        places = product(range(each), range(each))
        total = sum(
            sample.data[3 * (each * x + i + sample.width * (each * y + j)) + c] for j, i in places
        )
        found.append((2 * total + each * each) // (2 * each * each))
    return bytes(found)


def try_avoided(folder: str, chance: random.Random) -> None:
    """Nothing that a mask marks is copied, and the rectangles are the largest ones."""
    for _ in range(60):
        width, height = chance.randint(3, 12), chance.randint(3, 12)
        masked = [bytes(chance.random() < 0.15 for _ in range(width)) for _ in range(height)]
        found = free_rectangles(masked, 4, 1)
        free = [rectangle for rectangle in rectangles(width, height) if is_free(masked, rectangle)]
        largest = max((w * h for _, _, w, h in free), default=0)
        hold("the largest free rectangle", found[0][2] * found[0][3] if found else 0, largest)
        hold("whether each is free", all(is_free(masked, one) for one in found), True)
    logo = ["-fill", "black", "-colorize", "100", "-fill", "white"]
    logo += ["-draw", "rectangle 50,40 75,60", "-draw", "rectangle 10,100 12,101"]
    made("convert", PEBBLES, *logo, os.path.join(folder, "logo.png"))
    for command in ("grow", "quilt", "tile"):
        result = f"without_{command}.png"
        run(command, "a.png", result, "150x120", "--avoid", "logo.png", cwd=folder)
        run("verify", result + ".weave", "--input", "logo.png", "--sample", "a.png", cwd=folder)
        hold_avoided(os.path.join(folder, result), folder)
    words = ["grow", "a.png", "w.png", "90x80", "--avoid", "logo.png", "--layer", "a.png=w2.png"]
    run(*words, cwd=folder)
    hold(
        "a layer over pieces",
        bytes_of(os.path.join(folder, "w.png.weave", "out.ppm"))[-90 * 80 * 3 :],
        read_raster(os.path.join(folder, "w2.png")).data,
    )
    print("nothing that a mask marks is copied")


def rectangles(width: int, height: int) -> List[Tuple[int, int, int, int]]:
    """All rectangles of an area."""
    return [
        (x, y, w, h)
        for x in range(width)
        for y in range(height)
        for w in range(1, width - x + 1)
        for h in range(1, height - y + 1)
    ]


def is_free(masked: List[bytes], rectangle: Tuple[int, int, int, int]) -> bool:
    """Whether no cell of a rectangle is masked."""
    x, y, w, h = rectangle
    return not any(any(row[x : x + w]) for row in masked[y : y + h])


def hold_avoided(result: str, folder: str) -> None:
    """No cell of a result comes from a place that the mask marks."""

    entries, _ = map_and_words(result)
    about = json.loads(bytes_of(os.path.join(result + ".weave", "about")))
    mask = read_raster(os.path.join(folder, "logo.png"))
    for entry in entries:
        piece = about["pieces"][entry[0] - 1]
        x, y = piece[1] + entry[-3], piece[2] + entry[-2]
        if any(cell_of(mask, x, y, 1)[0]):
            sys.exit(f"{result}: a cell comes from {x},{y}, which the mask marks")


def try_doors(folder: str, chance: random.Random) -> None:
    """A playlist and a drawing under other names bring nothing in, and no file is told by its name."""
    secret = os.path.join(folder, "secret.mp4")
    shutil.copyfile(os.path.join(folder, "a.mp4"), secret)
    lists = {
        "list.mp4": b"#EXTM3U\n#EXT-X-TARGETDURATION:9\n#EXTINF:9,\n" + secret.encode() + b"\n",
        "concat.mkv": b"ffconcat version 1.0\nfile '" + secret.encode() + b"'\n",
        "drawing.jpg": b'<svg xmlns="http://www.w3.org/2000/svg"><image href="a.png"/></svg>',
        "script.png": b"push graphic-context\nimage over 0,0 0,0 'a.png'\npop graphic-context\n",
        "text.tif": b"label:@/etc/passwd\n",
    }
    for name, data in lists.items():
        put(os.path.join(folder, name), data)
        result = "no.mp4" if name.endswith((".mp4", ".mkv")) else "no.png"
        run("grow", name, result, "40x40", cwd=folder, status=3, says="first bytes")
    shutil.copyfile(os.path.join(folder, "b.jpg"), os.path.join(folder, "jpeg.png"))
    shutil.copyfile(os.path.join(folder, "a.png"), os.path.join(folder, "png.jpg"))
    for name in ("jpeg.png", "png.jpg"):
        run("grow", name, "seen.png", "40x40", "--replace", cwd=folder)
    print(f"{len(lists)} files that name others bring nothing in; forms are told by first bytes")


SECTIONS: Dict[str, Callable[[str, random.Random], None]] = {
    "depths": try_depths,
    "damaged": try_damaged,
    "floats": try_floats,
    "layers": try_layers,
    "deep": try_deep,
    "normals": try_normals,
    "cells": try_cells,
    "avoided": try_avoided,
    "doors": try_doors,
}
