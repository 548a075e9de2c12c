"""Pictures of what weave wrote: frames of a clip, blocks of a quilt, the walk of a loop."""
import math
import re
from typing import Callable, Dict, List, Sequence

from .faults import start
from .map_files import is_map_of_turns, read_map, read_record
from .forms import read_raster
from .pixel_files import KINDS, Pixels, read_pixels
from .png import interleaved
from .safe_files import refuse_inputs, write_file


GAP = 6  # white pixels between two frames


def byte(value: float) -> int:
    """The nearest byte."""
    return max(0, min(255, round(value)))


def colour(luma: int, cb: int = 128, cr: int = 128) -> bytes:
    """The colour of a pixel of a clip (ITU-R BT.601)."""
    light = 1.164 * (luma - 16)
    red, blue = 1.596 * (cr - 128), 2.017 * (cb - 128)
    return bytes((byte(light + red), byte(light - 0.509 * red - 0.194 * blue), byte(light + blue)))


def rows_of_frame(clip: Pixels, number: int, zoom: int) -> List[bytes]:
    """The pixels of a frame, each row as bytes. A cell has the luma of each of its pixels, and
    then Cb and Cr.
    """
    (w, h, f), k = clip.size, clip.samples
    wide, tall, _ = KINDS[clip.form[1]]
    if not 0 <= number < f:
        raise ValueError(f"there is no frame {number}")
    rows = []
    for y in range(h * tall):
        row = b""
        for x in range(w * wide):
            at = k * (x // wide + w * (y // tall) + w * h * number)
            cell = clip.cells[at : at + k]
            row += zoom * colour(cell[x % wide + wide * (y % tall)], *cell[wide * tall :])
        rows += zoom * [row]
    return rows


def write_picture(name: str, rows: Sequence[bytes], inputs: Sequence[str]) -> None:
    """Writes a P6 picture of rows of pixels, and overwrites none of the inputs."""
    head = b"P6\n%d %d\n255\n" % (len(rows[0]) // 3, len(rows))
    write_file(name, head + b"".join(rows), inputs)


def zoom_of(word: str) -> int:
    """The pixels of a pixel or a frame on each axis."""
    zoom = int(word) if word.isdecimal() else 0
    if not 1 <= zoom <= 64:
        raise ValueError("ZOOM is from 1 to 64")
    return zoom


def frame_of(word: str) -> int:
    """The number of a frame."""
    if not word.isdecimal():
        raise ValueError(f"{word}: the number of a frame is wanted, or /")
    return int(word)


def frames(clip_name: str, out_name: str, zoom: str, frame: str, *more: str) -> None:
    """Draws frames of a clip in a row. A word is the number of a frame, or / for a red line."""
    refuse_inputs(out_name, [clip_name])
    each, clip = zoom_of(zoom), read_pixels(clip_name, "sample")
    if clip.form[1] not in KINDS:
        raise ValueError(f"{clip_name} isn't a clip")
    rows: List[bytes] = []
    between = b""
    for word in (frame, *more):
        if word == "/":
            between = (
                (GAP // 3) * b"\xff\xff\xff"
                + (GAP // 3) * b"\xff\0\0"
                + (GAP // 3) * b"\xff\xff\xff"
            )
            continue
        drawn = rows_of_frame(clip, frame_of(word), each)
        rows = [row + between + right for row, right in zip(rows, drawn)] if rows else drawn
        between = GAP * b"\xff\xff\xff"
    if not rows:
        raise ValueError("no FRAME is named")
    write_picture(out_name, rows, [clip_name])


def blocks(record_name: str, sample_name: str, out_name: str) -> None:
    """Draws each block of the record of a quilt, whole over those before it."""
    refuse_inputs(out_name, [record_name, sample_name])
    record, sample = read_record(record_name), read_pixels(sample_name, "sample")
    if record.kind != 1:
        raise ValueError(f"{record_name} isn't the record of a quilt")
    if list(record.sizes) != [sample.size]:
        raise ValueError(f"{sample_name} isn't of the size of the record's sample")
    width, height, _ = record.output
    rows = [bytearray(3 * width) for _ in range(height)]
    least = (record.output, sample.size)
    for block in record.records:
        ends = [corner + size for corner, size in zip(block.corner, block.size)]
        sources = [corner + size for corner, size in zip(block.source[1:], block.size)]
        if any(end > most for end, most in zip(ends + sources, least[0] + least[1])):
            raise ValueError(f"{record_name}: a block lies outside of the output or the sample")
    for block in record.records:
        (x, y, _), (w, h, _), (_, u, v, _) = block.corner, block.size, block.source
        for j in range(h):
            at = 3 * (u + sample.size[0] * (v + j))
            rows[y + j][3 * x : 3 * (x + w)] = sample.cells[at : at + 3 * w]
    write_picture(out_name, rows, [record_name, sample_name])


def walk(map_name: str, out_name: str, zoom: str) -> None:
    """Draws the walk of a loop: each column is a frame of it, as high as the frame of the sample.
    A jump is where the line breaks off."""
    refuse_inputs(out_name, [map_name])
    each, read = zoom_of(zoom), read_map(map_name)
    if read.kind != 1:
        raise ValueError(f"{map_name} isn't the map of a loop")
    most = read.sizes[0][2]
    dark, paper = each * b"\x20\x40\x90", each * b"\xe8\xe8\xe4"
    rows = [
        b"".join(dark if frame == height else paper for frame in read.frames)
        for height in range(most - 1, -1, -1)
    ]
    write_picture(out_name, [row for row in rows for _ in range(each)], [map_name])


def shares(map_name: str) -> None:
    """Prints how much of the output each sample has, in percent."""
    read = read_map(map_name, is_map_of_turns(map_name))
    if read.kind == 1:
        raise ValueError(f"{map_name} is the map of a loop")
    numbers = read.columns[0]
    for part in range(1, len(read.sizes) + 1):
        print(f"sample {part}: {100 * numbers.count(part) / len(numbers):.0f}%")


def lit(colour_name: str, normals_name: str, out_name: str, lamp: str = "-1,1,1") -> None:
    """Lights a picture by its normals, with green up: a lamp far away in the direction x,y,z, of
    which z points out of the picture. A matt surface is as bright as it faces the lamp."""
    refuse_inputs(out_name, [colour_name, normals_name])
    found = re.fullmatch(r"(-?\d{1,4}),(-?\d{1,4}),(-?\d{1,4})", lamp)
    towards = [int(number) for number in found.groups()] if found else [0, 0, 0]
    if not any(towards):
        raise ValueError("LAMP is a direction, as -1,1,1")
    colours, normals = read_raster(colour_name), read_raster(normals_name)
    size = (colours.width, colours.height)
    if normals.kind != "whole" or normals.channels < 3 or (normals.width, normals.height) != size:
        raise ValueError(f"{normals_name}: isn't a picture of normals of the size of {colour_name}")
    scale = 1 / math.sqrt(sum(number * number for number in towards))
    lights = [number * scale for number in towards]
    facing = [facing_of(vector, lights) for vector in zip(*(normals.plane(c) for c in range(3)))]
    planes = [
        bytes([byte(value * (0.25 + 0.95 * face)) for value, face in zip(plane, facing)])
        for plane in colours.rgb()
    ]
    rows = interleaved(planes)
    length = 3 * colours.width
    lines = [rows[i : i + length] for i in range(0, len(rows), length)]
    write_picture(out_name, lines, [colour_name, normals_name])


def facing_of(vector: Sequence[int], towards: Sequence[float]) -> float:
    """How much a surface faces a direction, from 0 to 1, by the bytes of its normal."""
    x, y, z = (number / 127.5 - 1 for number in vector)
    length = math.sqrt(x * x + y * y + z * z) or 1.0
    return max(0.0, (x * towards[0] + y * towards[1] + z * towards[2]) / length)


CALLS: Dict[str, Callable[..., None]] = {
    "frames": frames,
    "blocks": blocks,
    "walk": walk,
    "shares": shares,
    "lit": lit,
}


def draw(words: Sequence[str], usage: str, program: str) -> int:
    """Draws what the first word names of the words after it; the status to end with."""
    return start(CALLS.get("".join(words[:1])), usage, words[1:], program)
