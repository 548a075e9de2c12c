"""Pictures of floats: PFM and Radiance by readers and writers of their own, OpenEXR by ffmpeg.

A float is copied bit by bit and never computed with, but for the 8 bits that the search sees.
"""
import math
import re
import struct
from typing import List, Tuple

from .faults import Stop
from .png import Raster, array_of, interleaved
from .programs import have, needs, run

# Of each number of channels: ffmpeg's form of its planes, and which channel each plane has.
PLANES = {1: ("grayf32le", [0]), 3: ("gbrpf32le", [1, 2, 0]), 4: ("gbrapf32le", [1, 2, 0, 3])}
# The share of the numbers that the search sees as full white, in thousandths: few highlights of a
# radiance aren't to make all others dark.
WHITE = 5


def rgb_of_floats(raster: Raster) -> List[bytes]:
    """Red, green and blue of 8 bits: the root of each number's share of a white that 5 of 1000
    numbers pass. A root is the same on every machine, and near to how bright a light looks.
    """
    if raster.kind == "rgbe":
        values = radiances(raster.data)
        channels = 3
    else:
        values, channels = array_of(raster.data, "f"), raster.channels
    colours = [values[c::channels] for c in range(min(channels, 3))]
    lights = sorted(value for plane in colours for value in plane if 0 < value < math.inf)
    white = lights[len(lights) * (1000 - WHITE) // 1000 - 1] if lights else 1.0
    planes = [bytes([byte_of(value, white) for value in plane]) for plane in colours]
    return planes if len(planes) == 3 else planes[:1] * 3


def byte_of(value: float, white: float) -> int:
    """The 8 bits that the search sees of a number."""
    if not value > 0:
        return 0
    return 255 if value >= white else int(255 * math.sqrt(value / white) + 0.5)


def radiances(data: bytes) -> List[float]:
    """The numbers of pixels of R, G, B and E."""
    scales = [math.ldexp(1.0, e - 136) if e else 0.0 for e in range(256)]
    numbers = []
    for i in range(0, len(data), 4):
        scale = scales[data[i + 3]]
        numbers += [data[i] * scale, data[i + 1] * scale, data[i + 2] * scale]
    return numbers


def damaged(name: str, form: str) -> Stop:
    """The line for a file that isn't in its form."""
    return Stop(f"{name}: is a damaged {form}", 3)


# PFM, whose rows go from the bottom to the top. PF4 has four channels.

HEAD = re.compile(rb"(PF4|PF|Pf)\s+([1-9]\d{0,5})\s+([1-9]\d{0,5})\s+(-?[0-9.eE+-]+)[ \t\r]*\n")


def read_pfm(data: bytes, name: str) -> Raster:
    """A PFM of one, three or four channels."""
    head = HEAD.match(data)
    if not head:
        raise damaged(name, "PFM")
    try:
        scale = float(head[4])
    except ValueError:
        raise damaged(name, "PFM") from None
    width, height = int(head[2]), int(head[3])
    channels = {b"Pf": 1, b"PF": 3, b"PF4": 4}[head[1]]
    length = 4 * width * channels
    if len(data) - head.end() != length * height:
        raise damaged(name, "PFM")
    rows = [data[at : at + length] for at in range(head.end(), len(data), length)]
    cells = b"".join(reversed(rows))
    if scale > 0:
        cells = interleaved([cells[i::4] for i in (3, 2, 1, 0)])
    return Raster(width, height, channels, 32, cells, "float")


def pfm(raster: Raster) -> bytes:
    """The PFM of a picture of floats."""
    letters = {1: b"Pf", 3: b"PF", 4: b"PF4"}[raster.channels]
    length = raster.width * raster.pixel
    rows = [raster.data[at : at + length] for at in range(0, len(raster.data), length)]
    head = letters + b"\n%d %d\n-1.0\n" % (raster.width, raster.height)
    return head + b"".join(reversed(rows))


# Radiance.


def read_hdr(data: bytes, name: str) -> Raster:
    """A Radiance picture, whose pixels are R, G, B and E as the file has them."""
    head = re.match(
        rb"#\?(?:RADIANCE|RGBE)\n(?:[^\n]*\n)*?\n-Y ([1-9]\d{0,4}) \+X ([1-9]\d{0,4})\n", data
    )
    if not head:
        raise Stop(f"{name}: is a damaged Radiance picture, or lies otherwise than -Y +X", 3)
    height, width = int(head[1]), int(head[2])
    at, pixels = head.end(), []
    for _ in range(height):
        row, at = hdr_row(data, at, width, name)
        pixels.append(row)
    return Raster(width, height, 4, 8, b"".join(pixels), "rgbe")


def hdr_row(data: bytes, at: int, width: int, name: str) -> Tuple[bytes, int]:
    """A row of pixels, and where the next one begins."""
    if not 8 <= width < 32768 or data[at : at + 2] != b"\2\2":
        row = data[at : at + 4 * width]
        if len(row) < 4 * width or (1, 1, 1) in zip(row[::4], row[1::4], row[2::4]):
            raise Stop(f"{name}: is damaged, or of Radiance's old form", 3)
        return row, at + 4 * width
    if data[at + 2 : at + 4] != struct.pack(">H", width):
        raise damaged(name, "Radiance picture")
    at += 4
    planes = []
    for _ in range(4):
        plane = bytearray()
        while len(plane) < width:
            count = data[at] if at < len(data) else 0
            if count > 128:
                plane += data[at + 1 : at + 2] * (count - 128)
                at += 2
            else:
                plane += data[at + 1 : at + 1 + count]
                at += 1 + count
            if not count or at > len(data):
                raise damaged(name, "Radiance picture")
        if len(plane) > width:
            raise damaged(name, "Radiance picture")
        planes.append(bytes(plane))
    return interleaved(planes), at


def hdr(raster: Raster) -> bytes:
    """The Radiance picture of R, G, B and E, each plane of a row in pieces that aren't packed."""
    width, pieces = raster.width, [b"#?RADIANCE\nFORMAT=32-bit_rle_rgbe\n\n"]
    pieces.append(b"-Y %d +X %d\n" % (raster.height, width))
    for begin in range(0, len(raster.data), 4 * width):
        row = raster.data[begin : begin + 4 * width]
        if not 8 <= width < 32768:
            pieces.append(row)
            continue
        pieces.append(b"\2\2" + struct.pack(">H", width))
        for c in range(4):
            plane = row[c::4]
            for at in range(0, width, 128):
                pieces.append(bytes([min(128, width - at)]) + plane[at : at + 128])
    return b"".join(pieces)


# OpenEXR.


def read_exr(name: str) -> Raster:
    """An OpenEXR picture, halves as floats."""
    if not have("ffmpeg", "ffprobe"):
        raise needs(name, "ffmpeg")
    here = ["-protocol_whitelist", "file,pipe", "-f", "exr_pipe", "-i", "file:" + name]
    entries = ["-show_entries", "stream=width,height,pix_fmt", "-of", "csv=p=0"]
    said = run(["ffprobe", "-v", "error", *here, *entries], what=name).decode().strip()
    found = re.fullmatch(r"(\d+),(\d+),(gray|gbrp|gbrap)(?:f32|\d+)?\w*", said.split("\n")[0])
    if not found:
        raise Stop(f"{name}: is of {said or 'no form'}, which isn't known", 3)
    width, height = int(found[1]), int(found[2])
    channels = {"gray": 1, "gbrp": 3, "gbrap": 4}[found[3]]
    form, order = PLANES[channels]
    words = ["ffmpeg", "-v", "error", *here, "-frames:v", "1", "-f", "rawvideo"]
    raw = run([*words, "-pix_fmt", form, "-"], what=name)
    if len(raw) != 4 * width * height * channels:
        raise damaged(name, "OpenEXR picture")
    length = 4 * width * height
    planes = {c: raw[length * i : length * (i + 1)] for i, c in enumerate(order)}
    data = interleaved([planes[c][i::4] for c in range(channels) for i in range(4)])
    return Raster(width, height, channels, 32, data, "float")


def exr(raster: Raster) -> bytes:
    """The OpenEXR picture of floats."""
    form, order = PLANES[raster.channels]
    numbers = [raster.data[i :: raster.pixel] for i in range(raster.pixel)]
    planes = b"".join(interleaved(numbers[4 * c : 4 * c + 4]) for c in order)
    size = f"{raster.width}x{raster.height}"
    words = ["ffmpeg", "-v", "error", "-f", "rawvideo", "-pix_fmt", form, "-s", size, "-i", "-"]
    words += ["-frames:v", "1", "-c:v", "exr", "-format", "float", "-compression", "zip16"]
    return run([*words, "-f", "image2pipe", "-"], planes, "the result")


def as_floats(raster: Raster) -> Raster:
    """Whole numbers as shares of their greatest one, which a picture of floats has all of."""
    most, each = raster.maxval, raster.unit
    values = [
        int.from_bytes(raster.data[i : i + each], "big") / most
        for i in range(0, len(raster.data), each)
    ]
    data = struct.pack(f"<{len(values)}f", *values)
    return Raster(raster.width, raster.height, raster.channels, 32, data, "float")
