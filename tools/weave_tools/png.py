"""Pictures with all their bits, and PNG files of them, with the standard library alone."""
import contextlib
import struct
import zlib
from array import array
from itertools import accumulate
from typing import Any, Dict, Iterator, List, NamedTuple, Optional, Sequence, Tuple

from .faults import Stop

MOST_PIXELS = 1 << 26
CHANNELS = {0: 1, 2: 3, 3: 1, 4: 2, 6: 4}
COLOURS = {1: 0, 2: 4, 3: 2, 4: 6}
DEPTHS = {0: (1, 2, 4, 8, 16), 2: (8, 16), 3: (1, 2, 4, 8), 4: (8, 16), 6: (8, 16)}
# Of each pass of an interlaced picture: its first column and row, and the steps to the next.
PASSES = [
    (0, 0, 8, 8),
    (4, 0, 8, 8),
    (0, 4, 4, 8),
    (2, 0, 4, 4),
    (0, 2, 2, 4),
    (1, 0, 2, 2),
    (0, 1, 1, 2),
]
BEGINS = b"\x89PNG\r\n\x1a\n"
# Chunks that say what numbers mean. A picture drawn of another one has them too.
MEANING = (b"PLTE", b"tRNS", b"gAMA", b"cHRM", b"sRGB", b"iCCP", b"sBIT", b"pHYs")
# The table by which a number of 16 bits becomes the nearest one of 8.
NEAREST_8 = bytes((value * 255 + 32767) // 65535 for value in range(65536))
OPPOSITE = bytes(range(255, -1, -1))


class Damaged(Exception):
    """A PNG isn't in its form."""


class Raster:
    """A picture with all its bits.

    `data` has the numbers of all pixels in raster order, those of a pixel one after another:
    `unit` bytes for each, which are the value of `depth` bits (of 16 the most significant byte
    first), a little-endian float of 32 bits (`kind` is "float"), or R, G, B and E of Radiance
    ("rgbe"). A PNG's palette, transparent colour and other meanings are in `chunks`.
    """

    def __init__(
        self,
        width: int,
        height: int,
        channels: int,
        depth: int,
        data: bytes,
        kind: str = "whole",
        chunks: Optional[Dict[bytes, bytes]] = None,
        colour: Optional[int] = None,
        maxval: int = 0,
    ) -> None:
        self.width, self.height, self.channels, self.depth = width, height, channels, depth
        self.data, self.kind, self.chunks = data, kind, chunks or {}
        self.colour = COLOURS.get(channels, 2) if colour is None else colour
        self.unit = 4 if kind == "float" else 2 if depth == 16 else 1
        self.maxval = maxval or (1 << min(depth, 16)) - 1

    @property
    def pixel(self) -> int:
        """The bytes of a pixel."""
        return self.channels * self.unit

    def like(self, width: int, height: int, data: bytes) -> "Raster":
        """Another picture of the same form."""
        return Raster(
            width,
            height,
            self.channels,
            self.depth,
            data,
            self.kind,
            self.chunks,
            self.colour,
            self.maxval,
        )

    def form(self) -> Tuple[object, ...]:
        """What two pictures have to have alike so that pixels of both can be in one."""
        chunks = tuple(sorted(self.chunks.items()))
        return self.kind, self.channels, self.depth, self.colour, self.maxval, chunks

    def same_pixels(self, other: "Raster") -> bool:
        """Whether both have the same numbers in the same form."""
        return (self.width, self.height, self.kind, self.channels, self.depth, self.colour) == (
            other.width,
            other.height,
            other.kind,
            other.channels,
            other.depth,
            other.colour,
        ) and self.data == other.data

    def part(self, x: int, y: int, width: int, height: int) -> "Raster":
        """A rectangle of it."""
        if (x, y, width, height) == (0, 0, self.width, self.height):
            return self
        each = self.pixel
        rows = range(y, y + height)
        starts = [each * (x + self.width * row) for row in rows]
        data = b"".join([self.data[start : start + each * width] for start in starts])
        return self.like(width, height, data)

    def plane(self, channel: int) -> bytes:
        """The bytes of a channel, of 8 bits for each pixel; not of floats."""
        if self.unit == 2:
            low, high = (self.data[2 * channel + i :: self.pixel] for i in (1, 0))
            numbers = array_of(interleaved([low, high]), "H")
            return bytes([NEAREST_8[number] for number in numbers])
        plane = self.data[channel :: self.channels]
        if self.maxval == 255:
            return plane
        most = self.maxval
        return plane.translate(bytes(min(255, value * 255 // most) for value in range(256)))

    def solid(self) -> Optional[bytes]:
        """How solid each pixel is, of 8 bits; None where all are."""
        clear = self.chunks.get(b"tRNS", b"")
        if self.kind != "whole":
            solid = opaque_floats(self) if self.kind == "float" and self.channels == 4 else None
        elif self.colour == 3:
            solid = self.data.translate(clear.ljust(256, b"\xff")) if clear else None
        elif self.colour in (4, 6):
            solid = self.plane(self.channels - 1)
        elif clear:
            key = clear if self.unit == 2 else clear[1::2]
            each, data = self.pixel, self.data
            keys = (data[i : i + each] == key for i in range(0, len(data), each))
            solid = bytes(0 if is_key else 255 for is_key in keys)
        else:
            solid = None
        return None if solid is None or min(solid) == 255 else solid

    def is_solid(self) -> bool:
        """Whether every pixel is solid to the last bit: 65534 of 65535 isn't."""
        if self.kind == "float":
            return self.channels < 4 or min(array_of(self.data, "f")[3::4]) >= 1
        if self.kind == "whole" and self.colour in (4, 6):
            full = b"\xff" * self.unit
            last = self.pixel - self.unit
            planes = [self.data[last + i :: self.pixel] for i in range(self.unit)]
            return all(not plane.strip(full[:1]) for plane in planes)
        return self.solid() is None

    def without_alpha(self) -> "Raster":
        """The same without the channel that says how solid a pixel is."""
        if self.kind != "rgbe" and self.channels in (2, 4):
            each, unit = self.channels, self.unit
            planes = [self.data[i :: self.pixel] for i in range(unit * (each - 1))]
            data = interleaved(planes)
            return Raster(self.width, self.height, each - 1, self.depth, data, self.kind)
        chunks = {kind: body for kind, body in self.chunks.items() if kind != b"tRNS"}
        plain = self.like(self.width, self.height, self.data)
        plain.chunks = chunks
        return plain

    def is_plain(self) -> bool:
        """Whether 8 bits of R, G and B have all of it."""
        return self.kind == "whole" and self.depth <= 8 and self.solid() is None

    def rgb(self) -> List[bytes]:
        """Red, green and blue of 8 bits, as three planes. Floats are told by `floats.py`."""
        if self.colour == 3:
            palette = self.chunks[b"PLTE"]
            return [self.data.translate(palette[c::3].ljust(256, b"\0")) for c in range(3)]
        if self.channels < 3:
            return [self.plane(0)] * 3
        return [self.plane(c) for c in range(3)]


def opaque_floats(raster: Raster) -> bytes:
    """How solid the pixels of a picture of floats are, of 8 bits."""
    return bytes(
        max(0, min(255, int(255 * value + 0.5))) if value == value else 0
        for value in array_of(raster.data, "f")[3::4]
    )


def array_of(data: bytes, letter: str) -> Any:
    """Numbers of a little-endian form."""
    numbers = array(letter)
    numbers.frombytes(data)
    if struct.pack("=H", 1) != struct.pack("<H", 1):
        numbers.byteswap()
    return numbers


def interleaved(planes: Sequence[bytes]) -> bytes:
    """One byte of each plane after another."""
    joined = bytearray(len(planes) * len(planes[0]))
    for c, plane in enumerate(planes):
        joined[c :: len(planes)] = plane
    return bytes(joined)


# Reading.


class Head:
    """What the first chunk says."""

    def __init__(self, data: bytes) -> None:
        found = struct.unpack(">IIBBBBB", data)
        self.width, self.height, self.depth, self.colour, packed, filtered, interlaced = found
        if self.depth not in DEPTHS.get(self.colour, ()) or packed or filtered or interlaced > 1:
            raise Damaged
        if not 0 < self.width < 1 << 31 or not 0 < self.height < 1 << 31:
            raise Damaged
        self.channels = CHANNELS[self.colour]
        self.bits = self.channels * self.depth
        self.passes = PASSES if interlaced else [(0, 0, 1, 1)]

    def pass_sizes(self) -> Iterator[Tuple[Tuple[int, int, int, int], int, int, int]]:
        """Of each pass that has pixels: the pass, its pixels across and down, and the bytes of a
        row.
        """
        for x, y, dx, dy in self.passes:
            across, down = -(-(self.width - x) // dx), -(-(self.height - y) // dy)
            if across > 0 and down > 0:
                yield (x, y, dx, dy), across, down, (across * self.bits + 7) // 8


def chunks_of(data: bytes) -> Dict[bytes, bytes]:
    """The chunks that matter, by their kinds, each of which has to be as its sum says."""
    found: Dict[bytes, bytes] = {}
    pieces: List[bytes] = []
    at, kind = 8, b""
    while kind != b"IEND":
        length, kind = struct.unpack_from(">I4s", data, at)
        end = at + 8 + length
        if end + 4 > len(data):
            raise Damaged
        if zlib.crc32(data[at + 4 : end]) != int.from_bytes(data[end : end + 4], "big"):
            raise Damaged
        if at == 8 and kind != b"IHDR":
            raise Damaged
        if kind == b"IDAT":
            pieces.append(data[at + 8 : end])
        elif kind == b"IHDR" or kind in MEANING:
            if kind in found:
                raise Damaged
            found[kind] = data[at + 8 : end]
        elif not kind[0] & 32 and kind != b"IEND":
            raise Damaged
        at = end + 4
    found[b"IDAT"] = b"".join(pieces)
    return found


def added(line: bytes, above: bytes) -> bytes:
    """The sums of bytes at the same places, each without its carry."""
    count = len(line)
    low = int.from_bytes(b"\x7f" * count, "little")
    a, b = int.from_bytes(line, "little"), int.from_bytes(above, "little")
    high = int.from_bytes(b"\x80" * count, "little")
    total = ((a & low) + (b & low)) ^ ((a ^ b) & high)
    return total.to_bytes(count, "little")


def less(line: bytes, above: bytes) -> bytes:
    """The differences of bytes at the same places, each without its borrow."""
    count = len(line)
    high = int.from_bytes(b"\x80" * count, "little")
    a, b = int.from_bytes(line, "little"), int.from_bytes(above, "little")
    total = ((a | high) - (b & ~high)) ^ ((a ^ ~b) & high)
    return total.to_bytes(count, "little")


def unfilter_sub(line: bytearray, step: int) -> None:
    """Adds to each byte the one a pixel before it."""
    for c in range(step):
        line[c::step] = bytes([value & 255 for value in accumulate(line[c::step])])


def unfilter_average(line: bytearray, above: bytes, step: int) -> None:
    """Adds to each byte half of the sum of the one before it and the one above it."""
    for c in range(step):
        left, values = 0, []
        for value, upper in zip(line[c::step], above[c::step]):
            left = value + (left + upper >> 1) & 255
            values.append(left)
        line[c::step] = bytes(values)


def unfilter_paeth(line: bytearray, above: bytes, step: int) -> None:
    """Adds to each byte the one of its three neighbours that is nearest to their plane."""
    for c in range(step):
        left, corner, values = 0, 0, []
        for value, upper in zip(line[c::step], above[c::step]):
            to_left, to_upper = upper - corner, left - corner
            to_corner = abs(to_left + to_upper)
            to_left, to_upper = abs(to_left), abs(to_upper)
            if to_left <= to_upper and to_left <= to_corner:
                left = value + left & 255
            elif to_upper <= to_corner:
                left = value + upper & 255
            else:
                left = value + corner & 255
            corner = upper
            values.append(left)
        line[c::step] = bytes(values)


def unfiltered(data: bytes, at: int, rows: int, length: int, step: int) -> Iterator[bytes]:
    """The rows of a pass without their filters."""
    above = bytes(length)
    for _ in range(rows):
        kind, line = data[at], bytearray(data[at + 1 : at + 1 + length])
        at += 1 + length
        if kind == 1:
            unfilter_sub(line, step)
        elif kind == 2:
            line = bytearray(added(line, above))
        elif kind == 3:
            unfilter_average(line, above, step)
        elif kind == 4:
            unfilter_paeth(line, above, step)
        elif kind:
            raise Damaged
        above = bytes(line)
        yield above


def numbers_of(line: bytes, depth: int, count: int) -> bytes:
    """The numbers of a row of less than 8 bits each, a byte for each."""
    if depth >= 8:
        return line
    shifts, most = range(8 - depth, -1, -depth), (1 << depth) - 1
    planes = [bytes(byte >> shift & most for byte in range(256)) for shift in shifts]
    return interleaved([line.translate(plane) for plane in planes])[:count]


def pixels_of(raw: bytes, head: Head) -> bytes:
    """The numbers of all pixels in raster order, of the rows of all passes."""
    step, at = max(head.bits // 8, 1), 0
    if len(head.passes) == 1:
        row = next(head.pass_sizes())[3]
        lines = unfiltered(raw, 0, head.height, row, step)
        count = head.width * head.channels
        return b"".join([numbers_of(line, head.depth, count) for line in lines])
    each = head.channels * max(head.depth // 8, 1)
    pixels = bytearray(head.width * head.height * each)
    for (x, y, dx, dy), across, down, row in head.pass_sizes():
        for number, line in enumerate(unfiltered(raw, at, down, row, step)):
            line = numbers_of(line, head.depth, across * head.channels)
            begin = each * head.width * (y + dy * number)
            for c in range(each):
                end = begin + each * head.width
                pixels[begin + each * x + c : end : each * dx] = line[c::each]
        at += down * (1 + row)
    return bytes(pixels)


def raw_of(found: Dict[bytes, bytes], head: Head) -> bytes:
    """The rows of all passes with their filters; no more memory than these take."""
    length = sum(down * (1 + row) for _, _, down, row in head.pass_sizes())
    raw = zlib.decompressobj().decompress(found[b"IDAT"], length)
    if len(raw) < length:
        raise Damaged
    return raw


def read_png(data: bytes, name: str) -> Raster:
    """A PNG of any colour type and depth; one that is damaged is a Stop."""
    try:
        found = chunks_of(data)
        head = Head(found.pop(b"IHDR"))
        if head.width * head.height > MOST_PIXELS:
            size = f"{head.width}x{head.height}"
            raise Stop(f"{name}: has {size} pixels, more than {MOST_PIXELS}. Scale it first.", 4)
        pixels = pixels_of(raw_of(found, head), head)
        palette = found.get(b"PLTE", b"")
        if head.colour == 3 and (
            len(palette) % 3 or not palette or max(pixels) >= len(palette) // 3
        ):
            raise Damaged
        if len(found.get(b"tRNS", b"")) > {0: 2, 2: 6, 3: 256}.get(head.colour, 0):
            raise Damaged
    except (Damaged, zlib.error, struct.error, IndexError, KeyError, ValueError):
        raise Stop(f"{name}: is a damaged PNG", 3) from None
    del found[b"IDAT"]
    return Raster(
        head.width,
        head.height,
        head.channels,
        head.depth,
        pixels,
        chunks=found,
        colour=head.colour,
    )


# Writing.


class Text(NamedTuple):
    """A text in a PNG: its keyword, and what it says."""

    keyword: str
    text: str


def chunk(kind: bytes, body: bytes) -> bytes:
    """A chunk with its length and its sum."""
    return struct.pack(">I", len(body)) + kind + body + struct.pack(">I", zlib.crc32(kind + body))


def text_chunk(text: Text) -> bytes:
    """A text, which any reader of PNG may leave out: in Latin-1, or in UTF-8 where it has other
    letters, and where it is XMP."""
    keyword = text.keyword.encode("latin-1")
    if not keyword.startswith(b"XML:"):
        with contextlib.suppress(UnicodeEncodeError):
            return chunk(b"tEXt", keyword + b"\0" + text.text.encode("latin-1"))
    return chunk(b"iTXt", keyword + b"\0\0\0\0\0" + text.text.encode("utf-8", "replace"))


def packed(line: bytes, depth: int) -> bytes:
    """A row of numbers of less than 8 bits, as its bytes."""
    each = 8 // depth
    line = line.ljust(-(-len(line) // each) * each, b"\0")
    places = [line[i::each] for i in range(each)]
    return bytes(
        sum(value << depth * (each - 1 - i) for i, value in enumerate(values))
        for values in zip(*places)
    )


def rows_of(raster: Raster) -> Iterator[bytes]:
    """The rows of a PNG. Each is written less the one above it, which serves textures well and
    takes next to no time, but for the first one and for those of less than 8 bits.
    """
    length, above = raster.width * raster.pixel, b""
    for at in range(0, len(raster.data), length):
        line = raster.data[at : at + length]
        if raster.depth < 8:
            yield b"\0" + packed(line, raster.depth)
        elif above:
            yield b"\2" + less(line, above)
        else:
            yield b"\0" + line
        above = line


def png(raster: Raster, texts: Sequence[Text] = ()) -> bytes:
    """The PNG of a picture of whole numbers."""
    size = raster.width, raster.height
    head = struct.pack(">IIBBBBB", *size, raster.depth, raster.colour, 0, 0, 0)
    before = [chunk(kind, body) for kind, body in raster.chunks.items() if kind != b"tRNS"]
    before.sort(key=lambda body: body[4:8] == b"PLTE")
    clear = raster.chunks.get(b"tRNS")
    packer = zlib.compressobj(6)
    pieces = [packer.compress(line) for line in rows_of(raster)]
    return b"".join(
        [
            BEGINS,
            chunk(b"IHDR", head),
            *before,
            chunk(b"tRNS", clear) if clear is not None else b"",
            *map(text_chunk, texts),
            chunk(b"IDAT", b"".join(pieces) + packer.flush()),
            chunk(b"IEND", b""),
        ]
    )
