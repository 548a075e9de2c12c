"""Truevision pictures: of 8, 24 and 32 bits, plain or packed, from any corner."""
import struct
from typing import List

from .faults import Stop
from .png import Raster, interleaved

HEAD = struct.Struct("<BBBHHBHHHHBB")


def damaged(name: str) -> Stop:
    """The line for a file that isn't in its form."""
    return Stop(f"{name}: is a damaged or unknown kind of Truevision picture", 3)


def read_targa(data: bytes, name: str) -> Raster:
    """A picture of grey, of colours, or of colours and alpha."""
    if len(data) < HEAD.size:
        raise damaged(name)
    length, mapped, kind, _, entries, entry, _, _, width, height, bits, how = HEAD.unpack_from(data)
    each = bits // 8
    if mapped or kind not in (2, 3, 10, 11) or not width * height:
        raise damaged(name)
    if bits not in ((8,) if kind in (3, 11) else (24, 32)):
        raise damaged(name)
    at = HEAD.size + length + entries * (entry + 7) // 8
    count = width * height * each
    cells = unpacked(data, at, count, each, name) if kind > 8 else data[at : at + count]
    if len(cells) < count:
        raise damaged(name)
    rows = [cells[i : i + width * each] for i in range(0, count, width * each)]
    if how & 16:
        rows = [mirrored(row, each) for row in rows]
    if not how & 32:
        rows.reverse()
    return coloured(b"".join(rows), width, height, each)


def mirrored(row: bytes, each: int) -> bytes:
    """A row from right to left."""
    return interleaved([row[c::each][::-1] for c in range(each)])


def unpacked(data: bytes, at: int, count: int, each: int, name: str) -> bytes:
    """The pixels of packed ones: runs of one pixel, and pieces of several."""
    found: List[bytes] = []
    there = 0
    while there < count:
        if at >= len(data):
            raise damaged(name)
        number = (data[at] & 127) + 1
        if data[at] & 128:
            piece = data[at + 1 : at + 1 + each] * number
            at += 1 + each
        else:
            piece = data[at + 1 : at + 1 + each * number]
            at += 1 + each * number
        if len(piece) < each * number:
            raise damaged(name)
        found.append(piece)
        there += len(piece)
    return b"".join(found)[:count]


def coloured(cells: bytes, width: int, height: int, each: int) -> Raster:
    """A picture of B, G, R and alpha as one of R, G, B and alpha. Alpha that is 0 everywhere is
    what programs write that have none."""
    if each == 1:
        return Raster(width, height, 1, 8, cells)
    blue, green, red = (cells[c::each] for c in range(3))
    alpha = cells[3::4] if each == 4 else b""
    if alpha.strip(b"\0") and alpha.strip(b"\xff"):
        return Raster(width, height, 4, 8, interleaved([red, green, blue, alpha]))
    return Raster(width, height, 3, 8, interleaved([red, green, blue]))


def targa(raster: Raster) -> bytes:
    """The plain picture of one of 8 bits, from its upper left corner."""
    planes, solid = raster.rgb(), raster.solid()
    planes = planes[::-1] + ([solid] if solid else [])
    size = raster.width, raster.height
    head = HEAD.pack(0, 0, 2, 0, 0, 0, 0, 0, *size, 8 * len(planes), 32 | 8 * bool(solid))
    return head + interleaved(planes)
