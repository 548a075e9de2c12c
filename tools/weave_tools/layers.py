"""Pictures that lie over the samples, cell by cell, and what the map makes of them.

A cell is `each` x `each` pixels of a layer. Whatever lies over the samples is copied as the map
copies their cells, with all its bits: nothing is blended.
"""
from typing import TYPE_CHECKING, Dict, List, NamedTuple, Optional, Sequence, Tuple

from .faults import Stop
from .map_files import Named
from .png import OPPOSITE, Raster, interleaved
from .samples import TURNS, places_in_turns, turned_rows

if TYPE_CHECKING:
    from .map_files import Numbers

CELLS = (1, 2, 3, 4, 8)


class Piece(NamedTuple):
    """A sample of weave's: which of the pictures it is a part of, and where, in cells."""

    picture: int
    x: int
    y: int
    width: int
    height: int


class Layer(NamedTuple):
    """Pictures over the samples, one for each: how many pixels of theirs a cell is on each axis,
    and, of pictures of normals, whether green points "up" or "down"."""

    rasters: List[Raster]
    each: int
    normals: Optional[str] = None


# Cells of several pixels.


def whole_cells(raster: Raster, each: int) -> Raster:
    """The picture without the columns and rows at its right and lower side that are no whole
    cells."""
    width, height = raster.width // each * each, raster.height // each * each
    return raster.part(0, 0, width, height)


def averaged(rgb: bytes, width: int, height: int, each: int) -> bytes:
    """The mean of the pixels of each cell, to the nearest whole number, halves upwards."""
    if each == 1:
        return rgb
    length, count, rows = 3 * width, each * each, []
    for y in range(0, height, each):
        lines = [rgb[length * (y + i) : length * (y + i + 1)] for i in range(each)]
        planes = []
        for c in range(3):
            columns = [line[c + 3 * j :: 3 * each] for line in lines for j in range(each)]
            sums = map(sum, zip(*columns))
            planes.append(bytes([(2 * total + count) // (2 * count) for total in sums]))
        rows.append(interleaved(planes))
    return b"".join(rows)


# Pictures of one form.


def unified(rasters: Sequence[Raster], names: Sequence[str]) -> List[Raster]:
    """The pictures in one form that has all bits of each, so that one picture can have pixels of
    all of them."""
    if len({raster.form() for raster in rasters}) == 1:
        return list(rasters)
    odd = next((i for i, raster in enumerate(rasters) if raster.kind != "whole"), None)
    if odd is not None:
        raise Stop(f"{names[odd]}: has floats, and not all others are of its form", 3)
    has_colour = any(raster.channels >= 3 or raster.colour == 3 for raster in rasters)
    has_alpha = any(raster.solid() is not None for raster in rasters)
    depth = 16 if any(raster.depth == 16 for raster in rasters) else 8
    return [in_form(raster, has_colour, has_alpha, depth) for raster in rasters]


def in_form(raster: Raster, has_colour: bool, has_alpha: bool, depth: int) -> Raster:
    """A picture of 8 or 16 bits with these channels."""
    if raster.depth == 16:
        count = raster.channels - (raster.colour in (4, 6))
        planes = [[raster.data[2 * c + i :: raster.pixel] for i in range(2)] for c in range(count)]
        if raster.colour in (4, 6):
            last = raster.pixel - 2
            solid = [raster.data[last + i :: raster.pixel] for i in range(2)]
        else:
            solid = [raster.solid() or b"\xff" * (raster.width * raster.height)] * 2
    else:
        # A number of 8 bits is one of 16 bits twice.
        colours = raster.rgb()[: 1 if raster.channels < 3 and raster.colour != 3 else 3]
        planes = [[plane] * (2 if depth == 16 else 1) for plane in colours]
        opaque = b"\xff" * (raster.width * raster.height)
        solid = [raster.solid() or opaque] * (2 if depth == 16 else 1)
    planes = planes * 3 if has_colour and len(planes) == 1 else planes
    if has_alpha:
        planes = planes + [solid]
    data = interleaved([plane for pair in planes for plane in pair])
    return Raster(raster.width, raster.height, len(planes), depth, data)


# Turns.

# Of a vector whose x points right and whose y points up or down: which of its numbers each number
# of the turned vector is, and whether it is negated.
Turned = Tuple[Tuple[int, bool], Tuple[int, bool]]


def turned_vector(turn: int, green: str) -> Turned:
    """How a turn changes a vector. Turn t is mirrored where t is 4 or more, and then turned
    clockwise by t % 4 quarters. With y up a quarter makes (y, -x) of (x, y)."""
    x, y = (0, turn >= TURNS // 2), (1, green == "down")
    for _ in range(turn % 4):
        x, y = y, (x[0], not x[1])
    return x, (y[0], y[1] != (green == "down"))


def turned_normals(raster: Raster, turn: int, green: str) -> Raster:
    """A picture of normals whose vectors are turned: numbers are exchanged, and n is negated to
    the greatest one less n, which is exact at every depth."""
    (first, is_first_negated), (second, is_second_negated) = turned_vector(turn, green)
    unit, each = raster.unit, raster.pixel
    planes = [raster.data[i::each] for i in range(each)]
    red, grn = ([planes[unit * c + i] for i in range(unit)] for c in (first, second))
    if is_first_negated:
        red = negated(red, raster)
    if is_second_negated:
        grn = negated(grn, raster)
    return raster.like(raster.width, raster.height, interleaved(red + grn + planes[2 * unit :]))


def negated(planes: List[bytes], raster: Raster) -> List[bytes]:
    """The bytes of a channel, negated."""
    if raster.kind == "float":
        sign = bytes(byte ^ 128 for byte in range(256))
        return planes[:3] + [planes[3].translate(sign)]
    if raster.maxval in (255, 65535):
        return [plane.translate(OPPOSITE) for plane in planes]
    most = raster.maxval
    return [plane.translate(bytes(max(0, most - n) for n in range(256))) for plane in planes]


def normals_of(raster: Raster, name: str) -> Raster:
    """A picture of normals in a form that can be turned; a Stop where it has none."""
    if raster.colour == 3:
        solid = raster.solid()
        planes = raster.rgb() + ([solid] if solid else [])
        raster = Raster(raster.width, raster.height, len(planes), 8, interleaved(planes))
    if raster.channels < 3 or raster.kind == "rgbe":
        raise Stop(f"{name}: has no red, green and blue, so it is no picture of normals", 3)
    if raster.kind == "float" and not any(
        raster.data[c * 4 + 3 :: raster.pixel].strip(bytes(range(128))) for c in (0, 1)
    ):
        raise Stop(f"{name}: has floats and none below 0: save it as a PNG of 16 bits", 3)
    return raster


def turned(raster: Raster, turn: int, normals: Optional[str]) -> Raster:
    """A turn of a picture, as weave turns a sample, and of the vectors where it has normals."""
    if turn == 0:
        return raster
    each, width = raster.pixel, raster.width
    pixels = [raster.data[i : i + each] for i in range(0, len(raster.data), each)]
    rows = turned_rows([pixels[i : i + width] for i in range(0, len(pixels), width)], turn)
    data = b"".join([b"".join(row) for row in rows])
    whole = raster.like(len(rows[0]), len(rows), data)
    return turned_normals(whole, turn, normals) if normals else whole


# Drawing.


class Sources:
    """Which cell of which part each output cell is, in places of the part as it is laid."""

    def __init__(self, read: Named) -> None:
        self.width, self.height, _ = read.output
        self.of_turns = read.kind == 2
        if not self.of_turns:
            self.parts, self.xs, self.ys = read.columns[0], read.columns[1], read.columns[2]
            return
        moved = [places_in_turns(size) for size in read.sizes]
        parts, turns, xs, ys, _ = read.columns
        laid = [moved[p - 1][t][x, y] for p, t, x, y in zip(parts, turns, xs, ys)]
        self.parts = type(parts)("H", [TURNS * (p - 1) + t + 1 for p, t in zip(parts, turns)])
        self.xs = type(parts)("H", [x for x, _ in laid])
        self.ys = type(parts)("H", [y for _, y in laid])

    def runs(self, row: int) -> List[Tuple[int, int, int, int]]:
        """The pieces of a row of cells, each of cells that lie side by side in a part: its number
        from 1, the place of the first cell, and how many they are."""
        begin = self.width * row
        found: List[Tuple[int, int, int, int]] = []
        part, x, y, count = 0, 0, 0, 0
        columns: List["Numbers"] = [self.parts, self.xs, self.ys]
        for next_part, next_x, next_y in zip(
            *(column[begin : begin + self.width] for column in columns)
        ):
            if next_part == part and next_y == y and next_x == x + count:
                count += 1
                continue
            if count:
                found.append((part, x, y, count))
            part, x, y, count = next_part, next_x, next_y, 1
        found.append((part, x, y, count))
        return found


def laid_part(layer: Layer, pieces: Sequence[Piece], number: int, of_turns: bool) -> Raster:
    """The pixels of a part, which is a piece or a turn of one."""
    index, turn = divmod(number - 1, TURNS) if of_turns else (number - 1, 0)
    piece, each = pieces[index], layer.each
    picture = layer.rasters[piece.picture]
    place = (each * piece.x, each * piece.y, each * piece.width, each * piece.height)
    return turned(picture.part(*place), turn, layer.normals)


def drawn(
    layer: Layer, pieces: Sequence[Piece], sources: Sources, cut: Tuple[int, int] = (0, 0)
) -> Raster:
    """The picture that a map draws of a layer. Where `cut` is a size in pixels of the result, with
    cells of `each` pixels, columns and rows past it are left out."""
    each = layer.each
    parts: Dict[int, Raster] = {}
    for number in set(sources.parts):
        parts[number] = laid_part(layer, pieces, number, sources.of_turns)
    pixel = layer.rasters[0].pixel
    rows: List[bytes] = []
    for y in range(sources.height):
        runs = sources.runs(y)
        for i in range(each):
            slices = []
            for number, sx, sy, count in runs:
                part = parts[number]
                at = pixel * (each * sx + part.width * (each * sy + i))
                slices.append(part.data[at : at + pixel * each * count])
            rows.append(b"".join(slices))
    width, height = cut[0] or each * sources.width, cut[1] or each * sources.height
    data = b"".join([row[: pixel * width] for row in rows[:height]])
    return layer.rasters[0].like(width, height, data)


# What isn't to be copied.


def free_rectangles(
    masked: Sequence[bytes], most: int, least: int
) -> List[Tuple[int, int, int, int]]:
    """Rectangles without a masked cell: the largest one, then the largest of what is left, up to
    `most`, none with a side under `least`. Each is then widened over what others have, as far as
    no cell is masked. Columns, rows, width and height."""
    left = [bytearray(row) for row in masked]
    found: List[Tuple[int, int, int, int]] = []
    while len(found) < most:
        x, y, width, height = largest_free(left)
        if min(width, height) < least:
            break
        for row in left[y : y + height]:
            row[x : x + width] = b"\1" * width
        found.append(widened(masked, x, y, width, height))
    return found


def largest_free(rows: Sequence[bytearray]) -> Tuple[int, int, int, int]:
    """The largest rectangle of zeros: of each row the heights of the zeros above it, and a stack
    of rising heights over its columns."""
    width, best, best_at = len(rows[0]), 0, (0, 0, 0, 0)
    heights = [0] * (width + 1)
    for y, row in enumerate(rows):
        heights[:width] = [0 if mask else height + 1 for mask, height in zip(row, heights)]
        stack: List[Tuple[int, int]] = []
        for x, height in enumerate(heights):
            begin = x
            while stack and stack[-1][1] >= height:
                begin, tall = stack.pop()
                if tall * (x - begin) > best:
                    best, best_at = tall * (x - begin), (begin, y - tall + 1, x - begin, tall)
            if height:
                stack.append((begin, height))
    return best_at


def widened(
    masked: Sequence[bytes], x: int, y: int, width: int, height: int
) -> Tuple[int, int, int, int]:
    """A rectangle without a masked cell, drawn out on each side as far as it stays so."""

    def is_free(column: int) -> bool:
        return not any(row[column] for row in masked[y : y + height])

    while x > 0 and is_free(x - 1):
        x, width = x - 1, width + 1
    while x + width < len(masked[0]) and is_free(x + width):
        width += 1
    while y > 0 and not any(masked[y - 1][x : x + width]):
        y, height = y - 1, height + 1
    while y + height < len(masked) and not any(masked[y + height][x : x + width]):
        height += 1
    return x, y, width, height
