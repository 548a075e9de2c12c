"""What is made of each input: the files that weave reads, and the pictures that the map copies.

Making a result and verifying it go through the same calls, so that an input that is shown later
has to give the same files.
"""
import argparse
from typing import Callable, Dict, List, Optional, Sequence, Tuple

from .clips import clip_of
from .faults import Stop
from .forms import read_raster, rgb_over, rgb_planes, scaled
from .floats import pfm
from .floats import hdr as radiance
from .layers import Layer, Piece, averaged, free_rectangles, normals_of, whole_cells
from .matching import matched
from .pixel_files import Pixels
from .png import Raster, interleaved, png
from .recipe import Input

MOST_PIECES = 16
# Colours of strokes, for whoever paints marks in colours that are seen: those of pictures 1 to 6.
STROKES = {
    (255, 0, 0): 1,
    (0, 255, 0): 2,
    (0, 0, 255): 3,
    (255, 255, 0): 4,
    (255, 0, 255): 5,
    (0, 255, 255): 6,
}


def p6(width: int, height: int, maxval: int, cells: bytes) -> bytes:
    """A P6 file."""
    return b"P6\n%d %d\n%d\n" % (width, height, maxval) + cells


def picture_of(path: str, wanted: Input, factor: int = 1) -> Raster:
    """The picture of an input: the part that is asked for, in the size that is. Of a layer of
    `factor` times the sample's size the part is as much larger."""
    return taken(read_raster(path), path, wanted, factor)


def taken(raster: Raster, path: str, wanted: Input, factor: int = 1) -> Raster:
    """The part of a picture that is asked for, in the size that is."""
    if wanted.crop:
        width, height, x, y = (factor * number for number in wanted.crop)
        if x + width > raster.width or y + height > raster.height:
            size = f"{raster.width // factor}x{raster.height // factor}"
            raise Stop(f"{path}: --crop asks for pixels outside of its {size}")
        raster = raster.part(x, y, width, height)
    return scaled(raster, path, *wanted.scale) if wanted.scale else raster


def clip_bytes(path: str, wanted: Input, say: Callable[[str], None] = print) -> bytes:
    """The y4m file of a video."""
    options = argparse.Namespace(crop=wanted.crop, frames=wanted.frames, scale=wanted.scale)
    return clip_of(path, options, say)


def sample_bytes(raster: Raster, over: Tuple[int, int, int], cell: int, piece: Piece) -> bytes:
    """The P6 file of a sample, or of a piece of it: what the search sees."""
    part = raster.part(*(cell * n for n in (piece.x, piece.y, piece.width, piece.height)))
    if cell == 1 and part.is_plain() and part.maxval != 255 and part.colour == 2:
        return p6(part.width, part.height, part.maxval, part.data)
    rgb = averaged(rgb_over(part, over), part.width, part.height, cell)
    return p6(piece.width, piece.height, 255, rgb)


def kept_file(raster: Raster, stem: str) -> Tuple[str, bytes]:
    """The name and the bytes of a picture that is kept with all its bits."""
    if raster.kind == "float":
        return stem + ".pfm", pfm(raster)
    if raster.kind == "rgbe":
        return stem + ".hdr", radiance(raster)
    if raster.maxval != (1 << raster.depth) - 1:
        raster = Raster(raster.width, raster.height, 3, 8, interleaved(raster.rgb()))
    return stem + ".png", png(raster)


def target_bytes(
    raster: Raster, over: Tuple[int, int, int], cell: int, sample: Optional[Pixels]
) -> bytes:
    """The P6 file of a target; with the lights and colours of a sample, where one is given."""
    whole = whole_cells(raster, cell)
    if sample is None and cell == 1 and raster.is_plain() and raster.maxval != 255:
        return p6(raster.width, raster.height, raster.maxval, raster.data)
    rgb = averaged(rgb_over(whole, over), whole.width, whole.height, cell)
    if sample is not None:
        rgb = matched(rgb, sample.cells, sample.size[0], sample.size[1])
        if sample.form[1] != 255:
            most = int(sample.form[1])
            rgb = rgb.translate(bytes(min(most, byte) for byte in range(256)))
    maxval = 255 if sample is None else int(sample.form[1])
    return p6(whole.width // cell, whole.height // cell, maxval, rgb)


# Layers.


def layer_pictures(
    paths: Sequence[str],
    wanted: Sequence[Input],
    samples: Sequence[Tuple[int, int]],
    cell: int,
    normals: Optional[str],
) -> Layer:
    """The pictures of a layer, whose sizes are those of the samples, or all the same number of times
    as much. Sizes are those of the samples' files, and then of whole cells of the parts."""
    rasters, factors = [], set()
    for path, one, (width, height) in zip(paths, wanted, samples):
        raster = read_raster(path)
        factor = max(1, raster.width // width)
        if (raster.width, raster.height) != (factor * width, factor * height):
            size = f"{raster.width}x{raster.height}"
            raise Stop(
                f"{path}: is of {size}, and not of the sample's {width}x{height} or k times that",
                3,
            )
        factors.add(factor)
        raster = taken(raster, path, one, factor)
        if normals:
            raster = normals_of(raster, path)
        rasters.append(whole_cells(raster, factor * cell))
    if len(factors) > 1:
        raise Stop(
            f"{', '.join(paths)}: aren't all the same number of times as large as the samples",
            3,
        )
    return Layer(rasters, cell * factors.pop(), normals)


# Marks.


def marks_bytes(raster: Raster, name: str, cell: int, pictures: int) -> bytes:
    """The P6 file of the marks of a merge: of the numbers of pictures, or of strokes in colours, on
    black or on nothing. A cell is of the picture that any of its pixels is of."""
    planes, solid = rgb_planes(raster), raster.solid()
    if solid:
        if set(solid) != {0, 255}:
            mend = "Paint without smoothing."
            raise Stop(
                f"{name}: has half transparent pixels, which mark nothing for sure. {mend}", 3
            )
        planes = [bytes([min(a, b) for a, b in zip(plane, solid)]) for plane in planes]
    colours = list(zip(*planes))
    numbers = {colour: number_of(colour, pictures) for colour in set(colours)}
    bad = next((i for i, colour in enumerate(colours) if numbers[colour] is None), None)
    if bad is not None:
        where = f"{bad % raster.width},{bad // raster.width}"
        red, green, blue = colours[bad]
        raise Stop(
            f"{name}: the colour {red},{green},{blue} at {where} marks no picture. Paint pure red, "
            "green, blue, yellow, magenta or cyan for pictures 1 to 6 on black, without smoothing.",
            3,
        )
    marks = bytes([numbers[colour] or 0 for colour in colours])
    width, height = raster.width, raster.height
    if cell > 1:
        marks = cell_marks(marks, width, height, cell, name)
        width, height = width // cell, height // cell
    return p6(width, height, 255, interleaved([marks, bytes(len(marks)), bytes(len(marks))]))


def number_of(colour: Tuple[int, ...], pictures: int) -> Optional[int]:
    """The number of the picture that a colour marks, or 0; None where there is no such picture."""
    plain = colour[0] if not colour[1] and not colour[2] else None
    number = STROKES.get((colour[0], colour[1], colour[2]), plain)
    return number if number is not None and number <= pictures else None


def cell_marks(marks: bytes, width: int, height: int, cell: int, name: str) -> bytes:
    """The mark of each cell; a Stop where a cell has marks of two pictures."""
    found = bytearray()
    for y in range(0, height // cell * cell, cell):
        lines = [marks[width * (y + i) : width * (y + i + 1)] for i in range(cell)]
        for x in range(0, width // cell * cell, cell):
            there = set(b"".join(line[x : x + cell] for line in lines)) - {0}
            if len(there) > 1:
                raise Stop(
                    f"{name}: marks of two pictures are in one cell of {cell}x{cell} at {x},{y}", 3
                )
            found.append(there.pop() if there else 0)
    return bytes(found)


# What isn't to be copied.


def pieces_without(raster: Raster, cell: int, most: int, least: int, name: str) -> List[Piece]:
    """The pieces of a picture in which a mask marks nothing: the largest rectangles of its black or
    clear cells."""
    planes, solid = rgb_planes(raster), raster.solid()
    marked = bytes(map(max, *planes))
    if solid:
        marked = bytes([min(a, b) for a, b in zip(marked, solid)])
    width, height = raster.width // cell, raster.height // cell
    rows = []
    for y in range(height):
        lines = [
            marked[raster.width * (cell * y + i) : raster.width * (cell * y + i + 1)]
            for i in range(cell)
        ]
        columns = [line[j : cell * width : cell] for line in lines for j in range(cell)]
        rows.append(bytes(map(any, zip(*columns))))
    found = free_rectangles(rows, most, least)
    if not found:
        raise Stop(f"{name}: leaves no part of {least}x{least} cells to copy from", 3)
    return [Piece(0, x, y, w, h) for x, y, w, h in found]


def whole_pieces(rasters: Sequence[Raster], cell: int) -> List[Piece]:
    """Each picture as one piece."""
    return [
        Piece(i, 0, 0, raster.width // cell, raster.height // cell)
        for i, raster in enumerate(rasters)
    ]


def check_registered(sizes: Dict[str, Tuple[int, int]]) -> None:
    """A Stop where pictures that have to lie over each other aren't of one size."""
    (first, size), *others = sizes.items()
    for name, other in others:
        if other != size:
            shape = "{}x{}".format
            raise Stop(f"{name}: is of {shape(*other)}, and {first} of {shape(*size)}", 3)
