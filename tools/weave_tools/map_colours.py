"""Draws the map of a picture as colours, with a line at each seam."""
from typing import List, Sequence

from .faults import Size
from .map_files import Named, Source, is_map_of_turns, read_map
from .safe_files import refuse_inputs, written
from .samples import TURNS, places_in_turns


# Of each turn: as it is, and by 1, 2 and 3 quarters; then the same of the mirrored sample.
COLOURS = [
    (90, 90, 96),
    (176, 48, 40),
    (38, 84, 160),
    (120, 78, 30),
    (196, 196, 204),
    (240, 130, 118),
    (122, 172, 240),
    (214, 170, 104),
]


def colour(source: Source, samples: Sequence[Size], by_turn: bool) -> bytes:
    """The colour of a cell by the number and the place of its source."""
    part, x, y, _ = source
    if by_turn:
        return bytes(COLOURS[(part - 1) % TURNS])
    width, height, _ = samples[part - 1]
    blue = 70 if len(samples) == 1 else 40 + 200 * (part - 1) // (len(samples) - 1)
    return bytes((40 + 215 * x // width, 40 + 215 * y // height, blue))


def in_turns(columns: Sequence[Sequence[int]], samples: Sequence[Size]) -> List[Source]:
    """The sources that a map over turned samples names, as places of the turns: these have
    neighbours where a patch has.
    """
    moved = [places_in_turns(size) for size in samples]
    sources: List[Source] = []
    for part, turn, x, y, f in zip(*columns):
        to_x, to_y = moved[part - 1][turn][x, y]
        sources.append((TURNS * (part - 1) + turn + 1, to_x, to_y, f))
    return sources


def goes_on(source: Source, other: Source, along_x: bool) -> bool:
    """Whether a cell's neighbour has the neighbour of its source."""
    part, x, y, f = source
    return other == ((part, x + 1, y, f) if along_x else (part, x, y + 1, f))


def pixels_of_row(y: int, read: Named, sources: List[Source], zoom: int) -> List[bytearray]:
    """The rows of pixels of a row of cells, each with the seams at its right and its lower side."""
    width, height, _ = read.output
    rows = [bytearray() for _ in range(zoom)]
    for x in range(width):
        i = x + width * y
        cell = colour(sources[i], read.sizes, read.kind == 2)
        right = x + 1 < width and not goes_on(sources[i], sources[i + 1], True)
        below = y + 1 < height and not goes_on(sources[i], sources[i + width], False)
        for row in range(zoom):
            for column in range(zoom):
                is_seam = zoom > 1 and (right and column + 1 == zoom or below and row + 1 == zoom)
                rows[row] += b"\xff\xff\xff" if is_seam else cell
    return rows


def draw_map(map_name: str, out_name: str, zoom: str = "3") -> None:
    refuse_inputs(out_name, [map_name])
    each = int(zoom) if zoom.isdecimal() else 0
    if not 1 <= each <= 16:
        raise ValueError("ZOOM is from 1 to 16")
    read = read_map(map_name, is_map_of_turns(map_name))
    output = read.output
    if output[2] != 1:
        raise ValueError(f"{map_name} is the map of a clip")
    sources: List[Source] = (
        in_turns(read.columns, read.sizes)
        if read.kind == 2
        else [(part, x, y, f) for part, x, y, f in zip(*read.columns)]
    )
    with written(out_name, [map_name]) as out:
        out.write(b"P6\n%d %d\n255\n" % (each * output[0], each * output[1]))
        for y in range(output[1]):
            out.writelines(pixels_of_row(y, read, sources, each))
