"""Draws the output of a run of its samples and its map."""
from typing import BinaryIO, List

from .faults import Size
from .map_files import Named, is_map_of_turns, read_map
from .pixel_files import KINDS, Pixels
from .safe_files import refuse_inputs, written
from .samples import TURNS, Samples


def named_numbers(samples: Samples, read: Named) -> List[int]:
    """The number of the sample cell that a map of cells names for each output cell. A map over
    turned samples names a cell as it was before its turn.
    """
    if read.kind == 2:
        return [turned_number(samples, *entry) for entry in zip(*read.columns)]
    parts, xs, ys, fs = read.columns
    if len(samples.parts) > 1:
        return list(map(samples.number, parts, xs, ys, fs))
    at, (_, row, frame) = samples.firsts[0], samples.strides[0]
    if samples.sizes[0][2] == 1:
        return [at + x + row * y for x, y in zip(xs, ys)]
    return [at + x + row * y + frame * f for x, y, f in zip(xs, ys, fs)]


def turned_number(samples: Samples, part: int, turn: int, x: int, y: int, f: int) -> int:
    """The number of a cell of a turn, by its place before the turn."""
    return samples.number(TURNS * (part - 1) + turn + 1, *samples.moved[part - 1][turn][x, y], f)


def drawn_by(samples: Samples, read: Named) -> bytes:
    """The bytes of all output cells, as a map draws them of the samples, none of which is turned."""
    if read.kind == 2:
        parts, _, xs, ys, fs = read.columns
        return samples.drawn(map(samples.number, parts, xs, ys, fs))
    if read.kind == 0:
        return samples.drawn(named_numbers(samples, read))
    cells, length = samples.parts[0].cells, read.output[0] * read.output[1] * samples.samples
    return b"".join(cells[length * frame : length * (frame + 1)] for frame in read.frames)


def redraw(new_name: str, map_name: str, *sample_names: str) -> None:
    """Draws the output of samples and map alone."""
    refuse_inputs(new_name, [map_name, *sample_names])
    samples, read = Samples(sample_names), read_map(map_name, is_map_of_turns(map_name))
    cells = drawn_by(samples, read)
    with written(new_name, [map_name, *sample_names]) as out:
        write_pixels(out, samples.parts[0], read.output, cells)


def write_pixels(out: BinaryIO, like: Pixels, size: Size, cells: bytes) -> None:
    """Writes a picture or a clip, with the maxval or the tags of a sample."""
    if like.form[0] == "picture":
        out.write(b"P6\n%d %d\n%d\n" % (size[0], size[1], like.form[1]) + cells)
        return
    width, height, count = KINDS[str(like.form[1])]
    tags = b"".join(b" " + tag for tag in like.tags)
    out.write(b"YUV4MPEG2 W%d H%d" % (width * size[0], height * size[1]) + tags + b"\n")
    length = count * size[0] * size[1]
    for start in range(0, len(cells), length):
        planes = planes_of_frame(cells[start : start + length], size, str(like.form[1]))
        out.write(b"FRAME\n" + planes)


def planes_of_frame(frame: bytes, size: Size, kind: str) -> bytes:
    """The planes of a frame by the bytes of its cells: luma in rows of pixels, then Cb and Cr."""
    width, height, count = KINDS[kind]
    across, luma = size[0], bytearray(width * height * size[0] * size[1])
    for row in range(height * size[1]):
        begin, at = count * across * (row // height), width * across * row
        for column in range(width):
            first = begin + width * (row % height) + column
            luma[at + column : at + width * across : width] = frame[
                first : begin + count * across : count
            ]
    chroma = b"" if count == 1 else frame[count - 2 :: count] + frame[count - 1 :: count]
    return bytes(luma) + chroma
