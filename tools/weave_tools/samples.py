"""The samples of a run as one row of numbered cells, with their turns."""
from array import array
from bisect import bisect
from itertools import chain
from operator import sub
from typing import Any, Iterable, List, Sequence, Tuple

from .faults import Size, cells_of, limit, refused
from .pixel_files import KINDS, MOST_CELLS, Pixels, read_picture_file, read_pixels

MOST_PARTS, TURNS = 16, 8


def turned_rows(rows: List[Any], turn: int) -> List[Any]:
    """Rows of anything, mirrored where the turn is 4 or more, and then turned clockwise by so many
    quarters.
    """
    if turn >= 4:
        rows = [row[::-1] for row in rows]
    for _ in range(turn % 4):
        rows = list(zip(*rows[::-1]))
    return rows


def turned_pixels(part: Pixels, turn: int) -> Pixels:
    """A turn of a sample, whose cells are one pixel each."""
    (w, h, f), k = part.size, part.samples
    cells = [part.cells[i : i + k] for i in range(0, len(part.cells), k)]
    frames = []
    for i in range(0, w * h * f, w * h):
        rows = turned_rows([cells[at : at + w] for at in range(i, i + w * h, w)], turn)
        frames += [b"".join(row) for row in rows]
    return Pixels((len(rows[0]), len(rows), f), k, part.form, b"".join(frames), part.tags)


class Moves:
    """To which x and y a turn moves each cell of a frame, by the cell's own x and y."""

    def __init__(self, size: Size, turn: int) -> None:
        self.width, height, _ = size
        rows = turned_rows(
            [range(at, at + self.width) for at in range(0, self.width * height, self.width)], turn
        )
        self.turned_width, self.to = len(rows[0]), array("L", [0]) * (self.width * height)
        for at, cell in enumerate(chain.from_iterable(rows)):
            self.to[cell] = at

    def __getitem__(self, place: Tuple[int, int]) -> Tuple[int, int]:
        at = self.to[place[0] + self.width * place[1]]
        return at % self.turned_width, at // self.turned_width


def places_in_turns(size: Size) -> List[Moves]:
    """Of each turn the moves of the cells of a frame."""
    return [Moves(size, turn) for turn in range(TURNS)]


class Samples:
    """The samples of a run, or all turns of each. Each cell has a number: the bytes of all cells
    stand in one row, with so many others around each row and frame that the numbers of a cell's
    neighbours, which lie a stride away, are cells of the sample or lie outside. Number 0 is no
    cell.
    """

    def __init__(self, names: Sequence[str], turns: bool = False, aligned: bool = False) -> None:
        """`aligned` samples are pictures of one size."""
        many, total = TURNS if turns else 1, 0
        self.parts: List[Pixels] = []
        if turns and many * len(names) > MOST_PARTS:
            raise limit("parts", many * len(names), MOST_PARTS)
        for number, name in enumerate(names, 1):
            key = "sample" if number == 1 else f"sample{number}"
            pixels = read_picture_file(name, key) if aligned else read_pixels(name, key)
            if turns and not self.parts and KINDS.get(pixels.form[1], (1, 1))[:2] != (1, 1):
                raise refused(key, "colour space")
            if self.parts and (
                pixels.form != self.parts[0].form or aligned and pixels.size != self.parts[0].size
            ):
                raise refused(key, "unlike")
            total += many * cells_of(pixels.size)
            if total > MOST_CELLS:
                raise limit("cells", total, MOST_CELLS)
            self.parts.append(pixels)
        self.untouched = [part.size for part in self.parts]
        if turns:
            self.parts = [turned_pixels(part, turn) for part in self.parts for turn in range(TURNS)]
            self.moved = [places_in_turns(size) for size in self.untouched]
        self.sizes = [part.size for part in self.parts]
        self.samples = self.parts[0].samples
        self.strides = [[1, w + 1, (w + 1) * (h + 1)] for w, h, _ in self.sizes]
        # The stride of all samples along an axis; None where they differ.
        self.same = [
            strides[0] if len(set(strides)) == 1 else None for strides in zip(*self.strides)
        ]
        self.starts, self.firsts, rows, inside, at = [], [], [], [], 0
        for part, (_, row, frame) in zip(self.parts, self.strides):
            self.starts.append(at)
            self.firsts.append(at + frame + row + 1)
            rows.append(bytes((frame + row + 1) * self.samples))
            inside.append(bytes(frame + row + 1))
            self.lay_rows(part, rows, inside)
            at += frame * (part.size[2] + 2) + row + 1
        self.bytes, self.inside = b"".join(rows), b"".join(inside)

    def lay_rows(self, part: Pixels, rows: List[bytes], inside: List[bytes]) -> None:
        (w, h, f), k = part.size, self.samples
        for place in range(0, w * h * f * k, w * h * k):
            for start in range(place, place + w * h * k, w * k):
                rows += [part.cells[start : start + w * k], bytes(k)]
            rows.append(bytes((w + 1) * k))
        inside += [(b"\1" * w + b"\0") * h + bytes(w + 1)] * f
        rows.append(bytes((w + 1) * (h + 1) * k))
        inside.append(bytes((w + 1) * (h + 1)))

    def number(self, part: int, x: int, y: int, f: int) -> int:
        _, row, frame = self.strides[part - 1]
        return self.firsts[part - 1] + x + row * y + frame * f

    def place(self, number: int) -> Tuple[int, int, int, int]:
        """The sample's number and the place of a cell of it."""
        part = bisect(self.starts, number)
        _, row, frame = self.strides[part - 1]
        left = number - self.firsts[part - 1]
        return part, left % frame % row, left % frame // row, left // frame

    def stride(self, axis: int, number: int) -> int:
        return self.strides[bisect(self.starts, number) - 1][axis]

    def cell(self, number: int) -> bytes:
        return self.bytes[self.samples * number : self.samples * (number + 1)]

    def distance(self, a: int, b: int) -> int:
        """How far two cells are apart. One outside is as far as can be from one inside."""
        if self.inside[a] and self.inside[b]:
            return sum(map(abs, map(sub, self.cell(a), self.cell(b))))
        return 0 if self.inside[a] == self.inside[b] else 255 * self.samples

    def seam(self, axis: int, a: int, b: int) -> int:
        """What two cells cost beside each other along an axis: how far each is from the one beside
        the other in the sample.
        """
        return self.distance(a, b - self.stride(axis, b)) + self.distance(
            a + self.stride(axis, a), b
        )

    def drawn(self, numbers: Iterable[int]) -> bytes:
        """The bytes of cells by their numbers."""
        k, data = self.samples, self.bytes
        return b"".join([data[k * number : k * number + k] for number in numbers])
