"""Readers of maps and records, with no help of weave.

A file that isn't in its form or within the limits is a Fault, with the status and the line of
`weave check`. Memory is taken for what a file holds, and not for what its numbers claim.
docs/FORMATS.md has the forms, in the same order. A file whose name ends in .gz is read through
gzip.
"""
import io
import sys
from array import array
from typing import TYPE_CHECKING, Any, BinaryIO, List, Sequence, Tuple, Union

from .faults import GREATEST, Fault, Size, cells_of, limit, open_file, read_some, refused
from .pixel_files import MOST_AXIS
from .samples import MOST_PARTS, TURNS

MOST_MAP_CELLS, MOST_RECORD_CELLS = 1 << 20, 1 << 25
MOST_FRAMES, MOST_LENGTH, MOST_GAP, PIECE = 256, 4096, 256, 1 << 20
# The number of a sample, and x, y, f in it.
Source = Tuple[int, int, int, int]
if TYPE_CHECKING:
    Numbers = array[int]


def numbers_in(data: bytes, letter: str) -> "Numbers":
    """The numbers that bytes are, the most significant byte of each first."""
    numbers = array(letter)
    numbers.frombytes(data)
    if sys.byteorder == "little":
        numbers.byteswap()
    return numbers


class Fields:
    """The fields of a file, one after another, each of which has to be whole and to have a value
    that it may have. A file is read as far as its fields are, so that a long one takes no memory.
    """

    def __init__(self, data: Union[bytes, BinaryIO], key: str) -> None:
        self.file: BinaryIO = io.BytesIO(data) if isinstance(data, bytes) else data
        self.key, self.at = key, 0

    def form(self, at: int) -> Fault:
        """The refusal of a field that begins at a byte."""
        return refused(self.key, f"form at {at}")

    def some(self, count: int) -> bytes:
        """The next bytes, which may be fewer where the file ends."""
        data = read_some(self.file, self.key, count)
        self.at += len(data)
        return data

    def take(self, count: int) -> bytes:
        """The next bytes."""
        data = self.some(count)
        if len(data) < count:
            raise self.form(self.at)
        return data

    def number(self, count: int, least: int = 0, most: int = GREATEST) -> int:
        """A number of so many bytes, the most significant one first."""
        n = int.from_bytes(self.take(count), "big")
        if not least <= n <= most:
            raise self.form(self.at - count)
        return n

    def numbers(self, how_many: int, letter: str) -> "Numbers":
        """So many numbers of any value, as an array."""
        return numbers_in(self.take(how_many * array(letter).itemsize), letter)

    def axis(self) -> int:
        n = self.number(4, 1)
        if n > MOST_AXIS:
            raise limit("axis", n, MOST_AXIS)
        return n

    def size(self) -> Size:
        return self.axis(), self.axis(), self.axis()

    def source(self, version: int, sizes: Sequence[Size], turns: bool = False) -> Source:
        """The number of a sample, and x, y, f in it. With turns the number of a turn stands
        between them, and is read past.
        """
        part = 1 if version == 1 else self.number(2, 1, len(sizes))
        if turns:
            self.number(2, 0, TURNS - 1)
        x, y, f = (self.number(2, 0, axis - 1) for axis in sizes[part - 1])
        return part, x, y, f

    def end(self) -> None:
        """Nothing may follow."""
        at = self.at
        if self.some(1):
            raise self.form(at)


class Named:
    """What a map or record file says: the sizes that it names, its kind, and its entries or
    records. A map over turned samples is of kind 2, which is read where it is asked for.
    """

    def __init__(self, fields: Fields, magic: bytes, kinds: int, turns: bool = False) -> None:
        if fields.take(8) != magic:
            raise fields.form(0)
        self.version = fields.number(1, 2 if turns else 1, 2)
        most_kind = kinds - 1 if self.version == 1 else 0
        self.kind = fields.number(1, 2, 2) if turns else fields.number(1, 0, most_kind)
        self.output = fields.size()
        self.sizes: List[Size]
        self.frames: List[int] = []
        self.columns: List["Numbers"] = []
        self.records: List[Any] = []
        if magic == b"WEAVEMAP" and self.kind == 1:
            self.sizes = [
                (
                    fields.number(4, self.output[0], self.output[0]),
                    fields.number(4, self.output[1], self.output[1]),
                    fields.axis(),
                )
            ]
        else:
            most = MOST_PARTS // TURNS if turns else MOST_PARTS
            count = 1 if self.version == 1 else fields.number(2, 1, most)
            self.sizes = [fields.size() for _ in range(count)]


def are_sources(words: "Numbers", width: int, sizes: Sequence[Size]) -> bool:
    """Whether each of the sources that stand one after another, of so many numbers each, lies in
    its sample.
    """
    if width == 3:
        return all(max(words[i::3]) < sizes[0][i] for i in range(3))
    if width == 5 and max(words[1::5]) >= TURNS:
        return False
    places = [words[i::width] for i in range(width - 3, width)]
    return all(
        1 <= part <= len(sizes)
        and x < sizes[part - 1][0]
        and y < sizes[part - 1][1]
        and f < sizes[part - 1][2]
        for part, x, y, f in zip(words[0::width], *places)
    )


def read_map(name: str, turns: bool = False) -> Named:
    """A map, with the sources as columns, of the samples' numbers, with turns of these, and of x,
    y and f; or with the frames.
    """
    with open_file(name, "map") as file:
        return map_in(Fields(file, "map"), turns)


def map_in(fields: Fields, turns: bool) -> Named:
    """The map in fields."""
    read = Named(fields, b"WEAVEMAP", 2, turns)
    if read.kind == 1:
        read.frames = [fields.number(2, 0, read.sizes[0][2] - 1) for _ in range(read.output[2])]
    else:
        cells, width = cells_of(read.output), 5 if turns else 3 if read.version == 1 else 4
        if cells > MOST_MAP_CELLS:
            raise limit("cells", cells, MOST_MAP_CELLS)
        at, data = fields.at, fields.some(2 * width * cells)
        words = numbers_in(data[: len(data) // 2 * 2], "H")
        if len(data) < 2 * width * cells or not are_sources(words, width, read.sizes):
            again = Fields(data, "map")
            again.at = at
            for _ in range(cells):
                again.source(read.version, read.sizes, turns)
        read.columns = [words[i::width] for i in range(width)]
        if width == 3:
            read.columns.insert(0, array("H", [1]) * cells)
    fields.end()
    return read


def is_map_of_turns(name: str) -> bool:
    """Whether a map file says that it is one over turned samples."""
    with open_file(name, "map") as file:
        return read_some(file, "map", 10)[8:] == b"\2\2"


class Cut:
    """A placement: corner and size of its box, its source, the choice (1 for new) and the flows,
    two for each pair.
    """

    def __init__(self, fields: Fields, version: int, sizes: Sequence[Size], before: int) -> None:
        self.corner: Size = (fields.number(2), fields.number(2), fields.number(2))
        self.size: Size = (fields.number(2, 1), fields.number(2, 1), fields.number(2, 1))
        (w, h, f), count = self.size, cells_of(self.size)
        if before + count > MOST_RECORD_CELLS:
            raise limit("records", before + count, MOST_RECORD_CELLS)
        self.source: Source = fields.source(version, sizes)
        at, bits = fields.at, fields.take((count + 7) // 8)
        if count % 8 and bits[-1] & (255 >> count % 8):
            raise fields.form(at)
        text = bin(1 << 8 * len(bits) | int.from_bytes(bits, "big"))[3 : 3 + count]
        self.new = text.encode().translate(bytes(256)[:48] + b"\0\1" + bytes(206))
        self.flows = fields.numbers(2 * (3 * count - h * f - w * f - w * h), "h")


class Strip:
    """A boundary through a strip: the strip's columns, the path, and the sums row by row."""

    def __init__(self, fields: Fields, rows: int, most: int) -> None:
        self.columns = fields.number(2, 1, most)
        self.path = fields.numbers(rows, "H")
        sums = fields.numbers(rows * self.columns, "I")
        self.sums = [sums[i : i + self.columns] for i in range(0, len(sums), self.columns)]


class Block:
    """A block of a quilt: corner, size and source, and its strips, where there are any."""

    def __init__(self, fields: Fields, before: int) -> None:
        self.corner: Size = (fields.number(2), fields.number(2), 0)
        self.size: Size = (fields.number(2, 1), fields.number(2, 1), 1)
        count = cells_of(self.size)
        if before + count > MOST_RECORD_CELLS:
            raise limit("records", before + count, MOST_RECORD_CELLS)
        self.source: Source = (1, fields.number(2), fields.number(2), 0)
        strips = fields.number(1, 0, 3)
        self.left = Strip(fields, self.size[1], self.size[0]) if strips & 1 else None
        self.top = Strip(fields, self.size[0], self.size[1]) if strips & 2 else None

    @property
    def new(self) -> bytearray:
        """Which cells are new, in raster order: those from the path on of each strip that has
        them.
        """
        w, h, _ = self.size
        marks = bytearray(b"\1" * (w * h))
        if self.left:
            for row, column in enumerate(self.left.path):
                old = min(self.left.columns, column)
                marks[w * row : w * row + old] = bytes(old)
        if self.top:
            for column, row in enumerate(self.top.path):
                old = min(self.top.columns, row)
                marks[column : w * old : w] = bytes(old)
        return marks


class Walk:
    """A walk of frames, with its filter and its tables, row by row."""

    def __init__(self, fields: Fields, frames: int) -> None:
        if frames > MOST_FRAMES:
            raise limit("frames", frames, MOST_FRAMES)
        length = fields.number(4, 1)
        if length > MOST_LENGTH:
            raise limit("loop", length, MOST_LENGTH)
        self.taps = fields.number(1)
        if self.taps not in (0, 2, 4):
            raise fields.form(fields.at - 1)
        self.gap = fields.number(2, 1, MOST_GAP)
        self.frames = fields.numbers(length, "H")
        self.steps = table_steps(length)
        entries = fields.numbers(len(self.steps) * frames * frames, "Q")
        rows = [entries[i : i + frames] for i in range(0, len(entries), frames)]
        self.tables = [rows[i : i + frames] for i in range(0, len(rows), frames)]


def table_steps(length: int) -> List[bool]:
    """Of each table of a walk, whether it is of one step more than the one before it, and not of
    twice as many.
    """
    return [
        more for digit in bin(length)[3:] for more in ([False, True] if digit == "1" else [False])
    ]


def read_record(name: str) -> Named:
    """A record."""
    with open_file(name, "record") as file:
        return record_in(Fields(file, "record"))


def record_in(fields: Fields) -> Named:
    """The record in fields."""
    read = Named(fields, b"WEAVEREC", 3)
    if read.kind == 2:
        read.records = [Walk(fields, read.sizes[0][2])]
    else:
        before = 0
        for _ in range(fields.number(4)):
            cuts = read.kind == 0
            record = (
                Cut(fields, read.version, read.sizes, before) if cuts else Block(fields, before)
            )
            read.records.append(record)
            before += cells_of(read.records[-1].size)
    fields.end()
    return read
