"""The rules of records, by which `weave check` judges them: of cuts, of blocks and of walks."""
from array import array
from itertools import compress, count
from operator import and_, gt, mul, ne, not_, or_, sub
from struct import pack
from typing import Any, Iterable, Iterator, List, Optional, Sequence, Tuple, Union

from .faults import GREATEST, Size, cells_of
from .map_files import Block, Cut, Strip, Walk
from .pixel_files import Pixels
from .samples import Samples

Box = Union[Cut, Block]
# Costs of steps between frames; None where there is no step.
Table = List[List[Any]]
# Of each number of taps: how far a pair of frames is moved, and its weight.
WEIGHTS = {0: [(0, 1)], 2: [(-1, 1), (0, 1)], 4: [(-2, 1), (-1, 3), (0, 3), (1, 1)]}


class Wrong(Exception):
    """What is wrong with files that were read, as a line."""

    def __init__(self, line: str) -> None:
        super().__init__(line)
        self.line = line


class Broken(Wrong):
    """A broken rule: the number of the record, the rule and the place."""

    def __init__(self, number: int, rule: int, place: Optional[int]) -> None:
        super().__init__(f"fails record {number} rule {rule} place {place}")


def first(wrong: Iterable[Any]) -> Optional[int]:
    """The place of the first thing that is wrong; None where nothing is."""
    return next(compress(count(), wrong), None)


class Output:
    """An output as it is filled: the number of the sample cell of each cell, 0 where there is
    none, and the number of the record that put it there.
    """

    def __init__(self, samples: Samples, size: Size) -> None:
        self.samples, self.size = samples, size
        self.sources = [0] * cells_of(size)
        self.records = array("L", bytes(array("L").itemsize * len(self.sources)))

    def rows(self, box: Box) -> Iterator[Tuple[int, int, int]]:
        """Of each row of a box in raster order: its count, the place of its first cell, and the
        number of its new source.
        """
        (x, y, f), (_, height, frames) = box.corner, box.size
        part, sx, sy, sf = box.source
        for i in range(height * frames):
            row, frame = i % height, i // height
            place = x + self.size[0] * (y + row + self.size[1] * (f + frame))
            yield i, place, self.samples.number(part, sx, sy + row, sf + frame)

    def old(self, box: Box) -> List[int]:
        """The sources of the cells of a box in raster order."""
        width = box.size[0]
        return [
            source
            for _, place, _ in self.rows(box)
            for source in self.sources[place : place + width]
        ]

    def fits(self, box: Box) -> bool:
        sizes = self.samples.sizes[box.source[0] - 1]
        return all(c + n <= axis for c, n, axis in zip(box.corner, box.size, self.size)) and all(
            c + n <= axis for c, n, axis in zip(box.source[1:], box.size, sizes)
        )

    def put(self, box: Box, number: int) -> None:
        width, new = box.size[0], box.new
        for i, place, source in self.rows(box):
            for x in compress(range(width), new[width * i : width * (i + 1)]):
                self.sources[place + x] = source + x
                self.records[place + x] = number

    def beside(self, box: Box) -> bytearray:
        """Of each cell of a box whether it has a neighbour outside that has a source."""
        width, height, frames = box.size
        row, frame = self.size[0], self.size[0] * self.size[1]
        (x, y, f), (across, down, along) = box.corner, self.size
        marks = bytearray(cells_of(box.size))
        for i, place, _ in self.rows(box):
            sides = []
            if i % height == 0 and y > 0:
                sides.append(place - row)
            if i % height == height - 1 and y + height < down:
                sides.append(place + row)
            if i < height and f > 0:
                sides.append(place - frame)
            if i >= height * (frames - 1) and f + frames < along:
                sides.append(place + frame)
            for side in sides:
                for c, source in enumerate(self.sources[side : side + width], width * i):
                    marks[c] |= source > 0
            marks[width * i] |= x > 0 and self.sources[place - 1] > 0
            marks[width * (i + 1) - 1] |= x + width < across and self.sources[place + width] > 0
        return marks


class Check:
    """A record that is held against rules."""

    number = 1

    def hold(self, rule: int, wrong: Iterable[Any]) -> None:
        """Raises the broken rule with the place of the first thing that is wrong."""
        place = first(wrong)
        if place is not None:
            raise Broken(self.number, rule, place)


class CutCheck(Check):
    """Rules 2 to 6 of a cut over the output before it."""

    def __init__(self, output: Output, cut: Cut, number: int) -> None:
        self.samples, self.cut, self.number = output.samples, cut, number
        self.starts = [source for _, _, source in output.rows(cut)]
        self.old = output.old(cut)
        self.filled = bytes(map(bool, self.old))
        self.kept = bytes(map(and_, self.filled, output.beside(cut)))
        self.leaves, self.cost = [0] * len(self.old), 0

    def check(self) -> None:
        self.hold(2, map(not_, map(or_, self.filled, self.cut.new)))
        self.hold(3, map(and_, self.kept, self.cut.new))
        self.make_errors()
        self.check_pairs()
        self.hold(5, map(mul, self.leaves, map(gt, self.filled, self.kept)))
        self.hold(6, [sum(map(mul, self.leaves, self.kept)) != self.cost])

    def make_errors(self) -> None:
        """How far the old source of each cell is from its new one. Of a cell without an old one it
        doesn't count.
        """
        k, width, self.errors = self.samples.samples, self.cut.size[0], []
        for i, start in enumerate(self.starts):
            cells = self.reach(i)
            row, new = (
                self.old[width * i : width * i + cells],
                self.samples.bytes[k * start : k * (start + cells)],
            )
            apart = list(map(abs, map(sub, self.samples.drawn(row), new)))
            self.errors += list(map(sum, zip(*(apart[c::k] for c in range(k))))) + [0] * (
                width - cells
            )

    def reach(self, i: int) -> int:
        """Up to which cell of a row there are old sources."""
        at, width = self.cut.size[0] * i, self.cut.size[0]
        return max(self.filled.rfind(1, at, at + width) - at + 1, 0)

    def check_pairs(self) -> None:
        """Rule 4, row by row; and what leaves each cell, and the cost of all pairs after the
        choice.
        """
        (width, height, frames), at = self.cut.size, 0
        for i in range(height * frames):
            axes = [width > 1, i % height + 1 < height, i + height < height * frames]
            count = sum(axes) * width - axes[0]
            flows = self.cut.flows[2 * at : 2 * (at + count)]
            reach = max(
                self.reach(row)
                for row, is_there in zip((i, i + 1, i + height), [True] + axes[1:])
                if is_there
            )
            broken = [
                self.check_row(axis, axes, i, flows, reach) for axis in range(3) if axes[axis]
            ]
            # Between cells without a source nothing flows.
            rest = first(flows[2 * sum(axes) * reach :])
            broken.append(None if rest is None else sum(axes) * reach + rest // 2)
            if any(place is not None for place in broken):
                raise Broken(
                    self.number, 4, at + min(place for place in broken if place is not None)
                )
            at += count

    def check_row(
        self, axis: int, axes: List[bool], i: int, flows: Sequence[int], reach: int
    ) -> Optional[int]:
        """The pairs of a row along an axis, of so many cells: the number among the row's pairs of
        the first whose flow passes a bound, or None; then the flows are in what leaves each
        cell, and the costs in that of all.
        """
        (width, height, _), step, leaves, cost = (
            self.cut.size,
            self.samples.same[axis],
            self.leaves,
            0,
        )
        each, skip, shift = 2 * sum(axes), 2 * sum(axes[:axis]), (1, width, width * height)[axis]
        at, pairs = width * i, min(reach, width - 1 if axis == 0 else width)
        # The last cell of a row has no pair along X, so its others come sooner.
        places = list(range(skip, skip + each * pairs, each))
        places[width - 1 :] = [place - 2 * axes[0] for place in places[width - 1 :]]
        here, there = slice(at, at + pairs), slice(at + shift, at + shift + pairs)
        rows = [
            row[part] for row in (self.old, self.errors, self.cut.new) for part in (here, there)
        ]
        for s, place, a, b, near, far, new_s, new_t in zip(count(at), places, *rows):
            out, into = flows[place], flows[place + 1]
            if not a and not b:
                if out or into:
                    return place // 2
                continue
            if a and b and b - a == (step or self.samples.stride(axis, a)):
                w1, w2, w3 = near + far, near + far, 0
            else:
                w1, w2, w3 = self.costs(axis, s, s + shift)
            if not (
                -w1 <= out <= w1 and -w2 <= into <= w2 and 0 <= out - into <= w3
                if a and b
                else 0 <= out <= w1 and into == 0
                if a
                else out == 0 and -w2 <= into <= 0
            ):
                return place // 2
            leaves[s] += out
            leaves[s + shift] -= into
            if not (new_s and new_t):
                cost += w2 if new_s else w1 if new_t else w3
        self.cost += cost
        return None

    def costs(self, axis: int, s: int, t: int) -> Tuple[int, int, int]:
        """What a pair costs at a seam: old and new, new and old, old and old. Where a source is
        missing, 0.
        """
        distance, width = self.samples.distance, self.cut.size[0]
        a, b, u = self.old[s], self.old[t], self.starts[s // width] + s % width
        v = u + self.samples.stride(axis, u)
        after = a and a + self.samples.stride(axis, a)
        before = b and b - self.samples.stride(axis, b)
        w1 = self.errors[s] + distance(after, v) if a else 0
        w2 = distance(u, before) + self.errors[t] if b else 0
        return w1, w2, self.samples.seam(axis, a, b) if a and b else 0


class BlockCheck(Check):
    """Rules 8 to 11 of a block over the output before it."""

    def __init__(self, output: Output, block: Block, number: int) -> None:
        self.samples, self.block, self.number = output.samples, block, number
        self.old, self.starts = output.old(block), [source for _, _, source in output.rows(block)]
        self.columns = block.left.columns if block.left else 0
        self.strip_rows = block.top.columns if block.top else 0

    def check(self) -> None:
        block, width = self.block, self.block.size[0]
        in_strips = [
            i % width < self.columns or i // width < self.strip_rows for i in range(len(self.old))
        ]
        self.hold(8, map(ne, in_strips, map(bool, self.old)))
        if block.left:
            self.check_strip(
                block.left, [self.errors(row, self.columns) for row in range(block.size[1])]
            )
        if block.top:
            self.check_strip(
                block.top, list(zip(*(self.errors(row, width) for row in range(self.strip_rows))))
            )

    def errors(self, row: int, cells: int) -> List[int]:
        """The sums of squared differences of the first cells of a row of the block."""
        at, k = self.block.size[0] * row, self.samples.samples
        new = self.samples.bytes[k * self.starts[row] : k * (self.starts[row] + cells)]
        old = self.samples.drawn(self.old[at : at + cells])
        squares = [(p - q) ** 2 for p, q in zip(old, new)]
        return list(map(sum, zip(*(squares[c::k] for c in range(k)))))

    def check_strip(self, strip: Strip, errors: Sequence[Sequence[int]]) -> None:
        """A boundary through a strip, whose errors stand strip row by strip row."""
        path, sums = strip.path, strip.sums
        self.hold(
            9,
            (
                column >= strip.columns or abs(column - before) > 1
                for column, before in zip(path, [path[0], *path])
            ),
        )
        self.hold(
            10,
            (
                wrong
                for row in range(len(sums))
                for wrong in self.wrong_sums(row, sums, errors[row])
            ),
        )
        self.hold(11, [sum(row[column] for row, column in zip(errors, path)) != min(sums[-1])])

    @staticmethod
    def wrong_sums(
        row: int, sums: Sequence[Sequence[int]], errors: Sequence[int]
    ) -> Iterator[bool]:
        for column, (total, error) in enumerate(zip(sums[row], errors)):
            if row:
                yield total > error + min(sums[row - 1][max(0, column - 1) : column + 2])
            else:
                yield total != error


def products_of_frames(cells: bytes, n: int) -> List[List[int]]:
    """For each two of n frames the sum of the products of their bytes, by which their squared
    differences are known.

    The bytes of all frames at one place are one long number, with 48 bits for each, so that one
    product has those of a frame's byte with all of them.
    """
    length, sums = len(cells) // n, [0] * n
    for begin in range(0, length, 256):
        places = range(begin, min(begin + 256, length))
        joined = []
        for place in places:
            spaced = bytearray(6 * n)
            spaced[::6] = cells[place::length]
            joined.append(int.from_bytes(spaced, "little"))
        for i in range(n):
            sums[i] += sum(
                map(mul, cells[length * i + begin : length * i + begin + len(places)], joined)
            )
    rows = [number.to_bytes(6 * n, "little") for number in sums]
    return [[int.from_bytes(row[i : i + 6], "little") for i in range(0, 6 * n, 6)] for row in rows]


class WalkCheck(Check):
    """Rules 12 to 14 of a walk over a sample."""

    def __init__(self, sample: Pixels, walk: Walk) -> None:
        self.walk, n = walk, sample.size[2]
        products = products_of_frames(sample.cells, n)
        self.apart = [
            [products[i][i] + products[j][j] - 2 * products[i][j] for j in range(n)]
            for i in range(n)
        ]
        self.steps: Table = [[self.step(i, j) for j in range(n)] for i in range(n)]
        self.cost = 0

    def step(self, i: int, j: int) -> Optional[int]:
        """The cost of the step from a frame to another one; None where there is none."""
        if j == i + 1:
            return 0
        if abs(i + 1 - j) < self.walk.gap:
            return None
        terms = [(i + 1 + by, j + by, weight) for by, weight in WEIGHTS[self.walk.taps]]
        n = len(self.apart)
        if any(not (0 <= p < n and 0 <= q < n) for p, q, _ in terms):
            return None
        return sum(weight * self.apart[p][q] for p, q, weight in terms)

    def check(self) -> None:
        frames, n = list(self.walk.frames), len(self.steps)
        there = list(zip(frames, frames[1:] + frames[:1]))
        self.hold(12, (i >= n or (j < n and self.steps[i][j] is None) or j >= n for i, j in there))
        before, count = self.steps, 0
        for is_one_more, rows in zip(self.walk.steps, self.walk.tables):
            table = [[None if entry == GREATEST else entry for entry in row] for row in rows]
            place = first_above(table, before, self.steps if is_one_more else before)
            if place is not None:
                raise Broken(1, 13, count + place)
            before, count = table, count + n * n
        self.cost = sum(self.steps[i][j] for i, j in there)
        self.hold(14, (before[i][i] is not None and before[i][i] < self.cost for i in range(n)))


def first_above(table: Table, a: Table, b: Table) -> Optional[int]:
    """The first entry of a table that is above one of its sums of an entry of a and one of b.

    A row is one long number, with 64 bits for each of its entries, or 96 where some are large,
    so that one addition and one subtraction hold a whole row against its sums. An entry that is
    none is above each sum, and a sum with none above each entry.
    """
    most = max(
        entry for rows in (table, a, b) for row in rows for entry in row + [0] if entry is not None
    )
    width = 8 if most < 1 << 60 else 12
    none_here, none_there, top = (1 << 8 * width - bits for bits in (3, 2, 1))

    def joined(numbers: Sequence[int]) -> int:
        whole = (
            pack(f"<{len(numbers)}Q", *numbers)
            if width == 8
            else b"".join(n.to_bytes(12, "little") for n in numbers)
        )
        return int.from_bytes(whole, "little")

    n = len(table)
    ones, tops = joined([1] * n), joined([top] * n)
    rows: List[int] = [
        joined([none_there if entry is None else entry for entry in row]) for row in b
    ]
    for i in range(n):
        entries = [none_here if entry is None else entry for entry in table[i]]
        less = tops - joined(entries)
        for v in range(n):
            if a[i][v] is not None and (rows[v] + a[i][v] * ones + less) & tops != tops:
                break
        else:
            continue
        bounds = [
            [a[i][v] + b[v][j] for v in range(n) if a[i][v] is not None and b[v][j] is not None]
            for j in range(n)
        ]
        above = (entries[j] > min(bounds[j], default=none_there) for j in range(n))
        return n * i + next(j for j, is_above in enumerate(above) if is_above)
    return None
