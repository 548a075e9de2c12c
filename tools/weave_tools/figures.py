"""What a map shows of a result: how its seams are, and how much it repeats."""
import re
from collections import Counter
from itertools import accumulate
from typing import List, NamedTuple, Optional, Sequence

from .faults import cells_of
from .map_files import Named

# The sides of the neighbourhood whose copies are counted, in cells.
NEIGHBOURHOOD = 33


class Figures(NamedTuple):
    """Seam cost for each cell; the share of the sample's cells that are used, in percent; how
    often the most copied neighbourhood of 33x33 cells comes, which is the mean use of its cells;
    and how often each would come if all came alike. The last three are None of clips."""

    seams: float
    used: Optional[float]
    most: Optional[float]
    fair: Optional[float]

    @property
    def repeats(self) -> float:
        """How often the most copied neighbourhood comes against its fair share."""
        return self.most / self.fair if self.most and self.fair else 1.0

    def line(self) -> str:
        """The figures in words."""
        text = f"seams {self.seams:.2f} a cell"
        if self.most is None:
            return text
        return f"{text}, used {self.used:.0f}% of the sample, most {self.most:.1f} (fair {self.fair:.1f})"


def figures_of(cost: int, read: Named) -> Figures:
    """The figures of a result, by the cost that its report names and its map."""
    cells = cells_of(read.output)
    seams = cost / cells
    if read.kind == 1 or any(size[2] > 1 for size in read.sizes):
        return Figures(seams, None, None, None)
    used, most = 0, 0.0
    for number, (width, height, _) in enumerate(read.sizes, 1):
        uses = uses_of(read, number, width, height)
        used += sum(1 for use in uses if use)
        most = max(most, most_copied(uses, width, height))
    total = sum(cells_of(size) for size in read.sizes)
    return Figures(seams, 100 * used / total, most, cells / total)


def uses_of(read: Named, number: int, width: int, height: int) -> List[int]:
    """How often each cell of a sample is a source."""
    parts, xs, ys = read.columns[0], read.columns[-3], read.columns[-2]
    found = Counter([x + width * y for part, x, y in zip(parts, xs, ys) if part == number])
    return [found[i] for i in range(width * height)]


def most_copied(uses: Sequence[int], width: int, height: int) -> float:
    """The greatest mean use of a neighbourhood of 33x33 cells, or of as many as there are."""
    w, h = min(NEIGHBOURHOOD, width), min(NEIGHBOURHOOD, height)
    rows: List[List[int]] = []
    for y in range(height):
        sums = [0, *accumulate(uses[width * y : width * (y + 1)])]
        rows.append([after - before for before, after in zip(sums, sums[w:])])
    column = [sum(values) for values in zip(*rows[:h])]
    greatest = max(column)
    for leaving, coming in zip(rows, rows[h:]):
        column = [total - old + new for total, old, new in zip(column, leaving, coming)]
        greatest = max(greatest, max(column))
    return greatest / (w * h)


def cost_of(report: str, alpha: int) -> int:
    """The cost that a report names; of a transfer that of its boundaries and of how it matches, as
    they are weighed."""
    lines = re.findall(r"^(seams|cost|match) (\d+)$", report, re.M)
    found = {name: int(number) for name, number in lines}
    cost = found.get("seams", found.get("cost", 0))
    return (alpha * cost + (100 - alpha) * found["match"]) // 100 if "match" in found else cost


def scores(figures: Sequence[Figures]) -> List[float]:
    """Of each of several tries how good it is, less being better: its seams and its repetition, each
    against the mean of all tries, weighed alike."""
    seams = sum(figure.seams for figure in figures) / len(figures) or 1.0
    repeats = sum(figure.repeats for figure in figures) / len(figures)
    return [(figure.seams / seams + figure.repeats / repeats) / 2 for figure in figures]
