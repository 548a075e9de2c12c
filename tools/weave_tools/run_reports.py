"""What the report of a run has to say, as far as its files show it."""
import re
from operator import sub
from typing import Any, Iterator, List, Optional, Sequence, Tuple

from .faults import Size
from .pixel_files import Pixels
from .samples import Samples

AXES = "xyf"
# Each line of a report: its word, and its value, or None where the files don't show it.
Lines = List[Tuple[str, Any]]


def neighbours(
    numbers: Sequence[int], size: Size, axis: int, wraps: bool
) -> Iterator[Tuple[int, int]]:
    """Each two neighbours of an output along an axis, and those across its edges where it wraps."""
    step = (1, size[0], size[0] * size[1])[axis]
    for at in range(0, len(numbers), step * size[axis]):
        line = numbers[at : at + step * size[axis]]
        yield from zip(line[:-step], line[step:])
        if wraps:
            yield from zip(line[-step:], line[:step])


def seams_of(samples: Samples, numbers: Sequence[int], size: Size, wrap: str = "") -> int:
    """What all neighbours of an output cost, by the numbers of its sources."""
    total = 0
    for axis, name in enumerate(AXES):
        step = samples.same[axis]
        for a, b in neighbours(numbers, size, axis, name in wrap):
            if b - a != (step or samples.stride(axis, a)):
                total += samples.seam(axis, a, b)
    return total


def match_of(out: Pixels, target: Pixels) -> int:
    """The sum of the squared differences of two pictures' bytes."""
    return sum(difference * difference for difference in map(sub, out.cells, target.cells))


def lines_of_cuts(run: Any) -> Lines:
    seams = seams_of(run.samples, run.numbers, run.out.size)
    return [
        ("grow", "{}x{}x{}".format(*run.out.size)),
        ("placements", None),
        ("rounds", None),
        ("seams", seams),
    ]


def lines_of_blocks(run: Any) -> Lines:
    strips = [strip for block in run.record.records for strip in (block.left, block.top) if strip]
    lines = [
        ("transfer" if run.target else "quilt", "{}x{}x{}".format(*run.out.size)),
        ("blocks", len(run.record.records)),
        ("boundaries", len(strips)),
        ("cost", sum(min(strip.sums[-1]) for strip in strips)),
    ]
    return lines + ([("match", match_of(run.out, run.target))] if run.target else [])


def lines_of_walk(run: Any) -> Lines:
    frames = run.record.records[0].frames
    return [("loop", len(frames)), ("start", frames[0]), ("cost", run.walk_cost)]


def lines_of_run(run: Any) -> Lines:
    """Each line of a report: its word, and its number, or None where the files don't show it."""
    if run.record:
        return (lines_of_cuts, lines_of_blocks, lines_of_walk)[run.record.kind](run)
    size, seams = "{}x{}x{}".format(*run.out.size), seams_of(
        run.samples, run.numbers, run.out.size, run.wrap or ""
    )
    if run.marks:
        return [("merge", size), ("pictures", len(run.samples.parts)), ("seams", seams)]
    return [("tile", size), ("placements", None), ("seams", seams)]


def report_fault(run: Any, text: str) -> Optional[str]:
    """What is wrong with the report of a run whose files stand; None where nothing is."""
    lines, wanted = text.split("\n"), lines_of_run(run)
    for number, (line, (word, value)) in enumerate(zip(lines, wanted), 1):
        if not re.fullmatch(
            f"{word} " + (r"(0|[1-9]\d{0,9})" if value is None else re.escape(str(value))),
            line,
            re.ASCII,
        ):
            return (
                f"the report's line {number} isn't '{word}{'' if value is None else f' {value}'}'"
            )
    if len(lines) != len(wanted) + 1 or lines[-1]:
        return f"the report hasn't {len(wanted)} lines"
    if wanted[0][0] == "grow" and sum(int(line.split()[1]) for line in lines[1:3]) != len(
        run.record.records
    ):
        return f"the report's placements and rounds aren't the {len(run.record.records)} records"
    return None
