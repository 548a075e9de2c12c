"""Whole runs: their files read, and judged by all rules."""
import argparse
import sys
from itertools import cycle, repeat
from operator import and_, gt, ne, or_
from typing import Any, List, Optional, Sequence, Tuple, Type

from .faults import Fault, cells_of, limit, read_bytes, refused
from .map_files import read_map, read_record
from .pixel_files import MOST_OUT_CELLS, MOST_OUTPUT_CELLS, Pixels, read_picture_file, read_pixels
from .rules import BlockCheck, Broken, CutCheck, Output, WalkCheck, Wrong, first
from .run_drawing import drawn_by, named_numbers, redraw
from .run_reports import AXES, report_fault
from .samples import Samples

LONGEST_REPORT = 4096


def read_target(name: str, sample: Pixels) -> Pixels:
    """The target of a transfer, whose maxval is that of the sample."""
    target = read_picture_file(name, "target")
    if target.form != sample.form:
        raise refused("target", "unlike")
    hold_output(target)
    return target


def read_marks(name: str, samples: Samples) -> bytes:
    """The marks of a merge: the number of a picture for each cell, or 0."""
    marks = read_picture_file(name, "marks")
    if marks.size != samples.sizes[0]:
        raise refused("marks", "unlike")
    numbers, greens, blues = (marks.cells[i::3] for i in range(3))
    bad = first(map(or_, map(gt, numbers, repeat(len(samples.parts))), map(or_, greens, blues)))
    if bad is not None:
        raise refused("marks", f"mark at {bad}")
    hold_output(marks)
    return numbers


def hold_output(picture: Pixels) -> None:
    """An output of this size is one that weave makes."""
    if cells_of(picture.size) > MOST_OUTPUT_CELLS:
        raise limit("output", cells_of(picture.size), MOST_OUTPUT_CELLS)


class Run:
    """The files of a run, as they were read."""

    def __init__(
        self,
        out_name: str,
        map_name: str,
        record_name: str,
        *sample_names: str,
        turns: bool = False,
        target: Optional[str] = None,
    ) -> None:
        self.samples = Samples(sample_names, turns, aligned=target is not None)
        self.target = None if target is None else read_target(target, self.samples.parts[0])
        self.out = read_pixels(out_name, "out", MOST_OUT_CELLS)
        self.map = read_map(map_name, turns)
        self.record: Any = read_record(record_name)
        self.output: Any = None
        self.numbers: Any = None
        self.walk_cost: Optional[int] = None
        self.marks: Optional[bytes] = None
        self.wrap: Optional[str] = None
        self.checks: List[Any] = [(1, CutCheck), (7, BlockCheck)]

    def go_together(self) -> bool:
        kinds = (self.map.kind == 1) == (self.record.kind == 2)
        blocks = self.record.kind == 1 and self.out.form[0] == "clip"
        lengths = self.record.kind != 2 or len(self.record.records[0].frames) == self.out.size[2]
        named = (self.map, self.samples.untouched), (self.record, self.samples.sizes)
        sizes = all((read.output, read.sizes) == (self.out.size, sizes) for read, sizes in named)
        return (
            sizes
            and self.out.form == self.samples.parts[0].form
            and kinds
            and not blocks
            and lengths
        )

    def check(self) -> None:
        """Raises the first rule that is broken."""
        if not self.go_together():
            raise Broken(0, 15, 0)
        if self.record.kind == 2:
            walk = self.record.records[0]
            check = WalkCheck(self.samples.parts[0], walk)
            check.check()
            self.walk_cost = check.cost
            left, named = list(walk.frames), self.map.frames
        else:
            self.replay()
            self.numbers = named_numbers(self.samples, self.map)
            left, named = self.output.sources, self.numbers
        if left != named:
            raise Broken(0, 16, first(a != b for a, b in zip(left, named)))
        self.check_pixels()
        if self.target and self.out.size != self.target.size:
            raise Wrong("the output doesn't have the target's size")

    def check_report(self, name: str) -> None:
        """Raises what is wrong with the report of files that stand."""
        wrong = report_fault(self, read_bytes(name, "report", LONGEST_REPORT).decode("latin-1"))
        if wrong:
            raise Wrong(wrong)

    def check_pixels(self) -> None:
        k, out = self.samples.samples, self.out.cells
        drawn = (
            self.samples.drawn(self.numbers) if self.numbers else drawn_by(self.samples, self.map)
        )
        if drawn != out:
            raise Broken(
                0, 17, first(drawn[i : i + k] != out[i : i + k] for i in range(0, len(out), k))
            )

    def replay(self) -> None:
        self.output = Output(self.samples, self.out.size)
        rule, check = self.checks[self.record.kind]
        for number, record in enumerate(self.record.records, 1):
            if not self.output.fits(record):
                raise Broken(number, rule, 0)
            check(self.output, record, number).check()
            self.output.put(record, number)

    def cell(self, x: int, y: int, f: int) -> Tuple[Any, ...]:
        """Of an output cell of files that stand: its bytes, the sample's number and place that the
        map names, the bytes there, and the number of the record that put it there, or of the
        step of a walk.
        """
        width, height, _ = self.out.size
        i, k = x + width * (y + height * f), self.samples.samples
        record = self.output.records[i] if self.output else f + 1
        number = (
            self.numbers[i] if self.numbers else self.samples.number(1, x, y, self.map.frames[f])
        )
        return (
            self.out.cells[k * i : k * (i + 1)],
            self.samples.place(number),
            self.samples.cell(number),
            record,
        )


class Unrecorded(Run):
    """The files of a tile, with the axes on which its edges meet, or of a merge with its marks:
    these have no record.
    """

    def __init__(
        self,
        out_name: str,
        map_name: str,
        *sample_names: str,
        wrap: Optional[str] = None,
        marks: Optional[str] = None,
    ) -> None:
        self.samples = Samples(sample_names, aligned=marks is not None)
        self.marks, self.wrap = None if marks is None else read_marks(marks, self.samples), wrap
        self.out, self.map = read_pixels(out_name, "out", MOST_OUT_CELLS), read_map(map_name)
        self.output = self.record = self.numbers = self.target = None

    def go_together(self) -> bool:
        sizes = self.map.output == self.out.size and self.map.sizes == self.samples.sizes
        return sizes and self.map.kind == 0 and self.out.form == self.samples.parts[0].form

    def check(self) -> None:
        if not self.go_together():
            raise Broken(0, 15, 0)
        self.numbers = named_numbers(self.samples, self.map)
        self.check_pixels()
        for axis, cells in zip(AXES, self.out.size):
            if axis in (self.wrap or "") and cells < 3:
                raise Wrong(
                    f"the output has {cells} cells on the axis {axis}, where its edges can't meet"
                )
        if self.marks is not None:
            self.check_merge()

    def check_merge(self) -> None:
        parts, xs, ys, _ = self.map.columns
        width, height, _ = self.out.size
        if self.out.size != self.samples.sizes[0]:
            raise Wrong("the output doesn't have the pictures' size")
        moved = first(
            map(
                or_,
                map(ne, xs, cycle(range(width))),
                map(ne, ys, (y for y in range(height) for _ in range(width))),
            )
        )
        if moved is not None:
            raise Wrong(f"cell {moved} comes from another place of its picture")
        other = first(map(and_, map(bool, self.marks or b""), map(ne, self.marks or b"", parts)))
        if other is not None:
            raise Wrong(f"cell {other} isn't of the picture that is marked there")

    def cell(self, x: int, y: int, f: int) -> Tuple[Any, ...]:
        return super().cell(x, y, f)[:3] + (None,)


def judge(
    kind: Type[Run], names: Sequence[str], report: Optional[str] = None, **how: Any
) -> Tuple[int, str]:
    """The status and the line for the files of a run."""
    try:
        run = kind(*names, **how)
        run.check()
        if report is not None:
            run.check_report(report)
    except Fault as fault:
        return fault.status, fault.line
    except Wrong as wrong:
        return 1, wrong.line
    return 0, "stands"


def verify(*names: str, **how: Any) -> Tuple[int, str]:
    """The status and the line of `weave check` for out file, map, record and samples; with
    `turns`, a `target` or a `report` also by these.
    """
    return judge(Run, names, **how)


def verify_unrecorded(*names: str, **how: Any) -> Tuple[int, str]:
    """The same for out file, map and samples of a tile or a merge, by `wrap` or `marks`, and a
    `report`.
    """
    return judge(Unrecorded, names, **how)


def options_of(words: List[str], usage: str) -> argparse.Namespace:
    """The options and files that the words of verify.py name."""
    parser = argparse.ArgumentParser(usage=usage, add_help=False)
    parser.add_argument("--turns", action="store_true")
    for name in ("--report", "--target", "--marks", "--redraw"):
        parser.add_argument(name)
    parser.add_argument("--wrap", choices=["x", "y", "xy", "f", "xyf"])
    parser.add_argument("files", nargs="*")
    options = parser.parse_args(words)
    kinds = ("turns", "target", "marks", "redraw", "wrap")
    how = [name for name in kinds if getattr(options, name) not in (None, False)]
    least = {"marks": 4, "redraw": 2, "wrap": 3}.get("".join(how), 4)
    most = {"target": 4, "wrap": 3}.get("".join(how), 19)
    together = len(how) <= 1 and not ("redraw" in how and options.report is not None)
    if not together or not least <= len(options.files) <= most:
        parser.error("these words don't go together")
    return options


def judged(options: argparse.Namespace) -> Tuple[int, str]:
    """What the words of verify.py ask for: the status, and the line to say, if any."""
    report = options.report
    if options.redraw is not None:
        redraw(options.redraw, *options.files)
        return 0, ""
    if options.marks is not None or options.wrap is not None:
        names = options.files
        return verify_unrecorded(*names, wrap=options.wrap, marks=options.marks, report=report)
    return verify(*options.files, turns=options.turns, target=options.target, report=report)


def main(words: List[str], usage: str) -> None:
    """The program verify.py: says its line; raises Stop with the status where it isn't 0."""
    status, line = judged(options_of(words, usage))
    if status > 1:
        raise Fault(status, line[len("weave: ") :])
    if line:
        print(line, flush=True)
    if status:
        sys.exit(status)
