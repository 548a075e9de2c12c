"""How long a run will take, and a bar while it runs."""
import sys
import time
from typing import List, Optional, Sequence

from .keys import Keys, lengths_of, number_in
from .pixel_files import Pixels

LONG = 10.0
# Seconds on a processor of 2.5 GHz: for each cell that a candidate is compared at, for each cell of
# a patch that is cut, for each cell of a candidate's window in a round, and of a target's block;
# for each cell of a picture that is merged. A run takes a half to twice of what they say.
COMPARED, CUT, REFINED, PAINTED, MERGED = 2.5e-11, 8e-7, 2e-10, 5e-10, 1.8e-5


def estimate(
    command: str, samples: Sequence[Pixels], sizes: Keys, keys: Keys, target: Optional[Pixels]
) -> float:
    """About how many seconds of processor time a run takes."""
    cells = sum(width * height * frames for width, height, frames in (s.size for s in samples))
    if keys.get("turns") == "all":
        cells *= 8
    if command == "loop":
        return 1e-9 * cells * samples[0].size[2]
    if command == "merge":
        return MERGED * cells
    lengths = list(target.size) if target else lengths_of(sizes)
    box = number_in(keys, "box", number_in(keys, "block", 32))
    overlap = number_in(keys, "overlap", 8)
    sides = [min(box, length) for length in lengths]
    area = float(sides[0] * sides[1] * sides[2])
    patches = 1.0
    shared = area
    for length, side in zip(lengths, sides):
        step = max(side - overlap, 1)
        patches *= max(1, -(-(length - side) // step) + 1)
        shared *= step / side if length > side else 1
    if command == "transfer":
        return PAINTED * patches * cells * area
    if keys.get("place", "sub") != "sub":
        return 1e-7 * lengths[0] * lengths[1] * lengths[2] + 1e-6 * cells
    found = COMPARED * patches * cells * (area - shared)
    if command != "quilt":
        found += CUT * patches * area
    return found + REFINED * number_in(keys, "rounds", 0) * cells * area


def time_text(seconds: float) -> str:
    """A time in words."""
    if seconds < 100:
        return f"{max(1, round(seconds))} s"
    minutes = seconds / 60
    return f"{minutes:.0f} minutes" if minutes < 100 else f"{minutes / 60:.1f} hours"


def remedies(command: str, keys: Keys, cell: int) -> List[str]:
    """What would make a run quicker."""
    found = ["a part of the sample (--crop)"]
    if command == "grow" and number_in(keys, "rounds", 0):
        found.append("rounds=0")
    if number_in(keys, "overlap", 0) * 3 > number_in(keys, "box", number_in(keys, "block", 1)):
        found.append("a smaller overlap")
    found.append(f"larger cells (--cell {2 * cell if cell < 8 else 8})")
    return found


class Watch:
    """What is said while runs go on: lines, and below them a bar by time on a terminal."""

    def __init__(self, is_seen: Optional[bool] = None) -> None:
        self.is_seen = sys.stderr.isatty() if is_seen is None else is_seen
        self.begun, self.expected, self.done, self.total = time.monotonic(), 1.0, 0, 1

    def begin(self, total: int, expected: float) -> None:
        """So many runs begin, which take about so many seconds in all."""
        self.begun, self.expected, self.total = time.monotonic(), max(expected, 0.1), total

    def step(self, done: int, expected: float) -> None:
        """So many runs are done; what is left takes about so many seconds."""
        self.done, self.expected = done, time.monotonic() - self.begun + max(expected, 0.1)

    def say(self, line: str) -> None:
        """Prints a line above the bar."""
        self.clear()
        print(line, flush=True)

    def clear(self) -> None:
        """Takes the bar away."""
        if self.is_seen:
            print("\r\033[K", end="", file=sys.stderr, flush=True)

    def tick(self) -> None:
        """Draws the bar as time goes on. It never says that all is done while something runs."""
        if not self.is_seen:
            return
        passed = time.monotonic() - self.begun
        share = min(passed / self.expected, 0.99)
        marks = int(30 * share)
        left = max(self.expected - passed, 0)
        text = f"about {time_text(left)} left" if left else "soon"
        tries = f"{self.done} of {self.total}, " if self.total > 1 else ""
        bar = f"[{'#' * marks}{'-' * (30 - marks)}] {tries}{text}"
        print(f"\r\033[K{bar}", end="", file=sys.stderr, flush=True)
