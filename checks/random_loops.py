#!/usr/bin/env python3
"""Loops small random clips, and has verify.py and `weave check` check each of them.

    checks/random_loops.py [RUNS [SEED [WEAVE]]]

The costs of least walks are computed once more, one step after another. Of several least walks the
clip and the map have to be those of the first by the middles of its parts, which a plain program
finds. Short walks are all tried in its place too, and so they are where `loop` finds none. Build
the program first: ./build."""
import itertools
import os
import random
import struct
import subprocess
import sys
import tempfile
from collections.abc import Iterable, Iterator, Mapping, Sequence
from typing import Optional

from beside import WEAVE
from weave_tools.pixel_files import read_pixels
from weave_tools.rules import Broken, WalkCheck
from weave_tools.verifying import Run

KINDS = [
    ("mono", 1, 1, 0),
    ("444", 1, 1, 2),
    ("422", 2, 1, 2),
    ("411", 4, 1, 2),
    ("420jpeg", 2, 2, 2),
]

# The most walks of a length that are all tried.
MOST_WALKS = 10_000

Costs = Sequence[Sequence[Optional[int]]]
Walk = Sequence[int]


def write_clip(
    name: str, chance: random.Random, of_kind: Optional[tuple[str, int, int, int]] = None
) -> None:
    """Writes a clip of at most 9 small frames, of which several are often the same."""
    kind, across, down, planes = of_kind or chance.choice(KINDS)
    width, height, frames = chance.randint(1, 3), chance.randint(1, 3), chance.randint(1, 9)
    size = width * height * (across * down + planes)
    seen = [bytes(chance.randrange(4) for _ in range(size)) for _ in range(frames)]
    with open(name, "wb") as out:
        out.write(f"YUV4MPEG2 W{width * across} H{height * down} F25:1 Ip C{kind}\n".encode())
        for frame in seen:
            out.write(b"FRAME\n" + chance.choice([frame, seen[0]]))


class Filter:
    """What the costs of steps are made with."""

    def __init__(self, taps: int, gap: int) -> None:
        self.taps, self.gap = taps, gap


def step_costs(sample: str, taps: int, gap: int) -> Costs:
    """The costs of the steps between the frames of a clip; None where there is no step."""
    return WalkCheck(read_pixels(sample, "sample"), Filter(taps, gap)).steps


def sum_of(costs: Iterable[Optional[int]]) -> Optional[int]:
    """The sum of costs; None where one of them is."""
    total = 0
    for cost in costs:
        if cost is None:
            return None
        total += cost
    return total


def lesser_of(costs: Iterable[Optional[int]]) -> Optional[int]:
    """The least of the costs that are there; None where there is none."""
    return min((cost for cost in costs if cost is not None), default=None)


def way_costs(steps: Costs, length: int) -> list[Costs]:
    """At place k the least costs of ways of k + 1 steps, one step after another."""
    frames = range(len(steps))
    ways = [steps]
    for _ in range(length - 1):
        last = ways[-1]
        ways.append(
            [
                [lesser_of(sum_of((last[i][v], steps[v][j])) for v in frames) for j in frames]
                for i in frames
            ]
        )
    return ways


def middles(steps: int) -> list[int]:
    """The middles of a part of a walk of so many steps, counted from where it begins: its own, then
    those of its first half, then those of its second half."""
    if steps == 1:
        return []
    half = steps - 1 if steps % 2 else steps // 2
    return [half, *middles(half), *(half + place for place in middles(steps - half))]


def cost_through(ways: Sequence[Costs], fixed: Mapping[int, int], length: int) -> Optional[int]:
    """The least cost of a closed walk with these frames at these positions, if there is one."""
    places = sorted(fixed)
    after = [*places[1:], places[0] + length]
    return sum_of(
        ways[there - here - 1][fixed[here]][fixed[there % length]]
        for here, there in zip(places, after)
    )


def first_walk(ways: Sequence[Costs], length: int) -> Walk:
    """Of all least closed walks of a length the first: it begins at the smallest frame that any has
    at position 0, and then has the smallest frame at each middle that any of those has that agree
    with it at the positions before."""
    frames = range(len(ways[0]))
    least = lesser_of(ways[-1][frame][frame] for frame in frames)
    fixed: dict[int, int] = {}
    for place in [0, *middles(length)]:
        fixed[place] = next(
            frame
            for frame in frames
            if cost_through(ways, {**fixed, place: frame}, length) == least
        )
    return [fixed[place] for place in range(length)]


def walk_cost(steps: Costs, walk: Walk) -> Optional[int]:
    """The cost of a walk round; None where it isn't closed."""
    return sum_of(steps[i][j] for i, j in zip(walk, [*walk[1:], walk[0]]))


def least_walks(steps: Costs, length: int) -> list[Walk]:
    """All least closed walks of a length, found by trying all lists of so many frames."""
    costs = {
        walk: cost
        for walk in itertools.product(range(len(steps)), repeat=length)
        if (cost := walk_cost(steps, walk)) is not None
    }
    least = min(costs.values(), default=None)
    return [walk for walk, cost in costs.items() if cost == least]


def first_of(walks: Iterable[Walk], length: int) -> Walk:
    """The first of some walks, by the frames at position 0 and at each middle."""
    places = [0, *middles(length)]
    return min(walks, key=lambda walk: [walk[place] for place in places])


def frames_of(clip: bytes) -> Iterator[bytes]:
    """The stream line of a clip of `write_clip`, with its end, and then each frame with its own."""
    line, _, rest = clip.partition(b"\n")
    yield line + b"\n"
    count = rest.count(b"FRAME\n")
    for start in range(0, len(rest), len(rest) // count):
        yield rest[start : start + len(rest) // count]


def clip_along(sample: bytes, walk: Walk) -> bytes:
    """The out file: the frames of a sample along a walk."""
    line, *frames = frames_of(sample)
    return line + b"".join(frames[frame] for frame in walk)


def map_along(size: tuple[int, int, int], walk: Walk) -> bytes:
    """The map file of a walk over a sample of that size."""
    width, height, frames = size
    head = struct.pack(
        ">8sBB6I", b"WEAVEMAP", 1, 1, width, height, len(walk), width, height, frames
    )
    return head + struct.pack(f">{len(walk)}H", *walk)


def read_file(name: str) -> bytes:
    """The bytes of a file."""
    with open(name, "rb") as file:
        return file.read()


def judge_loop(out: str, mapped: str, record: str, sample: str) -> str:
    """What is wrong with a loop, or whether it stands as the one or as the first least walk."""
    run = Run(out, mapped, record, sample)
    try:
        run.check()
    except Broken as broken:
        return broken.line
    made = run.record.records[0]
    walk, length = list(made.frames), len(made.frames)
    steps = step_costs(sample, made.taps, made.gap)
    ways = way_costs(steps, length)
    least = min((cost, i) for i in range(len(steps)) if (cost := ways[-1][i][i]) is not None)
    if (walk_cost(steps, walk), walk[0]) != least:
        return f"the least cost and its first frame are {least}"
    first = list(first_walk(ways, length))
    if len(steps) ** length <= MOST_WALKS:
        tried = list(first_of(least_walks(steps, length), length))
        if tried != first:
            return f"the first walk is {tried} or {first}"
    if read_file(out) != clip_along(read_file(sample), first):
        return f"the clip isn't that of the first walk {first}"
    if read_file(mapped) != map_along(read_pixels(sample, "sample").size, first):
        return f"the map isn't that of the first walk {first}"
    return "several" if has_other(ways, first) else "stands"


def has_other(ways: Sequence[Costs], first: Walk) -> bool:
    """Whether another least walk begins where the first one does."""
    length, least = len(first), cost_through(ways, dict(enumerate(first)), len(first))
    return any(
        cost_through(ways, {0: first[0], place: frame}, length) == least
        for place in range(1, length)
        for frame in range(len(ways[0]))
        if frame != first[place]
    )


def try_loop(weave: str, chance: random.Random, folder: str) -> tuple[str, list[str]]:
    """Loops a random clip: what comes of it, and the words."""
    sample, out, mapped, record = (os.path.join(folder, name) for name in ("s", "o", "m", "r"))
    write_clip(sample, chance)
    length, taps, gap = chance.randint(1, 20), chance.choice([0, 2, 4]), chance.randint(1, 4)
    files = [f"sample={sample}", f"out={out}", f"map={mapped}", f"record={record}"]
    words = [f"length={length}", f"taps={taps}", f"gap={gap}"]
    done = subprocess.run([weave, "loop", *files, *words], capture_output=True, text=True)
    if done.returncode == 8:
        if done.stderr != f"weave: no loop of length {length}\n":
            return done.stderr, words
        steps = step_costs(sample, taps, gap)
        has_walk = length <= 4 and bool(least_walks(steps, length))
        return "there is one" if has_walk else "none", words
    if done.returncode != 0:
        return done.stderr, words
    answer = judge_loop(out, mapped, record, sample)
    checked = subprocess.run([weave, "check", *files], capture_output=True, text=True)
    if answer in ("stands", "several") and checked.stdout != "stands\n":
        answer = f"check: {checked.stdout}{checked.stderr}"
    return answer, words


def main(runs: str = "300", seed: str = "1", weave: str = WEAVE) -> None:
    """Tries so many loops, and ends with a line at the first that isn't right."""
    chance = random.Random(int(seed))
    told = {"stands": 0, "several": 0, "none": 0}
    with tempfile.TemporaryDirectory() as folder:
        for number in range(int(runs)):
            answer, words = try_loop(weave, chance, folder)
            if answer not in told:
                sys.exit(f"run {number}: {answer}\n{' '.join(words)}")
            told[answer] += 1
    print(
        f"{told['stands'] + told['several']} loops stand, {told['several']} of them the first of"
        f" several least walks, {told['none']} clips have none"
    )


if __name__ == "__main__":
    main(*sys.argv[1:])
