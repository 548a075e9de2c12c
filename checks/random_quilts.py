#!/usr/bin/env python3
"""Quilts small random outputs, and has verify.py and `weave check` check each of them.

    checks/random_quilts.py [RUNS [SEED]]

Where a strip has few boundaries, all of them are tried: none costs less, and of those that cost as much none comes first, read
from the strip's end. Build the program first: ./build."""
import os
import random
import subprocess
import sys
import tempfile

from beside import WEAVE
from random_runs import write_sample
from weave_tools.rules import BlockCheck, Broken
from weave_tools.verifying import Run

FEW_WAYS = 3 ** 9


def all_ways(rows, columns):
    """Every boundary of a strip, by its columns."""
    ways = [(column,) for column in range(columns)]
    for _ in range(rows - 1):
        ways = [way + (column,) for way in ways
                for column in range(max(0, way[-1] - 1), min(columns, way[-1] + 2))]
    return ways


class EachBoundary(BlockCheck):
    """A check of a block that tries every boundary through a small strip too."""

    def check_strip(self, strip, errors):
        super().check_strip(strip, errors)
        rows = len(strip.path)
        if strip.columns * 3 ** (rows - 1) > FEW_WAYS:
            return
        costs = {way: sum(errors[row][column] for row, column in enumerate(way)) for way in all_ways(rows, strip.columns)}
        path = tuple(strip.path)
        least = min((way for way in costs if costs[way] == min(costs.values())), key=lambda way: way[::-1])
        assert path == least, f"the first least boundary is {least}, and not {path}"


def verify_blocks(check, *names):
    """What verify.py says of a run of blocks, each of which is tried by a check of this kind."""
    run = Run(*names)
    run.checks[1] = 7, check
    try:
        run.check()
    except Broken as broken:
        return broken.line
    return "stands"


def one_quilt(chance, folder):
    sample, out, mapped, record = (os.path.join(folder, name) for name in ("s", "o", "m", "r"))
    write_sample(sample, chance)
    files = [f"sample={sample}", f"out={out}", f"map={mapped}", f"record={record}"]
    words = [f"width={chance.randint(1, 14)}", f"height={chance.randint(1, 12)}", f"block={chance.randint(1, 6)}"]
    words += [f"overlap={chance.randint(0, 5)}", f"tol={chance.choice([0, 10, 300])}", f"seed={chance.randrange(2 ** 64)}"]
    done = subprocess.run([WEAVE, "quilt"] + files + words, capture_output=True, text=True)
    answer = verify_blocks(EachBoundary, out, mapped, record, sample) if done.returncode == 0 else done.stderr
    checked = subprocess.run([WEAVE, "check"] + files, capture_output=True, text=True)
    if answer == "stands" and checked.stdout != "stands\n":
        answer = f"check: {checked.stdout}{checked.stderr}"
    return answer, words


def main(runs=300, seed=1):
    chance = random.Random(int(seed))
    with tempfile.TemporaryDirectory() as folder:
        for number in range(int(runs)):
            answer, words = one_quilt(chance, folder)
            if answer != "stands":
                sys.exit(f"run {number}: {answer}\n{' '.join(words)}")
    print(f"{runs} quilts stand")


if __name__ == "__main__":
    main(*sys.argv[1:])
