#!/usr/bin/env python3
"""Paints small random targets with blocks of random samples, and tries each block, each pick and the report with a plain search.

    checks/random_transfers.py [RUNS [SEED [WEAVE]]]

The search has no help of weave: it rates every candidate of each block by all of its cells, takes those within the tolerance, and
draws among them. Boundaries are tried as by random_quilts.py. `weave check` has to accept the files, and verify.py's picture of
sample and map alone to have the bytes of the out file. Each twelfth run is of pictures that are large and smooth enough for weave
to pass over most candidates. Build the program first: ./build."""
import os
import random
import subprocess
import sys
import tempfile
from itertools import compress
from operator import sub

from beside import WEAVE
from random_quilts import EachBoundary, verify_blocks
from random_runs import write_sample
from random_tiles import draw
from weave_tools.map_files import read_record
from weave_tools.pixel_files import read_pixels
from weave_tools.run_drawing import redraw


def squares(a, b):
    return sum(d * d for d in map(sub, a, b))


class Transfer:
    """What is asked of a transfer, and the pictures."""

    def __init__(self, sample, target, block, overlap, tol, alpha, seed):
        self.sample, self.target = sample, target
        self.tol, self.alpha, self.seed = tol, alpha, seed
        self.axes = []
        for most, length in zip(sample.size[:2], target.size[:2]):
            size = min(block, most, length)
            self.axes.append((size, size - min(overlap, size - 1), length))

    def box(self, place):
        """Corner and size of the block that has the cell of a place: the least multiple of the step on each axis."""
        corner, sizes = [], []
        for q, (size, step, length) in zip(place, self.axes):
            corner.append(next(at for at in range(0, length, step) if at + size > q))
            sizes.append(min(size, length - corner[-1]))
        return (*corner, 0), (*sizes, 1)


def block_bytes(pixels, corner, size):
    """The bytes of a box of a picture, row by row."""
    k, width = pixels.samples, pixels.size[0]
    starts = [k * (corner[0] + width * (corner[1] + row)) for row in range(size[1])]
    return b"".join(pixels.cells[start:start + k * size[0]] for start in starts)


class EachPick(EachBoundary):
    """A check of a block that rates every candidate for it too."""

    def __init__(self, asked, output, block, number):
        super().__init__(output, block, number)
        self.asked, self.first = asked, output.sources.index(0)

    def check(self):
        width = self.asked.target.size[0]
        box = self.asked.box((self.first % width, self.first // width))
        assert (self.block.corner, self.block.size) == box, f"the block is {box}"
        source = self.pick()
        assert self.block.source == source, f"block {self.number} is picked from {source}, not from {self.block.source}"
        super().check()

    def pick(self):
        asked, size = self.asked, self.block.size
        mask = [source > 0 for source in self.old for _ in range(self.samples.samples)]
        old = list(compress(self.samples.drawn(self.old), mask))
        wanted = block_bytes(asked.target, self.block.corner, size)
        rated = []
        for y in range(asked.sample.size[1] - size[1] + 1):
            for x in range(asked.sample.size[0] - size[0] + 1):
                new = block_bytes(asked.sample, (x, y), size)
                error = asked.alpha * squares(old, compress(new, mask)) + (100 - asked.alpha) * squares(wanted, new)
                rated.append((error, (1, x, y, 0)))
        best = min(rated)[0]
        eligible = [source for error, source in rated if error * 100 <= best * (100 + asked.tol)]
        return eligible[draw(asked.seed, self.number - 1, len(eligible))]


def report_of(asked, out, record):
    """The report that goes with the files."""
    blocks = read_record(record).records
    strips = [strip for block in blocks for strip in (block.left, block.top) if strip]
    cost = sum(min(strip.sums[-1]) for strip in strips)
    matched = squares(read_pixels(out, "out").cells, asked.target.cells)
    return "transfer {}x{}x{}\nblocks {}\nboundaries {}\ncost {}\nmatch {}\n".format(
        *asked.target.size, len(blocks), len(strips), cost, matched)


def write_smooth(name, chance, levels):
    """A picture whose cells change little from one to the next."""
    width, height = chance.randint(20, 44), chance.randint(20, 44)
    slopes = [(chance.uniform(-4, 4), chance.uniform(-4, 4), chance.uniform(0.3, 0.7)) for _ in range(3)]
    raster = bytes(min(levels, max(0, round(levels * middle + a * (x - width / 2) + b * (y - height / 2) + chance.gauss(0, 6))))
                   for y in range(height) for x in range(width) for a, b, middle in slopes)
    with open(name, "wb") as out:
        out.write(b"P6\n%d %d\n%d\n" % (width, height, levels) + raster)


def random_pictures(chance, is_large, sample, target):
    """Writes a sample and a target, and gives a block and an overlap."""
    if is_large:
        levels = chance.choice([200, 255])
        write_smooth(sample, chance, levels)
        write_smooth(target, chance, levels)
        block = chance.randint(8, 20)
        return block, chance.randint(1, min(6, block // 2))  # (the plain search takes minutes where blocks overlap by more)
    write_sample(sample, chance)
    write_sample(target, chance, 14)
    return chance.randint(1, 6), chance.randint(0, 5)


def one_transfer(chance, folder, is_large, weave):
    sample, target, out, mapped, record, drawn = (os.path.join(folder, name) for name in ("s", "t", "o", "m", "r", "d"))
    block, overlap = random_pictures(chance, is_large, sample, target)
    tol, alpha, seed = chance.choice([0, 10, 300]), chance.choice([0, 1, 50, 90, 100]), chance.randrange(2 ** 64)
    files = [f"sample={sample}", f"out={out}", f"map={mapped}", f"record={record}"]
    words = [f"block={block}", f"overlap={overlap}", f"tol={tol}", f"alpha={alpha}", f"seed={seed}"]
    done = subprocess.run([weave, "transfer", f"target={target}"] + files + words, capture_output=True, text=True)
    if done.returncode != 0:
        return done.stderr, words
    asked = Transfer(read_pixels(sample, "sample"), read_pixels(target, "target"), block, overlap, tol, alpha, seed)
    answer = verify_blocks(lambda *of: EachPick(asked, *of), out, mapped, record, sample)
    checked = subprocess.run([weave, "check"] + files, capture_output=True, text=True)
    redraw(drawn, mapped, sample)
    report = report_of(asked, out, record)
    if answer == "stands" and checked.stdout != "stands\n":
        answer = f"check: {checked.stdout}{checked.stderr}"
    elif answer == "stands" and done.stdout != report:
        answer = f"the report is {report}, not {done.stdout}"
    elif answer == "stands" and open(drawn, "rb").read() != open(out, "rb").read():
        answer = "another picture"
    return answer, words


def main(runs=300, seed=1, weave=WEAVE):
    chance = random.Random(int(seed))
    with tempfile.TemporaryDirectory() as folder:
        for number in range(int(runs)):
            answer, words = one_transfer(chance, folder, number % 12 == 11, weave)
            if answer != "stands":
                sys.exit(f"run {number}: {answer}\n{' '.join(words)}")
    print(f"{runs} transfers are those of the plain search")


if __name__ == "__main__":
    main(*sys.argv[1:])
