#!/usr/bin/env python3
"""Tiles small random outputs, over pictures and clips and every value of `wrap`, and compares map, picture and report with those of
a plain program, which tries every choice of each patch; and lays each output twice along each wrapped axis, where a plain total
has to be what the total across the edges predicts.

    checks/random_tiles.py [RUNS [SEED [WEAVE]]]

Build the program first: ./build. Outputs with a patch of more than 11 free cells are passed over, since a patch has 2 to that power
of choices; 300 runs take some minutes."""
import fractions
import itertools
import os
import random
import struct
import subprocess
import sys
import tempfile

from beside import WEAVE
from weave_tools.map_files import read_map

MOST_FREE = 11
WRAPS = {"x": (True, False, False), "y": (False, True, False), "xy": (True, True, False), "f": (False, False, True), "xyf": (True, True, True)}
MASK = (1 << 32) - 1


class TooMany(Exception):
    """A patch has more choices than are tried."""


def rotate(value, by):
    return (value << by | value >> 32 - by) & MASK


def quarter(s, a, b, c, d):
    for first, second, third, by in ((a, b, d, 16), (c, d, b, 12), (a, b, d, 8), (c, d, b, 7)):
        s[first] = s[first] + s[second] & MASK
        s[third] = rotate(s[third] ^ s[first], by)


def draw(seed, number, count):
    """The draw of a number among so many: a word of ChaCha8 (Bernstein 2008), whose key is the seed and 24 zero bytes."""
    key = struct.unpack("<8I", seed.to_bytes(8, "big") + bytes(24))
    block = number // 16
    start = [0x61707865, 0x3320646E, 0x79622D32, 0x6B206574, *key, block & MASK, block >> 32, 0, 0]
    s = list(start)
    for _ in range(4):
        for column in range(4):
            quarter(s, column, column + 4, column + 8, column + 12)
        for a in range(4):
            quarter(s, a, 4 + (a + 1) % 4, 8 + (a + 2) % 4, 12 + (a + 3) % 4)
    return (s[number % 16] + start[number % 16] & MASK) % count


def spots(size):
    """All places of a size, in raster order."""
    return [(x, y, f) for f in range(size[2]) for y in range(size[1]) for x in range(size[0])]


def moved(p, by, sign=1):
    return tuple(a + sign * b for a, b in zip(p, by))


STEPS = ((1, 0, 0), (0, 1, 0), (0, 0, 1))


class Tiling:
    def __init__(self, sample, size, output, wrap, side, overlap, tol, seed):
        self.sample, self.size, self.output, self.wrap = sample, size, output, wrap
        self.overlap, self.tol, self.seed = overlap, tol, seed
        self.map, self.steps = {}, 0
        self.box = tuple(min(side, s, min(t - 1, 4094) if wrapped else t) for s, t, wrapped in zip(size, output, wrap))

    def around(self, p):
        """A place taken around wrapped axes; None outside."""
        p = tuple(z % t if wrapped else z for z, t, wrapped in zip(p, self.output, self.wrap))
        return p if all(0 <= z < t for z, t in zip(p, self.output)) else None

    def distance(self, a, b):
        first, second = self.sample.get(a), self.sample.get(b)
        if first is None and second is None:
            return 0
        if first is None or second is None:
            return 255 * len(first or second)
        return sum(abs(p - q) for p, q in zip(first, second))

    def pairs(self, cells):
        """The pairs of neighbours that have one of the cells, each with its step."""
        found = set()
        for p in cells:
            for step in STEPS:
                for first in (p, self.around(moved(p, step, -1))):
                    second = self.around(moved(first, step)) if first else None
                    if second:
                        found.add((first, second, step))
        return found

    def cost(self, sources, pairs):
        total = 0
        for s, t, step in pairs:
            a, b = sources.get(s), sources.get(t)
            if a and b:
                total += self.distance(a, moved(b, step, -1)) + self.distance(moved(a, step), b)
        return total

    def corner(self, q):
        corner = []
        for z, length, t, wrapped in zip(q, self.box, self.output, self.wrap):
            shared = min(self.overlap, length - 1)
            corner.append((z - shared) % t if wrapped else min(t - length, max(z - shared, 0)))
        return tuple(corner)

    def error(self, source, steps, cells):
        filled = [(step, cell) for step, cell in zip(steps, cells) if cell in self.map]
        total = 0
        for step, cell in filled:
            old, new = self.sample[self.map[cell]], self.sample[moved(source, step)]
            total += sum((a - b) ** 2 for a, b in zip(old, new))
        return total, len(filled)

    def pick(self, steps, cells):
        room = tuple(s + 1 - length for s, length in zip(self.size, self.box))
        listed = [(source, self.error(source, steps, cells)) for source in spots(room)]
        if any(count for _, (_, count) in listed):
            best = min((error for _, error in listed if error[1]), key=lambda error: fractions.Fraction(*error))
            listed = [(source, error) for source, error in listed
                      if error[1] and error[0] * best[1] * 100 <= best[0] * error[1] * (100 + self.tol)]
        return listed[draw(self.seed, self.steps, len(listed))][0]

    def neighbours(self, p):
        return {q for step in STEPS for sign in (1, -1) for q in [self.around(moved(p, step, sign))] if q}

    def choose(self, cells, new):
        """Of all choices that take every unfilled cell and no kept one, the one of least cost with the fewest old cells."""
        box = set(cells)
        filled = [p for p in cells if p in self.map]
        free = [p for p in filled if not any(q in self.map and q not in box for q in self.neighbours(p))]
        if len(free) > MOST_FREE:
            raise TooMany
        always = [p for p in cells if p not in self.map]
        pairs, found = self.pairs(cells), []
        for bits in itertools.product((False, True), repeat=len(free)):
            sources = dict(self.map)
            sources.update((p, new[p]) for p in always)
            sources.update((p, new[p]) for p, bit in zip(free, bits) if bit)
            found.append((self.cost(sources, pairs), -sum(bits), bits))
        found.sort()
        assert len(found) == 1 or found[0][:2] != found[1][:2], "two least choices with the fewest old cells"
        return always + [p for p, bit in zip(free, found[0][2]) if bit]

    def step(self, q):
        steps = spots(self.box)
        corner = self.corner(q)
        cells = [self.around(moved(corner, step)) for step in steps]
        assert len(set(cells)) == len(cells) and q in cells
        source = self.pick(steps, cells)
        new = {cell: moved(source, step) for cell, step in zip(cells, steps)}
        for cell in self.choose(cells, new):
            self.map[cell] = new[cell]
        self.steps += 1

    def run(self):
        for q in spots(self.output):
            if q not in self.map:
                self.step(q)
        return self.cost(self.map, self.pairs(spots(self.output)))


def laid_twice(tiling):
    """What a plain total of the output laid twice along each wrapped axis is, and what the torus total predicts of it."""
    def plain(sources):
        pairs = [(p, moved(p, step), step) for p in sources for step in STEPS if moved(p, step) in sources]
        return tiling.cost(sources, pairs)

    copies = spots(tuple(2 if wrapped else 1 for wrapped in tiling.wrap))
    twice = {moved(p, [c * t for c, t in zip(copy, tiling.output)]): source for copy in copies for p, source in tiling.map.items()}
    torus = tiling.cost(tiling.map, tiling.pairs(spots(tiling.output)))
    return plain(twice), len(copies) // 2 * (plain(tiling.map) + torus)


def random_sample(chance, folder):
    """A picture or a clip of one or three samples a cell, its cells by their places, and its size."""
    kind = chance.choice(["picture", "mono", "444"])
    size = (chance.randint(1, 6), chance.randint(1, 6), 1 if kind == "picture" else chance.randint(1, 4))
    many = 1 if kind == "mono" else 3
    shades = chance.choice([2, 4, 256])
    sample = {p: tuple(chance.randrange(shades) * (255 // (shades - 1)) for _ in range(many)) for p in spots(size)}
    name = os.path.join(folder, "s")
    with open(name, "wb") as out:
        if kind == "picture":
            out.write(b"P6\n%d %d\n255\n" % size[:2] + bytes(b for p in spots(size) for b in sample[p]))
        else:
            out.write(b"YUV4MPEG2 W%d H%d F25:1 C%s\n" % (*size[:2], kind.encode()))
            for f in range(size[2]):
                frame = spots((*size[:2], 1))
                out.write(b"FRAME\n" + bytes(sample[x, y, f][plane] for plane in range(many) for x, y, _ in frame))
    return kind, name, sample, size


def picture_of(kind, sample, tiling):
    cells = {p: sample[tiling.map[p]] for p in tiling.map}
    w, h, frames = tiling.output
    if kind == "picture":
        return b"P6\n%d %d\n255\n" % (w, h) + bytes(b for p in spots(tiling.output) for b in cells[p])
    many = 1 if kind == "mono" else 3
    text = b""
    for f in range(frames):
        text += b"FRAME\n" + bytes(cells[x, y, f][plane] for plane in range(many) for x, y, _ in spots((w, h, 1)))
    return text


def random_words(chance, kind):
    wrap = chance.choice(["x", "y", "xy"] if kind == "picture" else list(WRAPS))
    wrapped = WRAPS[wrap]
    most = (9, 7, 1 if kind == "picture" else 4)
    output = tuple(chance.randint(3 if w else 1, max(m, 3 if w else 1)) for w, m in zip(wrapped, most))
    return wrap, output, chance.randint(1, 5), chance.randint(0, 3), chance.choice([0, 10, 300]), chance.randrange(2 ** 64)


def one_run(chance, folder, weave):
    kind, name, sample, size = random_sample(chance, folder)
    wrap, output, side, overlap, tol, seed = random_words(chance, kind)
    out, mapped = os.path.join(folder, "o"), os.path.join(folder, "m")
    words = [f"sample={name}", f"out={out}", f"map={mapped}", f"width={output[0]}", f"height={output[1]}", f"frames={output[2]}"]
    words += [f"wrap={wrap}", f"box={side}", f"overlap={overlap}", f"tol={tol}", f"seed={seed}"]
    tiling = Tiling(sample, size, output, WRAPS[wrap], side, overlap, tol, seed)
    seams = tiling.run()
    done = subprocess.run([weave, "tile"] + words, capture_output=True, text=True)
    report = "tile {}x{}x{}\nplacements {}\nseams {}\n".format(*output, tiling.steps, seams)
    if (done.returncode, done.stdout, done.stderr) != (0, report, ""):
        return f"{done.returncode} {done.stdout}{done.stderr}, and not {report}", words
    plain, predicted = laid_twice(tiling)
    if plain != predicted:
        return f"laid twice: {plain}, and not {predicted}", words
    written = read_map(mapped)
    if (tuple(written.output), [tuple(named) for named in written.sizes]) != (output, [size]):
        return "another head", words
    if list(zip(*written.columns)) != [(1, *tiling.map[p]) for p in spots(output)]:
        return "another map", words
    if not open(out, "rb").read().endswith(picture_of(kind, sample, tiling)):
        return "another picture", words
    return "same", words


def main(runs=300, seed=1, weave=WEAVE):
    chance, made, passed = random.Random(int(seed)), 0, 0
    with tempfile.TemporaryDirectory() as folder:
        while made < int(runs):
            try:
                answer, words = one_run(chance, folder, weave)
            except TooMany:
                passed += 1
                continue
            if answer != "same":
                sys.exit(f"run {made}: {answer}\nweave tile {' '.join(words)}")
            made += 1
    print(f"{made} tilings are the same; {passed} passed over")


if __name__ == "__main__":
    main(*sys.argv[1:])
