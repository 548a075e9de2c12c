#!/usr/bin/env python3
"""Merges small random pictures, and compares the map, the picture and the report with those of a plain program.

    checks/random_merges.py [RUNS [SEED]]

The plain program has no help of weave: each picture is laid over the merge before by a least cut among the cells that no
mark fixes, in a network with one node for each of these cells (Kolmogorov and Zabih 2004). Where there are twelve of them at
most, all choices are tried besides, one by one: none costs less, and none that costs as much has fewer cells of the merge
before. Build the program first: ./build."""
import itertools
import os
import random
import subprocess
import sys
import tempfile
from collections import deque

from beside import WEAVE

SOURCE, SINK = -1, -2

# All choices for so many cells are tried at most.
TRIED = 12


class Network:
    """Capacities between nodes, and the nodes that a greatest flow leaves within reach of the source."""

    def __init__(self):
        self.room = {SOURCE: {}, SINK: {}}

    def add(self, a, b, capacity):
        for node in (a, b):
            self.room.setdefault(node, {})
        self.room[a][b] = self.room[a].get(b, 0) + capacity
        self.room[b].setdefault(a, 0)

    def reach(self):
        """For each node within reach of the source, the node before it."""
        before, waiting = {SOURCE: None}, deque([SOURCE])
        while waiting:
            node = waiting.popleft()
            for other, room in self.room[node].items():
                if room > 0 and other not in before:
                    before[other] = node
                    waiting.append(other)
        return before

    def saturate(self):
        while SINK in (before := self.reach()):
            path = [SINK]
            while before[path[-1]] is not None:
                path.append(before[path[-1]])
            steps = list(zip(path[1:], path))
            flow = min(self.room[a][b] for a, b in steps)
            for a, b in steps:
                self.room[a][b] -= flow
                self.room[b][a] += flow
        return before


def cost_of(tables, new):
    return sum(table[new[i]][new[j]] for i, j, table in tables)


def least_of_all(tables, free, new):
    """What the cheapest of all choices for the free cells costs, and the fewest of them that stay as they are in one."""
    new, found = list(new), []
    for bits in itertools.product((False, True), repeat=len(free)):
        for i, bit in zip(free, bits):
            new[i] = bit
        found.append((cost_of(tables, new), bits.count(False)))
    return min(found)


class Pictures:
    def __init__(self, width, height, cells):
        self.width, self.height, self.cells = width, height, cells
        self.pairs = [(i, i + 1) for i in range(width * height) if i % width + 1 < width]
        self.pairs += [(i, i + width) for i in range(width * (height - 1))]

    def apart(self, a, b, i):
        return sum(abs(p - q) for p, q in zip(self.cells[a][i], self.cells[b][i]))

    def cost(self, a, b, i, j):
        """What cells i and j cost beside each other, where they come from pictures a and b."""
        return self.apart(a, b, i) + self.apart(a, b, j)

    def total(self, labels):
        return sum(self.cost(labels[i], labels[j], i, j) for i, j in self.pairs)

    def lay(self, labels, marks, number):
        """The labels after the picture of a number: of all least choices that with the fewest cells of those before."""
        is_free = [mark == 0 or mark > number for mark in marks]
        is_new = [mark == number for mark in marks]
        network = Network()

        def charge(i, change):
            """What it costs more that cell i is new."""
            if change > 0:
                network.add(SOURCE, i, change)
            elif change < 0:
                network.add(i, SINK, -change)

        for i, j in self.pairs:
            old, first, second = (
                self.cost(labels[i], labels[j], i, j),
                self.cost(labels[i], number, i, j),
                self.cost(number, labels[j], i, j),
            )
            if is_free[i] and is_free[j]:
                charge(i, second - old)
                charge(j, -second)
                network.add(i, j, first + second - old)
            elif is_free[i]:
                charge(i, -first if is_new[j] else second - old)
            elif is_free[j]:
                charge(j, -second if is_new[i] else first - old)
        old_side = network.saturate()
        laid = [is_new[i] or (is_free[i] and i not in old_side) for i in range(len(labels))]
        free = [i for i, it in enumerate(is_free) if it]
        if len(free) <= TRIED:
            tables = self.tables(labels, number)
            found = cost_of(tables, laid), sum(not laid[i] for i in free)
            if found != least_of_all(tables, free, is_new):
                sys.exit(f"the least of all choices isn't {found}: picture {number} over {labels}, marks {marks}")
        return [number if new else label for new, label in zip(laid, labels)]

    def tables(self, labels, number):
        """For each pair of cells what it costs by whether each of them is of the picture of a number."""
        return [
            (i, j, [[self.cost(a, b, i, j) for b in (labels[j], number)] for a in (labels[i], number)])
            for i, j in self.pairs
        ]

    def merged(self, marks):
        labels = [1] * (self.width * self.height)
        for number in range(2, len(self.cells) + 1):
            labels = self.lay(labels, marks, number)
        return labels


def spelled(number, count):
    return number.to_bytes(count, "big")


def size_of(width, height):
    return spelled(width, 4) + spelled(height, 4) + spelled(1, 4)


def map_file(pictures, labels):
    count = len(pictures.cells)
    size = size_of(pictures.width, pictures.height)
    head = b"WEAVEMAP" + b"\x02\x00" + size + spelled(count, 2) + count * size
    places = (divmod(i, pictures.width) for i in range(len(labels)))
    sources = (spelled(label, 2) + spelled(x, 2) + spelled(y, 2) + spelled(0, 2) for label, (y, x) in zip(labels, places))
    return head + b"".join(sources)


def picture_file(width, height, maxval, cells):
    return b"P6\n%d %d\n%d\n" % (width, height, maxval) + b"".join(cells)


def random_pictures(chance):
    """Pictures of which a part is alike, as shots of one scene are."""
    width, height = chance.randint(1, 8), chance.randint(1, 7)
    count, shades = chance.choice([2, 2, 3, 4, 5, 16]), chance.choice([2, 4, 200])
    shade = 200 // shades
    scene = [bytes(chance.randrange(shades) * shade for _ in range(3)) for _ in range(width * height)]
    changed = chance.choice([0, 0.3, 1])

    def shot():
        return [bytes(chance.randrange(shades) * shade for _ in range(3)) if chance.random() < changed else cell for cell in scene]

    return Pictures(width, height, {number: shot() for number in range(1, count + 1)})


def one_merge(chance, folder):
    pictures = random_pictures(chance)
    width, height, count = pictures.width, pictures.height, len(pictures.cells)
    marked = chance.choice([0, 0.2, 0.5, 1])
    marks = [chance.randint(1, count) if chance.random() < marked else 0 for _ in range(width * height)]
    labels = pictures.merged(marks)
    names = [os.path.join(folder, f"sample{number}") for number in range(1, count + 1)]
    for name, cells in zip(names, pictures.cells.values()):
        with open(name, "wb") as out:
            out.write(picture_file(width, height, 200, cells))
    painted, out, mapped = (os.path.join(folder, name) for name in ("marks", "out", "map"))
    with open(painted, "wb") as file:
        file.write(picture_file(width, height, chance.choice([16, 200, 255]), [bytes((mark, 0, 0)) for mark in marks]))
    words = [f"sample{number if number > 1 else ''}={name}" for number, name in enumerate(names, 1)]
    chance.shuffle(words)
    words += [f"marks={painted}", f"out={out}", f"map={mapped}"]
    done = subprocess.run([WEAVE, "merge"] + words, capture_output=True, text=True)
    if done.returncode != 0:
        return done.stderr, marks
    if open(mapped, "rb").read() != map_file(pictures, labels):
        return "another map", marks
    drawn = [pictures.cells[label][i] for i, label in enumerate(labels)]
    if open(out, "rb").read() != picture_file(width, height, 200, drawn):
        return "another picture", marks
    if done.stdout != f"merge {width}x{height}x1\npictures {count}\nseams {pictures.total(labels)}\n":
        return "another report: " + done.stdout, marks
    return None, marks


def main(runs=300, seed=1):
    chance = random.Random(int(seed))
    with tempfile.TemporaryDirectory() as folder:
        for number in range(int(runs)):
            wrong, marks = one_merge(chance, folder)
            if wrong is not None:
                sys.exit(f"run {number}: {wrong}\n{marks}")
    print(f"{runs} merges are those of the plain program")


if __name__ == "__main__":
    main(*sys.argv[1:])
