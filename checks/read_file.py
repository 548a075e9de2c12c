#!/usr/bin/env python3
"""Reads a map file or a record file, with no help of weave, and says what it holds or why it is refused.

    checks/read_file.py FILE ..

prints for each file the numbers of its fields from the version on, or its refusal. A choice is one number, whose first binary
digit is its first cell; a flow is two. docs/FORMATS.md has the forms and the order of the refusals."""
import sys

KINDS_OF_MAP, KINDS_OF_RECORD = 2, 3
TURNED_VERSION, TURNED_KIND, MOST_TURNED, TURNS = 2, 2, 2, 8
MOST_ON_AXIS, MOST_MAP_CELLS, MOST_BOX_CELLS = 4096, 1 << 20, 1 << 25
MOST_FRAMES, MOST_LENGTH, MOST_GAP = 256, 4096, 256
BOUNDS = {"axis": MOST_ON_AXIS, "cells": MOST_MAP_CELLS, "records": MOST_BOX_CELLS, "frames": MOST_FRAMES, "loop": MOST_LENGTH}


class Refused(Exception):
    """Why a file isn't read: `form` with a place, or a limit with the number that passes it."""

    def __init__(self, what, number):
        super().__init__(what, number)
        self.answer = (what, number)


class Fields:
    """The fields of a file, one after another."""

    def __init__(self, data):
        self.data, self.at, self.numbers = data, 0, []

    def piece(self, count):
        """The next field, of so many bytes."""
        if self.at + count > len(self.data):
            raise Refused("form", len(self.data))
        self.at += count
        return self.data[self.at - count:self.at]

    def number(self, count, is_lawful=lambda n: True, signed=False):
        """The next number. It is refused at its first byte."""
        at = self.at
        n = int.from_bytes(self.piece(count), "big", signed=signed)
        if not is_lawful(n):
            raise Refused("form", at)
        self.numbers.append(n)
        return n

    def magic(self, wanted):
        if self.piece(len(wanted)) != wanted:
            raise Refused("form", 0)

    def choice(self, cells):
        """A bit for each cell, from the highest of the first byte on. The others are 0."""
        at = self.at
        bits = "".join(f"{byte:08b}" for byte in self.piece(-(-cells // 8)))
        if "1" in bits[cells:]:
            raise Refused("form", at)
        self.numbers.append(int(bits[:cells], 2))

    def axis(self):
        n = self.number(4, lambda n: n >= 1)
        if n > MOST_ON_AXIS:
            raise Refused("axis", n)
        return n

    def size(self):
        return self.axis(), self.axis(), self.axis()

    def end(self):
        if self.at < len(self.data):
            raise Refused("form", self.at)


def cells(size):
    return size[0] * size[1] * size[2]


def read_start(fields, magic, kinds):
    """Version, kind and output size."""
    fields.magic(magic)
    version = fields.number(1, lambda n: n in (1, 2))
    kind = fields.number(1, lambda n: n < (kinds if version == 1 else 1))
    return version, kind, fields.size()


def read_samples(fields, version):
    count = 1 if version == 1 else fields.number(2, lambda n: 1 <= n <= 16)
    return [fields.size() for _ in range(count)]


def read_source(fields, version, samples):
    """A place in one of the samples, by its number in version 2."""
    part = 1 if version == 1 else fields.number(2, lambda n: 1 <= n <= len(samples))
    for bound in samples[part - 1]:
        fields.number(2, lambda n: n < bound)


def read_frame_map(fields, output):
    fields.number(4, lambda n: n == output[0])
    fields.number(4, lambda n: n == output[1])
    frames = fields.axis()
    for _ in range(output[2]):
        fields.number(2, lambda n: n < frames)


def read_map(fields):
    version, kind, output = read_start(fields, b"WEAVEMAP", KINDS_OF_MAP)
    if kind == 1:
        return read_frame_map(fields, output)
    samples = read_samples(fields, version)
    if cells(output) > MOST_MAP_CELLS:
        raise Refused("cells", cells(output))
    for _ in range(cells(output)):
        read_source(fields, version, samples)


def read_turned_map(fields):
    """A map over samples whose turns are parts too: each source has the number of a sample and of a turn, and a place."""
    fields.magic(b"WEAVEMAP")
    fields.number(1, lambda n: n == TURNED_VERSION)
    fields.number(1, lambda n: n == TURNED_KIND)
    output = fields.size()
    samples = [fields.size() for _ in range(fields.number(2, lambda n: 1 <= n <= MOST_TURNED))]
    if cells(output) > MOST_MAP_CELLS:
        raise Refused("cells", cells(output))
    for _ in range(cells(output)):
        part = fields.number(2, lambda n: 1 <= n <= len(samples))
        fields.number(2, lambda n: n < TURNS)
        for bound in samples[part - 1]:
            fields.number(2, lambda n: n < bound)


def read_box_size(fields, axes, before):
    """The axes of a box, and the cells of all boxes up to it."""
    size = [fields.number(2, lambda n: n >= 1) for _ in range(axes)] + [1] * (3 - axes)
    if before + cells(size) > MOST_BOX_CELLS:
        raise Refused("records", before + cells(size))
    return size, before + cells(size)


def read_cuts(fields, version, samples):
    before = 0
    for _ in range(fields.number(4)):
        for _ in range(3):
            fields.number(2)
        (w, h, f), before = read_box_size(fields, 3, before)
        read_source(fields, version, samples)
        fields.choice(w * h * f)
        for _ in range((w - 1) * h * f + w * (h - 1) * f + w * h * (f - 1)):
            fields.number(2, signed=True)
            fields.number(2, signed=True)


def read_strip(fields, rows, most):
    columns = fields.number(2, lambda n: 1 <= n <= most)
    for _ in range(rows):
        fields.number(2)
    for _ in range(rows * columns):
        fields.number(4)


def read_blocks(fields):
    before = 0
    for _ in range(fields.number(4)):
        fields.number(2)
        fields.number(2)
        (w, h, _), before = read_box_size(fields, 2, before)
        fields.number(2)
        fields.number(2)
        strips = fields.number(1, lambda n: n <= 3)
        if strips in (1, 3):
            read_strip(fields, h, w)
        if strips in (2, 3):
            read_strip(fields, w, h)


def tables_of(length):
    """How many tables a walk of that length has: one for each binary digit behind the first, and one more where it is 1."""
    digits = f"{length:b}"[1:]
    return len(digits) + digits.count("1")


def read_walk(fields, frames):
    if frames > MOST_FRAMES:
        raise Refused("frames", frames)
    length = fields.number(4, lambda n: n >= 1)
    if length > MOST_LENGTH:
        raise Refused("loop", length)
    fields.number(1, lambda n: n in (0, 2, 4))
    fields.number(2, lambda n: 1 <= n <= MOST_GAP)
    for _ in range(length):
        fields.number(2)
    for _ in range(tables_of(length) * frames * frames):
        fields.number(8)


def read_record(fields):
    version, kind, _ = read_start(fields, b"WEAVEREC", KINDS_OF_RECORD)
    samples = read_samples(fields, version)
    if kind == 0:
        read_cuts(fields, version, samples)
    elif kind == 1:
        read_blocks(fields)
    else:
        read_walk(fields, samples[0][2])


def read(data, is_map, turns=False):
    """`("read", its numbers)`, or what it is refused for and the number of that."""
    fields = Fields(data)
    try:
        (read_turned_map if turns else read_map if is_map else read_record)(fields)
        fields.end()
    except Refused as refused:
        return refused.answer
    return "read", fields.numbers


def say(data):
    of_turns = data.startswith(b"WEAVEMAP" + bytes((TURNED_VERSION, TURNED_KIND)))
    what, number = read(data, not data.startswith(b"WEAVEREC"), of_turns)
    if what == "read":
        return " ".join(str(n) for n in number)
    if what == "form":
        return f"form at {number}"
    return f"limit {what} {number} over {BOUNDS[what]}"


if __name__ == "__main__":
    for name in sys.argv[1:]:
        with open(name, "rb") as file:
            print(f"{name}: {say(file.read())}")
