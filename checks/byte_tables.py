#!/usr/bin/env python3
"""Tables of what small map and record files are read as once one of their bytes is another, with no help of weave.

    checks/byte_tables.py NAME [NAME ..]

prints a module of the tests in crates/test_files: of each file that is named its bytes, its numbers, and the rows of its table.
`checks/byte_tables.py --compare` says whether the modules there have these tables. A row is

    (first place, last place, first value, last value, answer, number, shift)

and speaks of each of these values at each of these places, but of the one that the file has there. The answer is a refusal at that
place; or a limit, which that number passes; or the file is read, and its number with the index of the answer is that. The number of
a limit or of a file that is read grows by 2^shift from one value to the next. What is expected comes from read_file.py. Each place
and each value stands in one row."""
import os
import sys

from read_file import read

ONE, TWO = "00000001 ", "00000002 "
FILES = {
    # Two placements of 4x1 cells on 6x1, of a sample of 4x1.
    "CUTS": (
        "5745415645524543 0100 00000006" + ONE + ONE + "00000004" + ONE + ONE + TWO
        + "000000000000 000400010001 000000000000 f0 00000000 00000000 00000000"
        + "000200000000 000400010001 000000000000 70 00780078 00780000 00000000"
    ),
    # A placement of 9x1 cells and one of a single cell, of two samples, in version 2.
    "NUMBERED_CUTS": (
        "5745415645524543 0200 00000009" + ONE + TWO + "0002 0000000a" + TWO + ONE + ONE + ONE + TWO + TWO
        + "000000000000 000900010001 0001 000100010000 ab80"
        + "00010002 fffffffe 7fff8000 00000000 01000100 00ff00ff ff00ff00 12345678"
        + "000800000001 000100010001 0002 000000000001 80"
    ),
    # A block of one cell, and one of 2x2 cells with a left strip of one column and a top strip of two.
    "BLOCKS": (
        "5745415645524543 0101 00000003" + TWO + ONE + TWO + TWO + ONE + TWO
        + "00000000 00010001 00000000 00"
        + "00010000 00020002 00010001 03"
        + "0001 00000000 0000000a ffffffff"
        + "0002 00010101 00000100 00000002 01000000 00010000"
    ),
    # A walk of two of two frames, with taps 2 and gap 3.
    "WALK": (
        "5745415645524543 0102" + ONE + ONE + TWO + ONE + ONE + TWO + TWO + "02 0003 0000 0101"
        + "0000000000000000 0000000000000009 ffffffffffffffff 0123456789abcdef"
    ),
    # A map of two cells, of a sample of 3x2 cells.
    "CELL_MAP": "57454156454d4150 0100" + TWO + ONE + ONE + "00000003" + TWO + ONE + "000200000000 000000010000",
    # The same in version 2, of two samples.
    "NUMBERED_MAP": (
        "57454156454d4150 0200" + TWO + ONE + ONE + "0002" + "00000003" + TWO + ONE + ONE + ONE + TWO
        + "0001 000200010000 0002 000000000001"
    ),
    # A map of three frames, of a sample of two.
    "FRAME_MAP": "57454156454d4150 0101" + TWO + ONE + "00000003" + TWO + ONE + TWO + "0001 0000 0001",
}
MODULES = {
    "cuts": ["CUTS"],
    "numbered_cuts": ["NUMBERED_CUTS"],
    "blocks": ["BLOCKS"],
    "walk": ["WALK"],
    "maps": ["CELL_MAP", "NUMBERED_MAP", "FRAME_MAP"],
}
ANSWERS = ["form", "axis", "cells", "records", "frames", "loop"]


def read_changed(data, is_map, place, value):
    """The answer to the file with another byte: of one that is read, the number that differs and what it is."""
    what, number = read(data[:place] + bytes([value]) + data[place + 1:], is_map)
    if what != "read":
        return what, number
    before = read(data, is_map)[1]
    assert len(before) == len(number)
    (index,) = [i for i in range(len(before)) if before[i] != number[i]]
    return index, number[index]


def goes_on(run, value, what, number):
    """By which step an answer goes on with a run: none for a refusal at a place, else a power of two. None where it doesn't."""
    first, last, kind, start, step = run
    if what != kind or (number - start) % (value - first):
        return None
    more = (number - start) // (value - first)
    is_step = more == 0 if what == "form" else more > 0 and more & (more - 1) == 0
    return more if is_step and (last == first or more == step) else None


def runs_at(data, is_map, place):
    """Runs of values whose answers are of one kind, with numbers that grow by one step. The file's own value stands in none, and
    breaks none."""
    runs = []
    for value in (value for value in range(256) if value != data[place]):
        what, number = read_changed(data, is_map, place, value)
        step = goes_on(runs[-1], value, what, number) if runs else None
        if step is None:
            runs.append([value, value, what, number, 0])
        else:
            runs[-1][1], runs[-1][4] = value, step
    return runs


def rows_of(data, is_map):
    """The rows: places one after another that have the same runs of refusals are one row."""
    rows = []
    for place in range(len(data)):
        runs = runs_at(data, is_map, place)
        widened = [0, 255] + runs[0][2:]
        if len(runs) == 1 and runs[0][2] == "form":
            if rows and rows[-1][1:] == [place - 1] + widened:
                rows[-1][1] = place
            else:
                rows.append([place, place] + widened)
        else:
            rows += [[place, place] + run for run in runs]
    return rows


def say_row(row):
    from_place, to_place, first, last, what, number, step = row
    answer = what.capitalize() if what in ANSWERS else f"Number({what})"
    shift = max(step.bit_length() - 1, 0)
    assert what == "form" or first == last or step == 1 << shift
    return f"    ({from_place}, {to_place}, {first}, {last}, {answer}, {number}, {shift}),"


def say_bytes(data):
    lines = [data[i:i + 24] for i in range(0, len(data), 24)]
    return "\\\n".join("".join(f"\\x{byte:02x}" for byte in line) for line in lines)


def say_numbers(name, numbers):
    """Numbers on one line, or on lines of less than 100 columns, or of one number where some are long."""
    begin = f"pub const {name}_NUMBERS: &[i128] = &["
    lines = [[]]
    for number in map(str, numbers):
        if max(numbers) > 10**10 and lines[-1] or len("    " + ", ".join(lines[-1] + [number]) + ",") > 99:
            lines.append([])
        lines[-1].append(number)
    if len(lines) == 1 and len(begin + ", ".join(lines[0]) + "];") < 100:
        return begin + ", ".join(lines[0]) + "];"
    return "\n".join([begin] + ["    " + ", ".join(line) + "," for line in lines] + ["];"])


def say_module(names):
    parts = ["// Made by checks/byte_tables.py: what is expected of a file in which one byte is another."]
    rows = {name: rows_of(data_of(name), name.endswith("MAP")) for name in names}
    words = sorted({row[4].capitalize() if row[4] in ANSWERS else "Number" for name in names for row in rows[name]})
    parts.append(f"use crate::rows::Answer::{{{', '.join(words)}}};\nuse crate::rows::Row;")
    for name in names:
        data = data_of(name)
        parts.append(f'pub const {name}: &[u8] = b"\\\n{say_bytes(data)}";')
        parts.append(say_numbers(name, read(data, name.endswith("MAP"))[1]))
        parts.append(f"pub const {name}_ROWS: &[Row] = &[\n" + "\n".join(say_row(row) for row in rows[name]) + "\n];")
    return parts[0] + "\n" + "\n\n".join(parts[1:]) + "\n"


def data_of(name):
    return bytes.fromhex(FILES[name].replace(" ", ""))


def without_first_line(text):
    """A module but for the comment that says who made it."""
    return text.partition("\n")[2]


def compare():
    """Whether the modules of the tests are these."""
    source = os.path.join(os.path.dirname(__file__), "..", "crates", "test_files", "src")
    for module, names in MODULES.items():
        with open(os.path.join(source, f"{module}.rt"), encoding="utf-8") as file:
            same = without_first_line(file.read()) == without_first_line(say_module(names))
        print(f"{module}: {'as here' if same else 'another table'}")


if __name__ == "__main__":
    if sys.argv[1:] == ["--compare"]:
        compare()
    else:
        print(say_module(sys.argv[1:]), end="")
