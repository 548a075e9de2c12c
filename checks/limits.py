#!/usr/bin/env python3
"""Lists where code or definitions spell a bound a second time: each is a constant of crates/limits, and is cited by its name.

    python3 checks/limits.py

Read are src/ and specs/ of all crates but those of tests, without comments. A bound is looked for as a decimal number and as a power of
two (`33_554_432`, `1 << 25`, `2 ^ 25`). Not looked for are those under 256, which count many things, the greatest numbers of 32 and 64
bits, and `2 ^ 16`, what two bytes hold. It ends with 1 where it lists a line, or an allowed place that is gone, else with 0.
"""
import pathlib
import re
import sys

TESTS = re.compile(r"test_|bench$|fuzz$|limits$")
ALLOWED = [  # what has the same value and bounds something else: the file, the line's text, and what it is there
    ("", r"\bb < 256", "what a byte holds"),
    ("search_squares/src/blocks.rt", r"MOST_BLOCKS: usize = 1 << 16", "how many blocks are kept, for speed"),
    ("job_words/src/trial.rt", r"GREATEST_AXIS as u64, 256\)", "the size of a trial's output where none is asked for"),
    ("job_words/specs/TrialWords.antt", r"1 GREATEST_AXIS 256", "the same"),
    ("max_flow/src/beginning.rt", r"(WORK|TREES|EXCESS): u64 = (4096|256)", "the work of a search, for speed"),
    ("search_squares/src/likely.rt", r"\(65536 / far", "the factor of a total of 16 bits, for speed"),
    ("netpbm_p6/src/header.rt", r"PIECE: usize = 4096", "how many bytes are read at once"),
    ("map_canvas/src/entry.rt", r"SPAN: u64 = 1_048_576", "the 20 bits of a coordinate of an entry"),
    ("map_canvas/specs/Entries.antt", r"span = 1048576", "the same"),
    ("system_files/src/files.rt", r"PATH_BYTES: usize = 4096", "the room for a path"),
]


def spelling_of(number):
    power = number.bit_length() - 1
    ways = ["_?".join(str(number)), f"1 ?<< ?{power}"] + ([rf"2 ?\^ ?{power}"] if power != 16 else [])
    return re.compile(rf"\b(?:{'|'.join(ways if number == 1 << power else ways[:1])})\b")


def main():
    root = pathlib.Path(__file__).resolve().parent.parent / "crates"
    values = re.findall(r"const (\w+): \w+ = ([\d_]+);", (root / "limits/src/bounds.rt").read_text())
    bounds = [(name, spelling_of(int(value))) for name, value in values if 256 <= int(value) < 2**32 - 1]
    found, used = [], set()
    for path in sorted(it for part in ("src", "specs") for end in ("rt", "antt") for it in root.glob(f"*/{part}/**/*.{end}")):
        lines = enumerate(path.read_text().splitlines(), 1) if not TESTS.match(path.relative_to(root).parts[0]) else []
        for number, line in ((number, re.sub(r"//.*|^\s*--.*", "", line)) for number, line in lines):
            names = [name for name, spelling in bounds if spelling.search(line)]
            allowed = [it for it in ALLOWED if str(path).endswith(it[0]) and re.search(it[1], line)]
            used.update(allowed)
            if names and not allowed:
                found.append(f"{path.relative_to(root)}:{number}: {' or '.join(names)}: {line.strip()}")
    return "\n".join([*found, *(f"no such line: {it[0]} {it[1]}" for it in ALLOWED if it not in used)]) or 0


if __name__ == "__main__":
    sys.exit(main())
