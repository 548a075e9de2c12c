#!/usr/bin/env python3
"""Lists the keys of each command whose value decides in no row of the tests.

    checks/keys_decide.py [--run WEAVE]

The tables of crates/test_runs/src/keys.rt have pairs: the words of a run, and its report. All
runs of a table are over one set of files. A key decides where two rows of one table differ in
that key alone, with defaults filled in, and in their reports: a program that ignored the key
would report the same for both. Keys that reports can't show are named with the reason.

With --run each row is run with the program WEAVE too, and its status and report are compared.

Ends with 1 where a key decides nowhere, where a row has a word that its command doesn't take, or
where a run differs.
"""
import argparse
import itertools
import pathlib
import re
import subprocess
import sys
import tempfile
from typing import NamedTuple

from keys import Source

ROOT = pathlib.Path(__file__).resolve().parent.parent
TESTS = ROOT / "crates/test_runs/src"

WRITTEN = "the file is only written, and other rows compare its bytes"
OF_RUNS = {
    "check": "its rows are those of cut_rules, block_rules, loop_rules, several and turning",
    "upgrade": "its rows are those of lifted",
}

TABLE = re.compile(r"^const (\w+): &\[\(&str, &str\)\] = &\[(.*?)^\];", re.S | re.M)
PAIR = re.compile(r'\(\s*"([^"]*)",\s*"([^"]*)",?\s*\)')
BYTES = re.compile(r'const (\w+): &\[u8\]\s*=\s*b"((?:[^"\\]|\\.)*)";', re.S)
FILES = re.compile(r"^const FILES: [^=]*= &\[(.*?)^\];", re.S | re.M)


class Row(NamedTuple):
    """A row of a table: the words of a run, their keys with defaults filled in, and the report."""

    words: str
    command: str
    values: dict[str, str]
    report: str


def plain(text: str) -> str:
    """The text of a string literal, of which the ends of lines may be escaped."""
    joined = re.sub(r"\\\n\s*", "", text)
    return joined.encode("latin-1").decode("unicode_escape")


def row_of(words: str, report: str, tables: dict[str, dict[str, tuple[str, str]]]) -> Row:
    """The row of these words; ValueError where they aren't a command with keys of its own."""
    command, *pairs = words.split(" ")
    if command not in tables:
        raise ValueError(f"{words}: no command {command}")
    values = {key: default for key, (_, default) in tables[command].items()}
    for pair in pairs:
        key, _, value = pair.partition("=")
        if key not in values:
            raise ValueError(f"{words}: {command} has no key {key}")
        values[key] = value
    return Row(words, command, values, plain(report))


def rows_by_table(tables: dict[str, dict[str, tuple[str, str]]]) -> dict[str, list[Row]]:
    """The rows of keys.rt, by the name of their table."""
    code = (TESTS / "keys.rt").read_text()
    return {
        name: [row_of(words, report, tables) for words, report in PAIR.findall(body)]
        for name, body in TABLE.findall(code)
    }


def deciding(rows: list[Row]) -> set[tuple[str, str]]:
    """The commands and keys that decide in these rows."""
    found = set()
    for one, other in itertools.combinations(rows, 2):
        if one.command != other.command or one.report == other.report:
            continue
        differing = [key for key in one.values if one.values[key] != other.values[key]]
        if len(differing) == 1:
            found.add((one.command, differing[0]))
    return found


def excused(command: str, key: str) -> str | None:
    """Why a key of a command needs no row of keys.rt, if it doesn't."""
    if command in OF_RUNS:
        return OF_RUNS[command]
    return WRITTEN if key in ("out", "map", "record") else None


def files_of_rows() -> dict[str, bytes]:
    """The files that the rows of keys.rt are run over, by name."""
    code = (TESTS / "keys.rt").read_text()
    constants = {
        name: plain(text).encode("latin-1")
        for module in ((TESTS / "samples.rt").read_text(), code)
        for name, text in BYTES.findall(module)
    }
    listed = FILES.search(code)
    if listed is None:
        raise ValueError("keys.rt has no table FILES")
    return {
        name: constants[constant] for name, constant in re.findall(r'\("(\w+)", (\w+)\)', listed[1])
    }


def differing_runs(weave: pathlib.Path, rows: list[Row]) -> list[str]:
    """What each row that the program answers otherwise was answered."""
    found = []
    for row in rows:
        with tempfile.TemporaryDirectory() as folder:
            for name, content in files_of_rows().items():
                pathlib.Path(folder, name).write_bytes(content)
            ran = subprocess.run(
                [weave, *row.words.split(" ")],
                cwd=folder,
                capture_output=True,
                text=True,
                timeout=120,
            )
        if ran.returncode != 0 or ran.stdout != row.report:
            found.append(f"{row.words}: status {ran.returncode}, {ran.stdout or ran.stderr!r}")
    return found


def shortened(keys: list[str]) -> str:
    """The names of keys, with runs of numbered ones as their first and last."""
    shown: list[str] = []
    numbered = [key for key in keys if re.fullmatch(r"sample\d+", key)]
    for key in keys:
        if key not in numbered:
            shown.append(key)
    if len(numbered) > 2:
        return ", ".join([f"{numbered[0]} to {numbered[-1]}", *shown])
    return ", ".join([*numbered, *shown])


def main() -> int:
    words = argparse.ArgumentParser(
        description=__doc__, formatter_class=argparse.RawDescriptionHelpFormatter
    )
    words.add_argument(
        "--run", type=pathlib.Path, metavar="WEAVE", help="run each row with this program too"
    )
    given = words.parse_args()
    tables = Source().commands()
    try:
        rows = rows_by_table(tables)
    except ValueError as error:
        sys.exit(f"keys_decide.py: {error}")
    decide = set().union(*map(deciding, rows.values()))
    reasons: dict[str, list[str]] = {}
    faults = 0
    for command, table in tables.items():
        lacking = [key for key in table if (command, key) not in decide]
        excuses = {key: excused(command, key) for key in lacking}
        for reason in dict.fromkeys(filter(None, excuses.values())):
            named = [key for key in lacking if excuses[key] == reason]
            reasons.setdefault(reason, []).append(f"{command} {shortened(named)}")
        bare = [key for key in lacking if excuses[key] is None]
        if bare:
            faults += len(bare)
            print(f"{command}: no row decides {shortened(bare)}")
    for reason, named_keys in reasons.items():
        print(f"no row needed ({reason}): {'; '.join(named_keys)}")
    all_rows = [row for table_rows in rows.values() for row in table_rows]
    differing = differing_runs(given.run.resolve(), all_rows) if given.run else []
    print(*differing, sep="\n", end="\n" if differing else "")
    ran = f", {len(all_rows)} runs, {len(differing)} differ" if given.run else ""
    print(f"{len(all_rows)} rows, {len(decide)} keys decide, {faults} keys lack a row{ran}")
    return 1 if faults or differing else 0


if __name__ == "__main__":
    sys.exit(main())
