#!/usr/bin/env python3
"""Compares the lines that `weave` says with those of the manual.

    checks/refusals.py

The texts of crates/synth_report/specs/Texts.antt give each line of a fault. In the part "Refusals" of docs/MANUAL.md
each has to be there as an example, and each line there has to be one of them. Ends with 1 where one is missing."""
import pathlib
import re
import sys

ROOT = pathlib.Path(__file__).resolve().parent.parent


def lines_of(texts):
    """Of each kind of line what it says, as a regular expression without `weave: `."""
    files = "|".join(sorted(set(re.findall(r'^file_stem file\.[^=]*= codes "(\w+)"', texts, re.M))))

    def said(call):
        return [re.escape(text) for text in re.findall(rf'\b{call} \(codes "([^"]+)"\)', texts)]

    yield from said("plain_line")
    yield from (rf"word \d+: {text}" for text in said("word_line i"))
    yield from (rf"(?:{files})\d*: {text}" for text in said(r"file_line \S+"))
    yield from (rf"(?:{files})\d*: {text} at \d+" for text in said(r"place_line \S+"))
    counted = re.findall(r'^what_text what\.\w+ = codes "(\w+)"', texts, re.M)
    yield from (rf"limit {what} \d+ over \d+" for what in counted)
    for begin, end in re.findall(r'concat \(codes "weave: ([\w ]*[a-z] )" ∷ (?:[^"]*"( \w+ \d+)\\n")?', texts):
        if begin not in ("word ", "limit "):
            yield rf"{begin}\w+{end}"


def main():
    kinds = list(lines_of((ROOT / "crates/synth_report/specs/Texts.antt").read_text()))
    manual = (ROOT / "docs/MANUAL.md").read_text()
    part = manual[manual.index("\n## Refusals\n"):manual.index("\n## Glossary\n")]
    shown = [re.sub(r"\s+", " ", line) for line in re.findall(r"`weave:\s+([^`]+)`", part)]
    faults = [f"no example of '{kind}'" for kind in kinds if not any(re.fullmatch(kind, line) for line in shown)]
    faults += [f"no line of weave: '{line}'" for line in shown if not any(re.fullmatch(kind, line) for kind in kinds)]
    print(*faults, f"{len(kinds)} kinds of lines, {len(shown)} examples, {len(faults)} faults", sep="\n")
    return 1 if faults else 0


if __name__ == "__main__":
    sys.exit(main())
