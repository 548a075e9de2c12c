#!/usr/bin/env python3
"""Holds the documents against the rules of their English: words to avoid, and long lines.

    checks/words.py [FILE ..]         all *.md files of the repository, where none is named
    checks/words.py --comments        the words to avoid in comments of code and definitions

Prints each place with what is wrong there, and how many there are; ends with 1 where there are any. Fenced code is
held against the length of lines alone, and the text of a code span isn't looked at. The page of a crate says what
the crate doesn't promise, where it isn't a stored run. README.md has 120 lines at most."""
import pathlib
import re
import sys

MOST_COLUMNS, MOST_OF_README = 100, 120
ROOT = pathlib.Path(__file__).resolve().parent.parent
UNPROMISED = "## What it doesn't promise"

AVOIDED = {
    r"behind": "after, or: hidden by",
    r"want of memory": "out of memory",
    r"told": "given, said, reported",
    r"anew": "again",
    r"(?:un)?lawful(?:ly)?": "admissible, valid",
    r"stock": "untouched, usual",
    r"from the front": "from the first",
    r"whoever asks later": "an auditor",
    r"by which anyone can check": "that lets anyone verify",
    r"is a least one|are least ones": "is optimal, has the least cost",
    r"for each output cell the sample cell that it is": "which sample cell each output cell was copied from",
    r"is the redder": "red encodes ..",
    r"was seen": "was tried",
    # `stands` is the word for a valid record or set of files; for a location say: is, lies, comes, has.
    r"stands? (?:at|in|on|beside|before|between|after|above|below|behind|there|here|once|apart|alone|first|last|under|next)":
        "is, lies, comes; depends on",
    r"(?:what|it|that|one|nothing|something|which) stands? (?:there|beside|before|after|in|at|on)": "what is there",
}
PATTERNS = [(re.compile(rf"\b(?:{word})\b", re.I), better) for word, better in AVOIDED.items()]
SPAN = re.compile(r"``.*?``|`[^`\n]*(?:\n[^`\n]*)?`")
REFERENCE = re.compile(r"\[[^\]]+\]: ")
ITEM = re.compile(r"\s*(?:[-*]|\d+\.)\s+")


def blocks(lines):
    """The texts of a file outside of fenced code, each with the number of its first line."""
    kept, first, fenced = [], 0, False

    def flush():
        nonlocal kept
        if kept:
            yield first, "\n".join(kept)
        kept = []

    for number, line in enumerate(lines, 1):
        if line.lstrip().startswith("```"):
            yield from flush()
            fenced = not fenced
        elif fenced or line.startswith("    ") and not kept:
            continue
        elif not line.strip() or line.startswith("#") or REFERENCE.match(line):
            yield from flush()
            if line.startswith("#"):
                yield number, line.lstrip("# ")
        elif line.lstrip().startswith("|"):
            yield from flush()
            for cell in SPAN.sub(lambda it: it[0].replace("|", " "), line).strip().strip("|").split(" | "):
                yield number, cell
        else:
            item = ITEM.match(line)
            if item:
                yield from flush()
            if not kept:
                first = number
            kept.append(line[item.end():] if item else line)
    yield from flush()


def faults_of_page(path, lines):
    """Whether README has too many lines, or the page of a crate lacks a part."""
    if path == ROOT / "README.md" and len(lines) > MOST_OF_README + 1:
        yield 1, f"page of {len(lines) - 1} lines"
    crate = path.parent
    if crate.parent.name == "crates" and not (crate / "stdout").exists() and UNPROMISED not in lines:
        yield 1, f"no part '{UNPROMISED}'"


def faults(path):
    lines = path.read_text().split("\n")
    yield from faults_of_page(path.resolve(), lines)
    for number, line in enumerate(lines, 1):
        if len(line) > MOST_COLUMNS:
            yield number, f"line of {len(line)} columns"
    for number, text in blocks(lines):
        plain = SPAN.sub("CODE", text)
        for pattern, better in PATTERNS:
            for found in pattern.finditer(plain.replace("\n", " ")):
                yield number, f"'{found[0]}': {better}"


def comments():
    """The comments of code and definitions with a word to avoid, as lines to print."""
    for path in sorted(ROOT.glob("crates/*/*/**/*")):
        if path.suffix not in (".rt", ".antt") or "out" in path.parts:
            continue
        for number, line in enumerate(path.read_text().split("\n"), 1):
            mark = re.search(r"//|--", line)
            text = SPAN.sub("CODE", line[mark.end():]) if mark else ""
            for pattern, better in PATTERNS:
                for found in pattern.finditer(text):
                    yield f"{path.relative_to(ROOT)}:{number}: '{found[0]}': {better}"


def main(*names):
    if names == ("--comments",):
        found = list(comments())
        print(*found, f"{len(found)} places in comments", sep="\n")
        return 1 if found else 0
    paths = [pathlib.Path(name) for name in names] or sorted(
        path for path in ROOT.rglob("*.md") if not {".git", "out"} & set(path.relative_to(ROOT).parts)
    )
    found = 0
    for path in paths:
        shown = path.relative_to(ROOT) if path.is_absolute() else path
        for number, what in sorted(faults(path)):
            found += 1
            print(f"{shown}:{number}: {what}")
    print(f"{found} places in {len(paths)} documents")
    return 1 if found else 0


if __name__ == "__main__":
    sys.exit(main(*sys.argv[1:]))
