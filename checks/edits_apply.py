#!/usr/bin/env python3
"""Tries that each edit of the repository applies, in a second and without proving anything.

    checks/edits_apply.py [ROOT]

An edit is a file NAME.edit in a folder must-fail/, more-edits/ or twins/ of a crate. It consists of
pairs of lines `old: TEXT` and `new: TEXT`; a line `file: PATH` before them names a file of the
crate. Each old text has to stand exactly once in that file, as the earlier pairs left it. `rt ci`
counts an edit that doesn't apply as nothing, so that one whose code has moved on would go unseen.

Prints a line for each fault, and one with the count of the edits. Ends with 1 if there is a fault.
"""
import sys
from collections.abc import Iterator
from pathlib import Path

FOLDERS = ("must-fail", "more-edits", "twins")


def faults_of(edit: Path) -> Iterator[str]:
    """Yields what is wrong with one edit: a malformed line, or a text that can't be replaced."""
    crate = edit.parent.parent
    texts: dict[Path, str] = {}
    file: Path | None = None
    old: str | None = None
    pairs = 0
    for line in edit.read_text().splitlines():
        key, colon, value = line.partition(": ")
        if not line.strip() or line.startswith("#"):
            continue
        if key == "file" and colon:
            file = crate / value.strip()
            if not file.is_file():
                yield f"there is no {value.strip()}"
                return
            texts.setdefault(file, file.read_text())
        elif file is None:
            yield f"the line before the first file: {line}"
            return
        elif key == "old" and colon and old is None:
            old = value
            count = texts[file].count(old)
            if count != 1:
                yield f"stands {count} times in {file.relative_to(crate)}: {old.strip()}"
                return
        elif line.startswith("new:") and old is not None:
            new = value if colon else ""
            if new == old:
                yield f"changes nothing: {old.strip()}"
            texts[file] = texts[file].replace(old, new)
            old = None
            pairs += 1
        else:
            yield f"not a line of an edit: {line}"
            return
    if old is not None or not pairs:
        yield "has an old text without a new one" if old is not None else "has no pair"


def main() -> int:
    """Tries the edits below ROOT, by default the repository that this script stands in."""
    root = Path(sys.argv[1] if len(sys.argv) > 1 else Path(__file__).resolve().parent.parent)
    faults = 0
    counts = []
    for folder in FOLDERS:
        edits = sorted(root.glob(f"crates/*/{folder}/*.edit"))
        counts.append(f"{len(edits)} in {folder}/")
        for edit in edits:
            for fault in faults_of(edit):
                faults += 1
                print(f"{edit.relative_to(root)}: {fault}")
    print(f"edits: {', '.join(counts)}; {faults} don't apply")
    return 1 if faults else 0


if __name__ == "__main__":
    sys.exit(main())
