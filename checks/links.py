#!/usr/bin/env python3
"""Tries the links of the documents: the file that each leads to, and the heading that it names, have to be there.

    checks/links.py

Read are all *.md files of the repository. A link to another host isn't followed. A reference that is used has to be
defined, and one that is defined has to be used. A picture that no document shows is named too. Ends with 1 where there is
something of this."""
import pathlib
import re
import sys

ROOT = pathlib.Path(__file__).resolve().parent.parent
FENCED = re.compile(r"^```.*?^```$", re.M | re.S)
SPAN = re.compile(r"`[^`]*`")
INLINE = re.compile(r"\]\(([^)\s]+)\)")
DEFINED = re.compile(r"^\[([^\]]+)\]: (\S+)$", re.M)
USED = re.compile(r"\]\[([^\]]+)\]")


def documents():
    paths = sorted(ROOT.rglob("*.md"))
    return [path for path in paths if not {".git", "out", "wip"} & set(path.relative_to(ROOT).parts)]


def headings(path):
    """The names by which links lead to the headings of a document."""
    heads = re.findall(r"^#+ (.*)$", FENCED.sub("", path.read_text()), re.M)
    return {re.sub(r"[^\w\- ]", "", head.lower()).replace(" ", "-") for head in heads}


def fault_of_link(path, link):
    name, _, heading = link.partition("#")
    target = (path.parent / name).resolve() if name else path
    if not target.exists():
        return f"there is no {link}"
    if heading and (target.suffix != ".md" or heading not in headings(target)):
        return f"there is no heading {link}"
    return None


def faults(path):
    text = FENCED.sub("", path.read_text())
    defined, used = dict(DEFINED.findall(text)), set(USED.findall(SPAN.sub("", text)))
    for name in sorted(used ^ defined.keys()):
        yield f"[{name}] is {'not defined' if name in used else 'not used'}"
    for link in [*INLINE.findall(SPAN.sub("", text)), *defined.values()]:
        if not re.match(r"[a-z]+:", link):
            fault = fault_of_link(path, link)
            if fault:
                yield fault


def main():
    paths = documents()
    found = [f"{path.relative_to(ROOT)}: {fault}" for path in paths for fault in faults(path)]
    all_text = "\n".join(path.read_text() for path in paths)
    for picture in sorted((ROOT / "docs/images").iterdir()):
        if f"images/{picture.name}" not in all_text:
            found.append(f"no document shows docs/images/{picture.name}")
    print(*found, f"{len(paths)} documents, {len(found)} faults", sep="\n")
    return 1 if found else 0


if __name__ == "__main__":
    sys.exit(main())
