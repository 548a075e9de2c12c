#!/usr/bin/env python3
"""Lists the public functions of the program's crates that neither the program nor a test calls.

    python3 checks/uncalled.py

No contract can say that there is memory, so a public call that always answers that there is none is proved; only a run shows
that it succeeds. So the program or a test has to call each public function. Read are the `pub fn` of the files crates/*/src/*.rt,
in modules and in `impl` blocks of types, of all crates but those of tests. A function with no result and no `&mut` is left out: it
is a law, with nothing to run. The script ends with 1 where it lists a function, and with 0 where it lists none.

It goes by names and knows no types: a method counts as called where any method of its name is, and another function where its name
stands in code outside of its own body. Comments, texts, contracts and `use` lines aren't code. Whether the code that calls is ever
run, it doesn't see.
"""
import pathlib
import re
import sys

TESTS = re.compile(r"tests?_|runs_|test_stage$|bench$|fuzz$")
CLAUSE = re.compile(r"\b(?:requires|ensures|ghost|invariant|decreases)\b[^{};]*(?=\{)")
ITEM = re.compile(r"(?P<pub>pub )?(?:const )?fn (?P<fn>\w+)|impl\b(?P<impl>[^{;]*)")
USE = re.compile(r"\b(?:ghost |pub )?use [^;]*;")


def plain(text):
    """The code without comments and texts."""
    return re.sub(r'//[^\n]*|b?"(?:\\.|[^"\\])*"|b?\'(?:\\.[^\']*|[^\'\\])\'', " ", text, flags=re.S)


def end_of(text, at):
    """Where the bracket at this place is closed."""
    depth = 0
    for i in range(at, len(text)):
        depth += (text[i] in "{(") - (text[i] in "})")
        if depth == 0:
            return i + 1
    return len(text)


def without_clauses(text):
    """The code without contracts and `use` lines."""
    text = USE.sub(" ", text)
    found = CLAUSE.search(text)
    while found:
        text = text[: found.start()] + " " + text[end_of(text, found.end()) :]
        found = CLAUSE.search(text, found.start())
    return text


def functions(text):
    """The functions of a file: whether it is public and no law, its type, name, whether it has a `self`, and where it stands."""
    within, until, is_of_trait = None, 0, False
    for item in ITEM.finditer(text):
        if item["impl"] is not None:
            if item.start() == 0 or text[item.start() - 1] == "\n":
                name = re.sub(r"<[^<>]*>", "", re.sub(r"<[^<>]*>", "", item["impl"])).split(" for ")
                within = None if len(name) > 1 else re.match(r"\W*(\w*)", name[0])[1]
                until = end_of(text, text.find("{", item.end()))
                is_of_trait = len(name) > 1
            continue
        head = text[item.end() : text.find("{", item.end())]
        start = text.find("{", item.end())
        end = end_of(text, start)
        inside = item.start() < until
        if inside and is_of_trait:
            continue
        is_law = "->" not in head and "&mut" not in head
        has_self = re.match(r"[^(]*\(\s*&?\s*(?:'\w+ )?(?:mut )?self\b", head) is not None
        yield bool(item["pub"]) and not is_law, within if inside else None, item["fn"], has_self, item.start(), end


def main():
    root = pathlib.Path(__file__).resolve().parent.parent
    files = {it: without_clauses(plain(it.read_text())) for it in sorted(root.glob("crates/*/src/**/*.rt"))}
    found = []
    for path, text in files.items():
        crate = path.relative_to(root / "crates").parts[0]
        if TESTS.match(crate):
            continue
        for is_asked, of, name, has_self, start, end in functions(text):
            if not is_asked:
                continue
            call = rf"(?:\.|::)\s*{name}\b" if has_self else rf"\b(?:{of}|Self)::{name}\b" if of else rf"(?<!fn )(?<!\.)\b{name}\b"
            others = [text[:start] + " " + text[end:] if it == path else other for it, other in files.items()]
            if not any(re.search(call, other) for other in others):
                found.append(f"{crate}: {of + '::' if of else ''}{name}")
    for line in found:
        print(line)
    return 1 if found else 0


if __name__ == "__main__":
    sys.exit(main())
