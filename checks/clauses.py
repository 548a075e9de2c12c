#!/usr/bin/env python3
"""Tries that the calls and clauses which documents name as carrying a promise are there.

    python3 checks/clauses.py

In docs/TRUST.md and README.md each name in brackets that isn't a file or a script has to be a clause of `run`, or a
public function; and so has each name after "proved:" in the other documents. In docs/PROMISES.md each name after
"Clause" has to be a clause of `run`, and each in brackets too, or a definition of the crate that it names. In the list of crates of docs/DESIGN.md,
and after the promises of crates/*/README.md, `call`: `clause`, `clause` has to be a function of that crate with such
clauses. In the tables of docs/FORMATS.md each name in a column of definitions has to be one of specs/, and each in one
of constants has to be a constant. Each edit and each test of docs/WRONG_BODIES.md has to be there. The page of a crate
of tests has to name each of its modules, and no other. Whether a sentence says what its clause says, no script sees.
Ends with 1 where a name isn't there."""
import pathlib
import re
import sys

ROOT = pathlib.Path(__file__).resolve().parent.parent
CARRIED = re.compile(r"((?:`[\w:]+`,\s+)*`[\w:]+`):\s+((?:`\w+`(?:,\s+|\s+and\s+)?)+)")
SPAN = re.compile(r"`([^`]+)`")
FUNCTION = re.compile(r"\bfn (\w+)")
NO_CLAUSES = ("status_", "std", "itoa", "thiserror", "rand_chacha", "rand_core")
CLAUSE = re.compile(r"\bensures (\w+) \{")


def sources(crate):
    return [path.read_text() for path in sorted((ROOT / "crates" / crate / "src").rglob("*.rt"))]


def contracts(crate):
    """The functions of a crate, each with the names of its clauses. Functions of one name are put together."""
    found = {}
    for text in sources(crate):
        heads = list(FUNCTION.finditer(text))
        for head, after in zip(heads, heads[1:] + [None]):
            part = text[head.end():after.start() if after else len(text)]
            found.setdefault(head[1], set()).update(CLAUSE.findall(part))
    return found


def faults_of_pairs(where, text, crate):
    known = contracts(crate)
    for found in CARRIED.finditer(text):
        calls = [name.split("::")[-1] for name in SPAN.findall(found[1])]
        if not any(call in known for call in calls):
            continue
        for call in calls:
            if call not in known:
                yield f"{where}: {crate} has no function {call}"
            for clause in SPAN.findall(found[2]):
                if call in known and clause not in known[call]:
                    yield f"{where}: {call} of {crate} has no clause {clause}"


def names_of_crate(text, crate):
    """Whether each name in the brackets that end an entry of the list is one of the crate."""
    code = "\n".join(sources(crate))
    for group in re.findall(r"\(((?:`[^`]+`[,;:\s]*(?:and\s+)?)+)\)", text):
        for name in SPAN.findall(group):
            if not re.search(rf"\b(?:fn|struct|enum|trait|ensures) {name.split('::')[-1]}\b", code):
                yield f"docs/DESIGN.md: {crate} has no {name}"


def faults_of_tables(text):
    """Of the tables of docs/FORMATS.md: names of definitions and of constants that aren't there."""
    specs = "\n".join(path.read_text() for path in ROOT.glob("crates/*/specs/*.antt"))
    code = "\n".join(path.read_text() for path in ROOT.glob("crates/*/src/*.rt"))
    for table in re.findall(r"((?:^ *\|.*\n)+)", text, re.M):
        rows = [[cell.strip() for cell in line.strip().strip("|").split("|")] for line in table.strip().split("\n")]
        for column, head in enumerate(rows[0]):
            for name in [name for row in rows[2:] for name in SPAN.findall(row[column])]:
                if head == "Definition" and not re.search(rf"\bpub {name} :", specs):
                    yield f"docs/FORMATS.md: there is no definition {name}"
                if head.startswith("Constant") and not re.search(rf"\bpub const {name}\b", code):
                    yield f"docs/FORMATS.md: there is no constant {name}"


def faults_of_rows(text):
    """Of docs/WRONG_BODIES.md: edits and tests that aren't there. What follows "Further" is in more-edits/."""
    rows = text[text.index("\n1. "):text.index("\nNo contract can")]
    for row in re.split(r"^ *(?:-|\d+\.) ", rows, flags=re.M):
        refused, _, further = row.partition("urther:")
        for part, folder in ((refused, "must-fail"), (further, "more-edits")):
            for crate, edit in re.findall(r"\b([a-z0-9_]+)/([a-z0-9_]+)\b", part):
                if not (ROOT / "crates" / crate / folder / f"{edit}.edit").exists():
                    yield f"docs/WRONG_BODIES.md: {crate} has no {folder}/{edit}"
        for crate, tests in re.findall(r"\b(test_\w+)\s+((?:`\w+::\w+`,?\s*)+)", row):
            for module, name in re.findall(r"`(\w+)::(\w+)`", tests):
                path = ROOT / "crates" / crate / "src" / f"{module}.rt"
                if not path.exists() or not re.search(rf"\bfn {name}\b", path.read_text()):
                    yield f"docs/WRONG_BODIES.md: {crate} has no test {module}::{name}"


def faults_of_promises(text, run):
    """Of docs/PROMISES.md: names of clauses and of definitions that aren't there."""
    named = re.findall(r"\bClause\s+`(\w+)`", text)
    for group in re.findall(r"\(([^()]*`[^()]*)\)", text):
        for name, crate in re.findall(r"`([A-Za-z]\w*)`(?:\s+in\s+(\w+))?", group):
            specs = "\n".join(path.read_text() for path in ROOT.glob(f"crates/{crate or '*'}/specs/*.antt"))
            if name in ("out", "err"):
                continue
            if name[0].islower() and not crate and not (ROOT / "crates" / name).exists():
                named.append(name)
            elif (crate or name[0].isupper()) and not re.search(rf"\bpub (?:record )?{name}\b", specs):
                yield f"docs/PROMISES.md: there is no definition {name} in {crate or 'any crate'}"
    for name in named:
        if name not in run:
            yield f"docs/PROMISES.md: there is no clause {name} of run"


def faults_of_tests(crate, text):
    """Of the page of a crate of tests: modules that it doesn't name, and names that are none."""
    heads = re.findall(r"^- ((?:`\w+`(?:,\s+)?)+):", text, re.M)
    named = {name for head in heads for name in SPAN.findall(head)}
    there = {path.stem for path in (ROOT / "crates" / crate / "src").glob("*.rt")} - {"lib", "expect"}
    for module in sorted(there - named):
        yield f"{crate}: the page doesn't name {module}"
    for module in sorted(named - there - {"expect"}):
        yield f"{crate}: there is no module {module}"


def main():
    faults = list(faults_of_tables((ROOT / "docs/FORMATS.md").read_text()))
    faults += faults_of_rows((ROOT / "docs/WRONG_BODIES.md").read_text())
    run = contracts("weave_engine")["run"]
    faults += faults_of_promises((ROOT / "docs/PROMISES.md").read_text(), run)
    public = "\n".join(text for crate in sorted((ROOT / "crates").iterdir()) for text in sources(crate.name))
    for document in ("docs/TRUST.md", "README.md"):
        for group in re.findall(r"\(([^()]*`[^()]*)\)", (ROOT / document).read_text()):
            for name in SPAN.findall(group):
                if not re.fullmatch(r"[a-z]\w*", name) or name in NO_CLAUSES:
                    continue
                is_law = re.search(rf"\bpub fn {name}\b", public)
                if name not in run and not is_law and not (ROOT / "crates" / name).exists():
                    faults.append(f"{document}: there is no clause {name} of run")
    for document in ("docs/MANUAL.md", "docs/RECIPES.md", "docs/FORMATS.md"):
        for name, clause in re.findall(r"proved:\s+`(\w+)`(?::\s+`(\w+)`)?", (ROOT / document).read_text()):
            crates = [path.name for path in (ROOT / "crates").iterdir() if name in contracts(path.name)]
            if name not in run and not any(not clause or clause in contracts(it)[name] for it in crates):
                faults.append(f"{document}: there is no {name} {clause}")
    design = (ROOT / "docs/DESIGN.md").read_text().partition("## The crates")[2]
    for entry in re.split(r"^- ", design, flags=re.M)[1:]:
        for crate in re.findall(r"\]\(\.\./crates/(\w+)/", entry):
            faults += faults_of_pairs("docs/DESIGN.md", entry, crate)
        crates = re.findall(r"\]\(\.\./crates/(\w+)/", entry)
        if len(crates) == 1:
            faults += names_of_crate(entry, crates[0])
    listed = set(re.findall(r"\]\(\.\./crates/(\w+)/README", design))
    for crate in sorted(path.name for path in (ROOT / "crates").iterdir()):
        if crate not in listed and not re.match(r"test_|bench$|fuzz$", crate):
            faults.append(f"docs/DESIGN.md: the list of crates has no {crate}")
        readme = ROOT / "crates" / crate / "README.md"
        faults += faults_of_pairs(readme.relative_to(ROOT), readme.read_text(), crate)
        if crate.startswith("test_"):
            faults += faults_of_tests(crate, readme.read_text())
    print(*faults, f"{len(faults)} names aren't there", sep="\n")
    return 1 if faults else 0


if __name__ == "__main__":
    sys.exit(main())
