#!/usr/bin/env python3
"""Says which definitions, files and lines a reader has to trust, by clause of `run`.

    checks/trust.py              the figures of each clause, held against those of the documents
    checks/trust.py CLAUSE ..    a reading list of these clauses: files, lower crates first
    checks/trust.py --all        a reading list of all clauses together
    checks/trust.py --write      puts the figures into docs/PROMISES.md and docs/TRUST.md

What a clause says is what the definitions say that it names, and those that they name, down to the
ground: definitions of the crates' specs/, and the types, constants and traits of their src/ that
these speak of. A type counts with its `impl Model`, which says what its values mean. What comes
from std and the kit's crates is not counted. Lines are those of heads, equations and fields; a
reading list has the lines of the comment above them, too.

Ends with 1 where a figure of docs/PROMISES.md or docs/TRUST.md isn't the one found here, where a
clause rests on a file that says of itself that nobody has to trust it, or where a name isn't found.
"""
import argparse
import re
import sys
from dataclasses import dataclass, field
from functools import cache
from pathlib import Path

ROOT = Path(__file__).resolve().parent.parent
ENGINE = ROOT / "crates/weave_engine/src/engine.rt"
PROMISES, TRUST = ROOT / "docs/PROMISES.md", ROOT / "docs/TRUST.md"
SENTENCE = re.compile(r"[\d,]+\s+definitions\s+in\s+[\d,]+\s+lines\s+of\s+[\d,]+\s+files")
START, END = "<!-- figures of checks/trust.py -->", "<!-- end of figures -->"

USE = re.compile(
    r"^\s*(?:pub |ghost )*use Rattle\.([\w.]+?)(?:\.\{([^}]*)\})?(?: as (\w+))?;?\s*$", re.M
)
HEAD = re.compile(r"^(?:abbrev |unfoldable |key_stem )*(?:pub )?(?:record |data )?([^\s:({]+)")
RUST_ITEM = re.compile(r"^(?:pub(?:\([a-z]+\))? )?(?:struct|enum|trait|const|type) (\w+)", re.M)
RUST_USE = re.compile(r"^use ([\w:]+?)(?:::\{([^}]*)\}|::(\w+));", re.M)
CHAIN = re.compile(r"(?<![.\w])[A-Za-z_][\w']*(?:\.[A-Za-z_][\w']*)*")
FIELD = re.compile(r"^  pub \w+(?= :)|(?<=[{;])(\s*)\w+(?= =)", re.M)


@dataclass(frozen=True, order=True)
class Item:
    """A definition, or a type, constant or trait: its file, its name, and its lines as pairs."""

    file: Path
    name: str
    spans: tuple[tuple[int, int], ...] = field(compare=False)

    @property
    def lines(self) -> set[int]:
        """The numbers of its lines, from 1."""
        return {line for first, last in self.spans for line in range(first, last + 1)}

    @property
    def places(self) -> str:
        """Its lines, for a reader: `3-5, 9`."""
        parts = [[*self.spans[0]]]
        for first, last in self.spans[1:]:
            if first == parts[-1][1] + 1:
                parts[-1][1] = last
            else:
                parts.append([first, last])
        return ", ".join(f"{a}-{b}" if b > a else f"{a}" for a, b in parts)

    @property
    def is_type(self) -> bool:
        """Whether it is an item of src/."""
        return self.file.suffix == ".rt"


def without_comment(line: str, mark: str) -> str:
    """A line up to its comment."""
    return line.partition(mark)[0]


def split_names(text: str | None) -> dict[str, str]:
    """The names between the brackets of a `use`, each by what it is called here."""
    names = {}
    for part in (text or "").split(","):
        name, _, other = part.strip().partition(" as ")
        if name:
            names[other or name] = name
    return names


@dataclass
class Module:
    """A file of definitions, or of code: its items, and what its names stand for."""

    file: Path
    items: dict[str, Item]
    names: dict[str, tuple[str, str]]
    aliases: dict[str, str]
    lines: list[str]


def uses_of(text: str) -> tuple[dict[str, tuple[str, str]], dict[str, str]]:
    """What a file brings in: single names, each with its module, and modules by their alias."""
    names: dict[str, tuple[str, str]] = {}
    aliases: dict[str, str] = {}
    for module, inside, alias in USE.findall(text):
        if inside:
            for here, there in split_names(inside).items():
                names[here] = (module, there)
        else:
            aliases[alias or module.split(".")[-1]] = module
    return names, aliases


def items_of_specs(file: Path, lines: list[str]) -> dict[str, Item]:
    """The definitions of a file of specs/. Equations go with the head of their name."""
    spans: dict[str, list[tuple[int, int]]] = {}
    comment = 0
    name = ""
    for number, line in enumerate(lines, 1):
        if not line.strip():
            comment, name = 0, ""
        elif line.startswith("--"):
            comment, name = comment or number, ""
        elif line[0].isspace() or line[0] in "})":
            if name:
                spans[name][-1] = (spans[name][-1][0], number)
        elif re.match(r"(pub )?(use|mod|infix)", line):
            comment, name = 0, ""
        else:
            head = HEAD.match(line)
            name = head[1] if head else ""
            if "◌" not in name and name.startswith("("):
                name = ""
            operator = re.match(r"\(.*?\) (\S+) \w+ =|\w+ ([^\w\s=]+) \w+ =", line)
            if operator:
                name = f"◌{operator[1] or operator[2]}◌"
            if name:
                spans.setdefault(name, []).append((comment or number, number))
            comment = 0
    return {name: Item(file, name, tuple(found)) for name, found in spans.items()}


def items_of_code(file: Path, lines: list[str]) -> dict[str, Item]:
    """The types, constants and traits of a file of src/, each with its `impl Model`."""
    spans: dict[str, list[tuple[int, int]]] = {}
    for number, line in enumerate(lines, 1):
        head = RUST_ITEM.match(line) or re.match(r"impl(?:<.*?>)? Model for (\w+)", line)
        if not head:
            continue
        first = last = number
        while first > 1 and lines[first - 2].startswith(("///", "#[")):
            first -= 1
        if not without_comment(line, "//").rstrip().endswith((";", "}")):
            while last < len(lines) and not lines[last - 1].startswith("}"):
                last += 1
        spans.setdefault(head[1], []).append((first, last))
    return {name: Item(file, name, tuple(found)) for name, found in spans.items()}


@cache
def load(file: Path) -> Module:
    """Reads a file."""
    text = file.read_text()
    lines = text.splitlines()
    names, aliases = uses_of(text)
    is_code = file.suffix == ".rt"
    items = items_of_code(file, lines) if is_code else items_of_specs(file, lines)
    return Module(file, items, names, aliases, lines)


def file_of(module: str) -> tuple[Path, str] | None:
    """The file of a module of the repository, and the type that it is the inside of, if any."""
    crate, part, *rest = module.split(".")
    folder = ROOT / "crates" / crate
    if part != "specs" or not folder.is_dir():
        return None
    is_declared = rest[0] == "declared"
    names = rest[1:] if is_declared else rest
    start, suffix = (folder / "src", ".rt") if is_declared else (folder / "specs", ".antt")
    count = len(names)
    while count and not start.joinpath(*names[:count]).with_suffix(suffix).is_file():
        count -= 1
    inner = [word for word in names[count:] if not word.startswith("The")]
    file = start.joinpath(*(names[:count] or ["lib"])).with_suffix(suffix)
    return file, inner[0] if inner else ""


class Lost(Exception):
    """A name of the repository that isn't found."""


@cache
def find(module: str, name: str) -> Item | None:
    """What a name of a module stands for; nothing for what is of std or of the kit."""
    place = file_of(module)
    if place is None:
        return None
    file, inner = place
    if not file.is_file():
        raise Lost(f"{module}.{name}")
    found = load(file)
    if (inner or name) in found.items:
        return found.items[inner or name]
    for line in found.lines:  # a module that hands on the names of another
        if line.startswith("pub use "):
            handed = USE.match(line)
            if handed and (item := find(handed[1], name)):
                return item
    raise Lost(f"{module}.{name}")


def type_named(name: str, file: Path) -> Item | None:
    """The type of this name that a file of src/ speaks of: of its crate, or of one that it uses."""
    crate = file.parent
    while crate.name != "src":
        crate = crate.parent
    brought = {}
    for path, inside, single in RUST_USE.findall(file.read_text()):
        for here, there in (split_names(inside) or {single: single}).items():
            brought[here] = (path.split("::")[0], there)
    library, there = brought.get(name, ("crate", name))
    folder = crate if library in ("crate", "self", "super") else ROOT / "crates" / library / "src"
    for other in sorted(folder.rglob("*.rt")):
        if there in load(other).items:
            return load(other).items[there]
    return None


def names_in_code(item: Item) -> set[Item]:
    """What the fields of a type name, and the ghost lines of its `impl Model` or of a trait."""
    module = load(item.file)
    text = "\n".join(
        without_comment(module.lines[number - 1], "//") for number in sorted(item.lines)
    )
    brought, _ = uses_of(text)
    names = module.names | brought
    found = set()
    for word in set(re.findall(r"[A-Za-z_]\w*", re.sub(r"^\s*ghost use.*$", "", text, flags=re.M))):
        other = find(*names[word]) if word in names else None
        if other is None and word[0].isupper():
            other = type_named(word, item.file)
        if other is not None and other != item:
            found.add(other)
    return found


def names_in_specs(item: Item) -> set[Item]:
    """What a definition names."""
    module = load(item.file)
    text = "\n".join(
        without_comment(module.lines[number - 1], "--") for number in sorted(item.lines)
    )
    return found_in(text, module) - {item}


def found_in(text: str, module: Module) -> set[Item]:
    """The items of the repository that a text of a module names."""
    found: set[Item | None] = set()
    for chain in set(CHAIN.findall(FIELD.sub("", text))):
        name, *after = chain.split(".")
        if name in module.aliases and after:
            found.add(find(module.aliases[name], after[0]))
        elif name in module.items:
            found.add(module.items[name])
        elif name in module.names:
            found.add(find(*module.names[name]))
    for name in [*module.items, *module.names]:
        marks = [mark for mark in name.split("◌") if mark] if "◌" in name else []
        if marks and all(mark in text for mark in marks):
            found.add(module.items.get(name) or find(*module.names[name]))
    return {item for item in found if item is not None}


@cache
def named_by(item: Item) -> frozenset[Item]:
    """What an item names itself."""
    return frozenset(names_in_code(item) if item.is_type else names_in_specs(item))


def closure(items: set[Item]) -> set[Item]:
    """These items, and all that they name, down to the ground."""
    whole: set[Item] = set()
    rest = list(items)
    while rest:
        item = rest.pop()
        if item not in whole:
            whole.add(item)
            rest += named_by(item)
    return whole


def clauses_of_run() -> dict[str, set[Item]]:
    """The clauses of `run`, each with what it rests on."""
    text = ENGINE.read_text()
    module = load(ENGINE)
    head = text[text.index("pub fn run<") :]
    signature, contract = head.split("-> u8\n", 1)
    contract = contract[: contract.index("\n{")]
    bounds = dict(re.findall(r"(\w+): (\w+)[,>]", signature.partition("(")[0]))
    types = dict(re.findall(r"(\w+): &(?:mut )?(\w+),", signature.partition("(")[2]))
    clauses = {}
    for name, body in re.findall(r"ensures (\w+) \{(.*?)\}\n", contract + "\n", re.S):
        rests = found_in(body, module)
        spoken = {bounds[word] for word in re.findall(r"\b(\w+)\.state\b", body) if word in bounds}
        spoken |= {types[word] for word in re.findall(r"\b(\w+)\.now\b", body) if word in types}
        rests |= {item for word in spoken if (item := type_named(word, ENGINE))}
        clauses[name] = closure(rests)
    return clauses


@dataclass(frozen=True)
class Figures:
    """How much a set of items is. Lines are those of code: comments and blank ones don't count."""

    definitions: int
    lines: int
    files: int
    types: int
    type_lines: int

    @staticmethod
    def of(items: set[Item]) -> "Figures":
        """The figures of these items. A line that two of them share is counted once."""
        specs = {item for item in items if not item.is_type}
        types = items - specs
        files = {item.file for item in specs}
        return Figures(len(specs), lines_of(specs), len(files), len(types), lines_of(types))

    def row(self, name: str) -> str:
        """A row of the table of the documents."""
        counts = (self.definitions, self.lines, self.files, self.types, self.type_lines)
        return f"| {name} | {' | '.join(f'{count:,}' for count in counts)} |"


def lines_of(items: set[Item]) -> int:
    """How many lines of code these items have together."""
    numbers = {(item.file, number) for item in items for number in item.lines}
    texts = [load(file).lines[number - 1].strip() for file, number in numbers]
    return sum(bool(text) and not text.startswith(("--", "//")) for text in texts)


def table(clauses: dict[str, set[Item]]) -> list[str]:
    """The table of the documents: all clauses together, then each, those with most lines first."""
    whole: set[Item] = set().union(*clauses.values())
    rows = [
        "| Clause | Definitions | Their lines | Their files | Types | Their lines |",
        "|---|---|---|---|---|---|",
        Figures.of(whole).row(f"all {len(clauses)}"),
    ]
    figures = {name: Figures.of(items) for name, items in clauses.items()}
    for name in sorted(figures, key=lambda clause: (-figures[clause].lines, clause)):
        rows.append(figures[name].row(f"`{name}`"))
    return rows


def reading_list(items: set[Item]) -> list[str]:
    """The files of these items with their lines and names, those of lower crates first."""
    order = re.findall(r"^(\w+).*?:", (ROOT / "crates.txt").read_text(), re.M)
    files: dict[Path, list[Item]] = {}
    for item in items:
        files.setdefault(item.file, []).append(item)
    rows = []
    for file in sorted(
        files, key=lambda path: (order.index(path.relative_to(ROOT).parts[1]), path)
    ):
        count = len({line for item in files[file] for line in item.lines})
        rows.append(f"{file.relative_to(ROOT)} ({count} of {len(load(file).lines)} lines)")
        for item in sorted(files[file], key=lambda found: found.spans):
            rows.append(f"    {item.places:12}  {item.name}")
    return rows


def opening_of(file: Path) -> str:
    """The comment that opens a file of specs/, as one line."""
    found = re.match(r"(?:--.*\n)*", file.read_text())
    return " ".join(found[0].replace("--", " ").split()) if found else ""


def faults_of_openings(items: set[Item]) -> list[str]:
    """Files of specs/ that say of themselves that nobody has to trust them, and one has to."""
    faults = []
    for file in sorted({item.file for item in items if not item.is_type}):
        if "nobody has to trust" in opening_of(file):
            names = ", ".join(sorted(item.name for item in items if item.file == file))
            place = file.relative_to(ROOT)
            faults.append(f"{place} says that nobody has to trust it; `run` rests on {names}")
    return faults


def further_files(items: set[Item]) -> int:
    """How many files of specs/ say that a reader has to trust them, and `run` names none of them."""
    files = {file for file in ROOT.glob("crates/*/specs/*.antt") if file.name != "Lib.antt"}
    rest = files - {item.file for item in items}
    return sum(
        bool(re.search(r"has to trust this|[Tt]o be trusted", opening_of(file))) for file in rest
    )


def faults_of_documents(clauses: dict[str, set[Item]]) -> list[str]:
    """Where the documents have another figure."""
    faults = []
    text = PROMISES.read_text()
    written = text.partition(START)[2].partition(END)[0].strip().splitlines()
    if not written:
        faults.append("docs/PROMISES.md: there is no table of what a reader has to trust")
    rows = table(clauses)
    for row in sorted(set(written) ^ set(rows)):
        where = "has" if row in written else "lacks"
        faults.append(f"docs/PROMISES.md {where} the row {row}")
    said = SENTENCE.search(TRUST.read_text())
    wanted = sentence(clauses)
    if not said or said[0].split() != wanted.split():
        faults.append(f"docs/TRUST.md says {said[0] if said else 'nothing'}, where it is: {wanted}")
    return faults


def sentence(clauses: dict[str, set[Item]]) -> str:
    """The figures of all clauses together, as docs/TRUST.md has them."""
    whole = Figures.of(set().union(*clauses.values()))
    return f"{whole.definitions:,} definitions in {whole.lines:,} lines of {whole.files} files"


def write_figures(clauses: dict[str, set[Item]]) -> None:
    """Puts the figures into both documents."""
    before, start, rest = PROMISES.read_text().partition(START)
    after = rest.partition(END)[2]
    trust = TRUST.read_text()
    if not start or not SENTENCE.search(trust):
        sys.exit(f"docs/PROMISES.md has no line {START}, or docs/TRUST.md no figures")
    PROMISES.write_text("\n".join([before + START, "", *table(clauses), "", END]) + after)
    numbers = iter(re.findall(r"[\d,]+", sentence(clauses)))
    kept = SENTENCE.sub(lambda said: re.sub(r"[\d,]+", lambda _: next(numbers), said[0]), trust)
    TRUST.write_text(kept)


def main() -> int:
    """Prints what is asked for, and tries the documents."""
    words = argparse.ArgumentParser(description="What a reader has to trust, by clause of `run`.")
    words.add_argument("--all", action="store_true", help="a reading list of all clauses")
    words.add_argument("--write", action="store_true", help="put the figures into the documents")
    words.add_argument("clauses", nargs="*", metavar="CLAUSE", help="a reading list of this clause")
    given = words.parse_args()
    try:
        clauses = clauses_of_run()
    except Lost as lost:
        sys.exit(f"{lost} isn't found, and something that `run` rests on names it")
    unknown = [name for name in given.clauses if name not in clauses]
    if unknown:
        sys.exit(f"run has no clause {unknown[0]}; it has {', '.join(clauses)}")
    whole: set[Item] = set().union(*clauses.values())
    if given.all or given.clauses:
        asked = [clauses[name] for name in given.clauses] or [whole]
        print(*reading_list(set().union(*asked)), sep="\n")
        return 0
    if given.write:
        write_figures(clauses)
    print(*table(clauses), sep="\n")
    print(f"{further_files(whole)} further files of specs/ are for contracts of crates alone")
    faults = faults_of_documents(clauses) + faults_of_openings(whole)
    for fault in faults:
        print(fault)
    return 1 if faults else 0


if __name__ == "__main__":
    sys.exit(main())
