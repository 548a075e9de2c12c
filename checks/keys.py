#!/usr/bin/env python3
"""Compares the keys of each command in the source with those in the documents.

    checks/keys.py

The tables of crates/job_words/src are read as text: which commands `read_job` knows, and for each of them its rows,
with the values of each key, its default, and whether a word has to set it. They are compared with the tables of
docs/MANUAL.md, with the entries of docs/weave.1, and with the lists of docs/weave.bash. Ends with 1 where one of them differs, and says where."""
import pathlib
import re
import sys

ROOT = pathlib.Path(__file__).resolve().parent.parent
WORDS = ROOT / "crates/job_words/src"
FILE = "file"
ROW = re.compile(
    r"file_row!\((?P<file>\w+)\)|sample_row!\((?P<sample>\d+)\)|number_row!\((?P<number>[^()]*)\)"
    r"|Row\s*\{\s*key:\s*Key::(?P<key>\w+(?:\(\d+\))?),\s*kind:\s*Kind::(?P<kind>\w+(?:\([^()]*\)|\s*\{[^{}]*\})?),"
    r"\s*need:\s*Need::(?P<need>\w+(?:\((?:[^()]|\([^()]*\))*\))?),?\s*\}"
)


def text(path):
    return re.sub(r"//[^\n]*", "", path.read_text())


class Source:
    """The tables of keys, as the source has them."""

    def __init__(self):
        self.stems = {"Sample": "sample"}
        self.stems.update(re.findall(r"Key::(\w+) => \"(\w+)\"", text(WORDS / "keys.rt")))
        bounds = text(ROOT / "crates/limits/src/bounds.rt")
        self.numbers = dict(re.findall(r"pub const (\w+): u\d+ = ([\d_]+);", bounds))
        table = text(WORDS / "table.rt")
        lists = re.findall(r"Texts::(\w+) => &\[([^\]]*)\]", table)
        self.texts = {name: re.findall(r'"(\w+)"', words) for name, words in lists}
        self.constant, self.with_default, self.around = {}, {}, {}
        for name, body in re.findall(r"macro_rules! (\w+) \{(.*?)^\}", table, re.S | re.M):
            if "() =>" in body:
                self.constant[name] = re.search(r"\(\) => \{(.*)\};", body, re.S)[1]
            if "($default:literal) =>" in body:
                self.with_default[name] = re.search(r"=> \{(.*)\};", body, re.S)[1]
            if "$($row),*" in body:
                self.around[name] = re.search(r"=> \{\s*\[(.*)\$\(\$row\),\*", body, re.S)[1]

    def number(self, word):
        word = word.replace(" as u64", "").replace("limits::", "").strip()
        return int(self.numbers.get(word, word).replace("_", ""))

    def key(self, name):
        more = re.fullmatch(r"More\((\d+)\)", name)
        return f"sample{more[1]}" if more else self.stems[name]

    def values(self, kind):
        if kind == "FileName":
            return FILE
        bounds = re.search(r"least: (.*?),\s*most: (.*?),?\s*\}", kind, re.S)
        if bounds:
            return f"{self.number(bounds[1])} to {self.number(bounds[2])}"
        listed = re.search(r"OneOf\(Texts::(\w+)\)", kind)
        if listed:
            return ", ".join(self.texts[listed[1]])
        return ", ".join(str(self.number(it)) for it in re.search(r"Among\((.*)\)", kind)[1].split(","))

    def default(self, need, values):
        if need == "Always":
            return "required"
        if need == "BelowAnother":
            return "none"
        number = re.search(r"Choice::Number\((.*?)\)", need)
        if number:
            return str(self.number(number[1]))
        return values.split(", ")[int(re.search(r"Choice::Nth\((\d+)\)", need)[1])]

    def row(self, found):
        if found["file"]:
            return self.key(found["file"]), FILE, "required"
        if found["sample"]:
            return f"sample{found['sample']}", FILE, "none"
        if found["number"]:
            name, least, most, *default = [it.strip() for it in found["number"].split(",") if it.strip()]
            values = f"{self.number(least)} to {self.number(most)}"
            return self.key(name), values, str(self.number(default[0])) if default else "required"
        values = self.values(found["kind"])
        return self.key(found["key"]), values, self.default(found["need"], values)

    def rows(self, name):
        """The rows of the module whose reader has this name: of each key its values and its default."""
        module = next(code for code in map(text, sorted(WORDS.glob("*.rt"))) if f"pub fn {name}(" in code)
        count, around, body = re.search(r"const ROWS: \[Row; (\d+)\] = (\w+!)?\[(.*?)\];", module, re.S).groups()
        body = (self.around[around[:-1]] if around else "") + body
        for macro, value in self.constant.items():
            body = body.replace(f"{macro}!()", value)
        for macro, value in self.with_default.items():
            body = re.sub(rf"\b{macro}!\((\w+)\)", lambda found: value.replace("$default", found[1]), body)
        rows = [self.row(found) for found in ROW.finditer(body)]
        assert len(rows) == int(count), f"{name}: {len(rows)} rows are read, and the table has {count}"
        return {key: (values, default) for key, values, default in rows}

    def commands(self):
        read = text(WORDS / "read.rt")
        # A command's word leads to a reader, whose job may be wrapped at once.
        asked = re.findall(r'"(\w+)" => (?:Ok\(Job::\w+\()?(\w+)\(alloc, words\)', read)
        return {command: self.rows(function) for command, function in asked}


def keys_of(cell):
    """The keys that a first cell names, as `width`, `height` or `sample2` to `sample16`."""
    names = re.findall(r"`(\w+)`", cell)
    if " to " in cell and len(names) == 2:
        stem = names[0].rstrip("0123456789")
        return [f"{stem}{n}" for n in range(int(names[0][len(stem):]), int(names[1][len(stem):]) + 1)]
    return names


def table_after(document, start):
    """The rows of the first table after a place, without its head."""
    lines = document[start:].split("\n")
    first = next(i for i, line in enumerate(lines) if line.startswith("|"))
    rows = []
    for line in lines[first:]:
        if not line.startswith("|"):
            break
        rows.append([cell.strip() for cell in line.strip("|").split("|")])
    return rows[2:]


def manual(commands):
    document = (ROOT / "docs/MANUAL.md").read_text()
    found = {}
    for command in commands:
        rows = table_after(document, document.index(f"\n## {command}\n"))
        found[command] = {key: (values, default) for name, values, default, *_ in rows for key in keys_of(name)}
    return found


def man_page(commands):
    found = {command: {} for command in commands}
    keys = []
    for line in (ROOT / "docs/weave.1").read_text().split("\n"):
        if line.startswith(".It Cm "):
            keys = keys_of(re.sub(r"(\w+\d*)", r"`\1`", line[7:].replace(" No to Cm ", " TO ")).replace("`TO`", "to"))
        entry = re.match(r"\.D\d ([a-z, ]+): (.+), (required|optional|default \w+)$", line)
        if entry:
            default = {"required": "required", "optional": "none"}.get(entry[3], entry[3].removeprefix("default "))
            for command in entry[1].split(", "):
                for key in keys:
                    found.setdefault(command, {})[key] = (entry[2], default)
    return found


def differences(where, source, found):
    for command in found:
        if command not in source:
            yield f"{where}: {command} is no command"
            continue
        for key in dict.fromkeys([*source[command], *found[command]]):
            has, wants = found[command].get(key), source[command].get(key)
            if has != wants:
                yield f"{where}: {command} {key} is {has}, and in the source {wants}"


def completion(source):
    """What the completion lacks or has too much: of commands, keys, file names and texts."""
    where, code = "docs/weave.bash", (ROOT / "docs/weave.bash").read_text()
    listed = re.search(r'-eq 1 \].*?compgen -W "([^"]*)"', code, re.S)[1].split()
    if listed != list(source):
        yield f"{where}: its commands are {listed}"
    keys = {command: words.split() for command, words in re.findall(r'^\s*(\w+)\) keys="([^"]*)"', code, re.M)}
    for command, rows in source.items():
        wanted = [f"{key}=" for key in rows if not re.fullmatch(r"sample([3-9]|1\d)", key)]
        if sorted(keys.get(command, [])) != sorted(wanted):
            yield f"{where}: the keys of {command} are {keys.get(command)}"
    files = re.search(r"case \$before in\s*([^)]*)\)", code)[1].replace(" ", "").replace("*", "").split("|")
    names = {key for rows in source.values() for key, row in rows.items() if row[0] == FILE}
    wanted = sorted({name.rstrip("0123456789") for name in names})
    if sorted(files) != wanted:
        yield f"{where}: the keys of files are {files}"
    lists = dict(re.findall(r'^\s*(\w+)\)\s*mapfile[^\n]*compgen -W "([^"]*)"', code, re.M))
    wanted = {key: row[0] for rows in source.values() for key, row in rows.items() if ", " in row[0]}
    if {key: words.replace(" ", ", ") for key, words in lists.items()} != wanted:
        yield f"{where}: the values that it completes are {lists}"


def main():
    source = Source().commands()
    faults = [
        *differences("docs/MANUAL.md", source, manual(source)),
        *differences("docs/weave.1", source, man_page(source)),
        *completion(source),
    ]
    counted = sum(len(rows) for rows in source.values())
    print(*faults, f"{len(source)} commands, {counted} keys, {len(faults)} differences", sep="\n")
    return 1 if faults else 0


if __name__ == "__main__":
    sys.exit(main())
