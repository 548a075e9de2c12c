"""Reads the table of a batch: which textures it asks for, one row a result."""
import glob
import hashlib
import os
import re
import shlex
import shutil
from dataclasses import dataclass
from itertools import product
from pathlib import Path
from typing import Dict, Iterator, List, Tuple

COMMANDS = ("grow", "quilt", "tile", "transfer", "loop", "merge")
VIDEOS = (".avi", ".gif", ".mkv", ".mov", ".mp4", ".webm", ".y4m")
RANGE = re.compile(r"(\w+=)(\d+)\.\.(\d+)")


class TableError(ValueError):
    """A row that asks for no texture, with its number and what is wrong."""


@dataclass(frozen=True)
class Texture:
    """One result: the name of its file, the files that it is made from, and what is asked of them."""

    name: str
    command: str
    inputs: Tuple[str, ...]
    size: Tuple[str, ...]
    keys: Tuple[str, ...]

    def words(self, result: str) -> List[str]:
        """The words after `texture` that make this result."""
        return [self.command, *self.inputs, result, *self.size, *self.keys]


def name_of(command: str, inputs: Tuple[str, ...], size: str, keys: Tuple[str, ...]) -> str:
    """The name of a result's file: its first input, command, size and keys, and a suffix."""
    stem, suffix = os.path.splitext(os.path.basename(inputs[0]))
    parts = [stem, command, size, *(key.replace("=", "") for key in keys)]
    plain = re.sub(r"[^\w.+-]+", "_", "-".join(part for part in parts if part != "-"))
    return plain + (suffix if suffix.lower() in VIDEOS else ".png")


def every_choice(words: List[str]) -> Iterator[Tuple[str, ...]]:
    """The words with each value of their ranges: `seed=0..2` stands for three."""
    choices = []
    for word in words:
        found = RANGE.fullmatch(word)
        if found:
            values = range(int(found[2]), int(found[3]) + 1)
            choices.append([f"{found[1]}{value}" for value in values])
        else:
            choices.append([word])
    return product(*choices)


def files_of(sample: str) -> List[str]:
    """The files that a pattern of the first column names, sorted; a plain name is its own file."""
    if glob.has_magic(sample):
        return sorted(glob.glob(sample))
    return [sample]


def textures_of(row: List[str]) -> Iterator[Texture]:
    """The textures of one row: its sample, or samples with commas between, command, size, keys."""
    if len(row) < 3 or row[1] not in COMMANDS:
        raise TableError(f"a row has a sample, one of {', '.join(COMMANDS)}, a size and keys")
    first, *others = row[0].split(",")
    samples = files_of(first)
    if not samples:
        raise TableError(f"no file is called {first}")
    for sample in samples:
        inputs = (sample, *others)
        for keys in every_choice(row[3:]):
            size = () if row[2] == "-" else (row[2],)
            yield Texture(name_of(row[1], inputs, row[2], keys), row[1], inputs, size, keys)


def read_table(path: str) -> Dict[str, Texture]:
    """The textures of a table, by the names of their results."""
    found: Dict[str, Texture] = {}
    for number, line in enumerate(Path(path).read_text().splitlines(), 1):
        row = shlex.split(line, comments=True)
        if not row:
            continue
        try:
            for texture in textures_of(row):
                if texture.name in found:
                    raise TableError(f"{texture.name} is asked for twice")
                found[texture.name] = texture
        except TableError as error:
            raise TableError(f"{path}, line {number}: {error}") from None
    return found


def find_program(given: str, top: str) -> str:
    """The path of weave: the one that is named, or beside tools/, or on the PATH."""
    beside = os.path.join(top, "weave")
    program = given or (beside if os.access(beside, os.X_OK) else shutil.which("weave"))
    if not program or not os.access(program, os.X_OK):
        raise TableError("weave isn't there: build it, or name it by --config weave=PROGRAM")
    return os.path.abspath(program)


def checksum(path: str) -> str:
    """The SHA-256 of a file."""
    return hashlib.sha256(Path(path).read_bytes()).hexdigest()


def last_line(path: str) -> str:
    """The last line of a log that isn't empty."""
    lines = Path(path).read_text(errors="replace").split("\n")
    return next((line.strip() for line in reversed(lines) if line.strip()), "no line")
