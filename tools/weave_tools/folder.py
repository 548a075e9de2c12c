"""The folder that texture leaves beside a result, with all files of the run that made it."""
import gzip
import hashlib
import os
import re
import shlex
import zlib
from typing import Dict, List, Sequence, Tuple

from .faults import Stop
from .map_files import MOST_MAP_CELLS, MOST_RECORD_CELLS
from .recipe import is_name

ABOUT, REPORT, SUMS, WORDS, SIGNATURE = "about", "report", "sums", "words", "sums.sig"
FILE = re.compile(r"(sample\d*|target|marks|out|map|record)=(.*)", re.S)
PACKED = ("map", "record")
# No map and no record has more bytes: a source has 10 at most, a cell of a box 12 of flows and a
# bit, and a box 20.
LONGEST = {"map": 256 + 10 * MOST_MAP_CELLS, "record": 64 + 33 * MOST_RECORD_CELLS}


def sum_of(name: str) -> str:
    """The SHA-256 of a file."""
    found = hashlib.sha256()
    with open(name, "rb") as file:
        for piece in iter(lambda: file.read(1 << 20), b""):
            found.update(piece)
    return found.hexdigest()


def sum_of_text(text: str) -> str:
    """The SHA-256 of a text."""
    return hashlib.sha256(text.encode("utf-8", "surrogateescape")).hexdigest()


def write_text(folder: str, name: str, text: str) -> None:
    """Writes a text; names in it may have bytes that aren't text, and each byte counts."""
    path = os.path.join(folder, name)
    with open(path, "w", encoding="utf-8", errors="surrogateescape", newline="") as file:
        file.write(text)


def read_text(folder: str, name: str) -> str:
    """Reads a text as it was written."""
    path = os.path.join(folder, name)
    with open(path, encoding="utf-8", errors="surrogateescape", newline="") as file:
        return file.read()


def is_folder(name: str) -> bool:
    """Whether a folder is one that texture has made."""
    return os.path.isdir(name) and {ABOUT, SUMS, WORDS} <= set(os.listdir(name))


def files_in(folder: str) -> List[str]:
    """The names of the folder's files, in order, but for the list itself and its signature. A Stop
    where something else than a file is there."""
    names = sorted(set(os.listdir(folder)) - {SUMS, SIGNATURE})
    for name in names:
        path = os.path.join(folder, name)
        if os.path.islink(path) or not os.path.isfile(path):
            raise Stop(f"{folder}: {name} isn't a plain file", 1)
    return names


def list_of(folder: str) -> str:
    """The lines of `sha256sum` of the folder's own files."""
    return "".join(f"{sum_of(os.path.join(folder, name))}  {name}\n" for name in files_in(folder))


def results_list(paths: Sequence[Tuple[str, str]]) -> str:
    """The lines of results, each by the name that it has beside the folder, and its path."""
    return "".join(f"{sum_of(path)}  ../{name}\n" for name, path in paths)


def pack(folder: str, name: str) -> None:
    """Packs a file of the folder, with no name and no time in it."""
    path = os.path.join(folder, name)
    with open(path, "rb") as file, open(path + ".gz", "wb") as packed:
        with gzip.GzipFile("", "wb", 2, packed, 0) as into:
            for piece in iter(lambda: file.read(1 << 20), b""):
                into.write(piece)
    os.remove(path)


class Files:
    """The files of a run in a folder, as its words name them; packed ones by their own names."""

    def __init__(self, folder: str, words: Sequence[str]) -> None:
        self.folder, self.command, self.words = folder, words[0], list(words)
        self.names: Dict[str, str] = {}
        for word in words[1:]:
            found = FILE.fullmatch(word)
            if found:
                self.add(found[1], found[2])
        self.turns = "turns=all" in words
        self.wrap = next((word[5:] for word in words if word.startswith("wrap=")), "xy")

    def add(self, key: str, name: str) -> None:
        """A file that a word names, which has to lie in the folder."""
        there = set(os.listdir(self.folder))
        if not is_name(name):
            raise Stop(f"{self.folder}: {key}={name} leads out of the folder", 1)
        if name not in there and key in PACKED:
            name += ".gz"
        if name not in there:
            raise Stop(f"{self.folder}: {key}={name} isn't there", 1)
        self.names[key] = name

    def at(self, key: str) -> str:
        """The path of a file."""
        return os.path.join(self.folder, self.names[key])

    def samples(self) -> List[str]:
        """The paths of the samples, in their order."""
        keys = [key for key in self.names if key.startswith("sample")]
        return [self.at(key) for key in sorted(keys, key=lambda key: int(key[6:] or 1))]

    def unpacked(self, room: str, keys: Sequence[str]) -> None:
        """Lays plain files of these keys, by the names of the words, into another folder: what isn't
        packed is linked."""
        for key in keys:
            name = self.names[key]
            plain = os.path.join(room, name[:-3] if name.endswith(".gz") else name)
            if os.path.lexists(plain):
                continue
            if not name.endswith(".gz"):
                os.symlink(os.path.abspath(self.at(key)), plain)
                continue
            self.unpack(key, plain)

    def unpack(self, key: str, plain: str) -> None:
        """Writes what is packed in a file, which can't be more than a map or a record has."""
        left = LONGEST[key]
        try:
            with gzip.open(self.at(key)) as packed, open(plain, "wb") as file:
                while piece := packed.read(1 << 20):
                    left -= len(piece)
                    if left < 0:
                        raise Stop(f"{self.names[key]}: is longer than any {key}", 1)
                    file.write(piece)
        except (EOFError, gzip.BadGzipFile, zlib.error) as error:
            raise Stop(f"{self.names[key]}: is damaged: {error}", 1) from None

    def check_words(self) -> List[str]:
        """The words of `check`; none where the run has no record to check."""
        if "record" not in self.names:
            return []
        names = [word for word in self.words[1:] if FILE.fullmatch(word)]
        words = [word for word in names if not word.startswith(("target=", "marks="))]
        return ["check", *words, *["turns=all"] * self.turns]


def words_text(words: Sequence[str]) -> str:
    """The file `words`: a line for a shell."""
    return "weave " + " ".join(map(shlex.quote, words)) + "\n"


def words_in(text: str) -> List[str]:
    """The words of a file `words`."""
    try:
        found = shlex.split(text)
    except ValueError as error:
        raise Stop(f"words: {error}", 1) from None
    if len(found) < 2 or found[0] != "weave" or words_text(found[1:]) != text:
        raise Stop("words: isn't a run of weave", 1)
    return found[1:]
