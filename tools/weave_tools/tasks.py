"""What is asked of texture: its words, read and held against what is there."""
import argparse
import os
import re
from typing import Any, Callable, Dict, List, Optional, Sequence, Tuple

from .faults import Stop
from .forms import PICTURES, VIDEOS, ending_of, is_clip, known_form, refuse_result
from .keys import KEYS, keys_of
from .layers import CELLS
from .safe_files import refuse_names, same_file

SIZE = r"([1-9]\d{0,8})x([1-9]\d{0,8})"
# The least and the most samples, and what follows them.
WORDS: Dict[str, Tuple[int, int, List[str]]] = {
    "grow": (1, 16, ["RESULT", "SIZE"]),
    "quilt": (1, 1, ["RESULT", "SIZE"]),
    "tile": (1, 1, ["RESULT", "SIZE"]),
    "transfer": (1, 1, ["TARGET", "RESULT"]),
    "loop": (1, 1, ["RESULT", "FRAMES"]),
    "merge": (2, 16, ["MARKS", "RESULT"]),
}
# The commands that make videos alone, or none; others make what the samples are.
MAKES_CLIPS = {"quilt": False, "transfer": False, "loop": True, "merge": False}


class Parser(argparse.ArgumentParser):
    """Says what is wrong in one line."""

    def error(self, message: str) -> Any:
        raise Stop(f"{message}; texture --help has all")


def numbers(form: str) -> Callable[[str], Tuple[int, ...]]:
    """A reader of an option's value, as numbers."""

    def read(text: str) -> Tuple[int, ...]:
        found = re.fullmatch(form, text)
        if not found:
            raise argparse.ArgumentTypeError(f"another value is wanted than '{text}'")
        return tuple(map(int, found.groups()))

    return read


def parser_of(command: str) -> Parser:
    """The options of a command."""
    parser = Parser(prog=f"texture {command}", add_help=False, allow_abbrev=False)
    parser.add_argument("--weave")
    parser.add_argument("rest", nargs="*")
    if command == "verify":
        for name in ("--sample", "--target", "--marks", "--layer", "--input"):
            parser.add_argument(name, action="append", dest="shown", default=[])
        parser.add_argument("--signer")
        parser.add_argument("--again", action="store_true")
        parser.add_argument("--no-again", action="store_true")
        return parser
    parser.add_argument("--tries", type=numbers(r"([1-9]\d{0,3})"))
    parser.add_argument("--sheet")
    parser.add_argument("--crop", type=numbers(SIZE + r"\+(\d{1,9})\+(\d{1,9})"))
    parser.add_argument("--frames", type=numbers(r"(\d{1,9})-(\d{1,9})"))
    parser.add_argument("--scale", type=numbers(SIZE))
    parser.add_argument("--cell", type=numbers(r"([1-9]\d?)"))
    parser.add_argument("--layer", action="append", default=[])
    parser.add_argument("--normals", action="append", default=[])
    parser.add_argument("--normals-y", choices=["up", "down"], default="up")
    parser.add_argument("--avoid")
    parser.add_argument("--over", default="ffffff")
    parser.add_argument("--no-match", action="store_true")
    parser.add_argument("--sign")
    parser.add_argument("--plain", action="store_true")
    parser.add_argument("--replace", action="store_true")
    return parser


class LayerAsk:
    """A layer that is asked for: its pictures, one for each sample, and the name of its result."""

    def __init__(self, text: str, result: str, normals: Optional[str]) -> None:
        names, _, name = (text, "", "") if os.path.isfile(text) else text.partition("=")
        self.files = [names] if os.path.isfile(names) else names.split(",")
        self.normals = normals
        refuse_names(*self.files)
        if name or not text.endswith("="):
            stem = os.path.splitext(os.path.basename(result))[0]
            layer, ending = os.path.splitext(os.path.basename(self.files[0]))
            self.result = name or os.path.join(
                os.path.dirname(result), f"{stem}_{layer}{ending.lower()}"
            )
        else:
            raise Stop(f"{text}: the name of the layer's result is empty")


class Task:
    """What is asked for: the samples, the marks of a merge, the result, its size, and the keys that
    were given."""

    def __init__(self, command: str, options: argparse.Namespace) -> None:
        least, most, after = WORDS[command]
        is_key = re.compile(r"[a-z]\w*=").match
        rest = [word for word in options.rest if not is_key(word)]
        self.command, self.options = command, options
        self.keys = keys_of(command, filter(is_key, options.rest))
        refuse_names(*rest)
        self.scale = None
        if command == "transfer" and rest and re.fullmatch(SIZE, rest[-1]):
            self.scale = numbers(SIZE)(rest.pop())
        count = len(rest) - len(after)
        if not least <= count <= most:
            wanted = f"{least} to {most} samples" if most > 1 else "a sample"
            raise Stop(f"{command} wants {wanted}, {' and '.join(after)}; texture --help has all")
        self.samples, named = rest[:count], dict(zip(after, rest[count:]))
        self.marks, self.target = named.get("MARKS"), named.get("TARGET")
        self.result = named["RESULT"]
        self.size = named.get("SIZE", named.get("FRAMES"))
        self.kept = self.result + ".weave"
        self.is_clip = ending_of(self.result) in VIDEOS
        self.layers = [LayerAsk(text, self.result, None) for text in options.layer]
        self.layers += [LayerAsk(text, self.result, options.normals_y) for text in options.normals]
        self.refuse_names()
        self.refuse_inputs()
        self.refuse_options()

    def inputs(self) -> List[str]:
        """All files that are read."""
        named = [name for name in (self.target, self.marks, self.options.avoid) if name is not None]
        return self.samples + named + [name for layer in self.layers for name in layer.files]

    def results(self) -> List[str]:
        """All files that are written beside the folder."""
        return [self.result, *(layer.result for layer in self.layers)]

    def refuse_names(self) -> None:
        """Refuses names that no result can have."""
        folder = os.path.dirname(os.path.abspath(self.result))
        for name in self.results():
            if re.search("[\n\r]", name):
                raise Stop(f"{name!r}: a name without a line break is wanted")
            if not os.path.isdir(os.path.dirname(os.path.abspath(name))):
                raise Stop(f"{name}: there is no such folder", 6)
            if os.path.dirname(os.path.abspath(name)) != folder:
                raise Stop(f"{name}: a layer's result lies beside {self.result}")
            if not os.path.basename(name):
                raise Stop(f"{name}: is a folder, and the name of a picture or a video is wanted")
        if len({os.path.abspath(name) for name in self.results()}) < len(self.results()):
            raise Stop("two results have one name")
        refuse_result(self.result, self.is_clip)
        for layer in self.layers:
            if ending_of(layer.result) not in PICTURES:
                raise Stop(f"{layer.result}: a layer's result is a picture, as .png or .exr")
            refuse_result(layer.result, False)

    def refuse_inputs(self) -> None:
        """Refuses what isn't there, and what would be overwritten."""
        for name in self.inputs():
            refuse_names(name)
            if re.search("[\n\r]", os.path.basename(name)):
                raise Stop(f"{name!r}: a name without a line break is wanted")
            if not os.path.isfile(name):
                raise Stop(f"{name}: there is no such file", 5)
            for result in [*self.results(), *filter(None, [self.options.sheet])]:
                if same_file(name, result):
                    raise Stop(f"{name}: is the result too")
        for name in self.samples + [name for name in (self.target, self.marks) if name]:
            if is_clip(name) != self.is_clip:
                kinds = "samples and result have to be all pictures or all videos"
                raise Stop(
                    f"{name}: {kinds}, and it is {'a video' if is_clip(name) else 'a picture'}"
                )
        if self.is_clip != MAKES_CLIPS.get(self.command, self.is_clip):
            kind = "pictures" if self.is_clip else "videos"
            raise Stop(f"{self.result}: {self.command} makes {kind}")

    def refuse_options(self) -> None:
        """Refuses options that don't go together."""
        options = self.options
        if options.tries and "seed" not in KEYS[self.command]:
            raise Stop(f"{self.command} takes no seed, so --tries has nothing to try")
        if options.sheet is not None and (not options.tries or self.is_clip):
            raise Stop("--sheet shows the pictures of --tries N")
        if options.sheet is not None:
            refuse_names(options.sheet)
        if options.frames and (not self.is_clip or options.frames[0] > options.frames[1]):
            raise Stop("--frames takes the first and the last frame of a clip, as 0-99")
        if options.scale and self.marks:
            raise Stop("--scale would smooth the marks: scale pictures and marks before")
        if options.scale and (self.layers or options.avoid):
            raise Stop("--scale would part layers and masks from the sample's pixels: leave it out")
        if self.is_clip and (self.layers or options.avoid or options.cell):
            raise Stop("--layer, --normals, --avoid and --cell are for pictures")
        if options.avoid is not None and (self.command == "merge" or len(self.samples) > 1):
            raise Stop("--avoid is for a run with one sample")
        if options.cell and options.cell[0] > 64:
            raise Stop("--cell takes a number from 1 to 64")
        if not re.fullmatch("[0-9a-fA-F]{6}", options.over):
            raise Stop("--over takes a colour, as ffffff")
        for layer in self.layers:
            if len(layer.files) != len(self.samples):
                raise Stop(
                    f"{','.join(layer.files)}: a layer has a picture for each sample, with commas between"
                )
            for name in layer.files:
                known_form(name)
        self.refuse_there()

    def refuse_there(self) -> None:
        """Refuses what is there already, unless it is to be replaced; and never a folder that isn't
        this result's."""
        there = [name for name in [*self.results(), self.kept] if os.path.lexists(name)]
        if there and not self.options.replace:
            raise Stop(f"{' and '.join(there)}: already there; --replace replaces them")
        for name in self.results():
            if os.path.isdir(name):
                raise Stop(f"{name}: is a folder, and isn't replaced")


def cell_for(
    size: Optional[Tuple[int, int]], samples: Sequence[Tuple[int, int]], turns: bool, tile: bool
) -> int:
    """The least cells of k x k pixels by which a result and its samples are within weave's bounds;
    of a tile only cells of which it is whole. A Stop where none are."""
    for cell in CELLS:
        if tile and size and (size[0] % cell or size[1] % cell):
            continue
        sizes = [
            (-(-width // cell), -(-height // cell)) for width, height in ([size] if size else [])
        ]
        whole = [(width // cell, height // cell) for width, height in samples]
        cells = sum(width * height for width, height in whole)
        if max([0, *(axis for pair in sizes + whole for axis in pair)]) > 4096:
            continue
        if any(width * height > 1 << 20 for width, height in sizes):
            continue
        if cells * (8 if turns else 1) > 1 << 23:
            continue
        return cell
    what = "{}x{}".format(*size) if size else "a sample"
    raise Stop(
        f"{what}: is past weave's bounds even with cells of 8x8 pixels. Ask for less, or take a part "
        "of the sample with --crop",
        4,
    )


def task_of(words: Sequence[str]) -> Task:
    """The task that words ask for, the first of which is a command."""
    return Task(words[0], parser_of(words[0]).parse_intermixed_args(list(words[1:])))
