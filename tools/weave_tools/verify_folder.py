"""Whether a folder that texture left, and the results beside it, are what they say.

Each thing that holds is a line. The first one that doesn't is a Stop with status 1.
"""
import os
import struct
import tempfile
from typing import Dict, Iterator, List, Optional, Sequence

from . import folder as kept
from .faults import Stop
from .folder import Files, list_of, read_text, results_list, sum_of, words_in
from .forms import ending_of, file_of, keeps_pixels, read_raster
from .inputs import (
    MOST_PIECES,
    clip_bytes,
    kept_file,
    layer_pictures,
    marks_bytes,
    picture_of,
    pieces_without,
    sample_bytes,
    target_bytes,
)
from .layers import whole_cells
from .pixel_files import read_pixels
from .png import Raster
from .programs import Runs, find_weave
from .recipe import Input, Recipe, recipe_of
from .results import drawn_results, pieces_of
from .signing import signer_of
from .verifying import verify, verify_unrecorded

# Words are run again where their run took no longer than this.
SOON = 60.0


def judge_files(files: Files, program: Optional[str]) -> Iterator[str]:
    """What `weave check` and the verifier in Python say of a run's files."""
    words = files.check_words()
    if words and program:
        with tempfile.TemporaryDirectory() as room:
            keys = [word.partition("=")[0] for word in words[1:]]
            files.unpacked(room, [key for key in keys if key in files.names])
            said = Runs(program).report(room, words)
        if said != "stands\n":
            raise Stop(f"weave check: {said.strip()}", 1)
        yield "weave check: stands"
    elif words:
        yield "weave isn't there, so the verifier in Python alone judges the files"
    if not words or not program:
        yield judge_with_python(files)


def judge_with_python(files: Files) -> str:
    """What verify.py says of the files and the report, with no help of weave."""
    more = {key: files.at(key) for key in ("target", "marks") if key in files.names}
    more["report"] = os.path.join(files.folder, kept.REPORT)
    out, where = files.at("out"), files.at("map")
    if "record" in files.names:
        record = files.at("record")
        status, line = verify(out, where, record, *files.samples(), turns=files.turns, **more)
        said = "verify.py: stands"
    else:
        wrap = None if "marks" in more else files.wrap
        status, line = verify_unrecorded(out, where, *files.samples(), wrap=wrap, **more)
        said = "verify.py: samples and map draw the output"
        said += "" if wrap else ", and each marked pixel is of its picture"
    if status:
        raise Stop(f"verify.py: {line}", 1)
    return said


class Kept:
    """A folder whose list and texts were read: its recipe, its run's files, and its results."""

    def __init__(self, folder: str) -> None:
        self.folder = folder
        self.beside = os.path.dirname(os.path.abspath(folder))
        try:
            about, self.sums, words = (
                read_text(folder, name) for name in (kept.ABOUT, kept.SUMS, kept.WORDS)
            )
            self.recipe = recipe_of(about)
            self.hold_sums()
            self.files = Files(folder, words_in(words))
        except (OSError, ValueError) as error:
            raise Stop(f"{folder}: isn't whole: {error}", 1) from None
        except Stop as stop:
            raise Stop(f"{folder}: {stop}" if folder not in str(stop) else str(stop), 1) from None
        self.hold_names()

    def hold_sums(self) -> None:
        """The list has each file of the folder and each result, as they are."""
        paths = [(name, os.path.join(self.beside, name)) for name in self.recipe.results()]
        found = list_of(self.folder) + results_list(paths)
        if found != self.sums:
            lines = set(found.splitlines()) ^ set(self.sums.splitlines())
            names = sorted({line.partition("  ")[2] for line in lines})
            raise Stop(f"the sums differ: {', '.join(names) or 'sums'}", 1)

    def hold_names(self) -> None:
        """Each file that about and words name is in the folder, and the run is the recipe's."""
        recipe, there = self.recipe, set(os.listdir(self.folder))
        named = recipe.full + [name for layer in recipe.layers for name in layer.files]
        for name in named:
            if name not in there:
                raise Stop(f"{self.folder}: about names {name}, which isn't there", 1)
        if self.files.command != recipe.command:
            raise Stop(f"{self.folder}: about and words name two commands", 1)
        for key in ("out", "map"):
            if key not in self.files.names:
                raise Stop(f"{self.folder}: words name no {key}", 1)

    def sample_name(self, number: int) -> str:
        """The path of a sample of weave's, by its number from 1."""
        return self.files.at(f"sample{number if number > 1 else ''}")


def verify_folder(
    folder: str,
    given: Optional[str],
    shown: Sequence[str] = (),
    signer: Optional[str] = None,
    again: Optional[bool] = None,
) -> Iterator[str]:
    """Each thing that holds of a folder, as a line; raises Stop where one doesn't. `shown` are inputs
    that are there, which have to be those that `about` names. `again` has the words run again, or
    not; where it is None they are run where that took under a minute."""
    try:
        yield from verified(Kept(folder), given, shown, signer, again)
    except (IndexError, KeyError, TypeError, ZeroDivisionError, struct.error) as error:
        raise Stop(f"{folder}: its files don't go together: {error!r}", 1) from None


def verified(
    found: Kept,
    given: Optional[str],
    shown: Sequence[str],
    signer: Optional[str],
    again: Optional[bool],
) -> Iterator[str]:
    """The lines of a folder whose list and texts were read."""
    yield "the sums of all files are as they were"
    yield from signature_of(found, signer)
    program = find_weave(given)
    yield from judge_files(found.files, program)
    if found.files.check_words() and program:
        yield judge_with_python(found.files)
    yield from run_again(found, program, again)
    yield from hold_results(found)
    yield from hold_inputs(found, shown)


def signature_of(found: Kept, signer: Optional[str]) -> Iterator[str]:
    """The line on the signature."""
    path = os.path.join(found.folder, kept.SIGNATURE)
    if os.path.lexists(path):
        yield signer_of(path, found.sums.encode("utf-8", "surrogateescape"), signer)
    elif signer is not None:
        raise Stop(f"{found.folder}: isn't signed", 1)


def run_again(found: Kept, program: Optional[str], again: Optional[bool]) -> Iterator[str]:
    """Runs the words once more, and compares all files that the run wrote."""
    if program is None or again is False:
        yield "the words weren't run again, so that the files stand shows only where cells come from"
        return
    if again is None and found.recipe.seconds > SOON:
        took = round(found.recipe.seconds)
        yield f"the words weren't run again, which took {took} s: --again runs them"
        return
    files = found.files
    with tempfile.TemporaryDirectory() as room:
        reads = [key for key in files.names if key not in ("out", "map", "record")]
        files.unpacked(room, reads)
        report = Runs(program).report(room, files.words)
        if report != read_text(found.folder, kept.REPORT):
            raise Stop("the words, run again, give another report", 1)
        for key in ("out", "map", "record"):
            if key in files.names:
                compare_again(files, key, room)
    yield "the words, run again, give the same files"


def compare_again(files: Files, key: str, room: str) -> None:
    """A file of a run once more has the bytes of the folder's."""
    with tempfile.TemporaryDirectory() as other:
        files.unpacked(other, [key])
        (name,) = os.listdir(other)
        with open(os.path.join(other, name), "rb") as old, open(
            os.path.join(room, name), "rb"
        ) as new:
            while True:
                one, two = old.read(1 << 20), new.read(1 << 20)
                if one != two:
                    raise Stop(f"the words, run again, give another {name}", 1)
                if not one:
                    return


# Results.


def hold_results(found: Kept) -> Iterator[str]:
    """Each result is what the folder's files draw."""
    if found.recipe.is_clip:
        yield hold_clip(found)
        return
    for name, raster in drawn_results(found.recipe, found.files):
        path = os.path.join(found.beside, name)
        if not keeps_pixels(name):
            yield f"{name}: its form changes pixels, so it has its sum alone"
            continue
        if not has_pixels(path, raster):
            raise Stop(f"{name}: isn't what the folder's files draw", 1)
        is_out = name == found.recipe.result and not found.recipe.full
        what = "the pixels of the output" if is_out else f"what the map draws, {form_text(raster)}"
        yield f"{name}: has {what}"


def form_text(raster: Raster) -> str:
    """How many numbers of which kind a picture has for each pixel."""
    kinds = {"float": "floats of 32 bits", "rgbe": "radiances of 32 bits"}
    channels = {1: "grey", 2: "grey and alpha", 3: "colour", 4: "colour and alpha"}
    if raster.kind == "rgbe":
        return kinds["rgbe"]
    number = kinds.get(raster.kind, f"{raster.depth} bits")
    what = "a palette" if raster.colour == 3 else channels[raster.channels]
    return f"{what} of {number}"


def has_pixels(path: str, raster: Raster) -> bool:
    """Whether a result has the pixels that its folder draws, in the form that it was written in."""
    result = read_raster(path)
    if ending_of(path) in (".png", ".ppm", ".pfm", ".hdr", ".exr"):
        with tempfile.TemporaryDirectory() as room:
            again = os.path.join(room, "again" + ending_of(path))
            with open(again, "wb") as file:
                file.write(file_of(raster, ending_of(path)))
            return read_raster(again).same_pixels(result)
    return same_colours(result, raster)


def same_colours(one: Raster, other: Raster) -> bool:
    """Whether two pictures have the same pixels, in whatever form of the same depth."""
    size = (one.width, one.height) == (other.width, other.height)
    if one.depth == 16 or other.depth == 16:
        return size and one.same_pixels(other)
    return size and one.rgb() == other.rgb() and one.solid() == other.solid()


def hold_clip(found: Kept) -> str:
    """The line on a result that is a video."""
    name = found.recipe.result
    if ending_of(name) != ".y4m":
        return f"{name}: its form changes pixels, so it has its sum alone"
    if sum_of(os.path.join(found.beside, name)) != sum_of(found.files.at("out")):
        raise Stop(f"{name}: isn't the output", 1)
    return f"{name}: has the pixels of the output"


# Inputs.


def hold_inputs(found: Kept, shown: Sequence[str]) -> Iterator[str]:
    """Each input that is shown has the sum that `about` names, and gives the folder's files; and
    which inputs weren't shown."""
    paths: Dict[str, str] = {}
    for path in shown:
        keys = keys_with(found.recipe, path)
        if not keys:
            raise Stop(f"{path}: is none of the inputs, by its sum", 1)
        for key in keys:
            paths[key] = path
    for one in found.recipe.inputs:
        if one.key in paths:
            hold_input(found, one, paths)
            yield f"{one.name}: was shown, and gives the files that weave read ({one.key})"
    missing = [one.name for one in found.recipe.inputs if one.key not in paths]
    if missing:
        yield f"not shown, so that their sums alone are named: {', '.join(missing)}"


def keys_with(recipe: Recipe, path: str) -> List[str]:
    """The keys of the inputs that have the sum of a file."""
    try:
        found = sum_of(path)
    except OSError as error:
        raise Stop(f"{path}: can't be read: {error.strerror}", 5) from None
    return [one.key for one in recipe.inputs if one.sha256 == found]


def hold_input(found: Kept, one: Input, paths: Dict[str, str]) -> None:
    """Converts an input once more, and compares what it gives."""
    recipe, path = found.recipe, paths[one.key]
    if one.key.startswith("sample"):
        hold_sample(found, one, path)
    elif one.key == "target":
        sample = read_pixels(found.sample_name(1), "sample") if recipe.matched else None
        raster = picture_of(path, one)
        same(found, "target", target_bytes(raster, recipe.colour(), recipe.cell, sample), one)
    elif one.key == "marks":
        raster = whole_cells(picture_of(path, one), recipe.cell)
        same(found, "marks", marks_bytes(raster, path, recipe.cell, len(recipe.pieces)), one)
    elif one.key == "avoid":
        mask = whole_cells(picture_of(path, one), recipe.cell)
        most = MOST_PIECES if recipe.command == "grow" else 1
        most = min(most, 2) if found.files.turns else most
        if pieces_without(mask, recipe.cell, most, 8, path) != pieces_of(recipe):
            raise Stop(f"{one.name}: leaves other pieces to copy from than about names", 1)
    else:
        hold_layer(found, one, paths)


def hold_sample(found: Kept, one: Input, path: str) -> None:
    """A sample gives what weave read of it, and what is kept with all its bits."""
    recipe, number = found.recipe, int(one.key[6:] or 1)
    if recipe.is_clip:
        same(found, one.key, clip_bytes(path, one), one)
        return
    raster = whole_cells(picture_of(path, one), recipe.cell)
    for place, piece in enumerate(pieces_of(recipe), 1):
        if piece.picture == number - 1:
            key = f"sample{place if place > 1 else ''}"
            same(found, key, sample_bytes(raster, recipe.colour(), recipe.cell, piece), one)
    if recipe.full:
        solid = raster.without_alpha() if raster.is_solid() else raster
        same_file(found, recipe.full[number - 1], kept_file(solid, f"full{number}")[1], one)


def hold_layer(found: Kept, one: Input, paths: Dict[str, str]) -> None:
    """A layer's picture gives what is kept of it. It is of the sample's size or of a multiple, which
    the number of pixels to a cell tells."""
    recipe = found.recipe
    number, part = (int(text) for text in one.key[len("layer") :].split("_"))
    layer = recipe.layers[number - 1]
    raster = read_raster(paths[one.key])
    factor = layer.each // recipe.cell
    size = (raster.width // factor, raster.height // factor)
    made = layer_pictures([paths[one.key]], [one], [size], recipe.cell, layer.normals)
    same_file(found, layer.files[part - 1], kept_file(made.rasters[0], one.key)[1], one)


def same(found: Kept, key: str, data: bytes, one: Input) -> None:
    """The file of a key has these bytes."""
    same_file(found, found.files.names[key], data, one)


def same_file(found: Kept, name: str, data: bytes, one: Input) -> None:
    """A file of the folder has these bytes."""
    with open(os.path.join(found.folder, name), "rb") as file:
        if file.read() != data:
            with_what = f"; it was converted with {', '.join(found.recipe.made_with)}"
            raise Stop(
                f"{one.name}: gives another {name} than the folder has"
                + (with_what if found.recipe.made_with else ""),
                1,
            )
