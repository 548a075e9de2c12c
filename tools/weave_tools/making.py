"""How a result is made, in four steps: convert the inputs, choose keys, run weave, keep the result.

`tools/texture` takes these steps one after another; a server can take them apart.
"""
import argparse
import contextlib
import os
import re
import shutil
import signal
import tempfile
from dataclasses import dataclass, field
from shlex import quote
from typing import Dict, Iterator, List, Optional, Tuple

from . import folder as kept
from .candidates import Job, Tried, all_tries, best_of, seeds_of, take_files
from .clips import write_video
from .faults import Fault, Stop
from .folder import Files, list_of, pack, results_list, sum_of, sum_of_text, words_text, write_text
from .forms import ending_of, file_of, read_raster
from .inputs import (
    MOST_PIECES,
    check_registered,
    clip_bytes,
    kept_file,
    layer_pictures,
    marks_bytes,
    picture_of,
    pieces_without,
    sample_bytes,
    taken,
    target_bytes,
    whole_pieces,
)
from .keys import Keys, chosen_keys, how_it_closes, how_it_matches, size_keys, wrapped_sizes
from .layers import Piece, whole_cells
from .pixel_files import Pixels, read_pixels
from .png import Raster, Text
from .programs import Runs, find_weave
from .progress import LONG, Watch, estimate, remedies, time_text
from .recipe import Input, LayerOf, Recipe
from .results import drawn_results, first_pixels
from .safe_files import write_file
from .sheet import sheet
from .signing import sign
from .tasks import Task, cell_for
from .verify_folder import judge_files

STOPS = (signal.SIGINT, signal.SIGTERM, signal.SIGHUP)
WITHOUT_RECORD = ("tile", "merge")
LEAST_PIECE = 8


@dataclass
class Converted:
    """The inputs as weave reads them: the words that name them, what they are, and the recipe."""

    recipe: Recipe
    files: List[str] = field(default_factory=list)
    samples: List[Pixels] = field(default_factory=list)
    target: Optional[Pixels] = None
    size: Optional[str] = None


# Convert.


def input_of(key: str, path: str, options: argparse.Namespace) -> Input:
    """What the recipe says of an input."""
    values = {
        name: list(getattr(options, name)) if getattr(options, name, None) else None
        for name in ("crop", "frames", "scale")
    }
    return Input(key, os.path.basename(path), sum_of(path), **values)


def convert(task: Task, folder: str, watch: Watch) -> Converted:
    """Converts all inputs into the folder."""
    recipe = Recipe(task.command, os.path.basename(task.result), is_clip=task.is_clip)
    recipe.over = task.options.over.lower()
    converted = Converted(recipe, size=task.size)
    if task.is_clip:
        for number, path in enumerate(task.samples, 1):
            key = sample_key(number)
            recipe.inputs.append(input_of(key, path, task.options))
            data = clip_bytes(path, recipe.inputs[-1], watch.say)
            converted.samples.append(put_file(folder, key + ".y4m", data, path))
            converted.files.append(f"{key}={key}.y4m")
        return converted
    convert_pictures(task, folder, converted, watch)
    return converted


def sample_key(number: int) -> str:
    """The key of a sample."""
    return f"sample{number if number > 1 else ''}"


def put_file(folder: str, name: str, data: bytes, path: str) -> Pixels:
    """Writes a file that weave will read, and reads it, so that what is wrong with it is said by
    the name that it had."""
    kept_path = os.path.join(folder, name)
    with open(kept_path, "wb") as file:
        file.write(data)
    try:
        return read_pixels(kept_path, os.path.basename(path))
    except Fault as fault:
        hint = ". Take a part of it with --crop or --frames, or scale it with --scale"
        raise Stop(fault.line + (hint if fault.status == 4 else ""), fault.status) from None


def convert_pictures(task: Task, folder: str, converted: Converted, watch: Watch) -> None:
    """Converts pictures: the samples as the search sees them, and all that the map copies."""
    recipe, options = converted.recipe, task.options
    wanted = [input_of(sample_key(n), path, options) for n, path in enumerate(task.samples, 1)]
    wholes = [read_raster(path) for path in task.samples]
    rasters = [taken(*three) for three in zip(wholes, task.samples, wanted)]
    recipe.inputs += wanted
    target = None
    if task.target:
        whole = argparse.Namespace(scale=task.scale)
        recipe.inputs.append(input_of("target", task.target, whole))
        target = picture_of(task.target, recipe.inputs[-1])
    choose_cell(task, converted, rasters, target, watch)
    cell, over = recipe.cell, recipe.colour()
    say_clear(task, rasters, recipe, watch)
    rasters = [whole_cells(raster, cell) for raster in rasters]
    if not all(raster.width and raster.height for raster in rasters):
        raise Stop(f"--cell {cell}: a sample is smaller than a cell")
    pieces = whole_pieces(rasters, cell)
    if options.avoid is not None:
        pieces = convert_mask(task, recipe, rasters, watch)
    recipe.pieces = [list(piece) for piece in pieces]
    for number, piece in enumerate(pieces, 1):
        key = sample_key(number)
        data = sample_bytes(rasters[piece.picture], over, cell, piece)
        converted.samples.append(put_file(folder, key + ".ppm", data, task.samples[piece.picture]))
        converted.files.append(f"{key}={key}.ppm")
    keep_full(folder, recipe, rasters)
    convert_layers(task, folder, recipe, [(whole.width, whole.height) for whole in wholes])
    if task.target and target:
        recipe.matched = not options.no_match
        like = converted.samples[0] if recipe.matched else None
        data = target_bytes(target, over, cell, like)
        converted.target = put_file(folder, "target.ppm", data, task.target)
        converted.files.append("target=target.ppm")
    if task.marks:
        recipe.inputs.append(input_of("marks", task.marks, options))
        raster = whole_cells(picture_of(task.marks, recipe.inputs[-1]), cell)
        data = marks_bytes(raster, task.marks, cell, len(pieces))
        put_file(folder, "marks.ppm", data, task.marks)
        converted.files.append("marks=marks.ppm")


def choose_cell(
    task: Task,
    converted: Converted,
    rasters: List[Raster],
    target: Optional[Raster],
    watch: Watch,
) -> None:
    """Sets how many pixels a cell is, and the size of the output in cells."""
    recipe = converted.recipe
    found = re.fullmatch(r"(\d+)x(\d+)", task.size or "")
    size = (int(found[1]), int(found[2])) if found else None
    if task.command == "merge":
        size = (rasters[0].width, rasters[0].height)
    if target:
        size = (target.width, target.height)
    sizes = [(raster.width, raster.height) for raster in rasters]
    turns = task.keys.get("turns") == "all"
    if task.options.cell:
        cell = task.options.cell[0]
    else:
        cell = cell_for(size, sizes, turns, task.command == "tile")
        if cell > 1:
            watch.say(f"cells of {cell}x{cell} pixels, since more are past the bounds of weave")
    recipe.cell = cell
    if cell == 1 or not size:
        return
    width, height = size
    if task.command == "tile" and (width % cell or height % cell):
        near = f"{width // cell * cell}x{height // cell * cell}"
        raise Stop(f"{task.size}: a tile is of whole cells of {cell}x{cell} pixels: take {near}")
    if found and task.command in ("grow", "quilt", "tile"):
        recipe.cut = [width, height]
        converted.size = f"{-(-width // cell)}x{-(-height // cell)}"


def say_clear(task: Task, rasters: List[Raster], recipe: Recipe, watch: Watch) -> None:
    """Says what the search sees of transparent pixels."""
    for path, raster in zip(task.samples, rasters):
        if raster.solid() is not None:
            watch.say(f"{path}: its transparent pixels are searched over {recipe.over}")


def convert_mask(task: Task, recipe: Recipe, rasters: List[Raster], watch: Watch) -> List[Piece]:
    """The pieces of the sample that a mask leaves."""
    path = task.options.avoid
    recipe.inputs.append(input_of("avoid", path, task.options))
    mask = whole_cells(picture_of(path, recipe.inputs[-1]), recipe.cell)
    sizes = {
        task.samples[0]: (rasters[0].width, rasters[0].height),
        path: (mask.width, mask.height),
    }
    check_registered(sizes)
    most = MOST_PIECES if task.command == "grow" else 1
    if task.keys.get("turns") == "all":
        most = min(most, 2)
    pieces = pieces_without(mask, recipe.cell, most, LEAST_PIECE, path)
    shapes = ", ".join(f"{piece.width}x{piece.height}+{piece.x}+{piece.y}" for piece in pieces)
    watch.say(f"copied from what {path} leaves free: {shapes}")
    return pieces


def keep_full(folder: str, recipe: Recipe, rasters: List[Raster]) -> None:
    """Keeps the samples with all their bits, where they have more than weave reads."""
    if recipe.cell == 1 and all(raster.is_plain() for raster in rasters):
        return
    for number, raster in enumerate(rasters, 1):
        solid = raster.without_alpha() if raster.is_solid() else raster
        name, data = kept_file(solid, f"full{number}")
        recipe.full.append(name)
        write_file(os.path.join(folder, name), data)


def convert_layers(task: Task, folder: str, recipe: Recipe, sizes: List[Tuple[int, int]]) -> None:
    """Keeps the pictures of the layers, over samples whose files have these sizes."""
    for number, ask in enumerate(task.layers, 1):
        keys = [f"layer{number}_{part}" for part in range(1, len(ask.files) + 1)]
        wanted = [input_of(key, path, task.options) for key, path in zip(keys, ask.files)]
        recipe.inputs += wanted
        layer = layer_pictures(ask.files, wanted, sizes, recipe.cell, ask.normals)
        names = []
        for key, raster in zip(keys, layer.rasters):
            name, data = kept_file(raster, key)
            write_file(os.path.join(folder, name), data)
            names.append(name)
        result = os.path.basename(ask.result)
        recipe.layers.append(LayerOf(result, names, layer.each, ask.normals))


# Choose.


def choose(task: Task, converted: Converted) -> Tuple[Keys, Keys]:
    """All keys of the run, and those of them that were chosen here."""
    sizes = size_keys(task.command, converted.size, converted.samples[0])
    chosen = chosen_keys(task.command, converted.samples, sizes, task.keys, converted.target)
    return {**sizes, **chosen, **task.keys}, chosen


def say_choice(task: Task, converted: Converted, keys: Keys, chosen: Keys, watch: Watch) -> float:
    """Says what was chosen, and how long it will take; the estimate in seconds."""
    if chosen:
        watch.say("chosen: " + " ".join(f"{key}={value}" for key, value in chosen.items()))
    if task.command == "tile":
        line = how_it_closes(wrapped_sizes(keys, task.keys), keys)
        if line:
            watch.say(line)
    takes = estimate(task.command, converted.samples, keys, keys, converted.target)
    tries = task.options.tries[0] if task.options.tries else 1
    rounds = -(-tries // max(1, min(tries, os.cpu_count() or 1)))
    if takes * rounds > LONG:
        ways = ", ".join(remedies(task.command, keys, converted.recipe.cell))
        watch.say(f"it takes about {time_text(takes * rounds)}; quicker: {ways}")
    return takes


# Run.


def run(
    task: Task,
    converted: Converted,
    keys: Keys,
    folder: str,
    runs: Runs,
    watch: Watch,
    takes: float,
) -> Tried:
    """Runs weave, for all seeds that are to be tried, and leaves the files of the best one in the
    folder."""
    recipe = converted.recipe
    out = "out" + (".y4m" if task.is_clip else ".ppm")
    files = converted.files + [f"out={out}", "map=map"]
    files += ["record=record"] * (task.command not in WITHOUT_RECORD)
    tries = task.options.tries[0] if task.options.tries else None
    job = Job(runs, folder, task.command, files, keys)

    def say(one: Tried) -> None:
        if tries:
            watch.say(f"seed {one.seed}: {one.figures.line()}")

    found = all_tries(job, seeds_of(keys, tries), watch, takes, say)
    best = best_of(found)
    if tries:
        watch.say(
            f"kept seed={best.seed}: seams and repetition weighed alike against the mean of all"
        )
    elif best.figures.most is not None and task.command != "merge":
        watch.say(best.figures.line())
    if task.options.sheet is not None:
        write_file(task.options.sheet, sheet(found, best, out), task.inputs())
        watch.say(f"{task.options.sheet} shows all tries")
    recipe.figures = best.figures._asdict()
    recipe.seconds = round(best.seconds, 3)
    take_files(best, job)
    return best


# Keep.


def refuse_forms(task: Task, converted: Converted, folder: str) -> None:
    """Refuses results whose form can't keep what the samples or layers have, before weave runs."""
    for name, raster in first_pixels(converted.recipe, folder):
        try:
            file_of(raster, ending_of(name))
        except Stop as stop:
            raise Stop(f"{name}: {stop}", stop.status) from None


def texts_of(recipe: Recipe, list_sum: str) -> Tuple[Text, ...]:
    """The texts of a result's PNG: by which program, of what, and the sum of the folder's list."""
    names = "; ".join(f"{one.name} (SHA-256 {one.sha256})" for one in recipe.inputs)
    escaped = [re.sub("[<&>]", lambda m: f"&#{ord(m[0])};", one.name) for one in recipe.inputs]
    sources = "".join(
        f"<rdf:li>{name} sha256:{one.sha256}</rdf:li>" for name, one in zip(escaped, recipe.inputs)
    )
    xmp = (
        '<?xpacket begin="\ufeff" id="W5M0MpCehiHzreSzNTczkc9d"?>'
        '<x:xmpmeta xmlns:x="adobe:ns:meta/">'
        '<rdf:RDF xmlns:rdf="http://www.w3.org/1999/02/22-rdf-syntax-ns#">'
        '<rdf:Description rdf:about="" xmlns:dc="http://purl.org/dc/elements/1.1/" '
        'xmlns:xmp="http://ns.adobe.com/xap/1.0/" xmp:CreatorTool="weave">'
        f"<dc:source><rdf:Bag>{sources}</rdf:Bag></dc:source>"
        "</rdf:Description></rdf:RDF></x:xmpmeta>"
        '<?xpacket end="r"?>'
    )
    return (
        Text("Software", "weave, by tools/texture"),
        Text("Source", names),
        Text("Sums", f"SHA-256 of the sums of the files in {recipe.result}.weave: {list_sum}"),
        Text("XML:com.adobe.xmp", xmp),
    )


def keep(
    task: Task, converted: Converted, best: Tried, room: str, program: str
) -> Tuple[List[str], List[Tuple[str, str]]]:
    """Checks the run's files, writes the folder's texts and the results, still in the room. Gives
    what was found as lines, and each result's path in the room with its name."""
    folder, recipe = os.path.join(room, "folder"), converted.recipe
    write_text(folder, kept.REPORT, best.report)
    write_text(folder, kept.WORDS, words_text(best.words))
    recipe.program, recipe.program_sha256 = os.path.basename(program), sum_of(program)
    lines = list(judge_files(Files(folder, best.words), program))
    write_text(folder, kept.ABOUT, recipe.text())
    rasters = [] if task.is_clip else drawn_results(recipe, Files(folder, best.words))
    if not task.options.plain:
        for name in kept.PACKED:
            if os.path.exists(os.path.join(folder, name)):
                pack(folder, name)
    listed = list_of(folder)
    texts = texts_of(recipe, sum_of_text(listed))
    made: List[Tuple[str, str]] = []
    for name, raster in rasters:
        path = os.path.join(room, "result_" + str(len(made)) + ending_of(name))
        with open(path, "wb") as file:
            file.write(file_of(raster, ending_of(name), texts))
        made.append((name, path))
    if task.is_clip:
        path = os.path.join(room, "result" + ending_of(task.result))
        write_clip(os.path.join(folder, "out.y4m"), path)
        made.append((recipe.result, path))
    sums = listed + results_list(made)
    write_text(folder, kept.SUMS, sums)
    if task.options.sign is not None:
        signature = sign(task.options.sign, sums.encode("utf-8", "surrogateescape"))
        with open(os.path.join(folder, kept.SIGNATURE), "wb") as file:
            file.write(signature)
        lines.append(f"signed with {task.options.sign}")
    return lines, made


def write_clip(out_name: str, result: str) -> None:
    """The video of a clip that weave wrote."""
    if ending_of(result) == ".y4m":
        shutil.copyfile(out_name, result)
    else:
        write_video(out_name, result, ending_of(result))


# All of it.


@contextlib.contextmanager
def unstopped() -> Iterator[None]:
    """Lets no signal come in between."""
    held = signal.pthread_sigmask(signal.SIG_BLOCK, STOPS)
    try:
        yield
    finally:
        signal.pthread_sigmask(signal.SIG_SETMASK, held)


def make(task: Task, watch: Optional[Watch] = None) -> None:
    """Makes a result and its folder, or nothing."""
    program = find_weave(task.options.weave)
    if not program:
        where = "build it with ./build, or say where it is with --weave PROGRAM"
        raise Stop(f"weave isn't there: {where}")
    beside = os.path.dirname(os.path.abspath(task.result))
    watch, room = watch or Watch(), None
    say_left(beside, watch)
    try:
        with unstopped():
            room = tempfile.mkdtemp(prefix=f".texture_{os.getpid()}_", dir=beside)
        folder = os.path.join(room, "folder")
        os.mkdir(folder)
        converted = convert(task, folder, watch)
        keys, chosen = choose(task, converted)
        refuse_forms(task, converted, folder)
        takes = say_choice(task, converted, keys, chosen, watch)
        best = run(task, converted, keys, folder, Runs(program), watch, takes)
        watch.say(best.report.rstrip())
        line = how_it_matches(best.report)
        if line:
            watch.say(line)
        if converted.recipe.matched:
            watch.say(
                "the target's lights and colours were brought to the sample's: target.ppm has it"
            )
        lines, made = keep(task, converted, best, room, program)
        for line in lines:
            watch.say(line)
        with unstopped():
            put_in_place(folder, made, room, task)
            watch.say(f"{' and '.join(task.results())}: made; the files are in {task.kept}")
            watch.say(f"to check them: texture verify {quote(task.kept)}")
    finally:
        with unstopped():
            if room:
                shutil.rmtree(room, ignore_errors=True)


def say_left(folder: str, watch: Watch) -> None:
    """Names what runs that were killed have left beside the result."""
    for name in sorted(os.listdir(folder)):
        found = re.fullmatch(r"\.texture_(\d+)_\w+", name)
        if found and not is_running(int(found[1])):
            path = os.path.join(folder, name)
            old = os.path.join(path, "old")
            has = f", and has what it was to replace in {old}" if os.path.isdir(old) else ""
            watch.say(f"{path}: a run that was killed has left it{has}")


def is_running(process: int) -> bool:
    """Whether there is a process of this number."""
    try:
        os.kill(process, 0)
    except ProcessLookupError:
        return False
    except PermissionError:
        pass
    return True


def refuse_foreign(task: Task) -> None:
    """Refuses to replace a folder that isn't this result's, or that has a file that its list doesn't
    name."""
    if not os.path.lexists(task.kept):
        return
    if os.path.islink(task.kept) or not kept.is_folder(task.kept):
        raise Stop(f"{task.kept}: isn't a folder of texture's, and isn't replaced")
    sums = kept.read_text(task.kept, kept.SUMS)
    listed = {line.partition("  ")[2] for line in sums.splitlines()}
    if "../" + os.path.basename(task.result) not in listed:
        raise Stop(f"{task.kept}: belongs to another result, and isn't replaced")
    others = set(os.listdir(task.kept)) - listed - {kept.SUMS, kept.SIGNATURE}
    if others:
        raise Stop(
            f"{task.kept}: has {sorted(others)[0]}, which isn't in its list, and isn't replaced"
        )


def put_in_place(folder: str, made: List[Tuple[str, str]], room: str, task: Task) -> None:
    """Puts results and folder where they belong: all of them, or none. What was there is moved aside
    first, and comes back where anything fails."""
    refuse_foreign(task)
    moves: List[Tuple[str, str]] = []
    places = dict(zip([name for name, _ in made], task.results()))
    try:
        old = os.path.join(room, "old")
        os.mkdir(old)
        wanted: Dict[str, str] = {path: places[name] for name, path in made}
        wanted[folder] = task.kept
        for number, place in enumerate(wanted.values()):
            if os.path.lexists(place):
                if not task.options.replace:
                    raise Stop(f"{place}: is there now, from another run, and isn't replaced")
                aside = os.path.join(old, f"{number}_{os.path.basename(place)}")
                move(place, aside, moves)
        for path, place in wanted.items():
            if os.path.isfile(path):
                os.chmod(path, 0o666 & ~umask())
            move(path, place, moves)
    except BaseException:
        for source, place in reversed(moves):
            with contextlib.suppress(OSError):
                os.rename(place, source)
        raise


def move(source: str, place: str, moves: List[Tuple[str, str]]) -> None:
    """Moves a file or a folder, and notes it."""
    os.rename(source, place)
    moves.append((source, place))


def umask() -> int:
    """The bits that a new file doesn't get."""
    mask = os.umask(0o077)
    os.umask(mask)
    return mask
