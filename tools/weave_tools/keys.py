"""Which keys texture gives to weave: those that docs/MANUAL.md advises for the sizes of the
samples, and those of its user."""
import re
from typing import Dict, Iterable, List, Optional, Sequence, Tuple

from .faults import Stop
from .pixel_files import KINDS, Pixels

Keys = Dict[str, str]

# The keys of each command that its user may choose.
KEYS: Dict[str, Tuple[str, ...]] = {
    "grow": ("place", "box", "overlap", "tol", "rounds", "spread", "seed", "turns"),
    "quilt": ("block", "overlap", "tol", "spread", "seed"),
    "tile": ("wrap", "box", "overlap", "tol", "spread", "seed"),
    "transfer": ("block", "overlap", "tol", "alpha", "spread", "seed"),
    "loop": ("taps", "gap"),
    "merge": (),
}
# What is chosen of each command besides box, block and overlap. A key `spread` is one entry here.
ALWAYS: Dict[str, Keys] = {"grow": {}, "quilt": {"tol": "5"}, "tile": {}, "transfer": {}}
# From this box on an overlap of a quarter costs a third of the time of two fifths, and shows less.
LARGE_BOX = 96
# A sample has rows or columns where their means have more than this share of the variance of its
# lights: of twenty photographs walls, boards and tiles have 0.07 to 0.8, and what has none under
# 0.04.
ROWS = 0.05
# The keys of `grow` that only `place=sub` uses.
OF_SUB = ("place", "box", "overlap", "tol", "spread", "turns")
AXES = "xyf"


def keys_of(command: str, words: Iterable[str]) -> Keys:
    """The keys and values of words."""
    found: Keys = {}
    for word in words:
        key, _, value = word.partition("=")
        if key not in KEYS[command]:
            takes = ", ".join(KEYS[command]) or "no keys"
            raise Stop(f"{word}: {command} takes {takes}; a file of that name is ./{word}")
        if key in found:
            raise Stop(f"{word}: {key} is given twice")
        found[key] = value
    return found


def number_in(keys: Keys, key: str, default: int) -> int:
    """A number that was chosen, or the default; weave says what is wrong with any other text."""
    return int(keys[key]) if re.fullmatch(r"\d{1,4}", keys.get(key, "")) else default


def has_rows(sample: Pixels) -> bool:
    """Whether a picture has rows or columns that a patch has to meet, as bricks or boards."""
    (width, height, _), cells = sample.size, sample.cells
    lights = [77 * r + 150 * g + 29 * b for r, g, b in zip(cells[::3], cells[1::3], cells[2::3])]
    mean = sum(lights) // len(lights)
    variance = sum((light - mean) ** 2 for light in lights) / len(lights)
    rows = [sum(lights[width * y : width * (y + 1)]) / width for y in range(height)]
    columns = [sum(lights[x::width]) / height for x in range(width)]
    return max(detail_of(rows), detail_of(columns)) > ROWS * variance


def detail_of(means: Sequence[float]) -> float:
    """The mean square of what means of rows differ by from those around them. A change of light
    from one side of a picture to the other isn't a row."""
    count, reach = len(means), len(means) // 8
    total = 0.0
    for i, value in enumerate(means):
        around = means[max(0, i - reach) : min(count, i + reach + 1)]
        total += (value - sum(around) / len(around)) ** 2
    return total / count


def shortest_side(samples: Sequence[Pixels]) -> int:
    """The shorter side of the smallest sample."""
    return min(axis for sample in samples for axis in sample.size[:2])


def box_for(shortest: int) -> int:
    """The box that suits pictures whose shorter side is this: half of it; of large ones a quarter,
    but no less than 96."""
    return max(min(shortest // 2, LARGE_BOX), shortest // 4, 1)


def overlap_for(box: int) -> int:
    """The overlap that suits a box: two fifths of it, and a quarter of a large one."""
    return box // 4 if box >= LARGE_BOX else 2 * box // 5


def rounds_for(box: int) -> int:
    """The rounds that suit a box: they mend seams of small boxes, and cost most with large ones."""
    return 0 if box >= LARGE_BOX else 10


def box_of_clips(samples: Sequence[Pixels], lengths: Sequence[int], wrap: str) -> int:
    """The box that suits clips: two thirds of the shortest axis on which patches lie side by side,
    since the output is longer or its edges meet; or more, where that lets one patch fill another
    axis and leaves a quarter of the sample to choose from."""
    axes = [
        (sample.size[i], lengths[i], name in wrap)
        for sample in samples
        for i, name in enumerate(AXES)
    ]
    beside = [size for size, length, meets in axes if meets or size < length]
    shortest = min(beside or [size for size, _, _ in axes])
    filled = [
        length
        for size, length, meets in axes
        if not meets and length <= size and 4 * length <= 3 * shortest
    ]
    return max([2 * shortest // 3, *filled, 1])


def size_keys(command: str, text: Optional[str], sample: Pixels) -> Keys:
    """The size that is asked for, in cells. It is given in pixels of what weave reads, and in
    frames."""
    if command in ("merge", "transfer") or text is None:
        return {}
    if command == "loop":
        if not re.fullmatch(r"\d+", text):
            raise Stop(f"{text}: a number of frames is wanted")
        return {"length": text}
    found = re.fullmatch(r"(\d+)x(\d+)(?:x(\d+))?", text)
    if not found or (found[3] and (command == "quilt" or sample.form[0] == "picture")):
        raise Stop(f"{text}: a size is wanted, as 1024x768, and as 320x240x48 of a clip")
    across, down, _ = KINDS[sample.form[1]] if sample.form[0] == "clip" else (1, 1, 3)
    if int(found[1]) % across or int(found[2]) % down:
        wanted = f"the width has to be a multiple of {across} and the height of {down}"
        raise Stop(f"{text}: {wanted}, as a cell of this clip is")
    keys = {"width": str(int(found[1]) // across), "height": str(int(found[2]) // down)}
    return dict(keys, frames=found[3]) if found[3] else keys


def chosen_keys(
    command: str,
    samples: Sequence[Pixels],
    sizes: Keys,
    given: Keys,
    target: Optional[Pixels] = None,
) -> Keys:
    """The keys that are chosen where the user has given none."""
    if command in ("loop", "merge"):
        return {}
    box = box_for(shortest_side(samples))
    if samples[0].form[0] == "clip":
        wrap = given.get("wrap", "xy") if command == "tile" else ""
        box = box_of_clips(samples, lengths_of(sizes), wrap)
    advised: Dict[str, int] = {}
    if command == "transfer":
        small = shortest_side([target or samples[0]]) // 20
        block = number_in(given, "block", max(min(small, shortest_side(samples)), 4))
        advised = {"block": block, "overlap": block // 3}
    elif command == "quilt":
        block = number_in(given, "block", max(8 * box // 9, 1))
        advised = {"block": block, "overlap": 2 * block // 7}
    elif command == "tile":
        box, overlap = closing_keys(box, wrapped_sizes(sizes, given), given)
        advised = {"box": box, "overlap": overlap}
    else:
        box = number_in(given, "box", box)
        advised = {"box": box, "overlap": overlap_for(box), "rounds": rounds_for(box)}
    chosen = {key: str(value) for key, value in advised.items()}
    chosen.update(ALWAYS[command])
    if command == "grow" and suits_random(samples, given):
        chosen = {"place": "random"}
        if rounds_for(box):
            chosen.update(box=str(box), rounds=str(rounds_for(box)))
    return {key: value for key, value in chosen.items() if key not in given}


def suits_random(samples: Sequence[Pixels], given: Keys) -> bool:
    """Whether patches at random serve: they repeat a piece half as often as those that fit best, and
    are laid sooner, but they break rows. Of several samples, and of clips, they show."""
    if len(samples) > 1 or samples[0].form[0] == "clip" or any(key in given for key in OF_SUB):
        return False
    return not has_rows(samples[0])


def lengths_of(sizes: Keys) -> List[int]:
    """The cells of the output on each axis."""
    return [int(sizes[key]) for key in ("width", "height")] + [int(sizes.get("frames", 1))]


def wrapped_sizes(sizes: Keys, given: Keys) -> List[int]:
    """The cells of each axis on which the edges of a tile meet."""
    wrap = given.get("wrap", "xy")
    return [length for name, length in zip(AXES, lengths_of(sizes)) if name in wrap]


def shared_cells(size: int, box: int, overlap: int) -> int:
    """How many cells the last patch of a row and the first one share, where the edges meet."""
    box = min(box, max(size - 1, 1))
    step, left = max(box - overlap, 1), max(size - overlap, 0)
    return -(-left // step) * step - left


def misses(sizes: Sequence[int], box: int, overlap: int) -> float:
    """By how much the last patches overlap the first ones otherwise than others do, as a share:
    the worst of all axes."""
    shares = [abs(shared_cells(size, box, overlap) - overlap) / max(overlap, 1) for size in sizes]
    return max(shares, default=0)


def closing_keys(box: int, sizes: Sequence[int], given: Keys) -> Tuple[int, int]:
    """A box and an overlap with which a tile of these sizes closes: near those of `grow`, whose box
    is given."""
    most = number_in(given, "box", box)
    boxes = [most] if "box" in given else range(max(3 * most // 4, 1), most + 1)
    pairs = [(box, overlap) for box in boxes for overlap in overlaps_of(box, given)]

    def how_bad(pair: Tuple[int, int]) -> Tuple[float, int, int]:
        late = max(misses(sizes, *pair) - 0.2, 0)
        return late, most - pair[0], abs(pair[1] - overlap_for(pair[0]))

    return min(pairs, key=how_bad)


def overlaps_of(box: int, given: Keys) -> Sequence[int]:
    """The overlaps of a quarter or a third to a half of a box, or the one that is given."""
    if "overlap" in given:
        return [number_in(given, "overlap", 0)]
    least = -(-box // 4) if box >= LARGE_BOX else -(-box // 3)
    return range(least, box // 2 + 1) if box > 1 else [0]


def how_it_closes(sizes: Sequence[int], keys: Keys) -> Optional[str]:
    """A line on how many cells the last patches share with the first ones; None where no edge meets
    another."""
    if not sizes:
        return None
    box, overlap = number_in(keys, "box", 1), number_in(keys, "overlap", 0)
    shares = " and ".join(str(shared_cells(size, box, overlap)) for size in sizes)
    line = f"the last patches share {shares} cells with the first ones, and others {overlap}"
    line += " with each other"
    if misses(sizes, box, overlap) > 0.5:
        line += ": an edge may show; try another size"
    return line


def how_it_matches(report: str) -> Optional[str]:
    """A line on how far a byte of a painted picture is from the target's, where that is far; None
    where it isn't."""
    found = re.search(r"transfer (\d+)x(\d+)x1\n(?:.*\n)*match (\d+)", report)
    if not found:
        return None
    width, height, match = map(int, found.groups())
    differs = round((match / (3 * width * height)) ** 0.5)
    if differs <= 32:
        return None
    return (
        f"a byte differs from the target's by {differs}: the sample has too few lights for it. "
        "Take another sample, or smaller blocks"
    )
