"""What a folder says of how its result was made: the file `about`."""
import json
import re
from dataclasses import asdict, dataclass, field, fields
from typing import Any, Dict, List, Optional, Tuple

from .faults import Stop

FORMAT = 2


@dataclass
class Input:
    """A file that something was made of: what it is, its name, its SHA-256, and what was taken of
    it."""

    key: str
    name: str
    sha256: str
    crop: Optional[List[int]] = None
    frames: Optional[List[int]] = None
    scale: Optional[List[int]] = None


@dataclass
class LayerOf:
    """A layer's result: its name, the names of the layer's pictures in the folder, how many pixels
    of theirs a cell is on each axis, and where green points in pictures of normals."""

    result: str
    files: List[str]
    each: int
    normals: Optional[str] = None


@dataclass
class Recipe:
    """How a result is made of its inputs, beside the words of weave's run.

    `pieces` says of each sample of weave's which picture it is of and where, in cells. `cut` is the
    size of the result in pixels. `full` has the names of the samples with all their bits, where
    they aren't what weave read. `over` is the colour below transparent pixels, in the search alone.
    """

    command: str
    result: str
    is_clip: bool = False
    cell: int = 1
    over: str = "ffffff"
    matched: bool = False
    cut: Optional[List[int]] = None
    pieces: List[List[int]] = field(default_factory=list)
    full: List[str] = field(default_factory=list)
    layers: List[LayerOf] = field(default_factory=list)
    inputs: List[Input] = field(default_factory=list)
    figures: Dict[str, Any] = field(default_factory=dict)
    seconds: float = 0.0
    program: str = ""
    program_sha256: str = ""
    made_with: List[str] = field(default_factory=list)
    format: int = FORMAT

    def text(self) -> str:
        """The file `about`."""
        return json.dumps(asdict(self), indent=1, ensure_ascii=True) + "\n"

    def colour(self) -> Tuple[int, int, int]:
        """The colour below transparent pixels."""
        red, green, blue = bytes.fromhex(self.over)
        return red, green, blue

    def results(self) -> List[str]:
        """The names of all results, which lie beside the folder."""
        return [self.result, *(layer.result for layer in self.layers)]


def is_name(text: Any) -> bool:
    """Whether a text is the name of a file in a folder, which leads nowhere else."""
    return (
        isinstance(text, str) and text not in ("", ".", "..") and not re.search("[/\0\n\r]", text)
    )


def recipe_of(text: str) -> Recipe:
    """The recipe that a file `about` has; a Stop where it has none."""
    try:
        found = json.loads(text)
        known = {one.name for one in fields(Recipe)}
        if not isinstance(found, dict) or set(found) != known or found["format"] != FORMAT:
            raise ValueError("other entries than those of this form")
        layers = [LayerOf(**layer) for layer in found.pop("layers")]
        inputs = [Input(**one) for one in found.pop("inputs")]
        recipe = Recipe(layers=layers, inputs=inputs, **found)
        hold(recipe)
    except (ValueError, TypeError, KeyError, AttributeError, RecursionError) as error:
        raise Stop(f"about: isn't in its form: {error}", 1) from None
    return recipe


def hold(recipe: Recipe) -> None:
    """Raises ValueError where an entry has a value that it can't have."""
    names = recipe.results() + recipe.full + [one.name for one in recipe.inputs]
    names += [name for layer in recipe.layers for name in layer.files]
    for name in names:
        if not is_name(name):
            raise ValueError(f"{name!r} is no name")
    if len(set(recipe.results())) < len(recipe.results()):
        raise ValueError("two results have one name")
    if recipe.cell not in range(1, 65):
        raise ValueError("cell")
    if any(layer.each % recipe.cell or not 0 < layer.each <= 4096 for layer in recipe.layers):
        raise ValueError("each")
    if any(layer.normals not in (None, "up", "down") for layer in recipe.layers):
        raise ValueError("normals")
    if not re.fullmatch("[0-9a-f]{6}", recipe.over):
        raise ValueError("over")
    for one in recipe.inputs:
        if not re.fullmatch("[0-9a-f]{64}", one.sha256):
            raise ValueError("sha256")
        for numbers, count in ((one.crop, 4), (one.frames, 2), (one.scale, 2)):
            hold_numbers(numbers, count)
    hold_numbers(recipe.cut, 2)
    for piece in recipe.pieces:
        hold_numbers(piece, 5)
    pictures = sum(1 for one in recipe.inputs if one.key.startswith("sample"))
    if any(piece[0] >= pictures for piece in recipe.pieces):
        raise ValueError("pieces")
    if recipe.full and len(recipe.full) != pictures:
        raise ValueError("full")
    if not isinstance(recipe.seconds, (int, float)) or not isinstance(recipe.is_clip, bool):
        raise ValueError("seconds")


def hold_numbers(numbers: Optional[List[int]], count: int) -> None:
    """Raises ValueError where these aren't so many whole numbers."""
    if numbers is not None:
        if not isinstance(numbers, list) or len(numbers) != count:
            raise ValueError("numbers")
        if not all(isinstance(number, int) and 0 <= number < 1 << 31 for number in numbers):
            raise ValueError("numbers")
