"""The lights and colours of a target, brought to those of the sample that paints it.

Blocks of a sample are as bright and as coloured as the sample is. A target that is brighter, or of
other colours, would be painted with the few blocks at its edge. So its light and its two colours
are moved and stretched to the mean and the spread that blocks of the sample have. It is all done
by whole numbers, so that it is the same on every machine.
"""
import math
from typing import List, Sequence, Tuple

from .layers import averaged
from .png import interleaved

# The lights of a sample are those of blocks, so it is averaged over cells of these before.
GREATEST_BLOCK = 8


def lights_and_colours(rgb: bytes) -> List[List[int]]:
    """Of each pixel the light, and how much bluer and redder than it the pixel is, times 256."""
    red, green, blue = (rgb[c::3] for c in range(3))
    light = [77 * r + 150 * g + 29 * b for r, g, b in zip(red, green, blue)]
    return [
        light,
        [256 * b - y for b, y in zip(blue, light)],
        [256 * r - y for r, y in zip(red, light)],
    ]


def mean_and_spread(values: Sequence[int]) -> Tuple[int, int]:
    """The mean and the root of the mean square distance from it."""
    count = len(values)
    mean = sum(values) // count
    return mean, math.isqrt(sum((value - mean) ** 2 for value in values) // count)


def blocks_of(rgb: bytes, width: int, height: int) -> bytes:
    """The means of small blocks of a sample."""
    each = max(1, min(GREATEST_BLOCK, width // 4, height // 4))
    w, h = width // each * each, height // each * each
    rows = b"".join([rgb[3 * width * y : 3 * width * y + 3 * w] for y in range(h)])
    return averaged(rows, w, h, each)


def matched(target: bytes, sample: bytes, width: int, height: int) -> bytes:
    """The target's bytes R, G, B with the sample's lights and colours; the sample's size is
    given."""
    wanted = lights_and_colours(blocks_of(sample, width, height))
    planes = []
    for values, goal in zip(lights_and_colours(target), wanted):
        mean, spread = mean_and_spread(values)
        goal_mean, goal_spread = mean_and_spread(goal)
        least, most = min(goal), max(goal)
        # A plane that is even has nothing to stretch. No colour is to be stretched past twice.
        part, whole = (goal_spread, spread) if spread else (0, 1)
        if part > 2 * whole:
            part, whole = 2, 1
        tables = {value: goal_mean + (value - mean) * part // whole for value in set(values)}
        planes.append([min(most, max(least, tables[value])) for value in values])
    light, blue, red = planes
    reds = [min(255, max(0, (y + r + 128) >> 8)) for y, r in zip(light, red)]
    blues = [min(255, max(0, (y + b + 128) >> 8)) for y, b in zip(light, blue)]
    greens = [
        min(255, max(0, (y - (77 * (y + r) + 29 * (y + b)) // 256) * 256 // 150 + 128 >> 8))
        for y, r, b in zip(light, red, blue)
    ]
    return interleaved([bytes(reds), bytes(greens), bytes(blues)])
