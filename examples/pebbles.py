#!/usr/bin/env python3
"""Writes the picture pebbles.ppm: 128x128 cells of pebbles, each round its own of 150 random points (Worley 1996).

    examples/pebbles.py pebbles.ppm"""
import math
import random
import sys

SIDE, COUNT = 128, 150


def main(name):
    chance = random.Random(7)
    points = [(chance.uniform(-12, SIDE + 12), chance.uniform(-12, SIDE + 12)) for _ in range(COUNT)]
    shades = [(chance.randint(120, 215), chance.uniform(-14, 18)) for _ in points]
    with open(name, "wb") as out:
        out.write(b"P6\n%d %d\n255\n" % (SIDE, SIDE))
        for y in range(SIDE):
            for x in range(SIDE):
                near = sorted((math.hypot(x - px, y - py), i) for i, (px, py) in enumerate(points))
                (first, i), (second, _) = near[0], near[1]
                shade, warm = shades[i]
                light = shade * min(1.0, (second - first) / 5.0) ** 0.7
                light += 1.6 * (points[i][0] - x) + 1.6 * (points[i][1] - y) + chance.uniform(-9, 9)
                cell = (light + warm, light + warm / 3, light - warm)
                out.write(bytes(max(0, min(255, round(value))) for value in cell))


if __name__ == "__main__":
    main(*sys.argv[1:])
