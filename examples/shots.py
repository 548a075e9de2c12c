#!/usr/bin/env python3
"""Makes two shots of a group, and marks to merge them by: in each shot another of two faces is the good one.

    examples/shots.py FOLDER

writes FOLDER/shot1.ppm, shot2.ppm, marks.ppm, bright2.ppm, the second shot in another exposure, and marks_shown.ppm, the
marks over both shots, red for the first one and blue for the second. Between the shots the camera has moved by a cell, and
the light has flickered."""
import os
import random
import sys

WIDTH, HEIGHT = 160, 112
FACES = ((46, 56, (233, 196, 160)), (114, 58, (172, 124, 88)))
STEPS = 2  # samples of a cell along each axis


def is_near(x, y, across, down, radius):
    return (x - across) ** 2 + (y - down) ** 2 < radius ** 2


def mouth(x, y, across, down, smiles):
    """Whether a point lies on the mouth: a bow, bent up or down."""
    side = (x - across) / 11
    bow = 4 * side * side
    return abs(side) < 1 and abs(y - (down + 12 + (4 - bow if smiles else bow))) < 1.6


def face(x, y, across, down, skin, is_good):
    """The colour of a point of a head and of the shoulders below it, or None."""
    if is_near(x, y, across, down, 26):
        for eye in (across - 9, across + 9):
            if is_near(x, y, eye, down - 6, 4.5):
                if not is_good:
                    return (60, 40, 30) if abs(y - (down - 6)) < 1 else skin
                return (40, 60, 90) if is_near(x, y, eye, down - 6, 2) else (250, 250, 245)
        if mouth(x, y, across, down, is_good):
            return (150, 40, 40)
        return (70, 48, 32) if y < down - 16 + (x - across) ** 2 / 90 else skin
    if y > down + 22 and abs(x - across) < 20 + (y - down - 22) * 0.6:
        return (60, 90, 130) if across < WIDTH / 2 else (140, 70, 60)
    return None


def wall(x, y):
    """Bricks, the mortar between them lighter."""
    row = int(y // 9)
    column = (x + (row % 2) * 10) % 20
    if y % 9 < 1.2 or column < 1.2:
        return (176, 168, 158)
    shade = (row * 37 + int((x + (row % 2) * 10) // 20) * 61) % 25
    return (146 + shade, 96 + shade, 78 + shade // 2)


def point(x, y, good):
    for number, (across, down, skin) in enumerate(FACES):
        found = face(x, y, across, down, skin, number == good)
        if found:
            return found
    return wall(x, y)


def shot(good, moved, flicker, gain=1.0):
    """The cells of a shot in which one face is good, each the mean of some points."""
    chance = random.Random(good)
    cells = bytearray()
    for y in range(HEIGHT):
        for x in range(WIDTH):
            points = [
                point(x + moved + (i + 0.5) / STEPS, y + (j + 0.5) / STEPS, good) for j in range(STEPS) for i in range(STEPS)
            ]
            light = gain * (1 + flicker * (chance.random() - 0.5))
            cells += bytes(min(255, int(light * sum(p[k] for p in points) / len(points))) for k in range(3))
    return bytes(cells)


def marks():
    """A stroke over each good face, broad enough for the whole head."""
    cells = bytearray()
    for y in range(HEIGHT):
        for x in range(WIDTH):
            red = 0
            for number, (across, down, _) in enumerate(FACES, 1):
                if is_near(x, y, across, down, 20):
                    red = number
            cells += bytes((red, 0, 0))
    return bytes(cells)


def shown(first, second, strokes):
    """The mean of two shots, with the marks over it: red for the first, blue for the second."""
    paints = {0: (0, 0, 0), 1: (255, 0, 0), 2: (0, 90, 255)}
    cells = bytearray()
    for i in range(0, len(first), 3):
        paint = paints[strokes[i]]
        for k in range(3):
            mean = (first[i + k] + second[i + k]) // 2
            cells.append((mean + 2 * paint[k]) // 3 if strokes[i] else mean)
    return bytes(cells)


def main(folder):
    files = {
        "shot1.ppm": shot(0, 0, 0.04),
        "shot2.ppm": shot(1, 1, 0.04),
        "bright2.ppm": shot(1, 1, 0.04, 1.25),
        "marks.ppm": marks(),
    }
    files["marks_shown.ppm"] = shown(files["shot1.ppm"], files["shot2.ppm"], files["marks.ppm"])
    for name, cells in files.items():
        with open(os.path.join(folder, name), "wb") as out:
            out.write(b"P6\n%d %d\n255\n" % (WIDTH, HEIGHT) + cells)


if __name__ == "__main__":
    if len(sys.argv) != 2 or not os.path.isdir(sys.argv[1]):
        sys.exit(__doc__)
    main(*sys.argv[1:])
