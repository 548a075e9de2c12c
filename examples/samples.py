#!/usr/bin/env python3
"""Writes samples made by formula: pictures that look like materials, and clips.

    examples/samples.py NAME FILE

NAME is that of a function below. P6 pictures are bricks, olives, gravel, grass, wood, cloth, rust, clouds, three that go
badly, halves, dusk and writing, and portrait, to be painted. YUV4MPEG2 clips are waves, sway, flame, pendulum and snow. Each
NAME gives the same file every time. A FILE that ends in .png is a PNG.

    examples/samples.py wall FOLDER

writes a material of four layers: colour.png, normal.png of 16 bits with green up, roughness.png and height.png of 16 bits."""
import math
import random
import os
import struct
import sys
import zlib


def clamp(value):
    return max(0, min(255, round(value)))


def noise(chance, width, height, step, tall=None):
    """Smooth noise between -1 and 1: random values every `step` cells, down a column every `tall`, blended between."""
    tall = tall or step
    columns, rows = width // step + 2, height // tall + 2
    grid = [[chance.uniform(-1, 1) for _ in range(columns)] for _ in range(rows)]

    def at(x, y):
        i, j, u, v = x // step, y // tall, x % step / step, y % tall / tall
        u, v = u * u * (3 - 2 * u), v * v * (3 - 2 * v)
        top = grid[j][i] * (1 - u) + grid[j][i + 1] * u
        low = grid[j + 1][i] * (1 - u) + grid[j + 1][i + 1] * u
        return top * (1 - v) + low * v

    return at


def bricks():
    """A wall of 192x140 cells: rows of 14, bricks of 32, with ragged joints and a tint for each brick."""
    chance = random.Random(5)
    width, height = 192, 140
    coarse, fine, edge = (noise(chance, width, height, step) for step in (9, 3, 4))
    tints = {}

    def cell(x, y):
        row = y // 14
        shifted = x + 16 * (row % 2)
        tint = tints.setdefault((row, shifted // 32 % 6), chance.uniform(-26, 26))
        rough = 1.1 * edge(x, y)
        in_joint = shifted % 32 + rough < 2 or y % 14 + rough < 2
        shade = 9 * coarse(x, y) + 9 * fine(x, y) + chance.uniform(-5, 5)
        base = (188, 182, 170) if in_joint else (158 + tint, 74 + 0.55 * tint, 56 + 0.4 * tint)
        return [clamp(value + shade) for value in base]

    return width, height, [cell(x, y) for y in range(height) for x in range(width)]


def olives():
    """Lit discs of 20 to 26 cells that lie over one another, 160x160 cells."""
    chance = random.Random(11)
    side = 160
    cells = [[30, 34, 16] for _ in range(side * side)]
    for _ in range(420):
        cx, cy, r = chance.uniform(-8, side + 8), chance.uniform(-8, side + 8), chance.uniform(10, 13)
        tint, green = chance.uniform(-18, 18), chance.uniform(-14, 14)
        for y in range(max(0, int(cy - r)), min(side, int(cy + r) + 1)):
            for x in range(max(0, int(cx - r)), min(side, int(cx + r) + 1)):
                u, v = (x - cx) / r, (y - cy) / r
                if u * u + v * v > 1:
                    continue
                up = math.sqrt(1 - u * u - v * v)
                light = 0.25 + 0.75 * max(0.0, 0.75 * up - 0.45 * u - 0.48 * v)
                glint = 120 * max(0.0, 0.80 * up - 0.42 * u - 0.42 * v - 0.86) / 0.14
                base = (118 + tint, 128 + tint + green, 44)
                cells[x + side * y] = [clamp(value * light + glint) for value in base]
    return side, side, cells


def gravel():
    """Small grey stones, each round its own of many points (Worley 1996), 160x160 cells."""
    chance = random.Random(3)
    side, pitch = 160, 9
    count = side // pitch + 3
    points = {
        (i, j): ((i - 1 + chance.random()) * pitch, (j - 1 + chance.random()) * pitch, chance.uniform(90, 190))
        for i in range(count)
        for j in range(count)
    }

    def cell(x, y):
        i, j = x // pitch + 1, y // pitch + 1
        around = [points[a, b] for a in range(i - 1, i + 2) for b in range(j - 1, j + 2) if (a, b) in points]
        near = sorted((math.hypot(x - px, y - py), px, py, shade) for px, py, shade in around)
        light = near[0][3] * min(1.0, (near[1][0] - near[0][0]) / 3.5) ** 0.6
        light += 3 * (near[0][1] - x) + 3 * (near[0][2] - y) + chance.uniform(-12, 12)
        return [clamp(light), clamp(light * 0.98), clamp(light * 0.93)]

    return side, side, [cell(x, y) for y in range(side) for x in range(side)]


def grass():
    """Thin blades over one another, 160x160 cells."""
    chance = random.Random(17)
    side = 160
    cells = [[28, 44, 18] for _ in range(side * side)]
    for _ in range(5200):
        x, y = chance.uniform(-4, side + 4), chance.uniform(-4, side + 14)
        lean, light = chance.uniform(-0.45, 0.45), chance.uniform(0.45, 1.2)
        for step in range(chance.randint(6, 15)):
            i, j = int(x + lean * step), int(y - step)
            if 0 <= i < side and 0 <= j < side:
                lit = light * (0.7 + 0.03 * step)
                cells[i + side * j] = [clamp(86 * lit), clamp(140 * lit), clamp(52 * lit)]
    return side, side, cells


def halves():
    """The grass, and at the right of it plain sand: two regions in one picture."""
    chance = random.Random(23)
    width, height, cells = grass()
    for y in range(height):
        for x in range(width // 2 + int(5 * math.sin(y / 11)), width):
            shade = chance.uniform(-4, 4)
            cells[x + width * y] = [clamp(206 + shade), clamp(186 + shade), clamp(140 + shade)]
    return width, height, cells


def wood():
    """Planed wood, 192x144 cells: rings that are cut along the trunk, and pores as short dark strokes."""
    chance = random.Random(31)
    width, height = 192, 144
    bend, wave, grain = (noise(chance, width, height, step, tall) for step, tall in ((64, 24), (40, 9), (24, 1)))
    pores = {}
    for _ in range(900):
        x, y, long = chance.randrange(width), chance.randrange(height), chance.randint(3, 9)
        for i in range(long):
            pores[x + i, y] = 14 * math.sin(math.pi * (i + 0.5) / long)

    def cell(x, y):
        ring = (y + 7 * bend(x, y) + 2 * wave(x, y)) / 12 % 1
        light = 26 * (ring ** 2.2 - 0.4) + 9 * grain(x, y) - pores.get((x, y), 0)
        return [clamp(176 + light), clamp(122 + 0.92 * light), clamp(72 + 0.72 * light)]

    return width, height, [cell(x, y) for y in range(height) for x in range(width)]


def cloth():
    """A twill of 128x128 cells: threads of 4 cells, over two and under two, each of a tint of its own."""
    chance = random.Random(37)
    side, thread = 128, 4
    tints = [[chance.uniform(-13, 13) for _ in range(side // thread)] for _ in range(2)]
    rough = noise(chance, side, side, 2)

    def cell(x, y):
        i, j = x // thread, y // thread
        is_over = (i + j) % 4 < 2
        along, across = (y, x) if is_over else (x, y)
        bow = math.sin(math.pi * (across % thread + 0.5) / thread)
        steps = ((j if is_over else i) + (i if is_over else j)) % 2
        far = (along % thread + thread * steps + 0.5) / (2 * thread)
        light = (0.55 + 0.45 * bow) * (0.72 + 0.28 * math.sin(math.pi * far))
        base = (86, 104, 146) if is_over else (196, 190, 176)
        tint = tints[0][i] if is_over else tints[1][j]
        return [clamp(value * light + tint + 6 * rough(x, y)) for value in base]

    return side, side, [cell(x, y) for y in range(side) for x in range(side)]


def rust():
    """Paint that rust has eaten away, 176x132 cells."""
    chance = random.Random(41)
    width, height = 176, 132
    octaves = [(noise(chance, width, height, step), share) for step, share in ((22, 1.0), (11, 0.6), (5, 0.35), (2, 0.2))]
    stain, speck = noise(chance, width, height, 7), noise(chance, width, height, 2)

    def cell(x, y):
        eaten = sum(share * at(x, y) for at, share in octaves)
        if eaten < 0.02:
            edge = max(0.0, 1 + (eaten - 0.02) / 0.16)
            light = 7 * stain(x, y) + 5 * speck(x, y)
            paint = (84 + light + 70 * edge, 126 + light + 8 * edge, 124 + light - 34 * edge)
            return [clamp(value) for value in paint]
        deep = min(1.0, eaten / 1.1)
        light = 22 * stain(x, y) + 16 * speck(x, y)
        return [clamp(176 - 84 * deep + light), clamp(88 - 46 * deep + 0.6 * light), clamp(40 - 14 * deep + 0.4 * light)]

    return width, height, [cell(x, y) for y in range(height) for x in range(width)]


def clouds():
    """White clouds on a blue sky that is even, 192x144 cells."""
    return sky_of(0)


def dusk():
    """The same clouds, and a sky that grows lighter from the top to the bottom."""
    return sky_of(90)


def sky_of(glow):
    chance = random.Random(43)
    width, height = 192, 144
    octaves = [
        (noise(chance, width, height, step, max(2, 2 * step // 3)), share)
        for step, share in ((40, 1.0), (20, 0.55), (10, 0.3), (5, 0.16), (2, 0.07))
    ]

    def cell(x, y):
        dense = sum(share * at(x, y) for at, share in octaves)
        white = 1 / (1 + math.exp(-4.2 * (dense - 0.1)))
        low = glow * y / height
        blue = (72 + low, 124 + 0.6 * low, 190 - 0.2 * low)
        lit = (236, 238, 242)
        return [clamp(a + (b - a) * white - 12 * max(0.0, dense - 0.8)) for a, b in zip(blue, lit)]

    return width, height, [cell(x, y) for y in range(height) for x in range(width)]


def portrait():
    """A grey portrait to be painted, 256x256 cells: a face lit from the upper left, before a wall."""
    side = 256

    def bump(x, y, cx, cy, rx, ry):
        return math.exp(-(((x - cx) / rx) ** 2) - ((y - cy) / ry) ** 2)

    def pair(x, y, cx, cy, rx, ry):
        """A bump at each side of the middle of the face."""
        return bump(abs(x - 128), y, cx, cy, rx, ry)

    def rise(x, y):
        """1 in the middle of the face, and 0 along its outline."""
        return 1 - ((x - 128) / (90 - 0.0012 * max(0, y - 128) ** 2)) ** 2 - ((y - 118) / 118) ** 2

    def depth(x, y):
        """How far the surface comes forward: the face with its features, or the neck."""
        if rise(x, y) <= 0:
            return 40 * math.sqrt(max(0.0, 1 - ((x - 128) / 52) ** 2))
        eyes = 6 * pair(x, y, 34, 92, 27, 9) - 15 * pair(x, y, 35, 112, 21, 13)
        nose = 24 * bump(x, y, 128, 154, 13, 17) + 13 * bump(x, y, 128, 122, 8, 30)
        mouth = 7 * bump(x, y, 128, 186, 26, 6) + 7 * bump(x, y, 128, 201, 20, 6) - 6 * bump(x, y, 128, 193, 28, 3)
        rest = 8 * pair(x, y, 46, 156, 22, 20) + 9 * bump(x, y, 128, 224, 20, 12)
        return 95 * math.sqrt(rise(x, y)) + eyes + nose + mouth + rest

    def lit(x, y):
        dx, dy = depth(x + 1, y) - depth(x, y), depth(x, y + 1) - depth(x, y)
        return 0.1 + max(0.0, (0.66 + 0.5 * dx + 0.34 * dy) / math.sqrt(1 + dx * dx + dy * dy))

    def light(x, y):
        in_hair = ((x - 128) / 106) ** 2 + ((y - 104) / 124) ** 2 < 1 < ((x - 138) / 78) ** 2 + ((y - 140) / 94) ** 2
        if in_hair and y < 190:
            return 0.08 + 0.3 * bump(x, y, 84, 24, 40, 24)
        if rise(x, y) < 0 and (y < 190 or abs(x - 128) > 52):
            return 0.45 + 0.2 * x / side
        if pair(x, y, 35, 114, 17, 7) > 0.4:
            return 0.05 if pair(x, y, 35, 114, 7, 7) > 0.4 else 0.95
        dark = 0.65 * (pair(x, y, 35, 89, 24, 5) > 0.5) + 0.5 * (bump(x, y, 128, 193, 32, 3) > 0.5)
        dark += 0.3 * (bump(x, y, 128, 193, 33, 11) > 0.5) + 0.5 * (pair(x, y, 9, 170, 5, 4) > 0.5)
        return lit(x, y) * max(0.1, 1 - dark)

    return side, side, [[clamp(255 * light(x, y))] * 3 for y in range(side) for x in range(side)]


LETTERS = {
    "a": "0e.01.0f.11.0f", "b": "10.16.19.11.1e", "c": "0e.10.10.11.0e", "d": "01.0d.13.11.0f", "e": "0e.11.1f.10.0e",
    "i": "04.00.0c.04.0e", "l": "0c.04.04.04.0e", "n": "16.19.11.11.11", "o": "0e.11.11.11.0e", "r": "16.19.10.10.10",
    "s": "0e.10.0e.01.1e", "t": "08.1c.08.09.06", "u": "11.11.11.13.0d", "v": "11.11.11.0a.04", "w": "11.15.15.15.0a",
}
SYLLABLES = ["wea", "ve", "tex", "tu", "re", "se", "lo", "on", "ba", "cot", "lin", "ran", "de", "sta", "nu", "bio"]


def writing():
    """A printed page, 144x132 cells: words of drawn syllables in letters of 5x5 cells."""
    chance = random.Random(47)
    width, height = 144, 132
    cells = [[242, 238, 226] for _ in range(width * height)]

    def put(letter, left, top):
        for j, row in enumerate(LETTERS[letter].split(".")):
            for i in range(5):
                if int(row, 16) >> (4 - i) & 1:
                    for k in range(2):
                        cells[left + i + width * (top + 2 * j + k)] = [38, 34, 40]

    for top in range(4, height - 10, 16):
        left = 4
        while left < width - 30:
            for letter in "".join(chance.choice(SYLLABLES) for _ in range(chance.randint(1, 3))):
                if left < width - 8 and letter in LETTERS:
                    put(letter, left, top)
                    left += 7
            left += 6
    return width, height, cells


def waves():
    """Water: 48x48 cells and 48 frames of five waves that run in all directions."""
    chance = random.Random(29)
    runs = [(chance.uniform(-0.5, 0.5), chance.uniform(-0.5, 0.5), chance.uniform(0.2, 0.45)) for _ in range(5)]

    def luma(x, y, i):
        return clamp(120 + 24 * sum(math.sin(a * x + b * y + c * i) for a, b, c in runs))

    return 48, 48, [[luma(x, y, i) for y in range(48) for x in range(48)] for i in range(48)]


def sway():
    """A reed of 32x32 cells that sways with a period of 40 frames, 96 frames, while the light grows slowly."""

    def luma(x, y, i):
        at = 16 + 9 * math.sin(2 * math.pi * i / 40) * ((31 - y) / 31) ** 1.5
        edge = max(0.0, min(1.0, 2.6 - abs(x - at)))
        return clamp(50 + y + 140 * edge + 0.3 * i)

    return 32, 32, [[luma(x, y, i) for y in range(32) for x in range(32)] for i in range(96)]


def flame():
    """A row of flames, 96x32 cells and 64 frames in colour: noise that rises, hotter towards the ground."""
    chance = random.Random(53)
    width, height, frames = 96, 32, 64
    octaves = [
        (noise(chance, width, height + speed * frames, step, tall), share, speed)
        for step, tall, share, speed in ((12, 18, 1.0, 1), (6, 9, 0.6, 2), (3, 5, 0.3, 2))
    ]

    def cell(x, y, i):
        heat = 1.5 * y / height - 0.55 + 0.62 * sum(share * at(x, y + speed * i) for at, share, speed in octaves)
        red, green, blue = (max(0.0, min(1.0, by * heat - less)) for by, less in ((2.2, 0), (2.0, 0.55), (3.0, 2.2)))
        luma = 0.299 * red + 0.587 * green + 0.114 * blue
        return clamp(16 + 219 * luma), clamp(128 + 126 * (blue - luma)), clamp(128 + 160 * (red - luma))

    return width, height, [[cell(x, y, i) for y in range(height) for x in range(width)] for i in range(frames)]


def pendulum():
    """A pendulum of 64x48 cells that returns after 26 and a half frames, 56 frames."""
    width, height = 64, 48

    def luma(x, y, i):
        angle = 0.62 * math.sin(2 * math.pi * i / 26.5)
        bob = math.hypot(x - 32 - 36 * math.sin(angle), y - 2 - 36 * math.cos(angle))
        rod = abs((x - 32) * math.cos(angle) - (y - 2) * math.sin(angle))
        under = max(0.0, min(1.0, 6.5 - bob))
        line = max(0.0, min(1.0, 1.4 - rod)) if bob > 5 and y < 2 + 36 * math.cos(angle) else 0.0
        return clamp(40 + y / 2 + 165 * under + 100 * line * (1 - under))

    return width, height, [[luma(x, y, i) for y in range(height) for x in range(width)] for i in range(56)]


def snow():
    """Falling snow, 48x48 cells and 48 frames: near flakes are larger, brighter and faster."""
    chance = random.Random(59)
    side, frames, dark = 48, 48, 34
    shots = [[dark] * (side * side) for _ in range(frames)]
    for _ in range(260):
        near = chance.random() ** 2
        speed = 0.7 + 1.6 * near
        x, sway, phase = chance.uniform(0, side), chance.uniform(0, 2.5), chance.uniform(0, 6.3)
        y = chance.uniform(-speed * frames, side)
        for i in range(frames):
            across, down = x + sway * math.sin(0.16 * i + phase), y + speed * i
            for v in range(int(down) - 2, int(down) + 4):
                for u in range(int(across) - 2, int(across) + 4):
                    if 0 <= u < side and 0 <= v < side:
                        light = (90 + 130 * near) * max(0.0, min(1.0, 1 + near - math.hypot(u - across, v - down)))
                        shots[i][u + side * v] = max(shots[i][u + side * v], clamp(dark + light))
    return side, side, shots


WALL_WIDTH, WALL_HEIGHT, COURSE, BRICK = 256, 240, 24, 64


def wall_heights():
    """The height of each pixel of a wall from 0 to 1, its colour and its roughness: rows of bricks with rounded edges."""
    chance = random.Random(11)
    coarse, fine, edge = (noise(chance, WALL_WIDTH, WALL_HEIGHT, step) for step in (17, 4, 7))
    tints, heights, colours, roughness = {}, [], [], []
    for y in range(WALL_HEIGHT):
        for x in range(WALL_WIDTH):
            row = y // COURSE
            across = (x + BRICK // 2 * (row % 2)) % WALL_WIDTH
            brick = row, across // BRICK
            if brick not in tints:
                tints[brick] = chance.uniform(-1, 1), chance.uniform(-1, 1), chance.uniform(-.06, .06)
            tint, hue, lift = tints[brick]
            inside = min(across % BRICK, BRICK - 1 - across % BRICK, y % COURSE, COURSE - 1 - y % COURSE)
            solid = max(0.0, min(1.0, (inside - 1.6 + 1.1 * edge(x, y)) / 3))
            solid *= solid * (3 - 2 * solid)
            grain = .5 * coarse(x, y) + .5 * fine(x, y)
            heights.append(max(0.0, min(1.0, .18 + .05 * fine(x, y) + solid * (.62 + lift + .10 * grain))))
            light = 1 + .13 * tint + .12 * grain
            red, green, blue = 158 * light, (84 + 10 * hue) * light, (66 + 8 * hue) * light
            joint = 172 + 22 * fine(x, y)
            colours.append(tuple(clamp(solid * c + (1 - solid) * joint * d) for c, d in ((red, 1), (green, .97), (blue, .9))))
            roughness.append(clamp(235 - solid * (70 + 35 * grain)))
    return heights, colours, roughness


def wall(folder):
    """Writes the four layers of the wall. A normal is told by the slopes of the heights to the neighbours on both sides."""
    heights, colours, roughness = wall_heights()
    normals, steep = [], 5.0
    for y in range(WALL_HEIGHT):
        for x in range(WALL_WIDTH):
            def at(u, v):
                return heights[u % WALL_WIDTH + WALL_WIDTH * (v % WALL_HEIGHT)]
            right, up = steep * (at(x - 1, y) - at(x + 1, y)), steep * (at(x, y + 1) - at(x, y - 1))
            length = math.sqrt(right * right + up * up + 1)
            normals.append(tuple(round(32767.5 * (1 + n / length)) for n in (right, up, 1)))
    size = WALL_WIDTH, WALL_HEIGHT
    layers = {"colour": (8, 2, colours), "normal": (16, 2, normals), "roughness": (8, 0, [(n,) for n in roughness]),
              "height": (16, 0, [(round(65535 * n),) for n in heights])}
    for name, (depth, kind, pixels) in layers.items():
        write(os.path.join(folder, name + ".png"), png_bytes(*size, depth, kind, pixels))


def png_bytes(width, height, depth, kind, pixels):
    """A PNG of pixels of numbers of 8 or 16 bits: of kind 0 grey ones, and of kind 2 of red, green and blue."""
    def chunk(name, data):
        return struct.pack(">I", len(data)) + name + data + struct.pack(">I", zlib.crc32(name + data))

    letter, rows = "B" if depth == 8 else "H", []
    for at in range(0, width * height, width):
        numbers = [n for pixel in pixels[at:at + width] for n in pixel]
        rows.append(b"\0" + struct.pack(f">{len(numbers)}{letter}", *numbers))
    head = struct.pack(">IIBBBBB", width, height, depth, kind, 0, 0, 0)
    data = zlib.compress(b"".join(rows), 9)
    return b"\x89PNG\r\n\x1a\n" + chunk(b"IHDR", head) + chunk(b"IDAT", data) + chunk(b"IEND", b"")


PICTURES = {
    it.__name__: it
    for it in (bricks, olives, gravel, grass, halves, wood, cloth, rust, clouds, dusk, writing, portrait)
}
CLIPS = {it.__name__: it for it in (waves, sway, flame, pendulum, snow)}


def picture_bytes(width, height, cells):
    return b"P6\n%d %d\n255\n" % (width, height) + bytes(value for cell in cells for value in cell)


def clip_bytes(width, height, frames):
    """A clip of luma, or of luma, Cb and Cr where the cells have these three."""
    is_grey = isinstance(frames[0][0], int)
    planes = [[frame] if is_grey else zip(*frame) for frame in frames]
    head = b"YUV4MPEG2 W%d H%d F10:1 C%s\n" % (width, height, b"mono" if is_grey else b"444")
    return head + b"".join(b"FRAME\n" + b"".join(bytes(plane) for plane in frame) for frame in planes)


def write(name, data):
    with open(name, "wb") as out:
        out.write(data)


def main(name, file):
    if name == "wall":
        wall(file)
    elif name in CLIPS:
        write(file, clip_bytes(*CLIPS[name]()))
    elif file.endswith(".png"):
        width, height, cells = PICTURES[name]()
        write(file, png_bytes(width, height, 8, 2, cells))
    else:
        write(file, picture_bytes(*PICTURES[name]()))


if __name__ == "__main__":
    if len(sys.argv) != 3 or sys.argv[1] not in {**PICTURES, **CLIPS, "wall": wall}:
        sys.exit(__doc__)
    try:
        main(*sys.argv[1:])
    except OSError as error:
        sys.exit(f"samples.py: {error.filename}: {error.strerror}")
