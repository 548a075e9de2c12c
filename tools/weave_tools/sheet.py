"""All tries as one picture, each with its figures below it."""
import os
from typing import List, Sequence

from .candidates import Tried
from .layers import averaged
from .pixel_files import MOST_OUT_CELLS, read_pixels
from .png import Raster, interleaved, png

WIDEST, GAP, SCALE = 384, 12, 2
INK, PAPER, CHOSEN = b"\x20\x20\x24", b"\xf4\xf2\xec", b"\x10\x70\x30"
# Letters of 3x5 points, each row as an octal digit from the top.
LETTERS = {
    "0": "75557", "1": "26227", "2": "71747", "3": "71717", "4": "55711", "5": "74717",
    "6": "74757", "7": "71122", "8": "75757", "9": "75717", ".": "00002", "%": "51245",
    "a": "25755", "d": "65556", "e": "74647", "f": "74644", "i": "72227", "k": "55655",
    "m": "57755", "n": "65555", "o": "75557", "p": "75744", "r": "65655", "s": "34216",
    "t": "72222", "u": "55557", " ": "00000",
}  # fmt: skip


def text_rows(text: str, width: int, colour: bytes) -> List[bytes]:
    """A line of text as rows of pixels."""
    rows = []
    for row in range(5):
        line = bytearray(PAPER * width)
        for place, letter in enumerate(text):
            bits = int(LETTERS.get(letter, "00000")[row])
            for column in range(3):
                at = SCALE * (4 * place + column)
                if bits & 4 >> column and at + SCALE <= width:
                    line[3 * at : 3 * (at + SCALE)] = colour * SCALE
        rows += [bytes(line)] * SCALE
    return rows + [PAPER * width] * SCALE * 2


def small(name: str) -> Raster:
    """A result, scaled down by a whole number to no more than 384 pixels."""
    out = read_pixels(name, "out", MOST_OUT_CELLS)
    width, height, _ = out.size
    each = max(-(-width // WIDEST), -(-height // WIDEST), 1)
    w, h = width // each * each, height // each * each
    rgb = b"".join([out.cells[3 * width * y : 3 * (width * y + w)] for y in range(h)])
    return Raster(w // each, h // each, 3, 8, averaged(rgb, w, h, each), maxval=out.form[1])


def lines_below(one: Tried) -> List[str]:
    """The figures of a try, in two lines."""
    figures = one.figures
    lines = [f"seed {one.seed or 0} seams {figures.seams:.2f}"]
    if figures.used is not None:
        lines.append(f"used {figures.used:.0f}% most {figures.most:.1f} fair {figures.fair:.1f}")
    return lines


def card(one: Tried, is_best: bool, out_name: str) -> List[bytes]:
    """A try with its figures, as rows of pixels; the one that is kept in green."""
    picture = small(os.path.join(one.folder, out_name))
    width = max(picture.width, SCALE * 4 * 30)
    rgb = interleaved(picture.rgb())
    rows = []
    for y in range(picture.height):
        line = rgb[3 * picture.width * y : 3 * picture.width * (y + 1)]
        rows.append(line + PAPER * (width - picture.width))
    rows += [PAPER * width] * GAP
    for line_text in lines_below(one):
        rows += text_rows(line_text, width, CHOSEN if is_best else INK)
    return rows


def sheet(found: Sequence[Tried], best: Tried, out_name: str) -> bytes:
    """The PNG of all tries."""
    across = max(1, min(len(found), 5))
    cards = [card(one, one is best, out_name) for one in found]
    tall, wide = len(cards[0]), len(cards[0][0]) // 3
    while len(cards) % across:
        cards.append([PAPER * wide] * tall)
    rows = [PAPER * (across * (wide + GAP) + GAP)] * GAP
    for at in range(0, len(cards), across):
        for y in range(tall):
            line = b"".join(GAP * PAPER + one[y] for one in cards[at : at + across])
            rows.append(line + GAP * PAPER)
        rows += [PAPER * (across * (wide + GAP) + GAP)] * GAP
    return png(Raster(len(rows[0]) // 3, len(rows), 3, 8, b"".join(rows)))
