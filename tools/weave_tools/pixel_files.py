"""Readers of the pixels of a run, P6 pictures and YUV4MPEG2 clips, with no help of weave.

A file that isn't in its form or within the limits is a Fault, with the status and the line of
`weave check`. docs/FORMATS.md has the forms, in the same order.
"""
from typing import Any, Callable, List, Optional, Sequence, Tuple, Union

from .faults import GREATEST, Size, limit, read_bytes, refused

# The kind of a file, picture or clip, and its maxval or its colour kind: what has to be alike.
Form = Tuple[str, Any]

MOST_AXIS, MOST_CELLS, MOST_OUT_CELLS, MOST_OUTPUT_CELLS = 4096, 1 << 23, 1 << 25, 1 << 20
MOST_HEADER, MOST_LINE, MOST_TAGS = 65536, 4096, 4000
DIGITS, SPACES = b"0123456789", b" \t\r\n"
# Of each colour kind: the width and height of a cell in pixels, and its bytes.
KINDS = {"mono": (1, 1, 1), "444": (1, 1, 3), "422": (2, 1, 4), "411": (4, 1, 6), "420": (2, 2, 6)}
SPELLINGS = {
    b"mono": "mono",
    b"444": "444",
    b"422": "422",
    b"411": "411",
    b"420": "420",
    b"420jpeg": "420",
    b"420mpeg2": "420",
    b"420paldv": "420",
}


class Scan:
    """A text that is read byte by byte, of which each byte has to be able to stand where it does."""

    def __init__(self, data: bytes, key: str, at: int, most: int) -> None:
        self.data, self.key, self.at, self.end, self.most = data, key, at, at + most, most

    def next(self, is_fit: Callable[[int], bool]) -> int:
        if self.at == len(self.data) or not is_fit(self.data[self.at]):
            raise refused(self.key, f"form at {self.at}")
        if self.at == self.end:
            raise limit("header", self.most + 1, self.most)
        self.at += 1
        return self.data[self.at - 1]

    def letter(self, byte: int) -> None:
        """The next byte has to be this one."""
        self.next(lambda b: b == byte)

    def word(self, word: bytes) -> None:
        """The next bytes have to be these."""
        for byte in word:
            self.letter(byte)


def value_of(digits: Union[bytes, bytearray]) -> int:
    """The value of decimal digits, or the greatest number of 64 bits where it's above that."""
    digits = bytes(digits).lstrip(b"0")
    return min(int(digits or b"0"), GREATEST) if len(digits) <= 20 else GREATEST


class Pixels:
    """A picture or clip: its size in cells, the bytes of a cell, what has to be alike, the bytes
    of all cells in raster order, and the tags of a clip but W and H.
    """

    def __init__(
        self, size: Size, samples: int, form: Form, cells: bytes, tags: Sequence[bytes] = ()
    ) -> None:
        self.size, self.samples, self.form, self.cells, self.tags = size, samples, form, cells, tags


def number_before(scan: Scan, byte: int, ends: bytes) -> Tuple[int, int]:
    """The number before which `byte` stands, the first of a separator; and the byte that ends it,
    one of `ends`.
    """
    while byte not in DIGITS:
        while byte == ord("#") and scan.next(lambda b: True) not in b"\r\n":
            pass
        byte = scan.next(lambda b: b in SPACES or b == ord("#") or b in DIGITS)
    digits = bytearray()
    while byte in DIGITS:
        digits.append(byte)
        byte = scan.next(lambda b: b in DIGITS or (b in ends and bool(digits.strip(b"0"))))
    return value_of(digits), byte


def read_picture(data: bytes, key: str) -> Pixels:
    scan, items = Scan(data, key, 0, MOST_HEADER), SPACES + b"#"
    scan.word(b"P6")
    width, byte = number_before(scan, scan.next(lambda b: b in items), items)
    height, byte = number_before(scan, byte, items)
    maxval, _ = number_before(scan, byte, SPACES)
    if maxval > 255:
        raise refused(key, "depth")
    for number in (width, height):
        if number > MOST_AXIS:
            raise limit("axis", number, MOST_AXIS)
    if width * height > MOST_CELLS:
        raise limit("cells", width * height, MOST_CELLS)
    raster = data[scan.at : scan.at + 3 * width * height]
    if maxval < 255 and raster and max(raster) > maxval:
        raise refused(
            key, f"value at {scan.at + next(i for i, byte in enumerate(raster) if byte > maxval)}"
        )
    if len(raster) < 3 * width * height:
        raise refused(key, f"form at {len(data)}")
    if len(data) > scan.at + len(raster):
        raise refused(key, f"trailing at {scan.at + len(raster)}")
    return Pixels((width, height, 1), 3, ("picture", maxval), raster)


def read_stream_line(scan: Scan) -> List[bytes]:
    """The tags of a stream line."""
    tags: List[bytearray] = []

    def has_axes() -> bool:
        return {ord("W"), ord("H")} <= {tag[0] for tag in tags}

    def is_fit(b: int) -> bool:
        """Whether a byte may stand after a blank."""
        if b == ord("\n"):
            return has_axes()
        return b == ord(" ") or b not in b"WHFIAC" or b not in {tag[0] for tag in tags}

    def goes_on(b: int) -> bool:
        """Whether a byte may stand after a letter or within a value."""
        letter, value = tags[-1][0], tags[-1][1:]
        if b in b" \n":
            is_whole = letter not in b"WH" or bool(value.strip(b"0"))
            return is_whole and (b == ord(" ") or has_axes())
        return letter not in b"WH" or b in DIGITS

    scan.word(b"YUV4MPEG2")
    byte = scan.next(lambda b: b == ord(" "))
    while byte == ord(" "):
        byte = scan.next(is_fit)
        if byte not in b" \n":
            tags.append(bytearray([byte]))
            byte = scan.next(goes_on)
            while byte not in b" \n":
                tags[-1].append(byte)
                byte = scan.next(goes_on)
    return [bytes(tag) for tag in tags]


def axis_of(digits: bytes, pixels: int) -> Optional[int]:
    """An axis of so many pixels in cells; None where it isn't a whole number of them."""
    return None if int(digits[-2:]) % pixels else value_of(digits) // pixels


def cells_of_frame(planes: bytes, size: Sequence[int], kind: str) -> bytes:
    """The bytes of the cells of a frame: luma row by row within a cell, then Cb and Cr."""
    width, height, count = KINDS[kind]
    if kind == "mono":
        return planes
    across, cells = size[0], bytearray(size[0] * size[1] * count)
    luma = width * height * size[0] * size[1]
    cells[count - 2 :: count] = planes[luma : luma + size[0] * size[1]]
    cells[count - 1 :: count] = planes[luma + size[0] * size[1] :]
    for y in range(size[1]):
        begin, end = count * across * y, count * across * (y + 1)
        for row in range(height):
            from_place = width * across * (height * y + row)
            for column in range(width):
                cells[begin + width * row + column : end : count] = planes[
                    from_place + column : from_place + width * across : width
                ]
    return bytes(cells)


def read_frames(
    data: bytes, key: str, at: int, size: Sequence[int], kind: str, most: int
) -> List[bytes]:
    """The bytes of the cells of all frames from a place on."""
    cells = size[0] * size[1]
    greatest, length = min(MOST_AXIS, most // cells), cells * KINDS[kind][2]
    frames: List[bytes] = []
    if at == len(data):
        raise refused(key, "no frames")
    while at < len(data):
        if len(frames) == MOST_AXIS:
            raise limit("axis", MOST_AXIS + 1, MOST_AXIS)
        if len(frames) == greatest:
            raise limit("cells", cells * (greatest + 1), most)
        scan = Scan(data, key, at, MOST_LINE)
        scan.word(b"FRAME")
        if scan.next(lambda b: b in b" \n") == ord(" "):
            while scan.next(lambda b: True) != ord("\n"):
                pass
        at = scan.at + length
        if at > len(data):
            raise refused(key, f"form at {len(data)}")
        frames.append(cells_of_frame(data[scan.at : at], size, kind))
    return frames


def read_clip(data: bytes, key: str, most: int) -> Pixels:
    scan = Scan(data, key, 0, MOST_LINE)
    tags = read_stream_line(scan)
    values: Any = {
        letter: next((tag[1:] for tag in tags if tag[:1] == letter), None)
        for letter in (b"W", b"H", b"C", b"I")
    }
    kind = SPELLINGS.get(b"420" if values[b"C"] is None else values[b"C"])
    if kind is None or values[b"I"] not in (None, b"p", b"t", b"b", b"?"):
        raise refused(key, "colour space")
    size: Any = [
        axis_of(values[letter], pixels) for letter, pixels in zip((b"W", b"H"), KINDS[kind])
    ]
    if None in size:
        raise refused(key, "cell")
    carried = [tag for tag in tags if tag[:1] not in b"WH"]
    if sum(len(tag) + 1 for tag in carried) > MOST_TAGS:
        raise limit("header", sum(len(tag) + 1 for tag in carried), MOST_TAGS)
    for axis in size:
        if axis > MOST_AXIS:
            raise limit("axis", axis, MOST_AXIS)
    if size[0] * size[1] > most:
        raise limit("cells", size[0] * size[1], most)
    frames = read_frames(data, key, scan.at, size, kind, most)
    return Pixels(
        (size[0], size[1], len(frames)), KINDS[kind][2], ("clip", kind), b"".join(frames), carried
    )


def read_pixels(name: str, key: str, most: int = MOST_CELLS) -> Pixels:
    data = read_bytes(name, key, MOST_LINE + MOST_AXIS * MOST_LINE + 6 * most)
    return read_clip(data, key, most) if data[:1] == b"Y" else read_picture(data, key)


def read_picture_file(name: str, key: str) -> Pixels:
    """A picture where a clip is none."""
    return read_picture(read_bytes(name, key, MOST_HEADER + 3 * MOST_CELLS), key)
