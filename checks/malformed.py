"""Files of runs that aren't in their form or within their limits, or just within them, of each kind: maps, records, pictures and
clips, and the targets and marks that some commands read."""

CLIP, FRAME = b"YUV4MPEG2 W4 H2", b"FRAME\n" + bytes(12)
PICTURES = [
    b"", b"P3\n", b"P6", b"P6\n3 2\n255", b"P6\n0 2\n255\n", b"P6#\n 3#\r 2 255#", b"P6 1 1 256\n   ", b"P6 1 1 65535 ",
    b"P6 4097 1 255 ", b"P6 1 9999999999999999999999 255 ", b"P6 4096 4096 255 ", b"P6 2 1 9 \t\n", b"P6 2 1 200 \xff",
    b"P6 2 1 255 12345", b"P6 2 1 255 1234567", b"P6" + b" " * 65534, b"P6" + b" " * 65535, b"P6 #" + b"x" * 70000,
    b"P6 1 1" + b" " * 65529 + b"x", b"P6 00" + b"0" * 70000, b"P6" + b" " * 65526 + b"1 1 255 abc", b"P6" + b" " * 65527 + b"1 1 255 abc",
]
CLIPS = [
    b"Y", b"YUV4MPEG3", b"YUV4MPEG2W4 H2\n", CLIP, CLIP + b"\n", b"YUV4MPEG2\n", b"YUV4MPEG2 W4\n", CLIP + b" W4\n",
    CLIP + b" C420p10\n", CLIP + b" Ix\n", CLIP + b" C411 C411\n", b"YUV4MPEG2 W4 H3\n" + FRAME, b"YUV4MPEG2 W0 H2\n",
    b"YUV4MPEG2 W4x H2\n", b"YUV4MPEG2 W8194 H2\n", b"YUV4MPEG2 H2 W99999999999999999999999998\n",
    b"YUV4MPEG2 W8192 H8192 Cmono\n", CLIP + b"\n" + FRAME[:-1], CLIP + b"\n" + FRAME + b"FRAMF",
    CLIP + b"\nFRAME x" + b"y" * 4090, CLIP + b" X" + b"y" * 4005 + b"\n", CLIP + b" X" + b"y" * 5000,
    CLIP + b" X" + b"y" * (4096 - 18) + b"\n", CLIP + b"\n" + FRAME[:6] + b"x", CLIP + b"\nFRAME \n" + bytes(11),
    b"YUV4MPEG2 W1 H1 Cmono\n" + b"FRAME\n\0" * 4097, CLIP + b" X" + b"y" * 3998 + b"\n" + FRAME, CLIP + b" X" + b"y" * 3999 + b"\n" + FRAME,
    CLIP + b" " * 4080 + b"\n" + FRAME, CLIP + b" " * 4081 + b"\n" + FRAME,
    CLIP + b"\nFRAME " + b"x" * 4089 + b"\n" + FRAME[6:], CLIP + b"\nFRAME " + b"x" * 4090 + b"\n" + FRAME[6:],
]
# Numbers of a map or record: the place, the bytes, and the number that is put there.
NUMBERS = [
    (0, 1, 0), (7, 1, 0), (8, 1, 0), (8, 1, 3), (8, 2, 0x0102), (8, 2, 0x0200), (8, 2, 0x0202), (9, 1, 1), (9, 1, 2), (9, 1, 3),
    (10, 4, 0), (10, 4, 4097), (14, 4, 2 ** 32 - 1), (18, 4, 4096), (22, 4, 0), (22, 2, 0), (22, 2, 3), (22, 2, 17),
    (22, 4, 5000), (24, 4, 4097), (26, 4, 9999), (30, 4, 257), (34, 2, 65535), (34, 4, 2 ** 32 - 1), (34, 4, 4097), (36, 2, 2), (38, 1, 1),
    (38, 2, 8), (38, 2, 65535), (39, 2, 0), (44, 2, 0), (46, 2, 65535), (50, 2, 65535), (48, 6, 2 ** 48 - 1),
    # The first block of a quilt or a transfer: its size, its strips, the columns of the first, its path and its sums.
    (42, 2, 0), (42, 4, 2 ** 32 - 1), (42, 4, 0x10001000), (50, 1, 4), (50, 1, 3), (51, 2, 0), (51, 2, 65535), (53, 2, 65535),
    (55, 4, 2 ** 32 - 1),
    # The first and the second cell of a map over turned samples: a sample, a turn and a place, over one sample and over two.
    (36, 2, 0), (38, 2, 7), (40, 6, 2 ** 48 - 1), (46, 2, 3), (48, 2, 3), (50, 2, 8), (52, 6, 2 ** 48 - 1),
    # The sizes of a merge's pictures, and its first cell, over two of them and over three.
    (36, 4, 0), (40, 4, 4097), (44, 4, 2), (48, 2, 0), (60, 2, 4), (62, 6, 2 ** 48 - 1),
]
CUTS = (0, 7, 8, 9, 10, 13, 33, 34, 37, 40)


MARKS = [
    b"P6 2 1 255 \1\0\0\21\0\0", b"P6 2 1 3 \1\0\0\0\1\0", b"P6 2 1 3 \0\0\1\0\0\0", b"P6 1025 1024 255 " + bytes(3 * 1025 * 1024),
]


def malformed(run, with_pixels):
    """Of the bytes of a run's map and record: the slot and the bytes of each file that is tried in its place. So it is with a
    target and marks, where the run has them."""
    for slot, whole in (("map", run["map"]), ("record", run["record"])):
        yield from ((slot, whole[:count]) for count in (*CUTS, len(whole) - 1))
        yield from ((slot, whole + more) for more in (b"\0", b"WEAVEMAP"))
        yield from ((slot, whole[:at] + number.to_bytes(count, "big") + whole[at + count:]) for at, count, number in NUMBERS)
    for slot in ("out", "samples") if with_pixels else ():
        yield from ((slot, data) for data in PICTURES + CLIPS)
    for slot in ("target", "marks"):
        yield from ((slot, data) for data in PICTURES + CLIPS + MARKS if slot in run)
