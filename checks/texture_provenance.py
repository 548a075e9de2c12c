"""Tries what texture's folders show of where pixels came from: whatever is forged is seen."""
import gzip
import json
import os
import random
import re
import shutil
import struct
import sys
from typing import Any, Callable, Dict, List

from texture_runs import (
    PEBBLES,
    TEXTURE,
    bytes_of,
    changed_bytes_seen,
    copied,
    hold,
    made,
    new_sums,
)
from texture_runs import put, run, sh
from weave_tools.run_reports import seams_of
from weave_tools.verifying import Run


def make_wall(folder: str) -> None:
    """A result of a photograph, with a layer, and another photograph."""
    made("convert", PEBBLES, "-modulate", "90", os.path.join(folder, "photo.png"))
    made("convert", PEBBLES, "-flop", os.path.join(folder, "other.png"))
    words = ["grow", "photo.png", "wall.png", "120x90", "--layer", "other.png=height.png"]
    run(*words, "--replace", cwd=folder)


def edit_about(kept: str, change: Callable[[Any], None]) -> None:
    """Changes what `about` says, and makes the sums anew."""
    about = json.loads(bytes_of(os.path.join(kept, "about")))
    change(about)
    put(os.path.join(kept, "about"), (json.dumps(about, indent=1) + "\n").encode())
    new_sums(kept)


def try_inputs(folder: str, chance: random.Random) -> None:
    """A forged origin is refused once the input is shown; verify says what wasn't shown."""
    make_wall(folder)
    said = run("verify", "wall.png.weave", cwd=folder)
    hold(
        "what isn't shown",
        "not shown, so that their sums alone are named: photo.png, other.png" in said,
        True,
    )
    run(
        "verify",
        "wall.png.weave",
        "--sample",
        "photo.png",
        "--layer",
        "other.png",
        cwd=folder,
        says="photo.png: was shown, and gives the files that weave read",
    )
    run(
        "verify",
        "wall.png.weave",
        "--sample",
        "a.png",
        cwd=folder,
        status=1,
        says="none of the inputs",
    )
    forged = os.path.join(folder, "forged")
    for what in ("name", "sum", "pixels"):
        kept = copied(folder, "wall.png", forged)
        shutil.copyfile(os.path.join(folder, "height.png"), os.path.join(forged, "height.png"))
        forge(folder, kept, what)
        run("verify", kept, "--no-again")
        shown = "photo.png" if what == "pixels" else "other.png"
        text = run("verify", kept, "--sample", shown, "--no-again", cwd=folder, status=1)
        hold(f"a forged {what}", "none of the inputs" in text or "gives another" in text, True)
    print("an origin that is forged, by name, by sum or by pixels, is refused once it is shown")


def forge(folder: str, kept: str, what: str) -> None:
    """Makes a folder say that a wall is of another photograph, with all sums made anew."""

    def change(about: Any) -> None:
        if what == "name":
            about["inputs"][0]["name"] = "other.png"
            about["inputs"][1]["sha256"] = "0" * 64
        else:
            name = "other.png" if what == "sum" else "photo.png"
            found = made("sha256sum", os.path.join(folder, name)).split()[0].decode()
            about["inputs"][0].update(name=name, sha256=found)
            about["inputs"] = about["inputs"][:1]
            about["layers"] = []

    if what == "pixels":
        # The same run over another sample, which is said to be of the photograph.
        run("grow", "other.png", "wall.png", "120x90", "--replace", cwd=folder)
        copied(folder, "wall.png", os.path.dirname(kept))
    edit_about(kept, change)


def try_own(folder: str, chance: random.Random) -> None:
    """A folder is its own: no name leads out of it, and each file is listed."""
    make_wall(folder)
    forged = os.path.join(folder, "own")

    def kept_now() -> str:
        kept = copied(folder, "wall.png", forged)
        shutil.copyfile(os.path.join(folder, "height.png"), os.path.join(forged, "height.png"))
        return kept

    kept = kept_now()
    words = bytes_of(os.path.join(kept, "words"))
    put(os.path.join(kept, "words"), words.replace(b"map=map", b"map=../../wall.png.weave/map"))
    put(os.path.join(kept, "map.gz"), b"junk")
    new_sums(kept)
    run("verify", kept, status=1, says="leads out of the folder")
    kept = kept_now()
    put(os.path.join(kept, "more"), b"")
    run("verify", kept, status=1, says="the sums differ: more")
    kept = kept_now()
    os.mkdir(os.path.join(kept, "deep"))
    run("verify", kept, status=1, says="deep isn't a plain file")
    kept = kept_now()
    os.remove(os.path.join(kept, "report"))
    run("verify", kept, status=1, says="the sums differ: report")
    kept = kept_now()
    edit_about(kept, lambda about: about["layers"][0]["files"].__setitem__(0, "../x.png"))
    run("verify", kept, status=1, says="is no name")
    kept = kept_now()
    edit_about(kept, lambda about: about.update(result="../wall.png"))
    run("verify", kept, status=1, says="is no name")
    kept = kept_now()
    edit_about(kept, lambda about: about.update(more=1))
    run("verify", kept, status=1, says="about: isn't in its form")
    count = try_about(kept_now(), chance)
    kept = kept_now()
    put(os.path.join(kept, "record.gz"), gzip.compress(bytes(1200 << 20), 1))
    new_sums(kept)
    run("verify", kept, status=1, says="is longer than any record")
    print(f"names that lead out of a folder, unlisted files and {count} other abouts are refused")


def try_about(kept: str, chance: random.Random) -> int:
    """Whatever about says, verify ends with lines; how many were tried."""
    path = os.path.join(kept, "about")
    whole = bytes_of(path)
    values: List[Any] = [
        None,
        -1,
        0,
        1,
        3,
        1 << 40,
        "",
        "x",
        "..",
        [],
        [1],
        {},
        True,
        1.5,
        "a.png",
        [[9] * 5],
    ]
    for _ in range(100):
        about = json.loads(whole)
        place = chance.choice([about, about["inputs"][0], about["layers"][0]])
        place[chance.choice(sorted(place))] = chance.choice(values)
        put(path, (json.dumps(about, indent=1) + "\n").encode())
        try:
            new_sums(kept)
        except (TypeError, KeyError, ValueError):
            continue
        done = sh(TEXTURE, "verify", kept, "--no-again")
        said = done.stderr.decode(errors="replace")
        if "Traceback" in said or done.returncode not in (0, 1, 3, 4, 5):
            sys.exit(f"about {json.dumps(about)}: {done.returncode} {said}")
    put(path, whole)
    return 100


def try_again(folder: str, chance: random.Random) -> None:
    """Words are run again: files that stand and aren't of these words are refused, as a picture whose
    record has boxes of 1x1, another seed, and a tile, which has no record."""
    run("tile", "a.png", "again.png", "60x50", "--replace", cwd=folder)
    run("tile", "a.png", "again2.png", "60x50", "seed=1", "--replace", cwd=folder)
    forged = os.path.join(folder, "again")
    for first, second, extra in (("again.png", "again2.png", ()), ("again2.png", "again.png", ())):
        kept = copied(folder, first, forged)
        for name in ("out.ppm", "map.gz", "report"):
            shutil.copyfile(os.path.join(folder, second + ".weave", name), os.path.join(kept, name))
        shutil.copyfile(os.path.join(folder, second), os.path.join(forged, first))
        new_sums(kept)
        run("verify", kept, "--no-again", *extra)
        run("verify", kept, status=1, says="the words, run again, give another")
    kept = noise_of_boxes(folder)
    run("verify", kept, "--no-again", says="weave check: stands")
    run("verify", kept, status=1, says="the words, run again, give another report")
    print(
        "files that stand and aren't those of their words are refused, as the words are run again"
    )


def noise_of_boxes(folder: str) -> str:
    """A folder whose picture is noise of the sample's cells, with a record of boxes of 1x1 that
    stands; its path."""
    chance, width, height = random.Random(1), 48, 32
    run("grow", "a.png", "noise.png", f"{width}x{height}", "--plain", "--replace", cwd=folder)
    kept = os.path.join(folder, "noise.png.weave")
    cells = [(chance.randrange(128), chance.randrange(128)) for _ in range(width * height)]
    sample = bytes_of(os.path.join(kept, "sample.ppm"))[-3 * 128 * 128 :]
    pixels = b"".join(sample[3 * (x + 128 * y) :][:3] for x, y in cells)
    head = struct.pack(">BBIIIIII", 1, 0, width, height, 1, 128, 128, 1)
    put(os.path.join(kept, "out.ppm"), b"P6\n%d %d\n255\n" % (width, height) + pixels)
    entries = b"".join(struct.pack(">HHH", x, y, 0) for x, y in cells)
    put(os.path.join(kept, "map"), b"WEAVEMAP" + head + entries)
    boxes = b"".join(
        struct.pack(">HHHHHHHHHB", i % width, i // width, 0, 1, 1, 1, x, y, 0, 128)
        for i, (x, y) in enumerate(cells)
    )
    put(os.path.join(kept, "record"), b"WEAVEREC" + head + struct.pack(">I", len(cells)) + boxes)
    put(os.path.join(folder, "noise.ppm"), bytes_of(os.path.join(kept, "out.ppm")))
    made("convert", os.path.join(folder, "noise.ppm"), os.path.join(folder, "noise.png"))
    seams = seams_by_weave(kept)
    report = f"grow {width}x{height}x1\nplacements {len(cells)}\nrounds 0\nseams {seams}\n"
    put(os.path.join(kept, "report"), report.encode())
    new_sums(kept)
    return kept


def seams_by_weave(kept: str) -> int:
    """The seam cost of the files of a folder, by the reader of reports."""
    names = ("out.ppm", "map", "record", "sample.ppm")
    found = Run(*(os.path.join(kept, name) for name in names))
    found.check()
    return seams_of(found.samples, found.numbers, found.out.size)


def try_signed(folder: str, chance: random.Random) -> None:
    """A signature by a key is accepted, one by another key isn't, and no byte of it is free."""
    for name in ("mine", "other"):
        path = os.path.join(folder, name + "_key")
        made("ssh-keygen", "-q", "-t", "ed25519", "-N", "", "-C", name, "-f", path)
    run(
        "grow", "a.png", "signed.png", "60x50", "--sign", "mine_key", cwd=folder, says="signed with"
    )
    kept = os.path.join(folder, "signed.png.weave")
    run("verify", kept, cwd=folder, says="whose it is, --signer FILE tries")
    run("verify", kept, "--signer", "mine_key.pub", cwd=folder, says="mine_key.pub allows")
    run("verify", kept, "--signer", "other_key.pub", cwd=folder, status=1, says="doesn't allow")
    allowed = b'me@here namespaces="weave-texture" ' + bytes_of(
        os.path.join(folder, "mine_key.pub")
    )
    put(os.path.join(folder, "allowed"), allowed)
    run("verify", kept, "--signer", "allowed", cwd=folder, says="allowed allows")
    run(
        "verify",
        "wall.png.weave",
        "--signer",
        "mine_key.pub",
        cwd=folder,
        status=1,
        says="isn't signed",
    )
    changes = changed_bytes_seen(kept, chance)
    signature = os.path.join(kept, "sums.sig")
    data = bytes_of(signature)
    for at in range(0, len(data), 7):
        put(signature, data[:at] + bytes([data[at] ^ 1]) + data[at + 1 :])
        changes += 1
        done = sh(TEXTURE, "verify", kept, "--no-again")
        hold(
            f"byte {at} of the signature",
            (done.returncode, b"Traceback" in done.stderr),
            (1, False),
        )
    put(signature, data)
    edit_about(kept, lambda about: about["inputs"][0].update(name="better.png"))
    run("verify", kept, status=1, says="isn't one of this list")
    print(f"signatures: {changes} changed bytes were seen, and another key is refused")


def try_packed(folder: str, chance: random.Random) -> None:
    """Packed and plain folders verify alike, and verify.py reads packed files; a damaged one is a
    line."""
    run("grow", "a.png", "packed.png", "150x120", cwd=folder)
    run("grow", "a.png", "plain.png", "150x120", "--plain", cwd=folder)
    sizes = []
    for name in ("packed", "plain"):
        kept = os.path.join(folder, name + ".png.weave")
        sizes.append(sum(os.path.getsize(os.path.join(kept, one)) for one in os.listdir(kept)))
        run("verify", kept)
    hold("whether packed is smaller", 2 * sizes[0] < sizes[1], True)
    kept = os.path.join(folder, "packed.png.weave")
    names = [os.path.join(kept, name) for name in ("out.ppm", "map.gz", "record.gz", "sample.ppm")]
    verify = os.path.join(os.path.dirname(TEXTURE), "verify.py")
    hold("verify.py", made(verify, *names), b"stands\n")
    bad = os.path.join(folder, "bad.gz")
    for at in (10, 200):
        data = bytearray(bytes_of(names[2]))
        put(bad, bytes(data[:at]))
        done = sh(verify, *names[:2], bad, names[3])
        hold(
            "a packed record that is cut off",
            (done.returncode, b"Traceback" in done.stderr),
            (3, False),
        )
    print(f"packed folders: {sizes[0]} bytes and not {sizes[1]}")


def try_texts(folder: str, chance: random.Random) -> None:
    """The PNG of a result says what made it, of what, and the sum of its folder's list."""
    make_wall(folder)
    data, kept = bytes_of(os.path.join(folder, "wall.png")), os.path.join(folder, "wall.png.weave")
    found: Dict[str, str] = {}
    at = 8
    while at < len(data):
        length, kind = struct.unpack_from(">I4s", data, at)
        keyword, _, rest = data[at + 8 : at + 8 + length].partition(b"\0")
        if kind == b"tEXt":
            found[keyword.decode()] = rest.decode("latin-1")
        elif kind == b"iTXt":
            found[keyword.decode()] = rest[4:].decode()
        at += 12 + length
    about = json.loads(bytes_of(os.path.join(kept, "about")))
    listed = re.sub(rb"\S+  \.\./[^\n]*\n", b"", bytes_of(os.path.join(kept, "sums")))
    total = made("sha256sum", input=listed).split()[0].decode()
    hold("the sum of the list", total in found["Sums"], True)
    hold("the source", about["inputs"][0]["sha256"] in found["Source"], True)
    hold("XMP", "<dc:source>" in found["XML:com.adobe.xmp"], True)
    hold("software", found["Software"].startswith("weave"), True)
    seen = made("identify", "-verbose", os.path.join(folder, "wall.png"))
    hold("whether others read it", b"photo.png" in seen, True)
    print("a result's PNG has its software, its sources and the sum of its folder's list")


SECTIONS: Dict[str, Callable[[str, random.Random], None]] = {
    "inputs": try_inputs,
    "own": try_own,
    "again": try_again,
    "signed": try_signed,
    "packed": try_packed,
    "texts": try_texts,
}
