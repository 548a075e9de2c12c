"""Tries texture's tries: their figures, which one is kept, the sheet, and what is said meanwhile."""
import json
import os
import random
import re
import signal
import subprocess
import time
from typing import Callable, Dict, List

from texture_runs import TEXTURE, bytes_of, hold, made, run
from weave_tools.figures import Figures, most_copied, scores
from weave_tools.forms import read_raster
from weave_tools.tasks import cell_for


def try_figures(folder: str, chance: random.Random) -> None:
    """The most copied neighbourhood is that of a plain search, and used is counted."""
    for _ in range(20):
        width, height = chance.randint(3, 60), chance.randint(3, 60)
        uses = [chance.choice([0, 0, 1, 5]) for _ in range(width * height)]
        w, h = min(33, width), min(33, height)
        greatest = max(
            sum(sum(uses[x + width * row : x + w + width * row]) for row in range(y, y + h))
            for x in range(width - w + 1)
            for y in range(height - h + 1)
        )
        hold("the most copied", most_copied(uses, width, height), greatest / (w * h))
    even = [
        Figures(2.0, 50.0, 4.0, 2.0),
        Figures(1.0, 50.0, 8.0, 2.0),
        Figures(1.5, 50.0, 4.0, 2.0),
    ]
    values = scores(even)
    hold("the best of three", values.index(min(values)), 2)
    said = run("grow", "a.png", "same.png", "128x128", "box=128", "rounds=0", cwd=folder)
    hold("a copy of the sample", "used 100% of the sample, most 1.0 (fair 1.0)" in said, True)
    print("figures are those of a plain count")


def try_tries(folder: str, chance: random.Random) -> None:
    """Tries run beside each other, the best is kept, and the sheet has all of them."""
    words = ["grow", "a.png", "tried.png", "100x80", "--tries", "6", "--sheet", "sheet.png"]
    said = run(*words, cwd=folder)
    lines = re.findall(r"seed (\d+): seams ([\d.]+) a cell, used (\d+)%.* most ([\d.]+)", said)
    hold("lines of tries", sorted(int(line[0]) for line in lines), list(range(6)))
    found = re.search(r"kept seed=(\d+)", said)
    kept = found[1] if found else ""
    about = json.loads(bytes_of(os.path.join(folder, "tried.png.weave", "about")))
    line = next(line for line in lines if line[0] == kept)
    hold("the figures in about", f"{about['figures']['seams']:.2f}", line[1])
    hold(
        "what is left",
        sorted(os.listdir(os.path.join(folder, "tried.png.weave"))),
        [
            "about",
            "map.gz",
            "out.ppm",
            "record.gz",
            "report",
            "sample.ppm",
            "sums",
            "words",
        ],
    )
    one = run("grow", "a.png", "one.png", "100x80", f"seed={kept}", cwd=folder)
    hold(
        "the picture",
        read_raster(os.path.join(folder, "one.png")).data,
        read_raster(os.path.join(folder, "tried.png")).data,
    )
    hold("whether one run has no line of tries", "seed " in one, False)
    sheet = read_raster(os.path.join(folder, "sheet.png"))
    hold("the sheet", (sheet.width > 500, sheet.height > 150), (True, True))
    print("tries: the best is kept, and is the run of its seed")


def try_bounds(folder: str, chance: random.Random) -> None:
    """Cells are the least by which a result is within the bounds."""
    cases = [
        ((1024, 1024), 1),
        ((1920, 1080), 2),
        ((2048, 2048), 2),
        ((2049, 2048), 3),
        ((4096, 4096), 4),
        ((5000, 100), 2),
        ((8192, 8192), 8),
    ]
    for size, cell in cases:
        hold(f"cells for {size}", cell_for(size, [(512, 512)], False, False), cell)
    hold("a tile", cell_for((2046, 2046), [(512, 512)], False, True), 2)
    hold("a large sample", cell_for((500, 500), [(5120, 3000)], False, False), 2)
    hold("with turns", cell_for((500, 500), [(2048, 2048)], True, False), 2)
    print("cells are as many pixels as the bounds ask for")


def try_estimates(folder: str, chance: random.Random) -> None:
    """A long run is said to be one, with what would make it quicker, and it can be stopped."""
    made(
        "convert",
        os.path.join(folder, "a.png"),
        "-resize",
        "900x900!",
        os.path.join(folder, "huge.png"),
    )
    words = [TEXTURE, "grow", "huge.png", "slow.png", "1000x1000", "box=225", "rounds=900"]
    process = subprocess.Popen(words, cwd=folder, stdout=subprocess.PIPE, stderr=subprocess.PIPE)
    lines: List[bytes] = []
    assert process.stdout
    for line in process.stdout:
        lines.append(line)
        if b"it takes about" in line:
            break
    time.sleep(0.5)
    process.send_signal(signal.SIGINT)
    _, said = process.communicate()
    text = b"".join(lines)
    hold("the estimate", b"quicker:" in text and b"rounds=0" in text, True)
    hold("how it ended", (process.returncode, said), (130, b"texture: stopped\n"))
    hold(
        "what is left",
        [name for name in os.listdir(folder) if "slow" in name or name[0] == "."],
        [],
    )
    print("a long run says about how long it takes, and a signal stops it at once")


def try_large(folder: str, chance: random.Random) -> None:
    """4096x4096 of 1024x1024 in three minutes, verified."""
    made(
        "convert",
        os.path.join(folder, "a.png"),
        "-resize",
        "1024x1024!",
        os.path.join(folder, "k.png"),
    )
    begun = time.monotonic()
    run("grow", "k.png", "large.png", "4096x4096", cwd=folder, says="cells of 4x4 pixels")
    taken = time.monotonic() - begun
    run("verify", "large.png.weave", "--sample", "k.png", cwd=folder)
    picture = read_raster(os.path.join(folder, "large.png"))
    hold("the size", (picture.width, picture.height), (4096, 4096))
    print(f"4096x4096 of 1024x1024 took {taken:.0f} s")
    hold("whether that is under 3 minutes", taken < 180, True)


SECTIONS: Dict[str, Callable[[str, random.Random], None]] = {
    "figures": try_figures,
    "tries": try_tries,
    "bounds": try_bounds,
    "estimates": try_estimates,
    "large": try_large,
}
