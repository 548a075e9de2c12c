#!/usr/bin/env python3
"""Grows small random outputs in all modes, over one to three samples, and has verify.py and `weave check` check each of them.

    checks/random_runs.py [RUNS [SEED]]

Build the program first: ./build. 1,000 runs take a minute or two."""
import os
import random
import re
import subprocess
import sys
import tempfile

from beside import WEAVE
from weave_tools.verifying import verify


def write_sample(name, chance, most=7):
    width, height = chance.randint(1, most), chance.randint(1, most)
    shades = chance.choice([2, 4, 256])
    raster = bytes(chance.randrange(shades) * (255 // (shades - 1)) for _ in range(3 * width * height))
    with open(name, "wb") as out:
        out.write(b"P6\n%d %d\n255\n" % (width, height) + raster)


def one_run(chance, folder):
    names = [os.path.join(folder, name) for name in ("s", "s2", "s3")][:chance.choice([1, 1, 2, 3])]
    for name in names:
        write_sample(name, chance)
    out, mapped, record = (os.path.join(folder, name) for name in ("o", "m", "r"))
    words = [f"sample{number if number > 1 else ''}={name}" for number, name in enumerate(names, 1)]
    words += [f"out={out}", f"map={mapped}", f"record={record}"]
    words += [f"width={chance.randint(1, 14)}", f"height={chance.randint(1, 12)}"]
    words += ["place=" + chance.choice(["grid", "random", "whole", "sub"])]
    words += [f"box={chance.randint(1, 6)}", f"overlap={chance.randint(0, 4)}"]
    words += [f"tol={chance.choice([0, 10, 300])}", f"rounds={chance.randint(0, 6)}"]
    words += [f"seed={chance.randrange(2 ** 64)}"]
    done = subprocess.run([WEAVE, "grow"] + words, capture_output=True, text=True)
    answer = verify(out, mapped, record, *names)[1] if done.returncode == 0 else done.stderr
    files = [word for word in words if re.match("sample|out|map|record", word)]
    checked = subprocess.run([WEAVE, "check"] + files, capture_output=True, text=True)
    if answer == "stands" and (checked.returncode, checked.stdout, checked.stderr) != (0, "stands\n", ""):
        answer = f"check: {checked.returncode} {checked.stdout}{checked.stderr}"
    return answer, words


def main(runs=1000, seed=1):
    chance = random.Random(int(seed))
    with tempfile.TemporaryDirectory() as folder:
        for number in range(int(runs)):
            answer, words = one_run(chance, folder)
            if answer != "stands":
                sys.exit(f"run {number}: {answer}\n{' '.join(words)}")
    print(f"{runs} runs stand")


if __name__ == "__main__":
    main(*sys.argv[1:])
