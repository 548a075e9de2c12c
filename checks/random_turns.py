#!/usr/bin/env python3
"""Grows small random outputs over one or two pictures or clips, with the turns of these and without, and compares what the map
names with turns that are made here, by mirrored and turned rows.

    checks/random_turns.py [RUNS [SEED [WEAVE]]]

verify.py and `weave check` have to accept each run, by the words that go with it, and to refuse its map by the others. The output
is drawn once more of the samples as they are and the map. Clips whose cells are several pixels have to be refused. Build the
program first: ./build. 300 runs take some seconds."""
import os
import random
import subprocess
import sys
import tempfile

from beside import WEAVE
from random_loops import KINDS, write_clip
from random_runs import write_sample
from weave_tools.run_drawing import redraw
from weave_tools.verifying import verify


def bytes_of(name):
    with open(name, "rb") as file:
        return file.read()


def weave(program, *words):
    """Status and what is said, of a run."""
    done = subprocess.run([program, *words], capture_output=True, text=True)
    return done.returncode, done.stdout + done.stderr


def plan(chance, is_clip):
    """The words of a run but those of its files."""
    words = [f"width={chance.randint(1, 12)}", f"height={chance.randint(1, 9)}",
             f"frames={chance.randint(1, 4) if is_clip else 1}", "place=" + chance.choice(["grid", "random", "whole", "sub", "sub"])]
    words += [f"box={chance.randint(1, 6)}", f"overlap={chance.randint(0, 4)}", f"tol={chance.choice([0, 10, 300])}"]
    return words + [f"rounds={chance.randint(0, 5)}", f"seed={chance.randrange(2 ** 64)}"]


NO_TURNS = 3, "weave: sample: colour space\n"


def refusal(turns, names, can_turn):
    """What `check` says of a run with turns, or without, by the other words."""
    if not can_turn:
        return NO_TURNS
    return 3, f"weave: map: form at {9 if turns or len(names) > 1 else 8}\n"


def one_run(program, chance, folder):
    """What is wrong with a run, or nothing; and its words."""
    is_clip, turns = chance.randrange(2) == 1, chance.randrange(4) > 0
    names = [os.path.join(folder, name) for name in ("s", "s2")][:chance.choice([1, 2])]
    kind = chance.choice(KINDS)
    can_turn = not is_clip or kind[1] == 1
    for name in names:
        write_clip(name, chance, kind) if is_clip else write_sample(name, chance)
    out, mapped, record, new = (os.path.join(folder, name) for name in ("o", "m", "r", "n"))
    files = [f"sample{number if number > 1 else ''}={name}" for number, name in enumerate(names, 1)]
    files += [f"out={out}", f"map={mapped}", f"record={record}"]
    words = ["grow", *files, *plan(chance, is_clip), "turns=all" if turns else "turns=none"]
    done = weave(program, *words)
    if turns and not can_turn:
        return (None if done == NO_TURNS else done), words
    if done[0]:
        return done, words
    redraw(new, mapped, *names)
    answers = [verify(out, mapped, record, *names, turns=turns) == (0, "stands"), bytes_of(new) == bytes_of(out),
               weave(program, "check", *files, words[-1]) == (0, "stands\n"),
               weave(program, "check", *files, "turns=none" if turns else "turns=all") == refusal(turns, names, can_turn)]
    return (None if all(answers) else answers), words


def main(runs=300, seed=1, program=WEAVE):
    chance = random.Random(int(seed))
    with tempfile.TemporaryDirectory() as folder:
        for number in range(int(runs)):
            wrong, words = one_run(program, chance, folder)
            if wrong:
                sys.exit(f"run {number}: {wrong}\n{' '.join(words)}")
    print(f"{runs} runs are right")


if __name__ == "__main__":
    main(*sys.argv[1:])
