#!/usr/bin/env python3
"""Checks the files of a run, with no help of weave.

    tools/verify.py [--turns] OUT MAP RECORD SAMPLE [SAMPLE2 ..]

ends with the line and the status of `weave check`: `stands` and 0; the first rule that is broken,
with the number of the record and the place, and 1; or the refusal of the first file that isn't in
its form or within the limits, and 3 or 4. Each record is held against the map that the records
before it leave, the map against what all records leave, and the picture or clip against the map.
With `--turns` the files are checked as by `check` with turns=all.

    tools/verify.py --target TARGET OUT MAP RECORD SAMPLE
    tools/verify.py --wrap AXES OUT MAP SAMPLE
    tools/verify.py --marks MARKS OUT MAP SAMPLE SAMPLE2 [..]

tries more of a run of transfer, and what can be tried of tile and of merge, which have no record.
An output of transfer has the target's size. Each cell of a merge is at its own place of a
picture, and each marked one is of its own picture.

With `--report REPORT` each of these holds what the run printed against the files: all of its
numbers, but how many placements a tile has, and of grow how many of the records are rounds.

    tools/verify.py --redraw NEW MAP SAMPLE [SAMPLE2 ..]

draws the picture or clip once more, of samples and map alone, and overwrites none of them: it has the same cells as the one
that weave wrote.

docs/FORMATS.md has the forms of all files, their limits and the rules. This is written from that
page, for any Python from 3.8 on, with its standard library alone.
"""
import sys

from weave_tools.faults import guarded
from weave_tools.verifying import main

if __name__ == "__main__":
    sys.exit(guarded(lambda: main(sys.argv[1:], __doc__ or ""), "verify.py"))
