#!/usr/bin/env python3
"""Draws the map of a picture as colours, so that its patches and their seams are seen.

    tools/map_colours.py MAP OUT [ZOOM]

writes the P6 picture OUT. A cell is the redder the further right its source stands in the sample,
the greener the further down, and the bluer the higher the number of the sample. Over turned
samples a cell has the colour of its turn: greys and blues as the sample is or turned by a half,
reds and browns turned by a quarter, and the lighter of each two mirrored. A line stands between
two neighbours whose sources aren't neighbours in the same way: a seam. ZOOM, 1 to 16, is the
pixels of a cell on each axis (3 where none is given).
"""
import sys

from weave_tools.faults import start
from weave_tools.map_colours import draw_map

if __name__ == "__main__":
    sys.exit(start(draw_map, __doc__, sys.argv[1:], "map_colours.py"))
