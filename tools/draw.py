#!/usr/bin/env python3
"""Draws what weave wrote, for documents: frames of a clip, the blocks of a quilt, the walk of a
loop, shares of samples.

    tools/draw.py frames CLIP OUT ZOOM FRAME ..      a FRAME is a number from 0, or / for a red line
    tools/draw.py blocks RECORD SAMPLE OUT           each block of a quilt's record, whole over those before it
    tools/draw.py walk MAP OUT ZOOM                  each column is a frame of a loop, as high as the sample's frame
    tools/draw.py shares MAP                         prints how much of the output each sample has, in percent
    tools/draw.py lit COLOUR NORMALS OUT [X,Y,Z]     a PNG lit by its normals from a lamp there, with green up

OUT is a P6 picture. ZOOM is the pixels of a pixel or frame, on each axis.
"""
import sys

from weave_tools.drawings import draw

if __name__ == "__main__":
    sys.exit(draw(sys.argv[1:], __doc__ or "", "draw.py"))
