#!/usr/bin/env python3
"""Writes the sheet of two fans back to back, a rim of so many vertices and two tips, and behind it a record that nearly
doubles it, to standard output. At each tip are as many triangles as the rim has vertices. Marked are the edges of the rim but
one (rim), or those from one tip to all vertices of the rim (spokes). The rim must be even: on an odd one the zigzag
(split_record.py) joins two vertices that an edge joins already."""
import math
import sys

import split_record
import torus


def fans(rim):
    """The places, and the triangles. The tips are the vertices `rim` and `rim + 1`."""
    turns = [2 * math.pi * k / rim for k in range(rim)]
    places = [(round(32768 + 30000 * math.cos(t)), round(32768 + 30000 * math.sin(t)), 32768) for t in turns]
    places += [(32768, 32768, 65535), (32768, 32768, 0)]
    triangles = [(a, (a + 1) % rim, rim) for a in range(rim)]
    triangles += [((a + 1) % rim, a, rim + 1) for a in range(rim)]
    return places, triangles


def tree(rim, marked):
    if marked == "rim":
        return [(a, a + 1) for a in range(rim - 1)]
    return [(a, rim) for a in range(rim)]


def fans_split(rim, marked):
    """The sheet and the record."""
    places, triangles = fans(rim)
    return torus.sheet(places, triangles), split_record.record(triangles, tree(rim, marked))


if __name__ == "__main__":
    if len(sys.argv) != 3 or sys.argv[2] not in ("rim", "spokes"):
        sys.exit("usage: fans_split.py RIM rim|spokes > FILE")
    sys.stdout.buffer.write(b"".join(fans_split(int(sys.argv[1]), sys.argv[2])))
