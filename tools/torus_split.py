#!/usr/bin/env python3
"""Writes the sheet of a torus with ROWS x COLUMNS vertices, and behind it a record that nearly doubles it, to standard
output: the edges of one walk through all vertices, row after row and back, are marked (split_record.py)."""
import sys

import split_record
import torus


def walk(rows, columns):
    """The vertices, each a neighbour of the one before."""
    for row in range(rows):
        across = range(columns) if row % 2 == 0 else reversed(range(columns))
        yield from (row * columns + column for column in across)


def torus_split(rows, columns):
    """The sheet and the record."""
    places, triangles = torus.torus(rows, columns)
    path = list(walk(rows, columns))
    return torus.sheet(places, triangles), split_record.record(triangles, zip(path, path[1:]))


if __name__ == "__main__":
    if len(sys.argv) != 3:
        sys.exit("usage: torus_split.py ROWS COLUMNS > FILE")
    sys.stdout.buffer.write(b"".join(torus_split(int(sys.argv[1]), int(sys.argv[2]))))
