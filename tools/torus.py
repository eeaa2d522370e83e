#!/usr/bin/env python3
"""Writes the sheet of a torus with ROWS x COLUMNS vertices, at grid places, to standard output: two triangles for
each vertex (docs/FORMATS.md). From 3 x 3 on it is a closed mesh."""
import math
import struct
import sys


def place(row, column, rows, columns):
    """A point of the torus in the cube that grid places fill."""
    round_, through = 2 * math.pi * row / rows, 2 * math.pi * column / columns
    radius = 20000 + 10000 * math.cos(through)
    point = radius * math.cos(round_), radius * math.sin(round_), 10000 * math.sin(through)
    return tuple(round(32768 + x) for x in point)


def torus(rows, columns):
    """The places, and the triangles: each square of four neighbours is cut along its diagonal."""
    def number(row, column):
        return row % rows * columns + column % columns
    places, triangles = [], []
    for row in range(rows):
        for column in range(columns):
            places.append(place(row, column, rows, columns))
            a, b = number(row, column), number(row + 1, column)
            c, d = number(row + 1, column + 1), number(row, column + 1)
            triangles += [(a, b, c), (a, c, d)]
    return places, triangles


def sheet(places, triangles):
    body = struct.pack(">BBII", 1, 1, len(places), len(triangles))
    body += b"".join(struct.pack(">3H", *p) for p in places)
    body += b"".join(struct.pack(">3I", *t) for t in triangles)
    return struct.pack(">I", len(body)) + body


if __name__ == "__main__":
    if len(sys.argv) != 3:
        sys.exit("usage: torus.py ROWS COLUMNS > FILE")
    sys.stdout.buffer.write(sheet(*torus(int(sys.argv[1]), int(sys.argv[2]))))
