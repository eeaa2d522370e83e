#!/usr/bin/env python3
"""Writes samples/fitting.model, the sample of the program `statement`: the sheet of a six-sided nut at grid places (24 vertices,
48 triangles, one hole), and behind it five records (docs/FORMATS.md). Each record cuts some trees of edges and moves what
lies on them outward, so that the volume grows from level to level. Prints the counts and the volume of each level.

The records are drawn at random from a fixed seed, until the decoder accepts one, so a second run gives the same bytes."""
import math
import pathlib
import random

import decoder
from decoder import Grid, Refusal, Store

CENTRE, CORE = 32768, 15000

# The nut's profile, as distances from the axis and heights.
PROFILE = [(9000, -6000), (21000, -6000), (21000, 6000), (9000, 6000)]
SIDES = 6

# For each record how many trees it has, how many edges each, and how far it moves its vertices.
LEVELS = [(1, 5, 1800), (2, 4, 1500), (3, 4, 1200), (4, 3, 900), (5, 4, 700)]


def nut():
    """Places and triangles: each square of four neighbours is cut along its diagonal."""
    corners, places, triangles = len(PROFILE), [], []
    for row in range(SIDES):
        angle = 2 * math.pi * row / SIDES
        for column, (radius, height) in enumerate(PROFILE):
            point = radius * math.cos(angle), radius * math.sin(angle), height
            places.append(tuple(round(CENTRE + x) for x in point))
            a, b = row * corners + column, (row + 1) % SIDES * corners + column
            c, d = (row + 1) % SIDES * corners + (column + 1) % corners, row * corners + (column + 1) % corners
            triangles += [(a, b, c), (a, c, d)]
    return places, triangles


def volume(places, triangles):
    """The volume inside, in units of the grid."""
    total = 0
    for corners in triangles:
        (a, b, c), (d, e, f), (g, h, i) = ([x - CENTRE for x in places[v]] for v in corners)
        total += a * (e * i - f * h) - b * (d * i - f * g) + c * (d * h - e * g)
    return abs(total) // 6


def outward(place, far, rng):
    """So far away from the circle in the middle of the nut, and a little aside."""
    x, y, z = (w - CENTRE for w in place)
    around = math.hypot(x, y)
    way = [x - CORE * x / around, y - CORE * y / around, z]
    size = math.hypot(*way)
    return tuple(round(far * w / size + rng.uniform(-far, far) / 5) for w in way)


def forest(rng, edges, trees, size):
    """Marks of trees that have no vertex in common, each grown edge by edge."""
    marks, taken = [0] * len(edges), set()
    for _ in range(trees):
        inside = {rng.choice([v for v in range(max(map(max, edges)) + 1) if v not in taken])}
        for _ in range(size):
            ways = [e for e, (i, j) in enumerate(edges)
                    if (i in inside) != (j in inside) and not {i, j} & taken]
            if not ways:
                return None
            e = rng.choice(ways)
            marks[e] = 1
            inside.update(edges[e])
        taken |= inside
    return marks


def record(rng, store, trees, size, far):
    """The bytes of a record for the store's mesh, or None where the trees found no room."""
    edges = decoder.edge_list(store.triangles)
    marks = forest(rng, edges, trees, size)
    if marks is None:
        return None
    cut = decoder.forest(len(store.places), edges, marks)
    decoder.cut_open(cut, len(store.places), store.triangles)
    # A fan or a zigzag for each tree: all codes but the last go on to one side.
    codes = [code for tree in cut for code in [rng.choice([1, 2]) for _ in range(2 * tree.size - 3)] + [0]]
    steps = [outward(store.places[v], far, rng) for tree in cut for v in tree.loop]
    data = b"".join(b"".join((x & 0xFFFF).to_bytes(2, "big") for x in step) for step in steps)
    buffer = bytearray(65536)
    return bytes(buffer[:decoder.write_record(Grid, marks, codes, data, buffer)])


def accepted(rng, job, store, level):
    """A record that is accepted; it is carried out."""
    while True:
        data = record(rng, store, *level)
        try:
            if data is not None:
                decoder.split_call(job, store, data)
                return data
        except Refusal:
            pass


def print_level(name, store):
    vertices, edges, triangles = decoder.survey(len(store.places), store.triangles)
    print(f"{name:<8} V {vertices:>3}  E {edges:>3}  T {triangles:>3}  volume {volume(store.places, store.triangles):>16,}")


def main():
    rng = random.Random("fitting")
    model = decoder.sheet_bytes(Grid, *nut())
    store = Store(Grid, 1024, 2048)
    job = decoder.base_call(store, model)
    print_level("base", store)
    for number, level in enumerate(LEVELS, 1):
        model += accepted(rng, job, store, level)
        print_level(f"record {number}", store)
    pathlib.Path(__file__).resolve().parent.parent.joinpath("samples/fitting.model").write_bytes(model)


if __name__ == "__main__":
    main()
