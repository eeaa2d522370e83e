#!/usr/bin/env python3
"""Writes the cases of the program sheet_cases, and what it has to print.

The survey here is written from docs/ alone, not from the definitions or the
code, so that the two can be compared: crates/sheet_cases/stdin holds the
sheets, crates/sheet_cases/stdout the expected lines.
"""
import itertools
import math
import pathlib
import random
import struct

WIDTHS = {1: 6, 2: 12}


def sheet(kind, places, triangles, version=1):
    body = bytes([version, kind]) + struct.pack(">II", len(places), len(triangles))
    for place in places:
        body += struct.pack(">HHH" if kind == 1 else ">fff", *place)
    for triangle in triangles:
        body += struct.pack(">III", *triangle)
    return struct.pack(">I", len(body)) + body


def survey(kind, data, capacities=None):
    """('ok', V, E, T) or ('no', number, layer, spot)."""
    if len(data) < 14 or struct.unpack(">I", data[:4])[0] + 4 != len(data):
        return "no", 10, 2, 0
    if data[4] != 1:
        return "no", 11, 2, 4
    if data[5] != kind:
        return "no", 12, 2, 5
    vertices, count = struct.unpack(">II", data[6:14])
    if not 3 <= vertices <= 16384:
        return "no", 13, 2, 6
    if not 2 <= count <= 32768:
        return "no", 13, 2, 10
    width = WIDTHS[kind]
    start = 14 + vertices * width
    if len(data) != start + 12 * count:
        return "no", 14, 2, 0
    if capacities and vertices > capacities[0]:
        return "no", 5, 1, 0
    if capacities and count > capacities[1]:
        return "no", 6, 1, 0
    if kind == 2:
        for v in range(vertices):
            at = 14 + 12 * v
            if not all(math.isfinite(x) for x in struct.unpack(">fff", data[at:at + 12])):
                return "no", 15, 5, v
    triangles = [struct.unpack(">III", data[start + 12 * t:start + 12 * t + 12]) for t in range(count)]
    return surface(vertices, triangles)


def surface(vertices, triangles):
    for t, corners in enumerate(triangles):
        if max(corners) >= vertices or len(set(corners)) < 3:
            return "no", 16, 3, t
    owner = {}
    for t, (a, b, c) in enumerate(triangles):
        sides = [(a, b), (b, c), (c, a)]
        if any(side in owner for side in sides):
            return "no", 17, 3, t
        owner.update((side, t) for side in sides)
    for t, (a, b, c) in enumerate(triangles):
        if any((y, x) not in owner for x, y in [(a, b), (b, c), (c, a)]):
            return "no", 18, 3, t
    turn = [{} for _ in range(vertices)]
    for a, b, c in triangles:
        turn[a][b], turn[b][c], turn[c][a] = c, a, b
    for v in range(vertices):
        if not turn[v]:
            return "no", 19, 3, v
        start = next(iter(turn[v]))
        seen, x = 1, turn[v][start]
        while x != start:
            seen, x = seen + 1, turn[v][x]
        if seen != len(turn[v]):
            return "no", 19, 3, v
    edges = {(min(s), max(s)) for s in owner}
    return "ok", vertices, len(edges), len(triangles)


def text(outcome):
    if outcome[0] == "no":
        return "refused %d %d %d" % outcome[1:]
    v, e, t = outcome[1:]
    return "%d %d %d %d" % (v, e, t, v - e + t)


def c_answer(data):
    outcome = survey(2 if len(data) > 5 and data[5] == 2 else 1, data)
    if outcome[0] == "no":
        return "%d %s" % (outcome[1], [0xAA] * 16)
    v, e, t = outcome[1:]
    return "0 %s" % list(struct.pack(">iiii", v, e, t, v - e + t))


BLOCK = [(0, 1, 2), (0, 2, 3), (0, 3, 1), (1, 3, 2)]
CORNERS = [(0, 0, 0), (8, 0, 0), (0, 8, 0), (0, 0, 8)]


def torus(m, n):
    at = lambda i, j: (i % m) * n + j % n
    out = []
    for i, j in itertools.product(range(m), range(n)):
        a, b, c, d = at(i, j), at(i + 1, j), at(i + 1, j + 1), at(i, j + 1)
        out += [(a, b, c), (a, c, d)]
    return m * n, out


def grid_places(n):
    return [(i % 7, i // 7, i) for i in range(n)]


def named_cases():
    block = sheet(1, CORNERS, BLOCK)
    floats = [(0.5 * i, -0.0, 1e-40) for i in range(4)]
    yield block
    yield sheet(2, floats, BLOCK)
    yield b""                                                # 10: empty, too short, lengths
    yield block[:13]
    yield block[:-1]
    yield block + b"\0"
    yield struct.pack(">I", 0xFFFFFFFF) + block[4:]
    yield sheet(1, CORNERS, BLOCK, version=2)                # 11
    yield sheet(1, CORNERS, BLOCK, version=0)
    yield block[:5] + b"\3" + block[6:]                      # 12
    yield block[:5] + b"\0" + block[6:]
    yield block[:6] + struct.pack(">I", 2) + block[10:]      # 13
    yield block[:6] + struct.pack(">I", 16385) + block[10:]
    yield block[:10] + struct.pack(">I", 1) + block[14:]
    yield block[:10] + struct.pack(">I", 32769) + block[14:]
    yield block[:6] + struct.pack(">II", 2, 1) + block[14:]
    yield block[:6] + struct.pack(">I", 16384) + block[10:]  # 14: within the limits, not of this size
    yield block[:10] + struct.pack(">I", 32768) + block[14:]
    yield block[:10] + struct.pack(">I", 5) + block[14:]
    for bad in (math.inf, -math.inf, math.nan):              # 15
        yield sheet(2, floats[:2] + [(0.0, 1.0, bad)] + floats[3:], BLOCK)
    yield sheet(2, [(3.4028234e38,) * 3] * 4, BLOCK)
    yield sheet(1, CORNERS, BLOCK[:3] + [(1, 4, 2)])         # 16
    yield sheet(1, CORNERS, BLOCK[:3] + [(1, 0xFFFFFFFF, 2)])
    yield sheet(1, CORNERS, [(0, 1, 1)] + BLOCK[1:])
    yield sheet(1, CORNERS, [(0, 1, 2), (0, 1, 3), (4, 1, 2)])
    yield sheet(1, CORNERS, BLOCK[:3] + [(1, 2, 3)])         # 17
    yield sheet(1, CORNERS, BLOCK + [(0, 1, 2)])
    yield sheet(1, CORNERS, BLOCK[:3])                       # 18
    yield sheet(1, CORNERS, BLOCK[1:])
    yield sheet(1, CORNERS + [(1, 1, 1)], BLOCK)             # 19: a vertex without triangle, two rings
    shared = BLOCK + [tuple(x + 3 if x else 0 for x in t) for t in BLOCK]
    yield sheet(1, grid_places(7), shared)
    yield sheet(1, CORNERS[:3], [(0, 1, 2), (0, 2, 1)])
    two = BLOCK + [tuple(x + 4 for x in t) for t in BLOCK]
    yield sheet(1, grid_places(8), two)
    yield sheet(1, grid_places(9), two)
    for m, n in ((3, 3), (3, 5), (5, 7)):
        v, ts = torus(m, n)
        yield sheet(1, grid_places(v), ts)


def random_cases(rng, count):
    for _ in range(count):
        v, ts = torus(3, rng.randint(3, 5)) if rng.random() < 0.5 else (4, list(BLOCK))
        rng.shuffle(ts)
        ts = [t[k:] + t[:k] for t in ts for k in [rng.randrange(3)]]
        for _ in range(rng.randrange(3)):
            kind = rng.randrange(4)
            t = rng.randrange(len(ts))
            if kind == 0:
                ts[t] = ts[t][::-1]
            elif kind == 1:
                ts[t] = tuple(rng.randrange(v + 1) for _ in range(3))
            elif kind == 2 and len(ts) > 2:
                del ts[t]
            else:
                ts.append(tuple(rng.randrange(v) for _ in range(3)))
        yield sheet(1, grid_places(v), ts)


def main():
    folder = pathlib.Path(__file__).resolve().parent.parent / "crates" / "sheet_cases"
    data, lines = b"", []
    cases = list(named_cases()) + list(random_cases(random.Random(7), 60))
    for case, item in enumerate(cases):
        data += struct.pack(">I", len(item)) + item
        lines.append("%d: grid %s, floats %s, small store %s, C %s" % (
            case, text(survey(1, item)), text(survey(2, item)), text(survey(1, item, (8, 12))), c_answer(item)))
    lines.append("%d cases" % len(cases))
    (folder / "stdin").write_bytes(data)
    (folder / "stdout").write_text("\n".join(lines) + "\n")


main()
