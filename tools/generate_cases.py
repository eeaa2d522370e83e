#!/usr/bin/env python3
"""Writes a table of splits, and what has to come out of each.

    tests/conformance.bin    the cases: for each a head, a sheet, and records with what must come out
    tests/conformance.txt    what the program `conformance` has to print
    tests/conformance.json   what the table can't hold: names of the cases, inputs of `levels` that
                             end in the middle of an item, faults of a caller, the layout call, the
                             record writer, sums of float numbers

The first two are also written as `stdin` and `stdout` of crates/conformance. The outcomes are those
of decoder.py, which was written from docs/ alone. Everything is made from fixed seeds, so a second
run gives the same bytes.

The .bin file is a row of items in the framing of `levels`: four bytes, big-endian, holding n, then
n bytes; no item has more than 65,536 bytes, its length field included. An **item of numbers** holds
numbers of four bytes each. A **mesh** is two items: a sheet, and the parents of its vertices as an
item of numbers. A case is

    a head         numbers: kind byte of the stores, how many records there are, vertex capacity,
                   triangle capacity
    the base       the mesh of the job's store
    another base   the mesh of a second store; one without vertices, which is no base, leaves it empty
    the records    of each:
        an order   numbers: the store that the call is given, 0 the job's own or 1 the second; the length
                   of the work table; and the triangle, corner and vertex of a replacement that is made
                   in that store before the call (corner 3, which no triangle has, for none)
        a record
        an answer  numbers: V E T F K if the record is accepted, number, layer and spot if it is refused
        a mesh     that the store then holds, if the record is accepted or the order's corner isn't 3;
                   else the store holds what it held

A base that is refused has an empty item for its parents, and no records behind it.

What has to be printed, numbers decimal with one space between. Each case is played twice:

    CASE c LIST              c counts from 0; then the same once more with CASE c CHAIN
    BASE V E T SAME          as `levels` prints them, but for the last word, which says that the store's
    SPLIT i V E T F K SAME   answer, sheet and parents are those of the table; or it says what differs
    REFUSED i n l s SAME     (no last word where the base is refused)
    TOTAL r f k              the last line of the play

and at the end, of all plays together:

    CASES n
    SPLITS n                 accepted records
    REFUSALS k: n            for each number that records are refused by
    DIFFERING n              records whose last word isn't SAME
"""
import collections
import itertools
import json
import pathlib
import random
import struct
import sys
import zlib

import decoder
from decoder import Float, Grid, Job, Refusal, Store

COUNT = collections.Counter()          # how often each refusal and each feature occurs

LEVELS = (decoder.LEVELS_VERTICES, decoder.LEVELS_TRIANGLES)
MOST_BYTES = 65536                     # of an item of the table
NO_CHANGE = (0, 3, 0)                  # a replacement of no corner


def refused(call, *arguments):
    """The number, layer and spot that a call refuses with, or None."""
    try:
        call(*arguments)
    except Refusal as refusal:
        return refusal.number, refusal.layer, refusal.spot
    return None


# ---------------------------------------------------------------- meshes: (V, triangles)

BLOCK = (4, [(0, 1, 2), (0, 2, 3), (0, 3, 1), (1, 3, 2)])
BLOCK_PLACES = [(0, 0, 0), (8, 0, 0), (0, 8, 0), (0, 0, 8)]
PILLOW = (3, [(0, 1, 2), (0, 2, 1)])
OCTAHEDRON = (6, [(4, 0, 2), (4, 2, 1), (4, 1, 3), (4, 3, 0), (5, 2, 0), (5, 1, 2), (5, 3, 1), (5, 0, 3)])
ICOSAHEDRON = (12, [
    (0, 11, 5), (0, 5, 1), (0, 1, 7), (0, 7, 10), (0, 10, 11), (1, 5, 9), (5, 11, 4), (11, 10, 2), (10, 7, 6),
    (7, 1, 8), (3, 9, 4), (3, 4, 2), (3, 2, 6), (3, 6, 8), (3, 8, 9), (4, 9, 5), (2, 4, 11), (6, 2, 10),
    (8, 6, 7), (9, 8, 1)])
SHARED = (7, BLOCK[1] + [tuple(x + 3 if x else 0 for x in t) for t in BLOCK[1]])


def torus(m, n):
    def at(i, j):
        return i % m * n + j % n
    triangles = []
    for i, j in itertools.product(range(m), range(n)):
        a, b, c, d = at(i, j), at(i + 1, j), at(i + 1, j + 1), at(i, j + 1)
        triangles += [(a, b, c), (a, c, d)]
    return m * n, triangles


def bipyramid(n):
    """Two hubs, 0 and 1, each joined to every vertex of a cycle of n vertices."""
    ring = [(2 + i, 2 + (i + 1) % n) for i in range(n)]
    return n + 2, [(0, x, y) for x, y in ring] + [(1, y, x) for x, y in ring]


def sphere(rounds):
    """The icosahedron, each of its triangles cut into four, so many times over."""
    count, triangles = ICOSAHEDRON
    for _ in range(rounds):
        middle, finer = {}, []
        for a, b, c in triangles:
            d, e, f = (middle.setdefault(pair(x, y), count + len(middle)) for x, y in ((a, b), (b, c), (c, a)))
            finer += [(a, d, f), (d, b, e), (f, e, c), (d, e, f)]
        count, triangles = count + len(middle), finer
    return count, triangles


def bodies(*meshes):
    """Several bodies in one mesh."""
    count, triangles = 0, []
    for v, ts in meshes:
        triangles += [tuple(x + count for x in t) for t in ts]
        count += v
    return count, triangles


def joined(first, second):
    """One body out of two: each loses a triangle, and the holes are sewn together."""
    (v, ts), (w, us) = first, second
    (a, b, c), (x, y, z) = ts[-1], us[0]
    name = {x: a, y: c, z: b}
    fresh = itertools.count(v)
    for old in range(w):
        if old not in name:
            name[old] = next(fresh)
    return v + w - 3, ts[:-1] + [tuple(name[p] for p in u) for u in us[1:]]


def double_torus(m, n):
    """A body with two handles; its Euler figure is -2."""
    return joined(torus(m, n), torus(m, n))


def turned(mesh):
    """The same mesh with all triangles the other way round."""
    return mesh[0], [(a, c, b) for a, b, c in mesh[1]]


def mixed(rng, mesh):
    """The same mesh with other numbers of vertices and triangles and other first corners."""
    v, ts = mesh
    name = list(range(v))
    rng.shuffle(name)
    ts = [tuple(name[x] for x in t) for t in ts]
    rng.shuffle(ts)
    return v, [t[k:] + t[:k] for t in ts for k in [rng.randrange(3)]]


# ---------------------------------------------------------------- places and displacements

def bits_of(number):
    return struct.unpack(">I", struct.pack(">f", number))[0]


def float_coordinate(rng):
    """The bits of a finite number; all sorts of them."""
    way = rng.randrange(6)
    if way == 0:
        return bits_of(rng.randrange(-64, 65) / 8)
    if way == 1:
        return rng.choice([0, 0x80000000, 1, 0x80000001, 0x007FFFFF, 0x00800000, 0x7F7FFFFF, 0xFF7FFFFF])
    if way == 2:
        return rng.getrandbits(1) << 31 | rng.getrandbits(23)
    if way == 3:
        return rng.getrandbits(1) << 31 | rng.randrange(120, 134) << 23 | rng.getrandbits(23)
    return rng.getrandbits(1) << 31 | rng.randrange(0, 255) << 23 | rng.getrandbits(23)


def some_places(rng, kind, count):
    if kind is Grid:
        top = rng.choice([10, 1000, 65535])
        return [tuple(rng.randint(0, top) for _ in range(3)) for _ in range(count)]
    return [tuple(float_coordinate(rng) for _ in range(3)) for _ in range(count)]


def grid_step(rng, x, style):
    """A displacement of one coordinate that doesn't leave the grid."""
    low, high = max(-32768, -x), min(32767, 65535 - x)
    if style == "zero":
        return 0
    if style == "small":
        return min(max(rng.randint(-3, 3), low), high)
    if style == "edge":
        return rng.choice([low, high])
    return rng.randint(low, high)


def float_step(rng, x, style):
    """The bits of a displacement that keeps one coordinate finite."""
    if style == "zero":
        return rng.choice([0, 0x80000000])
    while True:
        way = rng.randrange(5)
        field = x >> 23 & 0xFF
        if way == 0:
            d = x ^ 0x80000000                                   # cancels out
        elif way == 1 and field > 24:
            d = rng.getrandbits(1) << 31 | field - 24 << 23      # half a last place: a tie
        elif way == 2 and field > 25:
            d = rng.getrandbits(1) << 31 | rng.randrange(field - 25, field + 1) << 23 | rng.getrandbits(23)
        elif way == 3:
            d = x ^ rng.choice([1, 0x80000001, 0x00800000, 0x80400000])
        else:
            d = float_coordinate(rng)
        if decoder.binary32_sum(x, d) is not None:
            return d


def some_displacement(rng, kind, place, style):
    """The bytes of a displacement that this place takes."""
    if kind is Grid:
        return struct.pack(">hhh", *(grid_step(rng, x, style) for x in place))
    return struct.pack(">III", *(float_step(rng, x, style) for x in place))


# ---------------------------------------------------------------- forests

def grow_forest(rng, count, edges, limit, most=10 ** 6, wanted=10 ** 6):
    """Marks of random trees with at most `most` edges each, F - K at most `limit`.

    It stops when `wanted` edges are marked. Trees of one edge are dropped at the end, so there
    may be none.
    """
    link, size, grown, chosen = list(range(count)), [0] * count, 0, []

    def group(v):
        while link[v] != v:
            v = link[v]
        return v

    for e in rng.sample(range(len(edges)), len(edges)):
        i, j = group(edges[e][0]), group(edges[e][1])
        together = size[i] + size[j] + 1
        more = together - 1 - max(size[i] - 1, 0) - max(size[j] - 1, 0)
        if i != j and together <= most and grown + more <= limit and len(chosen) < wanted:
            link[j], size[i], grown = i, together, grown + more
            chosen.append(e)
    marks = [0] * len(edges)
    for e in chosen:
        marks[e] = int(size[group(edges[e][0])] > 1)
    return marks


def star(rng, count, edges, limit, centre=None):
    """Marks of edges at one vertex: all of them, or as many as fit."""
    while True:
        v = rng.randrange(count) if centre is None else centre
        at = [e for e, pair in enumerate(edges) if v in pair]
        if len(at) > 1:
            break
    chosen = rng.sample(at, min(len(at), limit + 1))
    return [int(e in chosen) for e in range(len(edges))]


def path(rng, edges, limit, inside=None):
    """Marks of a random path of at most limit + 1 edges, among the given vertices if there are such."""
    near = {}
    for e, (i, j) in enumerate(edges):
        if inside is None or i in inside and j in inside:
            near.setdefault(i, []).append((j, e))
            near.setdefault(j, []).append((i, e))
    v = rng.choice(sorted(near))
    met, chosen = {v}, []
    while len(chosen) < limit + 1:
        ahead = [(w, e) for w, e in near[v] if w not in met]
        if not ahead:
            break
        v, e = rng.choice(ahead)
        met.add(v)
        chosen.append(e)
    return [int(e in chosen) for e in range(len(edges))]


def again(rng, count, edges, limit, first):
    """Marks of a forest of edges that end in vertices from `first` on, those that splits have made."""
    young = [e for e, (_, j) in enumerate(edges) if j >= first]
    if not young:
        return grow_forest(rng, count, edges, limit)
    marks = [0] * len(edges)
    for e, mark in zip(young, grow_forest(rng, count, [edges[e] for e in young], limit, most=rng.randint(2, 12))):
        marks[e] = mark
    return marks


def pick_marks(rng, count, edges, limit, style, first=0):
    if style == "again":
        return again(rng, count, edges, limit, first)
    if style == "pair":
        return grow_forest(rng, count, edges, 1)
    if style == "pairs":
        return grow_forest(rng, count, edges, limit, most=rng.randint(2, 4))
    if style == "spanning":
        return grow_forest(rng, count, edges, limit)
    if style == "star":
        return star(rng, count, edges, limit)
    if style == "path":
        return path(rng, edges, limit)
    return grow_forest(rng, count, edges, limit, wanted=rng.randint(2, max(2, count // 2)))


# ---------------------------------------------------------------- codes

def pair(x, y):
    return (x, y) if x < y else (y, x)


def pick_codes(rng, tree, taken, style):
    """Codes that fill the tree's polygon without an inner edge out of `taken`, or None.

    A part that is entered by L and R lies over the positions R .. L, here a .. b with a < b;
    the whole polygon is 1 .. 2m, where 2m stands for 0. A third corner O between them decides
    the code.
    """
    around, names = 2 * tree.size, tree.numbers

    def free(p, q):
        return q - p == 1 or pair(names[p % around], names[q % around]) not in taken

    can = None
    if around <= 40:
        # can[a, b]: the part over a .. b can be filled at all.
        can = {(a, a + 1): True for a in range(1, around)}
        for gap in range(2, around):
            for a in range(1, around + 1 - gap):
                b = a + gap
                can[a, b] = any(can[a, o] and can[o, b] and free(a, o) and free(o, b) for o in range(a + 1, b))
        if not can[1, around]:
            return None

    def third(a, b, turn):
        """A third corner for this part, or None."""
        middle = range(a + 1, b)
        if len(middle) > 24:
            middle = sorted(set(rng.sample(middle, 12) + [a + 1, b - 1, (a + b) // 2]))
        good = [o for o in middle if free(a, o) and free(o, b) and (can is None or can[a, o] and can[o, b])]
        if not good:
            return None
        if style == "fan":
            return good[0]
        if style == "back":
            return good[-1]
        if style == "zigzag":
            return good[0] if turn % 2 else good[-1]
        if style == "middle":
            return min(good, key=lambda o: abs(2 * o - a - b))
        return rng.choice(good)

    for attempt in range(1 if can else 40):
        if attempt == 10:
            style = "any"
        codes, waiting = [], [(1, around)]
        while waiting:
            a, b = waiting.pop()
            o = third(a, b, len(codes))
            if o is None:
                break
            left, right = b - o > 1, o - a > 1
            codes.append(2 * right + left)
            waiting += [(a, o)] * right + [(o, b)] * left
        else:
            return codes
    return None


def any_codes(rng, count):
    """Codes of a random part of so many triangles, whatever its inner edges meet."""
    codes, waiting = [], [count]
    while waiting:
        n = waiting.pop()
        left = rng.choice([0, n - 1, rng.randrange(n)])
        right = n - 1 - left
        codes.append(2 * (right > 0) + (left > 0))
        waiting += [right] * (right > 0) + [left] * (left > 0)
    return codes


# ---------------------------------------------------------------- records, also damaged ones

class Parts:
    """The parts of a record. Each may be put wrong before the bytes are made."""

    def __init__(self, kind, marks, codes, displacements):
        self.kind = kind
        self.marks, self.codes, self.displacements = list(marks), list(codes), list(displacements)
        self.version, self.kind_byte, self.code_count = 1, kind.kind_byte, len(self.codes)
        self.spare_marks = self.spare_codes = 0
        self.tail = b""

    def copy(self):
        other = Parts(self.kind, self.marks, self.codes, self.displacements)
        other.__dict__.update((k, v) for k, v in self.__dict__.items() if not isinstance(v, list))
        return other

    def make(self, size=None):
        """The bytes, cut or filled up with zeros to this size; the length field fits."""
        body = bytes([self.version, self.kind_byte]) + struct.pack(">I", self.code_count)
        for values, width, spare in ((self.marks, 1, self.spare_marks), (self.codes, 2, self.spare_codes)):
            stretch = bytearray(decoder.pack_bits(values, width))
            if spare:
                stretch[-1] |= spare
            body += stretch
        body += b"".join(self.displacements) + self.tail
        if size is not None:
            body = (body + bytes(size))[:size - 4]
        return struct.pack(">I", len(body)) + body


# ---------------------------------------------------------------- checks on an accepted split

def second_way(kind, before, marks, codes, displacements):
    """The lists after a split, found by turning round vertices instead of by runs.

    This follows the section "Why the mesh stays closed" of docs/SPLIT.md: turn, back, cut, and
    the names that cut gives. It shares nothing with decoder.py but the reading of places.
    """
    places, parents, triangles = before
    turn, back = collections.defaultdict(dict), collections.defaultdict(dict)
    for triangle in triangles:
        for a, b, c in (triangle, triangle[1:] + triangle[:1], triangle[2:] + triangle[:2]):
            turn[a][b], back[a][c] = c, b
    pairs = sorted({pair(a, b) for a in turn for b in turn[a]})
    near = collections.defaultdict(set)
    for e, (i, j) in enumerate(pairs):
        if marks[e]:
            near[i].add(j)
            near[j].add(i)

    result_places = dict(enumerate(places))
    result_parents = list(parents)
    names, mirrored_at, added = {}, {}, []
    codes, displacements = iter(codes), iter(displacements)
    known = set()
    for lowest in sorted(near):
        if lowest in known:
            continue
        members, waiting = set(), [lowest]
        while waiting:
            v = waiting.pop()
            if v not in members:
                members.add(v)
                waiting += near[v]
        known |= members
        r = min(v for v in members if len(near[v]) == 1)
        (a,) = near[r]
        at_edge = [t for t in triangles if r in t and a in t]
        assert len(at_edge) == 2
        t = at_edge[0]
        mirrored = t[(t.index(a) + 1) % 3] == r
        rotate = turn if mirrored else back
        loop, (u, v) = [], (r, a)
        while not loop or (u, v) != (r, a):
            loop.append((u, v))
            x = rotate[v][u]
            while x not in near[v]:
                x = rotate[v][x]
            u, v = v, x
        positions, used = [], set()
        for u, v in loop:
            if u in used:
                name = len(result_parents)
                result_parents.append(u)
            else:
                name = u
            used.add(u)
            names[u, v] = name
            mirrored_at[u] = mirrored
            positions.append(name)
            result_places[name] = kind.displaced(places[u], kind.read_displacement(next(displacements)))
        row = [next(codes) for _ in range(len(loop) - 2)]
        added += [tuple(positions[p] for p in t) for t in second_polygon(row, mirrored)]

    def cut(v, x, rotate):
        while x not in near[v]:
            x = rotate[v][x]
        return names[v, x]

    def name(v, x, y):
        """What the corner at v of (v, x, y) is called afterwards."""
        if v not in near:
            return v
        return cut(v, y, turn) if mirrored_at[v] else cut(v, x, back)

    result = [(name(a, b, c), name(b, c, a), name(c, a, b)) for a, b, c in triangles]
    return [result_places[v] for v in range(len(result_places))], result_parents, result + added


def second_polygon(codes, mirrored):
    """The polygon by the rule as it stands in the text, parts within parts."""
    around = len(codes) + 2
    result, at = [], 0

    def part(left, right):
        nonlocal at
        code = codes[at]
        at += 1
        if code == 3:
            count, n = 1, 0
            while count:
                count += (codes[at + n] == 3) - (codes[at + n] == 0)
                n += 1
            third = (left - 1 - n) % around
        elif code == 2:
            third = (left - 1) % around
        else:
            third = (right + 1) % around
            assert code == 1 or third == (left - 1) % around
        result.append((left, right, third) if mirrored else (left, third, right))
        if code & 1:
            part(left, third)
        if code & 2:
            part(third, right)

    part(0, 1)
    return result


def check_accepted(play, before, data, outcome):
    """All that is promised of an accepted split, and some remarks of docs/."""
    store, kind = play.store, play.store.kind
    v, e, t, marked, trees, forest = outcome
    places, parents, triangles = before
    old_v, old_t = len(places), len(triangles)
    edges = decoder.edge_list(triangles)

    # Counts, closedness, Euler figure, following back.
    assert (v, t) == (len(store.places), len(store.triangles)) == (old_v + marked - trees,
                                                                  old_t + 2 * marked - 2 * trees)
    assert e == len(edges) + 3 * (marked - trees) == len(decoder.edge_list(store.triangles))
    assert decoder.survey(v, store.triangles) == (v, e, t)
    assert v - e + t == play.euler
    assert len(store.parents) == v and store.parents[:old_v] == parents
    assert all(store.parents[x] < old_v for x in range(old_v, v))
    for base, now in zip(play.base, store.triangles):
        assert base == tuple(decoder.follow_back(store.parents, x) for x in now)
    for before_it, now in zip(triangles, store.triangles):
        assert all(y == x or y >= old_v and store.parents[y] == x for x, y in zip(before_it, now))
    assert v <= store.vertex_capacity and t <= store.triangle_capacity
    grown = play.job.forest_edges - play.job.trees
    assert t == len(play.base) + 2 * grown and 2 * play.job.trees <= play.job.forest_edges

    # The second way.
    stretches = decoder.layout_call(kind, data, len(edges))
    marks = [decoder.get_mark(data, x) for x in range(len(edges))]
    codes = [decoder.get_code(data, stretches[1][1], c) for c in range(2 * (marked - trees))]
    width = kind.displacement_width
    steps = [stretches[2][2][at:at + width] for at in range(0, len(stretches[2][2]), width)]
    assert second_way(kind, before, marks, codes, steps) == store.lists()

    # The record writer gives these bytes; the sheet opens again.
    buffer = bytearray(len(data))
    assert decoder.write_record(kind, marks, codes, stretches[2][2], buffer) == len(data) and buffer == data
    sheet = decoder.sheet_bytes(kind, store.places, store.triangles)
    assert decoder.open_sheet(sheet, kind) == (kind, store.places, store.triangles)

    # The trees in the order of their lowest marked edges are in the same order.
    assert forest == sorted(forest, key=lambda tree: tree.pairs[0])
    assert all(len(tree.numbers) == len(set(tree.numbers)) == 2 * tree.size for tree in forest)

    # Tree by tree, with marks by the pairs of the old mesh, gives the same.
    if 1 < trees and trees * old_t < 20000:
        other = Store(kind, store.vertex_capacity, store.triangle_capacity)
        other.places, other.parents, other.triangles = (list(x) for x in before)
        job = Job(old_v, old_t)
        codes_left, steps_left = iter(codes), iter(steps)
        for tree in forest:
            here = decoder.edge_list(other.triangles)
            part = Parts(kind, [int(x in tree.pairs) for x in here],
                         itertools.islice(codes_left, 2 * tree.size - 2),
                         itertools.islice(steps_left, 2 * tree.size))
            decoder.split_call(job, other, part.make())
        assert other.lists() == store.lists()


# ---------------------------------------------------------------- cases

class Play:
    """A case in the making: items are applied as they are added.

    items      the sheet and the records, as `levels` would be given them
    groups     of each record order, record, answer and mesh, as the table has them
    lines      what has to be printed of it, but for the last words and the line CASE
    """

    def __init__(self, name, mesh, kind=Grid, capacities=LEVELS, places=None, rng=None, sheet=None, tags=(),
                 other=None):
        self.name, self.tags = name, tags
        self.rng = rng or random.Random(name)
        self.kind, self.capacities = kind, capacities
        self.store, self.other, self.job = Store(kind, *capacities), Store(kind, *capacities), None
        if sheet is None:
            places = places or some_places(self.rng, kind, mesh[0])
            sheet = decoder.sheet_bytes(kind, places, mesh[1])
        self.items, self.groups, self.lines, self.depth = [sheet], [], [], 0
        self.bases = sheet + decoder.word_item() + decoder.mesh_items(self.other)
        try:
            self.job = decoder.base_call(self.store, sheet)
        except Refusal as refusal:
            self.lines.append(refusal.line(0))
            self.base_refusal = refusal
            COUNT["base refused by %d" % refusal.number] += 1
            return
        v, e, t = self.job.counts()
        self.lines.append("BASE %d %d %d" % (v, e, t))
        self.base, self.euler = list(self.store.triangles), v - e + t
        self.base_edges = set(self.edges())
        assert decoder.mesh_items(self.store).startswith(sheet)
        if other is not None:
            places = some_places(self.rng, kind, other[0])
            decoder.base_call(self.other, decoder.sheet_bytes(kind, places, other[1]))
        self.bases = decoder.mesh_items(self.store) + decoder.mesh_items(self.other)

    def edges(self):
        return decoder.edge_list(self.store.triangles)

    def room(self):
        """How many vertices may still come, F - K at most."""
        return min(self.capacities[0] - len(self.store.places),
                   (self.capacities[1] - len(self.store.triangles)) // 2)

    def is_for_levels(self):
        """Whether the items are an input of `levels`, which prints the lines."""
        return (self.kind is Grid and self.capacities == LEVELS
                and all(len(item) <= decoder.LEVELS_ITEM for item in self.items)
                and all(group.startswith(self.plain_order()) for group in self.groups))

    def plain_order(self):
        return decoder.word_item(0, decoder.work_needed(self.store), *NO_CHANGE)

    def add(self, data, expect=None, spot=None, second=False, work=None, change=NO_CHANGE):
        """Applies a record. `expect` is 0 for one that must be accepted, or a refusal's number.

        It goes to the second store if this is said, with a work table of the length that is needed
        or of the one that is given, after a corner was replaced.
        """
        assert decoder.number_at(data, 0) == len(data) - 4
        self.items.append(data)
        index = len(self.items) - 1
        if self.job is None:
            return
        store = self.other if second else self.store
        special = second or work is not None or change != NO_CHANGE
        if work is None:
            work = decoder.work_needed(store)
        COUNT["corners replaced"] += store.replace_corner(*change)
        group = [decoder.word_item(second, work, *change), data]
        before, job_before = store.lists(), dict(self.job.__dict__)
        table = [7] * work
        try:
            outcome = decoder.split_call(self.job, store, data, table)
        except Refusal as refusal:
            assert store.lists() == before and self.job.__dict__ == job_before
            assert expect in (None, refusal.number), (self.name, index, expect, refusal)
            assert spot in (None, refusal.spot), (self.name, index, spot, refusal)
            assert refusal.number not in (1, 3, 4) or expect == refusal.number
            assert refusal.number != 32
            if refusal.number == 33:
                assert refusal.spot >= len(before[2])
            COUNT["refused by %d" % refusal.number] += 1
            COUNT["refused as level 2 or deeper"] += self.depth > 0
            self.lines.append(refusal.line(index))
            group.append(decoder.word_item(refusal.number, refusal.layer, refusal.spot))
            if change[1] < 3:
                group.append(decoder.mesh_items(store))
        else:
            assert expect in (None, 0), (self.name, index, expect)
            self.lines.append("SPLIT %d %d %d %d %d %d" % ((index,) + outcome[:5]))
            COUNT["accepted splits"] += 1
            if second:
                assert decoder.survey(len(store.places), store.triangles) == outcome[:3]
                COUNT["accepted on the second store"] += 1
            else:
                check_accepted(self, before, data, outcome)
                self.depth += 1
                self.count(before, outcome)
            group += [decoder.word_item(*outcome[:5]), decoder.mesh_items(store)]
        assert not any(table)
        COUNT["records with an order of their own"] += special
        self.groups.append(b"".join(group))

    def count(self, before, outcome):
        v, e, t, marked, trees, forest = outcome
        COUNT["accepted, kind %s" % self.kind.__name__] += 1
        for tag in self.tags:
            COUNT["accepted on: " + tag] += 1
        turns = [tree.mirrored for tree in forest]
        COUNT["trees, mirrored"] += sum(turns)
        COUNT["trees, not mirrored"] += len(turns) - sum(turns)
        COUNT["accepted with several trees"] += trees > 1
        COUNT["accepted with 5 trees or more"] += trees > 4
        COUNT["accepted with trees of both directions"] += len(set(turns)) > 1
        COUNT["accepted as level 4 or deeper"] += self.depth > 3
        COUNT["accepted as level 8 or deeper"] += self.depth > 7
        COUNT["accepted that just fill the vertices"] += v == self.capacities[0]
        COUNT["accepted that just fill the triangles"] += t == self.capacities[1]
        COUNT["accepted with a spanning tree of all"] += marked + trees == len(before[0])
        COUNT["accepted where trees by root stand in another order"] += (
            forest != sorted(forest, key=lambda tree: tree.root))
        COUNT["trees whose root is not the lowest vertex"] += sum(tree.root != tree.lowest for tree in forest)
        COUNT["trees with a vertex of 3 marked edges or more"] += sum(
            max(map(len, tree.links.values())) > 2 for tree in forest)
        made = [e for tree in forest for e in tree.pairs if e not in self.base_edges]
        COUNT["accepted that mark an edge made by an earlier record"] += bool(made)
        COUNT["marked edges made by an earlier record"] += len(made)
        COUNT["most vertices after a split"] = max(COUNT["most vertices after a split"], v)
        COUNT["most triangles at a vertex"] = max(
            COUNT["most triangles at a vertex"], collections.Counter(x for t in before[2] for x in t).most_common(1)[0][1])
        COUNT["accepted on 500 vertices or more"] += len(before[0]) >= 500
        COUNT["largest tree"] = max(COUNT["largest tree"], max(tree.size for tree in forest))
        COUNT["most copies of one vertex"] = max(
            COUNT["most copies of one vertex"], max(len(x) for tree in forest for x in tree.links.values()))
        for code in range(4):
            COUNT["codes %d in accepted splits" % code] += sum(tree.codes.count(code) for tree in forest)
        steps = 0
        for x in range(v):
            n = 0
            while self.store.parents[x] < x:
                x, n = self.store.parents[x], n + 1
            steps = max(steps, n)
        COUNT["longest way back"] = max(COUNT["longest way back"], steps)
        E = len(decoder.edge_list(before[2]))
        COUNT["accepted with E a multiple of 8"] += E % 8 == 0
        COUNT["accepted with N a multiple of 4"] += 2 * (marked - trees) % 4 == 0
        before_places = [before[0][x] for tree in forest for x in tree.loop]
        after_places = [self.store.places[x] for tree in forest for x in tree.numbers]
        COUNT["positions moved"] += sum(a != b for a, b in zip(before_places, after_places))
        COUNT["positions not moved"] += sum(a == b for a, b in zip(before_places, after_places))
        if self.kind is Grid:
            COUNT["coordinates moved to 0 or 65535"] += sum(
                x != y and y in (0, 65535) for a, b in zip(before_places, after_places) for x, y in zip(a, b))

    # ---- making records on the mesh as it is now

    def plan(self, marks):
        """The trees with their loops and numbers, and the edges that the old triangles then have."""
        count = len(self.store.places)
        trees = decoder.forest(count, self.edges(), marks)
        cut, _ = decoder.cut_open(trees, count, self.store.triangles)
        return trees, set(decoder.edge_list(cut))

    def steps(self, trees, style):
        return [some_displacement(self.rng, self.kind, self.store.places[x], style)
                for tree in trees for x in tree.loop]

    def parts(self, marks=None, style="random", codes="any", steps="wide", limit=None):
        """The parts of a record that will be accepted, or None if none was found."""
        limit = self.room() if limit is None else min(limit, self.room())
        count, edges = len(self.store.places), self.edges()
        for _ in range(20):
            if marks is None:
                if limit < 1:
                    return None
                mine = pick_marks(self.rng, count, edges, limit, style, self.job.base_vertices)
            else:
                mine = marks
            if not any(mine):
                continue
            trees, taken = self.plan(mine)
            rows = [pick_codes(self.rng, tree, taken, codes) for tree in trees]
            if None not in rows:
                return Parts(self.kind, mine, sum(rows, []), self.steps(trees, steps))
            if marks is not None:
                return None
        return None

    def good(self, **how):
        """Adds a record that has to be accepted; says whether one was found."""
        parts = self.parts(**how)
        if parts is not None:
            self.add(parts.make(), 0)
        return parts is not None

    def finish(self):
        if self.job is None:
            self.lines.append("TOTAL 0 0 0")
        else:
            self.lines.append("TOTAL %d %d %d" % (self.job.records, self.job.forest_edges, self.job.trees))
            COUNT["cases of 4 levels or more"] += self.depth > 3
            COUNT["cases of 8 levels or more"] += self.depth > 7
            COUNT["most levels in a case"] = max(COUNT["most levels in a case"], self.depth)
        if self.is_for_levels():
            # The program levels, on this case's items, prints the same lines.
            assert decoder.levels(b"".join(self.items)).splitlines() == self.lines
        return self

    def table_bytes(self):
        """The case as it stands in the table."""
        head = decoder.word_item(self.kind.kind_byte, len(self.groups), *self.capacities)
        return head + self.bases + b"".join(self.groups)

    def printed(self, case):
        """What has to be printed of it, once for each store."""
        lines = [line if line.startswith(("TOTAL", "REFUSED 0")) else line + " SAME" for line in self.lines]
        return [line for name in ("LIST", "CHAIN") for line in ["CASE %d %s" % (case, name)] + lines]


FOREST_STYLES = ["random", "pairs", "path", "star", "spanning", "pair"]
CODE_STYLES = ["any", "fan", "back", "zigzag", "middle"]
STEP_STYLES = ["wide", "small", "edge", "zero"]


def block(name, **how):
    return Play(name, BLOCK, places=BLOCK_PLACES, tags=("block",), **how)


# ---- the examples of docs/

def by_bits(bits, count):
    return [bits >> 7 - e & 1 for e in range(count)]


def documented_cases():
    zero = bytes(6)
    one_nil = Parts(Grid, by_bits(0x90, 6), [1, 0], [zero] * 4)
    two_nil = Parts(Grid, by_bits(0x90, 6), [2, 0], [zero] * 4)

    play = block("documents: 0x90, codes 1 0 and 2 0")
    play.add(one_nil.make(), 33, 4)
    play.add(two_nil.make(), 0)
    assert play.store.triangles == [(0, 1, 2), (0, 2, 3), (0, 3, 4), (4, 3, 2), (0, 4, 1), (4, 2, 1)]
    assert play.store.parents == [0, 1, 2, 3, 1] and play.store.places[4] == (8, 0, 0)
    assert play.edges() == [(0, 1), (0, 2), (0, 3), (0, 4), (1, 2), (1, 4), (2, 3), (2, 4), (3, 4)]
    assert play.lines[:3] == ["BASE 4 6 4", "REFUSED 1 33 4 4", "SPLIT 2 5 9 6 2 1"]
    yield play

    play = block("documents: 0xC0, mirrored")
    play.add(Parts(Grid, by_bits(0xC0, 6), [2, 0], [zero] * 4).make(), 0)
    assert play.store.triangles == [(0, 1, 2), (4, 2, 3), (4, 3, 1), (1, 3, 2), (1, 0, 4), (4, 0, 2)]
    assert play.store.parents == [0, 1, 2, 3, 0]
    yield play

    play = block("documents: refused ones")
    play.add(struct.pack(">I", 0), 20, 0)
    play.add(Parts(Grid, by_bits(0xD0, 6), [2, 0], [zero] * 4).make(), 26, 3)
    minus = Parts(Grid, by_bits(0x90, 6), [2, 0], [zero] * 3 + [bytes.fromhex("00000000ffff")])
    play.add(minus.make(), 34, 4)
    play.add(two_nil.make(), 0)
    yield play

    yield block("documents: the sheet alone")


def block_cases():
    """Every row of marks on the block that is refused whatever follows; then single trees."""
    play = block("block: all marks without a good forest")
    for bits in range(64):
        marks = by_bits(bits << 2, 6)
        if refused(decoder.forest, 4, play.edges(), marks):
            play.add(Parts(Grid, marks, [2, 0], [bytes(6)] * 4).make())
    yield play

    play = block("block: all rows of two codes that are refused")
    for codes in itertools.product(range(4), repeat=2):
        if codes != (2, 0):
            play.add(Parts(Grid, by_bits(0x90, 6), codes, [bytes(6)] * 4).make(), 33 if codes == (1, 0) else 31)
    play.good(steps="edge")
    yield play

    # Spanning trees of the block, each with codes that fill its hexagon: all that are possible.
    rng = random.Random("block")
    play = block("block: trees of three edges, refused fillings")
    fine = []
    for chosen in itertools.combinations(range(6), 3):
        marks = [int(e in chosen) for e in range(6)]
        if refused(decoder.forest, 4, play.edges(), marks):
            continue
        for codes in itertools.product(range(4), repeat=4):
            if not decoder.codes_fit(codes):
                continue
            data = Parts(Grid, marks, codes, [bytes(6)] * 6).make()
            store, job = Store(Grid), Job(4, 4)
            store.places, store.parents, store.triangles = play.store.lists()
            if refused(decoder.split_call, job, store, data):
                if rng.random() < 0.15:
                    play.add(data, 33)
            else:
                fine.append(data)
    COUNT["fillings of the block's trees of three edges that pass"] = len(fine)
    yield play
    for index, data in enumerate(rng.sample(fine, 6)):
        play = block("block: tree of three edges, filling %d" % index)
        play.add(data, 0)
        play.good(style="spanning", steps="wide")
        play.good(style="pairs", steps="wide")
        yield play


# ---- chains of records on all sorts of meshes

def chain_meshes():
    return [
        ("block", BLOCK), ("two triangles", PILLOW), ("octahedron", OCTAHEDRON), ("icosahedron", ICOSAHEDRON),
        ("torus", torus(3, 3)), ("torus", torus(3, 4)), ("torus", torus(4, 5)), ("torus", torus(5, 7)),
        ("hub", bipyramid(5)), ("hub", bipyramid(9)), ("hub", bipyramid(24)),
        ("two handles", double_torus(3, 3)), ("two handles", double_torus(4, 4)),
        ("several bodies", bodies(BLOCK, BLOCK)),
        ("several bodies", bodies(PILLOW, OCTAHEDRON, turned(PILLOW), BLOCK)),
        ("several bodies", bodies(torus(3, 3), ICOSAHEDRON, turned(bipyramid(6)))),
        ("several bodies", bodies(PILLOW, PILLOW, PILLOW, turned(PILLOW), PILLOW)),
        ("several bodies", bodies(double_torus(3, 3), torus(3, 5), BLOCK)),
    ]


def chain_cases(kind, rounds):
    """Records one after another, with many forests, codes and displacements."""
    for turn in range(rounds):
        for index, (tag, mesh) in enumerate(chain_meshes()):
            if turn > 1 and index % 2:
                continue
            rng = random.Random("chain %s %d %d" % (kind.__name__, turn, index))
            if turn == 1:
                mesh = turned(mesh)
            if turn > 0:
                mesh = mixed(rng, mesh)
            play = Play("chain %d.%d: %s" % (turn, index, tag), mesh, kind, rng=rng, tags=(tag,))
            for level in range(rng.choice([1, 2, 3, 4, 5])):
                play.good(style=rng.choice(FOREST_STYLES), codes=rng.choice(CODE_STYLES + ["any"] * 3),
                          steps=rng.choice(STEP_STYLES),
                          limit=max(2, min(len(play.store.places), 24 if kind is Grid else 12)))
            yield play


def deep_cases():
    """Many levels on one mesh."""
    play = block("deep: a tree of two edges, 24 times")
    for _ in range(24):
        play.good(style="pair", steps="small")
    assert play.depth == 24
    yield play

    for name, mesh in (("block", BLOCK), ("torus", torus(3, 3)), ("two triangles", PILLOW),
                       ("several bodies", bodies(PILLOW, torus(3, 3)))):
        rng = random.Random("deep " + name)
        play = Play("deep: %s to the capacity" % name, mixed(rng, mesh), rng=rng, tags=(name,))
        while play.room():
            limit = max(1, len(play.store.places) // 2)
            if not play.good(style=rng.choice(["random", "spanning", "pairs"]), codes="any",
                             steps=rng.choice(STEP_STYLES), limit=limit):
                play.good(style="pair")
        assert play.depth > 5
        before = play.items[-1]
        play.add(before)               # the last record once more: it belongs to another mesh
        yield play

    # The copies of one vertex are split again and again.
    rng = random.Random("deep parents")
    play = Play("deep: copies of copies", mixed(rng, OCTAHEDRON), rng=rng, tags=("octahedron",))
    for level in range(9):
        newest = len(play.store.places) - 1
        marks = star(rng, len(play.store.places), play.edges(), 1, newest if level else 0)
        play.good(marks=marks, steps="small")
    yield play


# ---- the hub, with hundreds of triangles

def hub_cases():
    def hub(n, name):
        return Play("hub of %d: %s" % (n, name), bipyramid(n), tags=("hub",))

    play = hub(100, "all edges of one hub")
    count = len(play.store.places)
    assert play.good(marks=star(play.rng, count, play.edges(), 10 ** 6, centre=0), steps="small")
    assert play.good(style="pairs", limit=8)
    yield play

    rng = random.Random("hub 110")
    mesh = mixed(rng, turned(bipyramid(110)))
    play = Play("hub of 110: a star, numbers mixed", mesh, rng=rng, tags=("hub",))
    uses = collections.Counter(x for t in mesh[1] for x in t)
    centre = uses.most_common(1)[0][0]
    assert play.good(marks=star(rng, mesh[0], play.edges(), 70, centre=centre), codes="zigzag")
    yield play

    play = hub(100, "a path round the cycle")
    marks = [int(j == i + 1 and i > 1) for i, j in play.edges()]
    assert play.good(marks=marks, codes="fan")
    yield play

    play = hub(90, "from hub to hub by way of the cycle")
    marks = [int(i > 1 and j == i + 1 or (i, j) in ((0, 2), (1, 91))) for i, j in play.edges()]
    assert sum(marks) == 91
    assert play.good(marks=marks, codes="any", steps="edge")
    yield play

    play = hub(110, "many small trees")
    assert play.good(style="pairs", steps="wide")
    yield play

    play = hub(254, "just the capacity of vertices")
    assert len(play.store.places) == 256
    play.add(full_parts(play, path(play.rng, play.edges(), 5, inside=range(2, 256))).make(), 5, 0)
    yield play


# ---- capacities

def full_parts(play, marks, steps="zero"):
    """The parts of a record with these marks, whether the capacities allow it or not."""
    trees, taken = play.plan(marks)
    rows = [pick_codes(play.rng, tree, taken, "any") for tree in trees]
    assert None not in rows, play.name
    return Parts(play.kind, marks, sum(rows, []), play.steps(trees, steps))


def capacity_cases():
    # Full, with vertices and triangles; one vertex too many is told before the triangles.
    rng = random.Random("full torus")
    play = Play("capacity: torus that fills its store", mixed(rng, torus(4, 5)), capacities=(20, 40), rng=rng,
                tags=("torus",))
    parts = full_parts(play, path(rng, play.edges(), 7))
    play.add(parts.make(), 5, 0)
    for number, spot, data in together_damages(play, parts, 5):
        play.add(data, number, spot)
    yield play

    # To the last vertex, and one over.
    rng = random.Random("nearly full hub")
    play = Play("capacity: filled to the last vertex", mixed(rng, bipyramid(38)), capacities=(48, 92), rng=rng,
                tags=("hub",))
    marks = grow_forest(rng, 40, play.edges(), 9, most=4)
    play.add(full_parts(play, marks).make(), 5, 0)
    marks = grow_forest(rng, 40, play.edges(), 8, most=4)
    parts = full_parts(play, marks, "wide")
    play.add(parts.make(), 0)
    assert (len(play.store.places), len(play.store.triangles)) == (48, 92)
    parts = full_parts(play, path(rng, play.edges(), 1))
    play.add(parts.make(), 5, 0)
    parts.code_count += 2
    play.add(parts.make(), 28, 6)              # 28 comes before 5
    yield play

    # In a store for twice as many triangles as vertices, triangles run out first only if the Euler
    # figure is below 0.
    rng = random.Random("two handles, full")
    mesh = joined(torus(10, 12), torus(11, 12))
    assert mesh[0] == 249
    play = Play("capacity: triangles run out first", mixed(rng, mesh), rng=rng, tags=("two handles",))
    assert (len(play.store.places), len(play.store.triangles)) == (249, 502)
    play.add(full_parts(play, path(rng, play.edges(), 7)).make(), 6, 0)
    six = full_parts(play, path(rng, play.edges(), 6))
    play.add(six.make(), 6, 0)
    five = full_parts(play, path(rng, play.edges(), 5))
    assert len(five.codes) == 10
    bad = five.copy()
    bad.spare_codes = 1
    play.add(bad.make(), 30)
    play.add(five.make(), 0)
    assert len(play.store.triangles) == 512
    one = full_parts(play, path(rng, play.edges(), 1))
    play.add(one.make(), 6, 0)
    one.spare_codes = 8
    play.add(one.make(), 6, 0)                 # 6 comes before 30
    one.tail = b"\0"
    play.add(one.make(), 29, 0)                # and behind 29
    yield play

    # The same of a small one, with all other faults.
    rng = random.Random("two handles, small")
    play = Play("capacity: no triangle more", mixed(rng, double_torus(3, 3)), capacities=(20, 34), rng=rng,
                tags=("two handles",))
    parts = full_parts(play, path(rng, play.edges(), 3))
    play.add(parts.make(), 6, 0)
    for number, spot, data in together_damages(play, parts, 6):
        play.add(data, number, spot)
    yield play

    # The block in small stores.
    two_nil = Parts(Grid, by_bits(0x90, 6), [2, 0], [bytes(6)] * 4)
    for capacities, number in (((5, 6), 0), ((4, 6), 5), ((4, 4), 5), ((5, 5), 6), ((5, 4), 6), ((6, 7), 0)):
        play = block("capacity: block in a store of %d and %d" % capacities, capacities=capacities)
        bad = two_nil.copy()
        bad.spare_codes = 2
        play.add(bad.make(), number or 30)
        bad.tail = b"\0"
        play.add(bad.make(), 29)
        bad = two_nil.copy()
        bad.codes = [0, 0]
        play.add(bad.make(), number or 31)
        play.add(two_nil.make(), number)
        again = Parts(Grid, [1, 0, 0, 1] + [0] * (len(play.edges()) - 4), [2, 0], [bytes(6)] * 4)
        play.add(again.make())
        yield play


# ---- levels with refused records between them

def next_damages(rng, play, parts):
    """Damaged forms of the record that comes next, of all sorts: (number, spot, bytes)."""
    sorts = [byte_damages, size_damages, code_damages, place_damages]
    if len(play.edges()) < 400:
        sorts += [forest_damages, forest_damages, together_damages]
    for damage in rng.sample(sorts, 3):
        counted = COUNT.copy()
        some = list(damage(play, parts))
        COUNT.clear()                          # what is counted there is of all forms, and few of them are taken
        COUNT.update(counted)
        yield from rng.sample(some, min(len(some), rng.randint(1, 3)))


def levels_case(name, tag, mesh, kind, capacities, levels, styles, limit):
    """Level after level; before each the record in damaged forms, behind it the same record once more."""
    rng = random.Random(name)
    play = Play(name, mixed(rng, mesh), kind, capacities, rng=rng, tags=(tag,))
    for level in range(levels):
        style = styles[level % len(styles)]
        parts = play.parts(style=style, codes=rng.choice(CODE_STYLES + ["any"] * 3), steps=rng.choice(STEP_STYLES),
                           limit=limit)
        if parts is None:
            continue
        for number, spot, data in next_damages(rng, play, parts):
            play.add(data, number, spot)
        play.add(parts.make(), 0)
        if rng.random() < 0.5:
            play.add(parts.make())             # of the mesh that was; the edges are others now
    return play


def levels_cases():
    small, large = (400, 800), (1400, 2800)
    again_and_again = ["random", "again", "again", "pairs", "again", "star", "again", "path", "again", "spanning"]
    yield levels_case("levels: sphere of 42", "sphere", sphere(1), Grid, LEVELS, 8, again_and_again, 16)
    yield levels_case("levels: sphere of 42, floats", "sphere", sphere(1), Float, LEVELS, 6, again_and_again, 12)
    yield levels_case("levels: sphere of 162", "sphere", sphere(2), Grid, small, 6, again_and_again, 30)
    yield levels_case("levels: sphere of 162, inside out", "sphere", turned(sphere(2)), Float, small, 4,
                      again_and_again, 30)
    yield levels_case("levels: torus of 84", "torus", torus(7, 12), Grid, LEVELS, 8, again_and_again, 20)
    yield levels_case("levels: torus of 60, floats", "torus", torus(6, 10), Float, LEVELS, 6, again_and_again, 16)
    yield levels_case("levels: two handles", "two handles", double_torus(6, 7), Grid, LEVELS, 7, again_and_again, 20)
    yield levels_case("levels: two handles, floats", "two handles", double_torus(4, 5), Float, LEVELS, 5,
                      again_and_again, 12)
    yield levels_case("levels: two triangles", "two triangles", PILLOW, Grid, LEVELS, 16,
                      ["spanning", "again", "spanning", "star", "again"], 20)
    yield levels_case("levels: two triangles, floats", "two triangles", PILLOW, Float, LEVELS, 12,
                      ["spanning", "again", "path"], 12)
    yield levels_case("levels: a body of each sort", "several bodies",
                      bodies(sphere(1), torus(5, 6), turned(PILLOW), double_torus(4, 4), turned(bipyramid(20)), BLOCK),
                      Grid, small, 6, again_and_again, 40)
    yield levels_case("levels: bodies of two triangles, floats", "several bodies",
                      bodies(*[PILLOW, turned(PILLOW)] * 10), Float, LEVELS, 6, ["spanning", "again", "pairs"], 30)
    yield levels_case("levels: hub of 60, floats", "hub", bipyramid(60), Float, LEVELS, 5, ["star", "again", "path"], 20)
    yield levels_case("levels: block", "block", BLOCK, Grid, LEVELS, 20, again_and_again, 8)
    yield levels_case("levels: large bodies, floats", "several bodies",
                      bodies(torus(12, 20), turned(sphere(2)), bipyramid(150), double_torus(6, 7)), Float,
                      (900, 1800), 3, ["pairs", "again", "again"], 50)
    yield levels_case("levels: torus of 1,000", "torus", torus(25, 40), Grid, large, 4,
                      ["pairs", "again", "random", "again"], 60)


# ---- the hub, large

def large_hub_cases():
    def hub(n, name, kind=Grid):
        return Play("hub of %d: %s" % (n, name), bipyramid(n), kind, (1000, 2000), tags=("hub", "large hub"))

    play = hub(300, "all edges of one hub")
    assert play.good(marks=star(play.rng, 302, play.edges(), 10 ** 6, centre=0), codes="zigzag", steps="small")
    assert play.good(style="again", limit=60)
    yield play

    # The hub is split into hubs of some hundred triangles, and one of these again.
    play = hub(400, "a star of three edges, and again")
    for level in range(3):
        hub_now = collections.Counter(x for t in play.store.triangles for x in t).most_common(1)[0][0]
        marks = star(play.rng, len(play.store.places), play.edges(), 2, centre=hub_now)
        parts = play.parts(marks=marks, codes="any", steps="small")
        for number, spot, data in next_damages(play.rng, play, parts):
            play.add(data, number, spot)
        play.add(parts.make(), 0)
    yield play

    play = hub(250, "floats", Float)
    assert play.good(marks=star(play.rng, 252, play.edges(), 120, centre=1), codes="middle")
    assert play.good(style="again", limit=20)
    yield play


# ---- what a caller gets wrong: the work table, and the store that is handed over

def not_closed(rng, store):
    """A replacement of a corner by a vertex that isn't in the triangle: an open side comes of it."""
    t, k = rng.randrange(len(store.triangles)), rng.randrange(3)
    return t, k, rng.choice([v for v in range(len(store.places)) if v not in store.triangles[t]])


def undone(store, change):
    t, k, _ = change
    return t, k, store.triangles[t][k]


def caller_case(name, tag, mesh, kind, other):
    """1, 3 and 4 between the levels. With `other` the second store has this mesh, else it is empty."""
    rng = random.Random(name)
    play = Play(name, mixed(rng, mesh), kind, rng=rng, tags=(tag,), other=other)
    need, none, wrong = decoder.work_needed(play.store), bytes(4), 3 if other is None else 4
    alike = other is not None and other[0] == mesh[0] and len(other[1]) == len(mesh[1])
    for level in range(3):
        good = play.parts(style=rng.choice(["random", "pairs"]), limit=6).make()
        for work in (0, need - 1):
            play.add(good, 1, 0, work=work)
            play.add(none, 1, 0, work=work)
        play.add(good, 1, 0, work=need - 1, second=True)
        play.add(none, 20, 0, work=need)
        if level > 0 or not alike:
            play.add(good, wrong, 0, second=True)
            play.add(none, wrong, 0, second=True)
        else:
            # With the job's V and T, the second store is as good as the job's own.
            play.add(none, 20, 0, second=True)
            play.add(Parts(kind, [1] * len(play.edges()), [], []).make(), 26, second=True)
        change = not_closed(rng, play.store)
        back = undone(play.store, change)
        play.add(good, 3, 0, change=change)
        play.add(none, 3, 0)
        play.add(good, 1, 0, work=need - 1)
        play.add(good, 1, 0, work=need - 1, change=back)
        if other is not None:
            change = not_closed(rng, play.other)
            back = undone(play.other, change)
            play.add(good, 3, 0, second=True, change=change)
            play.add(none, wrong if level > 0 or not alike else 20, 0, second=True, change=back)
        # Replacements that the store says no to, and one by the vertex that is there.
        a, b, _ = play.store.triangles[0]
        for change in ((len(play.store.triangles), 0, 0), (0, 0, len(play.store.places)), (0, 0, b), (0, 0, a)):
            play.add(none, 20, 0, change=change)
        play.add(good, 0, work=need + level)
    return play


def caller_cases():
    yield caller_case("caller: block and nothing", "block", BLOCK, Grid, None)
    yield caller_case("caller: torus and nothing, floats", "torus", torus(3, 4), Float, None)
    yield caller_case("caller: V alike, T not", "torus", torus(3, 3), Grid, bipyramid(7))
    yield caller_case("caller: T alike, V not", "torus", torus(3, 3), Grid, bipyramid(9))
    yield caller_case("caller: the same base", "sphere", sphere(1), Grid, sphere(1))
    yield caller_case("caller: the same base, floats", "two handles", double_torus(3, 3), Float, double_torus(3, 3))
    yield caller_case("caller: V and T alike, another mesh", "icosahedron", ICOSAHEDRON, Grid, bipyramid(10))
    yield caller_case("caller: several bodies", "several bodies", bodies(BLOCK, turned(PILLOW), BLOCK), Float, BLOCK)

    # A second store with the job's V and T is taken for the job's own, whatever its mesh; from then on the job's own
    # store isn't the job's any more.
    rng = random.Random("caller: taken for another")
    play = Play("caller: taken for another", mixed(rng, ICOSAHEDRON), rng=rng, tags=("icosahedron",), other=bipyramid(10))
    good = play.parts(style="random", limit=5).make()
    for level in range(2):
        play.store, play.other = play.other, play.store
        other = play.parts(style="random", limit=5).make()
        play.store, play.other = play.other, play.store
        play.add(other, 0, second=True)
        play.add(good, 4, 0)
    yield play

    # Corner by corner, the two triangles of the second body are moved to vertices of the first one: at last each
    # side is there both ways, but one vertex has two rings and another none.
    play = Play("caller: two rings", bodies(BLOCK, PILLOW), tags=("several bodies",))
    good = play.parts(style="pairs", limit=2).make()
    play.add(good, 3, 0, change=(4, 0, 0))
    play.add(good, 3, 0, change=(5, 0, 0))
    assert refused(decoder.survey, 7, play.store.triangles) == (19, 3, 0)
    play.add(good, 3, 0, change=(4, 1, 1))
    assert refused(decoder.survey, 7, play.store.triangles)[0] == 17
    play.add(good, 3, 0, change=(5, 2, 1))
    play.add(good, 3, 0, change=(4, 0, 4))
    play.add(good, 3, 0, change=(5, 0, 4))
    play.add(good, 3, 0, change=(4, 1, 5))
    assert refused(decoder.survey, 7, play.store.triangles) == (18, 3, 4)
    play.add(good, 0, change=(5, 2, 5))
    yield play


# ---- bases that are refused, with a record behind them

def refused_bases():
    record = Parts(Grid, by_bits(0x90, 6), [2, 0], [bytes(6)] * 4).make()
    good = decoder.sheet_bytes(Grid, BLOCK_PLACES, BLOCK[1])

    def base(name, number, spot, data, kind=Grid, capacities=LEVELS):
        play = Play("base: " + name, None, kind, capacities, sheet=data)
        assert play.job is None and play.lines == [Refusal(number, spot).line(0)], (name, play.lines)
        play.add(record)
        return play

    def with_triangles(count, triangles):
        return decoder.sheet_bytes(Grid, [(1, 2, 3)] * count, triangles)

    yield base("too short", 10, 0, struct.pack(">I", 9) + good[4:13])
    yield base("version 2", 11, 4, good[:4] + b"\2" + good[5:])
    yield base("floats for a grid", 12, 5, decoder.sheet_bytes(Float, [(0, 0, 0)] * 4, BLOCK[1]))
    yield base("two vertices", 13, 6, good[:6] + struct.pack(">I", 2) + good[10:])
    yield base("one triangle", 13, 10, good[:10] + struct.pack(">I", 1) + good[14:])
    yield base("a byte too many", 14, 0, struct.pack(">I", 83) + good[4:] + b"\0")
    yield base("257 vertices", 5, 0, with_triangles(257, PILLOW[1]))
    yield base("a triangle more than the store takes", 6, 0, good, capacities=(4, 3))
    yield base("a vertex more than the store takes", 5, 0, good, capacities=(3, 3))
    yield base("corner 4 of 4", 16, 3, with_triangles(4, BLOCK[1][:3] + [(1, 4, 2)]))
    yield base("a side twice", 17, 3, with_triangles(4, BLOCK[1][:3] + [(1, 2, 3)]))
    yield base("open", 18, 0, with_triangles(4, BLOCK[1][:3]))
    yield base("two rings", 19, 0, with_triangles(*SHARED))
    yield base("a loose vertex", 19, 4, with_triangles(5, BLOCK[1]))
    floats = [(0, 0, 0)] * 4
    for name, bits in (("infinite", 0x7F800000), ("not a number", 0xFFC00001)):
        sheet = decoder.sheet_bytes(Float, floats[:2] + [(0, bits, 0), (bits, 0, 0)], BLOCK[1])
        yield base("a place " + name, 15, 2, sheet, Float)


# ---- damaged records

def lowest_loop(edges, marks):
    """The lowest marked edge that closes a loop with lower ones, found by flooding."""
    near = collections.defaultdict(set)
    for e, (i, j) in enumerate(edges):
        if marks[e]:
            met, waiting = {i}, [i]
            while waiting:
                for w in near[waiting.pop()] - met:
                    met.add(w)
                    waiting.append(w)
            if j in met:
                return e
            near[i].add(j)
            near[j].add(i)
    return None


def with_mark(parts, e):
    other = parts.copy()
    other.marks[e] = 1
    return other


def closing_edges(edges, marks):
    return [e for e in range(len(edges)) if not marks[e]
            and lowest_loop(edges, marks[:e] + [1] + marks[e + 1:]) is not None]


def lonely_edges(edges, marks):
    on_tree = {v for e, p in enumerate(edges) if marks[e] for v in p}
    return [e for e, (i, j) in enumerate(edges) if i not in on_tree and j not in on_tree]


def byte_damages(play, parts):
    """20 to 24: (number, spot, bytes)."""
    rng, edges = play.rng, play.edges()
    stretch = decoder.up(len(edges), 8)
    for size in range(4, 10):
        yield 20, 0, parts.make(size)
    bad = parts.copy()
    bad.version = bad.kind_byte = 9
    yield 20, 0, bad.make(9)                                  # told before 21 and 22
    yield 21, 4, bad.make(10)                                 # told before 22 and 23
    bad.version = 1
    yield 22, 5, bad.make(10 + stretch - 1)                   # told before 23
    for version in (0, 2, 255):
        bad = parts.copy()
        bad.version = version
        yield 21, 4, bad.make()
    for kind_byte in (0, 3 - parts.kind.kind_byte, 3, 255):
        bad = parts.copy()
        bad.kind_byte = kind_byte
        yield 22, 5, bad.make()
    for size in sorted({10, 10 + stretch - 1}):
        yield 23, 0, parts.make(size)
    yield 29, 0, parts.make(10 + stretch)                     # long enough for 23, N is right
    spare = -len(edges) % 8
    empty = Parts(play.kind, [0] * len(edges), [], [])
    for bit in range(spare):
        bad = parts.copy()
        bad.spare_marks = 1 << bit
        yield 24, 10 + stretch - 1, bad.make()
    if spare:
        bad = empty.copy()
        bad.spare_marks = rng.randrange(1, 1 << spare)
        yield 24, 10 + stretch - 1, bad.make()                # told before 25
    yield 25, 0, empty.make()
    empty.code_count = 0xFFFFFFFF
    yield 25, 0, empty.make()
    yield 25, 0, empty.make(10 + stretch)


def forest_damages(play, parts):
    """26 to 28."""
    rng, edges = play.rng, play.edges()
    closing = closing_edges(edges, parts.marks)
    for e in rng.sample(closing, min(3, len(closing))):
        bad = with_mark(parts, e)
        yield 26, lowest_loop(edges, bad.marks), bad.make()
    if len(closing) > 1:
        bad = with_mark(with_mark(parts, closing[0]), closing[-1])
        yield 26, lowest_loop(edges, bad.marks), bad.make()
    everything = Parts(play.kind, [1] * len(edges), [], [])
    yield 26, lowest_loop(edges, everything.marks), everything.make()
    loop = long_loop(rng, play)
    if loop:
        marks = [int(e in loop) for e in range(len(edges))]
        yield 26, max(loop), Parts(play.kind, marks, [], []).make()
    lonely = lonely_edges(edges, parts.marks)
    if lonely:
        e = rng.choice(lonely)
        bad = with_mark(parts, e)
        yield 27, edges[e][0], bad.make()
        # As a record that fits in every other way.
        bad.displacements += [bytes(play.kind.displacement_width)] * 2
        yield 27, edges[e][0], bad.make()
        second = lonely_edges(edges, bad.marks)
        if second:
            f = rng.choice(second)
            yield 27, min(edges[e][0], edges[f][0]), with_mark(bad, f).make()
        if closing:
            bad = with_mark(bad, closing[-1])
            yield 26, lowest_loop(edges, bad.marks), bad.make()
    single = Parts(play.kind, [0] * len(edges), [], [bytes(play.kind.displacement_width)] * 2)
    e = rng.randrange(len(edges))
    single.marks[e] = 1
    yield 27, edges[e][0], single.make()                      # N = 0 is 2(F - K)
    right = len(parts.codes)
    marked = sum(parts.marks)
    for wrong in sorted({0, right - 2, right - 1, right + 1, right + 2, right + 4, 2 * marked, 2 * marked - 2,
                         marked, 0x80000000 + right, 0xFFFFFFFF} - {right}):
        bad = parts.copy()
        bad.code_count = wrong
        yield 28, 6, bad.make()                               # the size is that of the right N
    for wrong in (right - 2, right + 2):
        bad = parts.copy()
        bad.code_count, bad.codes = wrong, (parts.codes + [0, 0])[:wrong]
        yield 28, 6, bad.make()                               # the size fits the wrong N
    bad.code_count = right + 2
    yield 28, 6, bad.make(10 + decoder.up(len(edges), 8))     # cut off behind the marks


def long_loop(rng, play):
    """The edges of a loop that passes no vertex twice, or None if no long one is found."""
    edges = play.edges()
    for _ in range(50):
        marks = grow_forest(rng, len(play.store.places), edges, 10 ** 6)
        extra = rng.choice([e for e in range(len(edges)) if not marks[e]])
        loop = {e for e in range(len(edges)) if marks[e]} | {extra}
        while True:                                            # take away ends until the loop is left
            uses = collections.Counter(v for e in loop for v in edges[e])
            ends = {e for e in loop if min(uses[v] for v in edges[e]) < 2}
            if not ends:
                break
            loop -= ends
        if len(loop) > 3:
            return loop
    return None


def size_damages(play, parts):
    """29 and 30."""
    edges = play.edges()
    stretch, codes = decoder.up(len(edges), 8), decoder.up(len(parts.codes), 4)
    whole = len(parts.make())
    for size in sorted({10 + stretch, 10 + stretch + codes, whole - play.kind.displacement_width, whole - 1,
                        whole + 1, whole + play.kind.displacement_width} - {whole}):
        yield 29, 0, parts.make(size)
    if len(parts.codes) % 4:
        for bit in range(8 - 2 * (len(parts.codes) % 4)):
            bad = parts.copy()
            bad.spare_codes = 1 << bit
            yield 30, 10 + stretch + codes - 1, bad.make()
        bad.codes = [0] * len(parts.codes)
        yield 30, 10 + stretch + codes - 1, bad.make()        # told before 31


def code_damages(play, parts):
    """31 and 33."""
    rng = play.rng
    trees, taken = play.plan(parts.marks)
    at = [0]
    for tree in trees:
        at.append(at[-1] + 2 * tree.size - 2)

    def with_codes(codes):
        bad = parts.copy()
        bad.codes = codes
        return bad.make()

    codes = parts.codes
    for k in sorted({0, len(trees) - 1, rng.randrange(len(trees))}):
        first, behind = at[k], at[k + 1]
        for last in (1, 2, 3):
            yield 31, k, with_codes(codes[:behind - 1] + [last] + codes[behind:])
        yield 31, k, with_codes(codes[:first] + [0] + codes[first + 1:])
        bad = codes[:]
        e = rng.randrange(first, behind)
        # One code more or less at the count, somewhere in the tree.
        bad[e] = 3 if codes[e] in (1, 2) else 1
        yield 31, k, with_codes(bad)
    if len(trees) > 1:
        # Trees whose codes begin too late or too early: the whole row would still come to its end.
        k = rng.randrange(len(trees) - 1)
        both = at[k + 2] - at[k]
        for shift in (-1, 1):
            n = at[k + 1] - at[k] + shift
            if 0 < n < both:
                bad = codes[:at[k]] + any_codes(rng, n) + any_codes(rng, both - n) + codes[at[k + 2]:]
                yield 31, k, with_codes(bad)
        bad = codes[:]
        bad[at[0]], bad[at[1]] = 0, 0
        yield 31, 0, with_codes(bad)
    # Fillings that meet an old edge.
    found = 0
    T = len(play.store.triangles)
    for _ in range(60):
        rows = [any_codes(rng, 2 * tree.size - 2) for tree in trees]
        k = rng.randrange(len(trees))
        mine = codes[:at[k]] + rows[k] + codes[at[k + 1]:] if rng.random() < 0.7 else sum(rows, [])
        clash = clashes(trees, taken, mine)
        if clash and found < 4:
            found += 1
            yield 33, T + min(clash), with_codes(mine)
            if len(trees) > 1 and clash[0] < at[-2]:
                # 31 in the last tree is told before 33 in an earlier one.
                yield 31, len(trees) - 1, with_codes(mine[:-1] + [1])


def clashes(trees, taken, codes):
    """Which added triangles, counted over all trees, have an inner edge that old triangles have.

    Looks at edges, not at directed sides.
    """
    found, at = [], 0
    for tree in trees:
        around = 2 * tree.size
        for t in second_polygon(codes[at:at + around - 2], tree.mirrored):
            for p, q in itertools.combinations(t, 2):
                if (p - q) % around not in (1, around - 1) and pair(tree.numbers[p], tree.numbers[q]) in taken:
                    found.append(at)
                    break
            at += 1
    return found


def out_of_place(rng, kind, place, coordinate):
    """The bytes of a displacement that this place doesn't take, in one coordinate, by one if it can be."""
    if kind is Grid:
        x = place[coordinate]
        step = [0, 0, 0]
        over = [d for d in (-x - 1, 65536 - x) if -32768 <= d <= 32767]
        if not over:
            return None
        step[coordinate] = rng.choice(over)
        return struct.pack(">hhh", *step)
    step = [0, 0, 0]
    ways = [0x7F800000, 0xFF800000, 0x7FC00000, 0xFF800001]
    if place[coordinate] & 0x7FFFFFFF == 0x7F7FFFFF:
        ways = [place[coordinate] & 0x80000000 | 0x73000000]
    step[coordinate] = rng.choice(ways)
    return struct.pack(">III", *step)


def place_damages(play, parts):
    """34, and 33 before it."""
    rng = play.rng
    trees, taken = play.plan(parts.marks)
    olds = [v for tree in trees for v in tree.loop]
    news = [v for tree in trees for v in tree.numbers]
    tried = {0, len(olds) - 1} | {rng.randrange(len(olds)) for _ in range(3)}
    bads = {}
    for p in sorted(tried):
        step = out_of_place(rng, play.kind, play.store.places[olds[p]], rng.randrange(3))
        if step is not None:
            bads[p] = step
            bad = parts.copy()
            bad.displacements[p] = step
            yield 34, news[p], bad.make()
    if len(bads) > 1:
        # The first in loop order, which is often not the lowest vertex.
        bad = parts.copy()
        for p in bads:
            bad.displacements[p] = bads[p]
        yield 34, news[min(bads)], bad.make()
        later = [p for p in bads if p > 0]
        for p in sorted(later):
            lower = [q for q in bads if q > p and news[q] < news[p]]
            if lower:
                bad = parts.copy()
                bad.displacements[p] = bads[p]
                for q in lower:
                    bad.displacements[q] = bads[q]
                COUNT["34 where a later position has a lower number, at least"] += 1
                yield 34, news[p], bad.make()
                break
        rows = sum((any_codes(rng, 2 * tree.size - 2) for tree in trees), [])
        clash = clashes(trees, taken, rows)
        if clash:
            bad.codes = rows
            yield 33, len(play.store.triangles) + min(clash), bad.make()


def together_damages(play, parts, always=None):
    """Two faults at once: the first in the order of checks is told.

    `always` is the number of a fault that the record has in any case (5 or 6).
    """
    rng, edges = play.rng, play.edges()
    trees, taken = play.plan(parts.marks)
    closing, lonely = closing_edges(edges, parts.marks), lonely_edges(edges, parts.marks)
    step = out_of_place(rng, play.kind, play.store.places[trees[0].loop[0]], 0)
    meeting = None
    for _ in range(40):
        row = sum((any_codes(rng, 2 * tree.size - 2) for tree in trees), [])
        if clashes(trees, taken, row):
            meeting = row

    def change(parts, number):
        if number == 21:
            parts.version = 9
        elif number == 22:
            parts.kind_byte = 9
        elif number == 24:
            parts.spare_marks = 1
        elif number == 25:
            parts.marks = [0] * len(edges)
        elif number == 26:
            parts.marks[closing[0]] = 1
        elif number == 27:
            parts.marks[lonely[0]] = 1
        elif number == 28:
            parts.code_count += 4
        elif number == 29:
            parts.tail = b"\1"
        elif number == 30:
            parts.spare_codes = 1
        elif number == 31:
            parts.codes[-1] = 3
        elif number == 33:
            parts.codes = list(meeting)
        elif number == 34:
            parts.displacements[0] = step

    numbers = [21, 22, 25, 28, 29, 31]
    numbers += [24] if len(edges) % 8 else []
    numbers += [26] if closing else []
    numbers += [27] if lonely else []
    numbers += [30] if len(parts.codes) % 4 else []
    numbers += [33] if meeting else []
    numbers += [34] if step else []
    if always is None:
        numbers.sort(key=decoder.SPLIT_ORDER.index)
        # Marks that are all 0 leave nothing to be at fault behind them; 31 and 33 need two trees.
        pairs = [p for p in itertools.combinations(numbers, 2) if p != (31, 33) and (p[0] != 25 or p[1] in (28, 29))]
    else:
        pairs = [sorted((n, always), key=decoder.SPLIT_ORDER.index) for n in numbers]
    for first, second in pairs:
        bad = parts.copy()
        change(bad, second)
        change(bad, first)
        COUNT["two faults at once, at least"] += 1
        yield first, None, bad.make()


# Which meshes each sort of damage is tried on: their places in the list below.
GRID_DAMAGES = [(byte_damages, (0, 1, 4, 6)), (forest_damages, (0, 2, 4, 5, 7, 8)), (size_damages, (1, 3, 5, 9)),
                (code_damages, (1, 2, 3, 4, 5, 6, 7, 8, 9)), (place_damages, (0, 1, 3, 5, 7, 8, 9)),
                (together_damages, (2, 3, 8))]
FLOAT_DAMAGES = [(byte_damages, (2,)), (size_damages, (0,)), (code_damages, (4,)), (place_damages, (1, 6, 8)),
                 (together_damages, (0,))]


def damage_meshes():
    return [
        ("block", BLOCK), ("two triangles", PILLOW), ("octahedron", OCTAHEDRON), ("icosahedron", ICOSAHEDRON),
        ("torus", torus(3, 4)), ("torus", torus(4, 4)), ("hub", bipyramid(12)), ("two handles", double_torus(3, 3)),
        ("several bodies", bodies(BLOCK, turned(PILLOW), OCTAHEDRON)),
        ("several bodies", bodies(torus(3, 3), BLOCK, BLOCK)),
    ]


def damage_cases(kind, damages):
    """Damaged records on the mesh after a few levels; behind them the record as it should be."""
    meshes = damage_meshes()
    for damage, index in [(damage, index) for damage, indices in damages for index in indices]:
        tag, mesh = meshes[index]
        name = "%s %s %d: %s" % (damage.__name__.replace("_", " "), kind.__name__, index, tag)
        rng = random.Random(name)
        play = Play(name, mixed(rng, mesh), kind, rng=rng, tags=(tag,))
        for _ in range(rng.choice([0, 1, 1, 2])):
            play.good(style=rng.choice(["pairs", "random", "pair"]), limit=6)
        style = rng.choice(["pairs", "pairs", "random", "path", "pair"])
        parts = play.parts(style=style, limit=8)
        for number, spot, data in damage(play, parts):
            play.add(data, number, spot)
        play.add(parts.make(), 0)
        play.good(style="random", limit=6)
        yield play


# ---- float numbers at their edges

FLOAT_TABLE = [  # coordinate, displacement, sum or None where it is refused; those of docs/PLACES.md first
    (0x80000000, 0x00000000, 0x00000000), (0x80000000, 0x80000000, 0x80000000),
    (0x40490FDB, 0xC0490FDB, 0x00000000), (0x00000001, 0x00000001, 0x00000002),
    (0x3F800000, 0x33800000, 0x3F800000), (0x3F800001, 0x33800000, 0x3F800002),
    (0x7F7FFFFF, 0x72FFFFFF, 0x7F7FFFFF), (0x7F7FFFFF, 0x73000000, None),
    (0x3F800000, 0x7F800000, None), (0x3F800000, 0xFF800000, None), (0x3F800000, 0x7FC00000, None),
    (0x00000000, 0x80000000, 0x00000000), (0xC0490FDB, 0x40490FDB, 0x00000000),
    (0x80000001, 0x80000001, 0x80000002), (0x007FFFFF, 0x00000001, 0x00800000),
    (0x00800000, 0x80000001, 0x007FFFFF), (0x3F800000, 0x33800001, 0x3F800001),
    (0x3F800000, 0xB3000000, 0x3F800000), (0x3F800000, 0xB3000001, 0x3F7FFFFF),
    (0x3FFFFFFF, 0x33800000, 0x40000000), (0xFF7FFFFF, 0xF2FFFFFF, 0xFF7FFFFF),
    (0xFF7FFFFF, 0xF3000000, None), (0x7F7FFFFF, 0x7F7FFFFF, None), (0x7F7FFFFF, 0xFF7FFFFF, 0x00000000),
    (0x7F000000, 0x7F000000, None), (0x7F000000, 0x7EFFFFFE, 0x7F7FFFFF), (0x7F000000, 0x7EFFFFFF, None),
    (0x00000000, 0x7F800001, None),
    (0x4B800000, 0x3F800000, 0x4B800000), (0x4B800001, 0x3F800000, 0x4B800002),
]


def float_cases():
    """The table of sums, each at one position of a split; the refused ones by themselves."""
    fine = [(x, d) for x, d, result in FLOAT_TABLE if result is not None]
    fine += [(0, 0)] * (-len(fine) % 3)
    rows = [fine[i:i + 3] for i in range(0, len(fine), 3)]
    marks = by_bits(0x90, 6)
    for start in range(0, len(rows), 3):
        # Three rows of three coordinates at the ends and the middle of a tree of two edges.
        mine = (rows + rows)[start:start + 3]
        places = [tuple(x for x, _ in row) for row in mine] + [(0x80000000, 0x80000000, 0x3F800000)]
        play = Play("float sums %d" % start, BLOCK, Float, places=places, tags=("block",))
        steps = [struct.pack(">III", *(d for _, d in row)) for row in mine]
        steps.append(struct.pack(">III", 0, 0, 0))             # the copy of vertex 1 is displaced by +0
        parts = Parts(Float, marks, [2, 0], steps)
        for x, d, result in FLOAT_TABLE:
            for v in range(3):
                if result is None and x in places[v]:
                    bad = parts.copy()
                    step = [0x80000000] * 3
                    step[places[v].index(x)] = d
                    bad.displacements[v] = struct.pack(">III", *step)
                    play.add(bad.make(), 34, v)
        for special in (0x7F800000, 0xFF800000, 0x7FC00000, 0xFFFFFFFF, 0x7F800001):
            bad = parts.copy()
            bad.displacements[3] = struct.pack(">III", 0, 0, special)
            play.add(bad.make(), 34, 4)                        # told by the number after the split
        play.add(parts.make(), 0)
        for v, row in enumerate(mine):
            for k, (x, d) in enumerate(row):
                wanted = [result for a, b, result in FLOAT_TABLE if (a, b) == (x, d)] or [0]
                assert play.store.places[v][k] == wanted[0]
        yield play

    # Places that stand at the largest number, one last place below, and at the smallest.
    largest = [(0x7F7FFFFF, 0xFF7FFFFF, 0x7F7FFFFE), (0x7F7FFFFE, 1, 0x80000001),
               (0xFF7FFFFE, 0x80800000, 0x00800000), (0, 0x80000000, 0x7F000000)]
    play = Play("float: the largest and the smallest", BLOCK, Float, places=largest, tags=("block",))
    none = [struct.pack(">III", 0x80000000, 0x80000000, 0x80000000)] * 4
    for v, step in ((0, (0x73000000, 0, 0)), (0, (0, 0xF3000000, 0)), (0, (0, 0, 0x73C00000)),
                    (1, (0x73C00000, 0, 0)), (2, (0xF3C00000, 0, 0))):
        bad = Parts(Float, marks, [2, 0], none)
        bad.displacements[v] = struct.pack(">III", *step)
        play.add(bad.make(), 34, v)
    edge = [(0x72FFFFFF, 0xF2FFFFFF, 0x73BFFFFF), (0x73BFFFFF, 0x80000001, 0x80000001),
            (0xF3BFFFFF, 0x00000001, 0x80000001), (0xF4000000, 0x80000002, 1)]
    play.add(Parts(Float, marks, [2, 0], [struct.pack(">III", *step) for step in edge]).make(), 0)
    assert play.store.places[0][:2] == (0x7F7FFFFF, 0xFF7FFFFF) and play.store.places[1][0] == 0x7F7FFFFF
    yield play


# ---------------------------------------------------------------- what the table can't hold

def levels_inputs():
    """Inputs of `levels` with faults of framing, and the documented ones: (name, input)."""
    sheet = decoder.sheet_bytes(Grid, BLOCK_PLACES, BLOCK[1])
    zero = [bytes(6)] * 4
    bad = Parts(Grid, by_bits(0x90, 6), [1, 0], zero).make()
    good = Parts(Grid, by_bits(0x90, 6), [2, 0], zero).make()
    loop = Parts(Grid, by_bits(0xD0, 6), [2, 0], zero).make()
    minus = Parts(Grid, by_bits(0x90, 6), [2, 0], zero[:3] + [bytes.fromhex("00000000ffff")]).make()
    yield "documents: example", sheet + bad + good
    yield "documents: nothing", b""
    yield "documents: the sheet", sheet
    yield "documents: version 2", sheet[:4] + b"\2" + sheet[5:]
    yield "documents: sheet and two bytes", sheet + b"\0\0"
    yield "documents: an empty record", sheet + bytes(4) + good
    yield "documents: 0xD0", sheet + loop
    yield "documents: minus one", sheet + minus
    yield "documents: blocks that share a vertex", decoder.sheet_bytes(Grid, [(0, 0, 0)] * 7, SHARED[1])
    for size in (1, 3, 4, 85):
        yield "sheet cut to %d bytes" % size, sheet[:size]
    yield "sheet of length 0", bytes(4) + good
    yield "sheet of 13 bytes, complete", struct.pack(">I", 9) + sheet[4:13] + good
    yield "sheet that promises 8,189 bytes", struct.pack(">I", 8189) + bytes(8189)
    yield "sheet that promises 8,188 bytes", struct.pack(">I", 8188) + b"\1\1" + sheet[6:14] + bytes(8188 - 10)
    yield "sheet that promises 0xFFFFFFFF bytes", struct.pack(">I", 0xFFFFFFFF) + sheet[4:]
    for size in (1, 2, 3):
        yield "record cut to %d bytes" % size, sheet + good + good[:size]
    yield "record cut to its length field", sheet + good[:4]
    yield "record cut by one byte", sheet + bad + good[:-1]
    yield "record that promises one byte more", sheet + struct.pack(">I", 33) + good[4:]
    yield "record that promises 8,189 bytes", sheet + struct.pack(">I", 8189) + good[4:] + bytes(9000)
    yield "record that promises 8,188 bytes", sheet + struct.pack(">I", 8188) + good[4:] + bytes(8188 - 32) + good
    yield "record that promises 8,188 bytes, one missing", sheet + struct.pack(">I", 8188) + good[4:] + bytes(8187 - 32)
    yield "record that promises 0xFFFFFFFF bytes", sheet + good + struct.pack(">I", 0xFFFFFFFF) + good[4:]
    yield "record that promises 0xFFFFFFFC bytes", sheet + good + struct.pack(">I", 0xFFFFFFFC) + good[4:]
    for size in range(1, 6):
        yield "record of length %d, complete" % size, sheet + struct.pack(">I", size) + good[4:4 + size] + good
    yield "record of a byte less, then the byte, then a record", (
        sheet + struct.pack(">I", 31) + good[4:] + good)


def folded(data):
    """The bytes as a list of pairs: bytes in hexadecimal, and how many times they stand there."""
    out, rest = [], data
    while len(rest) > 1000:
        at = rest.index(bytes(1000))
        end = at + 1000
        while rest[end:end + 1] == b"\0":
            end += 1
        out += [[rest[:at].hex(), 1], ["00", end - at]]
        rest = rest[end:]
    out.append([rest.hex(), 1])
    assert b"".join(bytes.fromhex(part) * times for part, times in out) == data
    return out


def answer(call, *arguments):
    """What a call answers, for the JSON file."""
    outcome = refused(call, *arguments)
    return {"refused": list(outcome)} if outcome else {"accepted": True}


def call_faults():
    """1, 2, 3, 4, and 20 by the length field: splits and base calls that a caller gets wrong."""
    sheet = decoder.sheet_bytes(Grid, BLOCK_PLACES, BLOCK[1])
    good = Parts(Grid, by_bits(0x90, 6), [2, 0], [bytes(6)] * 4).make()
    out = []

    def case(name, expect, triangles=None, counts=(4, 4), record=good, work=12288, places=BLOCK_PLACES,
             capacities=LEVELS):
        triangles = BLOCK[1] if triangles is None else triangles
        store, job = Store(Grid, *capacities), Job(*counts)
        store.places, store.triangles = list(places), list(triangles)
        store.parents = list(range(len(places)))
        table = [5] * work
        got = answer(decoder.split_call, job, store, record, table)
        assert not any(table)
        assert got.get("refused", [0])[0] == expect, (name, got)
        out.append({"name": name, "call": "split", "capacities": list(capacities), "work_table": work,
                    "store_places": [list(x) for x in places], "store_triangles": [list(t) for t in triangles],
                    "job_base": list(counts), "record": record.hex(), **got})

    case("work table one too short", 1, work=12287)
    case("work table of the right length", 0)
    case("work table empty, store empty", 1, triangles=[], places=[], work=0)
    case("work table by the capacities, not by V and T", 1, work=16 * (4 + 4))
    case("work table too short and the store not closed", 1, triangles=BLOCK[1][:3], work=12287)
    case("small capacities, table just long enough", 0, capacities=(5, 6), work=176)
    case("small capacities, table one too short", 1, capacities=(5, 6), work=175)
    case("store empty", 3, triangles=[], places=[])
    case("store open", 3, triangles=BLOCK[1][:3])
    case("store with a loose vertex", 3, places=BLOCK_PLACES + [(1, 1, 1)])
    case("store with two rings at vertex 0", 3, triangles=SHARED[1], places=[(0, 0, 0)] * 7)
    case("store open, and V and T not the job's, and no record", 3, triangles=BLOCK[1][:3], counts=(5, 6), record=b"")
    case("V not the job's", 4, counts=(5, 4))
    case("T not the job's", 4, counts=(4, 6))
    case("V not the job's, and no record", 4, counts=(5, 4), record=b"")
    case("no record at all", 20, record=b"")
    case("three bytes of record", 20, record=b"\0\0\0")
    case("length field one too low", 20, record=struct.pack(">I", 31) + good[4:])
    case("length field one too high", 20, record=struct.pack(">I", 33) + good[4:])
    case("length field without minus four", 20, record=struct.pack(">I", 36) + good[4:])
    case("length field 0xFFFFFFFF", 20, record=struct.pack(">I", 0xFFFFFFFF) + good[4:])
    case("length field as if it wrapped round", 20, record=struct.pack(">I", 0xFFFFFFFF) + good[4:7])
    case("length field wrong, and version too", 20, record=struct.pack(">I", 31) + b"\2" + good[5:])

    for name, data, full, expect in (
            ("store not empty", sheet, True, 2), ("store not empty, and no sheet", b"", True, 2),
            ("no sheet", b"", False, 10), ("length field 0xFFFFFFFF", b"\xff" * 4 + sheet[4:], False, 10),
            ("length field one too low", struct.pack(">I", 81) + sheet[4:], False, 10),
            ("as it should be", sheet, False, 0)):
        store = Store(Grid, *LEVELS)
        if full:
            decoder.base_call(store, sheet)
        got = answer(decoder.base_call, store, data)
        assert got.get("refused", [0])[0] == expect
        out.append({"name": name, "call": "base", "store_is_block": full, "sheet": data.hex(), **got})
    return out


def layout_inputs():
    """Records for the layout call: (name, kind, edge count, bytes)."""
    good = Parts(Grid, by_bits(0x90, 6), [2, 0], [bytes(6)] * 4)
    data = good.make()
    yield "documents", Grid, 6, data
    for edges in (0, 5, 7, 8, 9, 49152, 49153, 2 ** 32 - 1):
        yield "read for %d edges" % edges, Grid, edges, data
    yield "read for floats", Float, 6, data
    yield "nothing for too many edges", Grid, 49153, b""
    yield "version and too many edges", Grid, 49153, data[:4] + b"\2" + data[5:]
    for size in (4, 9, 10, 11, 12, 35, 37):
        yield "of %d bytes" % size, Grid, 6, good.make(size)
    yield "no edges, no codes, no marks", Grid, 0, Parts(Grid, [], [], []).make()
    yield "no edges, odd codes", Grid, 0, Parts(Grid, [], [1, 2, 3], []).make()
    yield "no marks set", Grid, 9, Parts(Grid, [0] * 9, [3] * 5, []).make()
    yield "a loop", Grid, 6, Parts(Grid, by_bits(0xD0, 6), [3], [bytes(6)] * 6).make()
    yield "floats", Float, 6, Parts(Float, by_bits(0x90, 6), [2, 0], [bytes(range(12))] * 4).make()
    for name, field, value in (("spare mark bit", "spare_marks", 1), ("spare mark bits", "spare_marks", 3),
                               ("spare code bit", "spare_codes", 1), ("other spare code bit", "spare_codes", 8),
                               ("N of another size", "code_count", 5), ("N of the same size", "code_count", 3),
                               ("N of the same size, spare bits", "code_count", 1),
                               ("N 0", "code_count", 0), ("N 0xFFFFFFFF", "code_count", 0xFFFFFFFF),
                               ("N 0xFFFFFFFD", "code_count", 0xFFFFFFFD)):
        bad = good.copy()
        setattr(bad, field, value)
        yield name, Grid, 6, bad.make()
    bad = Parts(Grid, by_bits(0x90, 6), [1, 1], [bytes(6)] * 4)
    bad.code_count = 1
    yield "a second code behind N", Grid, 6, bad.make()


def layout_outcomes():
    out = []
    for name, kind, edges, data in layout_inputs():
        entry = {"name": name, "kind": kind.kind_byte, "edges": edges, "record": data.hex()}
        try:
            entry["stretches"] = [[n, at, len(part)] for n, at, part in decoder.layout_call(kind, data, edges)]
        except Refusal as refusal:
            entry["refused"] = [refusal.number, refusal.layer, refusal.spot]
        out.append(entry)
    assert out[0]["stretches"] == [["marks", 10, 1], ["codes", 11, 1], ["displacements", 12, 24]]
    return out


def writer_outcomes():
    out = []

    def case(name, kind, marks, codes, displacements, room):
        buffer = bytearray(b"\xAA" * room)
        entry = {"name": name, "kind": kind.kind_byte, "marks": len(marks), "codes": len(codes), "room": room,
                 "displacements": len(displacements)}
        if len(marks) < 100 and len(codes) < 100:
            entry.update(marks=list(marks), codes=list(codes), displacements=displacements.hex())
        try:
            decoder.write_record(kind, marks, codes, displacements, buffer)
            entry["buffer"] = buffer.hex()
        except Refusal as refusal:
            assert buffer == b"\xAA" * room
            entry["refused"] = [refusal.number, refusal.layer, refusal.spot]
        out.append(entry)

    marks = by_bits(0x90, 6)
    case("documents", Grid, marks, [2, 0], bytes(24), 36)
    assert out[-1]["buffer"] == Parts(Grid, marks, [2, 0], [bytes(6)] * 4).make().hex()
    case("a longer buffer", Grid, marks, [2, 0], bytes(24), 40)
    case("a buffer one too short", Grid, marks, [2, 0], bytes(24), 35)
    case("no buffer", Grid, marks, [2, 0], bytes(24), 0)
    case("a displacement too few", Grid, marks, [2, 0], bytes(18), 0)
    case("a mark of 2, which counts", Grid, [1, 2], [], bytes(24), 100)
    case("a mark of 2 that isn't counted", Grid, [1, 2], [], bytes(12), 100)
    case("a bad mark at 9 before a bad code at 0", Grid, [0] * 9 + [255], [4], bytes(12), 0)
    case("a bad code at 3 and 5", Grid, [0] * 9, [0, 1, 2, 4, 3, 9], b"", 0)
    case("nothing", Grid, [], [], b"", 10)
    case("nothing, no buffer", Grid, [], [], b"", 9)
    case("floats", Float, [0] * 7 + [1, 1], [3, 2, 1, 0, 3], bytes(range(48)), 62)
    case("49,152 marks", Grid, [0] * 49152, [], b"", 0)
    case("49,153 marks", Grid, [0] * 49153, [], b"", 0)
    case("32,768 codes", Grid, [], [0] * 32768, b"", 0)
    case("32,769 codes", Grid, [], [0] * 32769, b"", 0)
    return out


def sum_outcomes():
    """Sums of two binary32 numbers, in hexadecimal; null where the place is refused."""
    for x, y, result in FLOAT_TABLE:
        assert decoder.binary32_sum(x, y) == result, (hex(x), hex(y))
    rng = random.Random("sums")
    out = [[x, y] for x, y, _ in FLOAT_TABLE]
    while len(out) < 70:
        x = float_coordinate(rng)
        out.append([x, float_step(rng, x, "wide") if rng.random() < 0.9 else rng.getrandbits(32)])
    # A double holds the sum of two binary32 numbers closely enough that rounding it a second
    # time gives the right binary32 number; so the machine's own sums have to agree.
    for _ in range(20000):
        x = float_coordinate(rng)
        y = float_step(rng, x, "wide") if rng.random() < 0.8 else rng.getrandbits(32)
        assert decoder.binary32_sum(x, y) == machine_sum(x, y), (hex(x), hex(y))
    return [["%08x" % x, "%08x" % y, None if s is None else "%08x" % s]
            for x, y in out for s in [decoder.binary32_sum(x, y)]]


def machine_sum(x, y):
    a, b = struct.unpack(">ff", struct.pack(">II", x, y))
    try:
        bits = bits_of(a + b)
    except OverflowError:
        return None
    return None if bits & 0x7F800000 == 0x7F800000 else bits


# ---------------------------------------------------------------- remarks of docs/

def check_documents():
    """Worked examples and remarks that no case of the table shows."""
    # The longer code of docs/SPLIT.md.
    codes = [1, 2, 1, 2, 2, 3, 3, 1, 0, 0, 1, 2, 1, 0]
    triangles = [(0, 2, 1), (0, 15, 2), (15, 3, 2), (15, 14, 3), (14, 13, 3), (13, 8, 3), (13, 10, 8),
                 (13, 11, 10), (13, 12, 11), (10, 9, 8), (8, 4, 3), (8, 7, 4), (7, 5, 4), (7, 6, 5)]
    assert decoder.codes_fit(codes)
    assert decoder.polygon(codes, False) == second_polygon(codes, False) == triangles

    # All rows of codes for polygons up to 10 corners: those that fit are as many as there are
    # ways to cut the polygon (1, 2, 5, 14, 42, 132, ..), and give as many different cuts.
    for count, ways in ((2, 2), (4, 14), (6, 132)):
        fit = [row for row in itertools.product(range(4), repeat=count) if decoder.codes_fit(row)]
        assert len(fit) == ways
        assert len({frozenset(frozenset(t) for t in decoder.polygon(row, False)) for row in fit}) == ways
        for row in fit:
            assert decoder.polygon(row, True) == second_polygon(row, True)

    # The example's loops and the table of edges.
    assert decoder.edge_list(BLOCK[1]) == [(0, 1), (0, 2), (0, 3), (1, 2), (1, 3), (2, 3)]
    for bits, loop, numbers, mirrored, runs in (
            (0x90, [0, 1, 2, 1], [0, 1, 2, 4], False, [[2, 1, 0], [0], [0, 1, 3], [3, 2]]),
            (0xC0, [1, 0, 2, 0], [1, 0, 2, 4], True, [[2, 3, 0], [0], [0, 3, 1], [1, 2]])):
        (tree,) = decoder.forest(4, decoder.edge_list(BLOCK[1]), by_bits(bits, 6))
        decoder.cut_open([tree], 4, BLOCK[1])
        assert (tree.loop, tree.numbers, tree.mirrored) == (loop, numbers, mirrored)
        assert [[t for t, _ in run] for run in tree.runs] == runs

    # Bytes: the block's sheet and the record with 0x90.
    sheet = decoder.sheet_bytes(Grid, BLOCK_PLACES, BLOCK[1])
    assert len(sheet) == 86 and sheet[:14].hex() == "00000052010100000004" + "00000004"
    record = Parts(Grid, by_bits(0x90, 6), [2, 0], [bytes(6)] * 4).make()
    assert record.hex() == "00000020" "0101" "00000002" "90" "80" + "00" * 24
    assert Parts(Grid, by_bits(0x90, 6), [1, 0], [bytes(6)] * 4).make().hex()[22:24] == "40"

    # The sheet writer: a buffer that is too short stays, a longer one keeps its end.
    store = Store(Grid)
    buffer = bytearray(b"\xAA" * 14)
    assert decoder.write_sheet(store, buffer) == 14 and buffer.hex() == "0000000a0101" + "00" * 8
    decoder.base_call(store, sheet)
    buffer = bytearray(b"\xAA" * 85)
    assert refused(decoder.write_sheet, store, buffer) == (9, 1, 86) and buffer == b"\xAA" * 85
    buffer = bytearray(b"\xAA" * 90)
    assert decoder.write_sheet(store, buffer) == 86 and buffer == sheet + b"\xAA" * 4

    # Surveys named in docs/SURFACE.md and docs/STORES.md.
    assert decoder.survey(*PILLOW) == (3, 3, 2)
    assert refused(decoder.survey, *SHARED) == (19, 3, 0)
    assert refused(decoder.survey, 0, []) == (13, 2, 6)

    # The grid's table of sums in docs/PLACES.md.
    for x, d, result in ((0, 0, 0), (8, -8, 0), (0, -1, None), (65535, 0, 65535), (65535, 1, None),
                         (32768, 32767, 65535), (32768, -32768, 0)):
        place = Grid.displaced((5, x, 5), (0, d, 0))
        assert place == (None if result is None else (5, result, 5))

    # The examples of docs/PROGRAMS.md.
    outputs = [
        "BASE 4 6 4|REFUSED 1 33 4 4|SPLIT 2 5 9 6 2 1|TOTAL 1 2 1", "REFUSED 0 10 2 0|TOTAL 0 0 0",
        "BASE 4 6 4|TOTAL 0 0 0", "REFUSED 0 11 2 4|TOTAL 0 0 0", "BASE 4 6 4|REFUSED 1 20 2 0|TOTAL 0 0 0",
        "BASE 4 6 4|REFUSED 1 20 2 0|SPLIT 2 5 9 6 2 1|TOTAL 1 2 1", "BASE 4 6 4|REFUSED 1 26 3 3|TOTAL 0 0 0",
        "BASE 4 6 4|REFUSED 1 34 5 4|TOTAL 0 0 0", "REFUSED 0 19 3 0|TOTAL 0 0 0"]
    inputs = [data for name, data in levels_inputs() if name.startswith("documents")]
    assert [decoder.levels(data).replace("\n", "|")[:-1] for data in inputs] == outputs

    # A wrong N and a wrong size: 28 from the split call, 29 from the layout call.
    bad = Parts(Grid, by_bits(0x90, 6), [2, 0], [])
    bad.code_count = 4
    store = Store(Grid)
    job = decoder.base_call(store, sheet)
    assert refused(decoder.split_call, job, store, bad.make()) == (28, 2, 6)
    assert refused(decoder.layout_call, Grid, bad.make(), 6) == (29, 2, 0)

    # A tree of two edges: 2 0 always passes 33; 1 0 is refused exactly if its ends are joined.
    for mesh in (BLOCK, OCTAHEDRON, PILLOW, torus(3, 3), torus(3, 4), bipyramid(7), double_torus(3, 3)):
        edges = decoder.edge_list(mesh[1])
        for e, f in itertools.combinations(range(len(edges)), 2):
            both = set(edges[e]) & set(edges[f])
            if len(both) == 1:
                ends = tuple(sorted(set(edges[e]) ^ set(edges[f])))
                for codes in ([2, 0], [1, 0]):
                    trees = decoder.forest(mesh[0], edges, [int(x in (e, f)) for x in range(len(edges))])
                    lists = [(0, 0, 0)] * mesh[0], list(range(mesh[0])), mesh[1]
                    outcome = refused(decoder.split_lists, Grid, lists, trees, codes, [(0, 0, 0)] * 4)
                    clash = codes[0] == 1 and ends in edges
                    assert (outcome == (33, 4, len(mesh[1]))) if clash else outcome is None

    # The largest polygon that the limits allow: 16,382 codes, each nested in the one before.
    n = 8191
    v, triangles = bipyramid(n)
    edges = decoder.edge_list(triangles)
    marks = [int(i > 1 and j == i + 1 or (i, j) in ((0, 2), (1, n + 1))) for i, j in edges]
    assert sum(marks) == v - 1 == 8192
    store = Store(Grid)
    job = decoder.base_call(store, decoder.sheet_bytes(Grid, [(1, 2, 3)] * v, triangles))
    trees = decoder.forest(v, edges, marks)
    zigzag = [2, 1] * 8190 + [2, 0]
    parts = Parts(Grid, marks, zigzag, [bytes(6)] * 16384)
    outcome = refused(decoder.split_call, job, store, parts.make())
    if outcome is None:
        assert len(store.places) == 16384 and decoder.survey(16384, store.triangles)
    COUNT["largest polygon: %s" % (outcome or "accepted",)] += 1


# ---------------------------------------------------------------- all together

def all_cases():
    yield from documented_cases()
    yield from block_cases()
    yield from chain_cases(Grid, 3)
    yield from deep_cases()
    yield from levels_cases()
    yield from hub_cases()
    yield from large_hub_cases()
    yield from caller_cases()
    yield from capacity_cases()
    yield from damage_cases(Grid, GRID_DAMAGES)
    yield from refused_bases()
    yield from float_cases()
    yield from chain_cases(Float, 1)
    yield from damage_cases(Float, FLOAT_DAMAGES)


def one_per_line(more):
    """JSON with one entry of each list on a line."""
    lists = ("%s: [\n%s\n]" % (json.dumps(name), ",\n".join(json.dumps(x, separators=(",", ":")) for x in entries))
             for name, entries in more.items())
    return "{\n" + ",\n".join(lists) + "\n}"


def main():
    folder = pathlib.Path(__file__).resolve().parent.parent
    check_documents()
    plays = [play.finish() for play in all_cases()]
    plays.sort(key=lambda play: not play.is_for_levels())
    data = b"".join(play.table_bytes() for play in plays)
    lines = [line for case, play in enumerate(plays) for line in play.printed(case)]
    lines += ["CASES %d" % len(plays), "SPLITS %d" % (2 * COUNT["accepted splits"])]
    lines += ["REFUSALS %d: %d" % (n, 2 * COUNT["refused by %d" % n]) for n in range(1, 35) if COUNT["refused by %d" % n]]
    lines.append("DIFFERING 0")
    more = {
        "names": [play.name for play in plays],
        "levels": [{"name": n, "input": folded(d), "output": decoder.levels(d)} for n, d in levels_inputs()],
        "calls": call_faults(), "layout": layout_outcomes(), "record_writer": writer_outcomes(),
        "float_sums": sum_outcomes(),
    }
    text = ("\n".join(lines) + "\n").encode()
    # The decoder, given the finished table, prints the same once more.
    second = decoder.table(data)
    for mine, other in zip(text.decode().splitlines(), second.splitlines()):
        assert mine == other, (mine, other)
    assert second.encode() == text
    assert max(map(len, decoder.Table(data).items())) <= MOST_BYTES
    for name, content in ((folder / "tests" / "conformance.bin", data), (folder / "tests" / "conformance.txt", text),
                          (folder / "tests" / "conformance.json", (one_per_line(more) + "\n").encode()),
                          (folder / "crates" / "conformance" / "stdin", data),
                          (folder / "crates" / "conformance" / "stdout", text)):
        name.write_bytes(content)
        print("%-28s %7d bytes, CRC-32 %08x" % (name.relative_to(folder), len(content), zlib.crc32(content)))
    COUNT["records"] = sum(len(play.groups) for play in plays)
    COUNT["cases"] = len(plays)
    COUNT["cases, kind Float"] = sum(play.kind is Float for play in plays)
    COUNT["refused"] = sum(COUNT["refused by %d" % number] for number in range(1, 35))
    COUNT["cases that are inputs of levels"] = sum(play.is_for_levels() for play in plays)
    for name in sorted(COUNT, key=lambda name: [int(x) if x.isdigit() else x for x in name.split()].__repr__()):
        print("%6d  %s" % (COUNT[name], name))
    missing = [n for n in [1, 3, 4, 5, 6] + list(range(20, 32)) + [33, 34] if COUNT["refused by %d" % n] < 5]
    assert not missing, missing


if __name__ == "__main__":
    sys.setrecursionlimit(10000)
    main()
