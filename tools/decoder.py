#!/usr/bin/env python3
"""A second decoder of sheets and records, written from docs/ alone.

It is meant to be compared with the library, so it was made without a look at
the library's definitions and code.  It is plain and slow, and follows the
documents step by step:

    kinds of place      docs/PLACES.md     Grid, Float
    mesh, survey        docs/SURFACE.md    Store, survey, edge_list, follow_back
    sheet and record    docs/FORMATS.md    open_sheet, write_sheet, layout_call, write_record
    refusals            docs/FAULTS.md     Refusal
    base and split      docs/JOBS.md       base_call, split_call
    the six steps       docs/SPLIT.md      forest, direction, walk, numbering, polygon, placing
    the program levels  docs/PROGRAMS.md   levels

Every call that can refuse raises Refusal and then has changed nothing but the
work table.  As a program it behaves like `levels`: it reads an input from
standard input and prints the lines.  With --table the input is a table of cases
as generate_cases.py writes it, and the lines are those of the program conformance.
"""
import collections
import struct
import sys

MAX_VERTICES = 16384
MAX_TRIANGLES = 32768
MAX_EDGES = 49152
MAX_CODES = 32768

# What the program levels works with.
LEVELS_VERTICES = 256
LEVELS_TRIANGLES = 512
LEVELS_ITEM = 8192


# ---------------------------------------------------------------- refusals

# The layers are 1 job, 2 bytes, 3 surface, 4 loop, 5 place.
LAYER = {}
for _numbers, _layer in (
        (range(1, 10), 1), (range(10, 15), 2), ([15], 5), (range(16, 20), 3), (range(20, 25), 2),
        (range(25, 28), 3), (range(28, 31), 2), (range(31, 34), 4), ([34], 5)):
    for _number in _numbers:
        LAYER[_number] = _layer

# The order of checks of the split call.
SPLIT_ORDER = [1, 3, 4, 20, 21, 22, 23, 24, 25, 26, 27, 28, 29, 5, 6, 30, 31, 32, 33, 34]


class Refusal(Exception):
    """A number, its layer, and a spot."""

    def __init__(self, number, spot=0):
        super().__init__(number, LAYER[number], spot)
        self.number, self.layer, self.spot = number, LAYER[number], spot

    def line(self, item):
        return "REFUSED %d %d %d %d" % (item, self.number, self.layer, self.spot)


# ---------------------------------------------------------------- kinds of place

class Grid:
    """Three unsigned 16-bit coordinates, displaced by three signed 16-bit numbers.

    A place is held as a tuple of three whole numbers.
    """
    kind_byte, width, displacement_width = 1, 6, 6

    @staticmethod
    def read_place(data):
        return struct.unpack(">HHH", data)

    @staticmethod
    def write_place(place):
        return struct.pack(">HHH", *place)

    @staticmethod
    def read_displacement(data):
        return struct.unpack(">hhh", data)

    @staticmethod
    def displaced(place, displacement):
        """The displaced place, or None if a sum leaves 0 .. 65,535."""
        sums = tuple(x + d for x, d in zip(place, displacement))
        return sums if all(0 <= s <= 65535 for s in sums) else None


def binary32_units(bits):
    """What these 32 bits stand for, in units of 2^-149; None for an infinity or a NaN.

    Every finite number of the format is a whole number of such units, so sums can be
    formed exactly with Python's whole numbers, and there is no rounding but our own.
    """
    field, fraction = bits >> 23 & 0xFF, bits & 0x7FFFFF
    if field == 255:
        return None
    size = fraction if field == 0 else (fraction | 0x800000) << (field - 1)
    return -size if bits >> 31 else size


def binary32_sum(x, y):
    """The bits of the IEEE 754 sum, rounded once, ties to even; None if it is not finite."""
    a, b = binary32_units(x), binary32_units(y)
    if a is None or b is None:
        return None
    total = a + b
    if total == 0:
        # Two negative zeros give a negative zero; all else that sums up to zero gives +0.
        return 0x80000000 if x >> 31 and y >> 31 else 0
    size = abs(total)
    # Keep the 24 highest bits. Below 2^24 units (subnormals among them) nothing is lost.
    shift = max(size.bit_length() - 24, 0)
    kept, rest = size >> shift, size & (1 << shift) - 1
    half = 1 << shift >> 1
    if shift and (rest > half or rest == half and kept & 1):
        kept += 1
        if kept == 1 << 24:
            kept, shift = 1 << 23, shift + 1
    # kept has its leading one at bit 23 (or is subnormal, with shift 0), so that adding it
    # to the shift makes the exponent field right in every case.
    bits = (shift << 23) + kept
    if bits >= 0x7F800000:
        return None
    return bits | (0x80000000 if total < 0 else 0)


class Float:
    """Three 32-bit IEEE 754 numbers, displaced by three more.

    A place is held as a tuple of three bit patterns, so that both zeros stay apart.
    """
    kind_byte, width, displacement_width = 2, 12, 12

    @staticmethod
    def read_place(data):
        bits = struct.unpack(">III", data)
        return None if any(binary32_units(x) is None for x in bits) else bits

    @staticmethod
    def write_place(place):
        return struct.pack(">III", *place)

    @staticmethod
    def read_displacement(data):
        return struct.unpack(">III", data)

    @staticmethod
    def displaced(place, displacement):
        sums = tuple(binary32_sum(x, d) for x, d in zip(place, displacement))
        return None if None in sums else sums


KINDS = {1: Grid, 2: Float}


# ---------------------------------------------------------------- the surface

class Store:
    """A growing store, as the lists that it stands for."""

    def __init__(self, kind, vertex_capacity=MAX_VERTICES, triangle_capacity=MAX_TRIANGLES):
        self.kind = kind
        self.vertex_capacity = min(vertex_capacity, MAX_VERTICES)
        self.triangle_capacity = min(triangle_capacity, MAX_TRIANGLES)
        self.places, self.parents, self.triangles = [], [], []

    def lists(self):
        return list(self.places), list(self.parents), list(self.triangles)

    def replace_corner(self, t, k, v):
        """Corner k of triangle t becomes v; says whether the store does that."""
        if t >= len(self.triangles) or k > 2 or v >= len(self.places):
            return False
        corners = list(self.triangles[t])
        corners[k] = v
        if len(set(corners)) < 3:
            return False
        self.triangles[t] = tuple(corners)
        return True


def sides(triangle):
    a, b, c = triangle
    return (a, b), (b, c), (c, a)


def survey(vertex_count, triangles):
    """V, E, T of a closed mesh; else refuses by 13, 16, 17, 18 or 19."""
    if not 3 <= vertex_count <= MAX_VERTICES:
        raise Refusal(13, 6)
    if not 2 <= len(triangles) <= MAX_TRIANGLES:
        raise Refusal(13, 10)
    for t, corners in enumerate(triangles):
        if max(corners) >= vertex_count or len(set(corners)) < 3:
            raise Refusal(16, t)
    found = set()
    for t, corners in enumerate(triangles):
        if any(side in found for side in sides(corners)):
            raise Refusal(17, t)
        found.update(sides(corners))
    for t, corners in enumerate(triangles):
        if any((v, u) not in found for u, v in sides(corners)):
            raise Refusal(18, t)
    # The ring step at v goes from (v, a, b) to the triangle that has v→b. Written by the
    # first of the two other corners, it is the map a -> b.
    step = [{} for _ in range(vertex_count)]
    for a, b, c in triangles:
        step[a][b], step[b][c], step[c][a] = c, a, b
    for v in range(vertex_count):
        if not step[v]:
            raise Refusal(19, v)
        start = min(step[v])
        passed, x = 1, step[v][start]
        while x != start:
            passed, x = passed + 1, step[v][x]
        if passed != len(step[v]):
            raise Refusal(19, v)
    return vertex_count, len(edge_list(triangles)), len(triangles)


def edge_list(triangles):
    """The edges (i, j), i < j, in the order of their numbers."""
    return sorted({(min(side), max(side)) for triangle in triangles for side in sides(triangle)})


def follow_back(parents, v):
    """The vertex that v leads back to."""
    while parents[v] < v:
        v = parents[v]
    return v


# ---------------------------------------------------------------- the sheet

def number_at(data, offset):
    return struct.unpack_from(">I", data, offset)[0]


def open_sheet(data, kind=None, capacities=None):
    """Kind, places and triangles of a sheet's bytes, after the checks 10 to 15.

    With capacities, 5 and 6 are checked between 14 and 15, as the base call does.
    """
    if len(data) < 14 or number_at(data, 0) != len(data) - 4:
        raise Refusal(10, 0)
    if data[4] != 1:
        raise Refusal(11, 4)
    if data[5] not in KINDS or kind is not None and data[5] != kind.kind_byte:
        raise Refusal(12, 5)
    kind = KINDS[data[5]]
    vertex_count, triangle_count = number_at(data, 6), number_at(data, 10)
    if not 3 <= vertex_count <= MAX_VERTICES:
        raise Refusal(13, 6)
    if not 2 <= triangle_count <= MAX_TRIANGLES:
        raise Refusal(13, 10)
    corners_at = 14 + kind.width * vertex_count
    if len(data) != corners_at + 12 * triangle_count:
        raise Refusal(14, 0)
    if capacities is not None:
        if vertex_count > capacities[0]:
            raise Refusal(5)
        if triangle_count > capacities[1]:
            raise Refusal(6)
    places = []
    for v in range(vertex_count):
        at = 14 + kind.width * v
        places.append(kind.read_place(data[at:at + kind.width]))
        if places[v] is None:
            raise Refusal(15, v)
    triangles = [struct.unpack_from(">III", data, corners_at + 12 * t) for t in range(triangle_count)]
    return kind, places, triangles


def sheet_bytes(kind, places, triangles):
    """The sheet of these places and triangles."""
    body = bytes([1, kind.kind_byte]) + struct.pack(">II", len(places), len(triangles))
    body += b"".join(kind.write_place(place) for place in places)
    body += b"".join(struct.pack(">III", *triangle) for triangle in triangles)
    return struct.pack(">I", len(body)) + body


def write_sheet(store, buffer):
    """The sheet writer: writes into the front of a bytearray; refuses by 9 only."""
    data = sheet_bytes(store.kind, store.places, store.triangles)
    if len(buffer) < len(data):
        raise Refusal(9, len(data))
    buffer[:len(data)] = data
    return len(data)


# ---------------------------------------------------------------- the record

def up(x, y):
    """x / y, rounded up."""
    return -(-x // y)


def get_mark(data, e):
    return data[10 + e // 8] >> 7 - e % 8 & 1


def get_code(data, codes_at, c):
    return data[codes_at + c // 4] >> 6 - 2 * (c % 4) & 3


def record_head(kind, data, edge_count):
    """The checks 20 to 24, which split call and layout call share; the marks as 0 and 1."""
    if len(data) < 10 or number_at(data, 0) != len(data) - 4:
        raise Refusal(20, 0)
    if data[4] != 1:
        raise Refusal(21, 4)
    if data[5] != kind.kind_byte:
        raise Refusal(22, 5)
    if edge_count > MAX_EDGES or len(data) < 10 + up(edge_count, 8):
        raise Refusal(23, 0)
    if edge_count % 8 and data[10 + edge_count // 8] & (1 << 8 - edge_count % 8) - 1:
        raise Refusal(24, 10 + up(edge_count, 8) - 1)
    return [get_mark(data, e) for e in range(edge_count)]


def record_size(kind, edge_count, code_count, mark_count):
    return 10 + up(edge_count, 8) + up(code_count, 4) + 2 * mark_count * kind.displacement_width


def check_record_size(kind, data, edge_count, code_count, mark_count):
    """Check 29."""
    if len(data) != record_size(kind, edge_count, code_count, mark_count):
        raise Refusal(29, 0)


def check_spare_code_bits(data, edge_count, code_count):
    """Check 30."""
    last = 10 + up(edge_count, 8) + up(code_count, 4) - 1
    if code_count % 4 and data[last] & (1 << 8 - 2 * (code_count % 4)) - 1:
        raise Refusal(30, last)


def layout_call(kind, data, edge_count):
    """The three stretches of a record as (name, offset, bytes), after 20 to 24, 29, 30."""
    marks = record_head(kind, data, edge_count)
    code_count = number_at(data, 6)
    check_record_size(kind, data, edge_count, code_count, sum(marks))
    check_spare_code_bits(data, edge_count, code_count)
    codes_at = 10 + up(edge_count, 8)
    displacements_at = codes_at + up(code_count, 4)
    return [("marks", 10, data[10:codes_at]),
            ("codes", codes_at, data[codes_at:displacements_at]),
            ("displacements", displacements_at, data[displacements_at:])]


def write_record(kind, marks, codes, displacements, buffer):
    """The record writer: one byte for each mark and code, the displacements as bytes."""
    mark_count = sum(1 for mark in marks if mark != 0)
    if (len(marks) > MAX_EDGES or len(codes) > MAX_CODES
            or len(displacements) != 2 * mark_count * kind.displacement_width):
        raise Refusal(8, 0)
    for values, largest in ((marks, 1), (codes, 3)):
        for index, value in enumerate(values):
            if value > largest:
                raise Refusal(7, index)
    size = record_size(kind, len(marks), len(codes), mark_count)
    if len(buffer) < size:
        raise Refusal(9, size)
    data = struct.pack(">IBBI", size - 4, 1, kind.kind_byte, len(codes))
    data += pack_bits(marks, 1) + pack_bits(codes, 2) + bytes(displacements)
    buffer[:size] = data
    return size


def pack_bits(values, width):
    """Numbers of `width` bits, put into bytes from the top; spare bits are 0."""
    out = bytearray(up(len(values) * width, 8))
    for index, value in enumerate(values):
        bit = index * width
        out[bit // 8] |= value << 8 - width - bit % 8
    return bytes(out)


# ---------------------------------------------------------------- the six steps of a split

class Tree:
    """One tree of marked edges, and what the steps find out about it.

    pairs       its edges (i, j), in the order of their numbers
    links       for each of its vertices the vertices at the other ends of its marked edges
    root, next  r and a of step 2
    mirrored    whether step 3 reads its triangles the other way round
    loop        for each position the vertex before the split
    runs        for each position the corners (triangle, place in it) of its run
    numbers     for each position the vertex after the split
    codes       its share of the codes
    """

    def __init__(self, pairs):
        self.pairs = pairs
        self.links = {}
        for i, j in pairs:
            self.links.setdefault(i, []).append(j)
            self.links.setdefault(j, []).append(i)
        self.lowest = min(self.links)
        self.size = len(pairs)


def forest(vertex_count, edges, marks):
    """Step 1: the trees in their order. Refuses by 25, 26 or 27."""
    marked = [e for e, mark in enumerate(marks) if mark]
    if not marked:
        raise Refusal(25, 0)
    # Which vertices are joined: each has a link to another of its group, or to itself.
    link = list(range(vertex_count))

    def group(v):
        while link[v] != v:
            link[v] = link[link[v]]
            v = link[v]
        return v

    for e in marked:
        i, j = (group(v) for v in edges[e])
        if i == j:
            raise Refusal(26, e)
        link[j] = i
    pairs = {}
    for e in marked:
        pairs.setdefault(group(edges[e][0]), []).append(edges[e])
    trees = sorted((Tree(p) for p in pairs.values()), key=lambda tree: tree.lowest)
    for tree in trees:
        if tree.size < 2:
            raise Refusal(27, tree.lowest)
    return trees


def direction(tree, owner):
    """Step 2: root, root triangle, mirrored or not. `owner` gives the triangle of a side."""
    tree.root = min(v for v, others in tree.links.items() if len(others) == 1)
    tree.next = tree.links[tree.root][0]
    ahead, behind = owner[tree.root, tree.next], owner[tree.next, tree.root]
    tree.root_triangle = min(ahead, behind)
    tree.mirrored = behind < ahead


def walk(tree, number, triangles, owner):
    """Step 3: loop and runs. Refuses by 32 (which never comes on a closed mesh)."""

    def corner(t, v):
        return triangles[t].index(v)

    def leaving(t, v):
        """The end of the side that leaves v in t, as read."""
        return triangles[t][(corner(t, v) + (2 if tree.mirrored else 1)) % 3]

    def triangle_with(w, v):
        """The triangle that has w→v, as read."""
        return owner[v, w] if tree.mirrored else owner[w, v]

    first = (tree.root, tree.next)
    v, t = tree.next, tree.root_triangle        # the side in hand ends at v and lies in t
    tree.loop, runs = [tree.root], []
    while True:
        run = [(t, corner(t, v))]
        w = leaving(t, v)
        while w not in tree.links[v]:
            t = triangle_with(w, v)
            run.append((t, corner(t, v)))
            w = leaving(t, v)
        runs.append(run)
        if (v, w) == first:
            break
        tree.loop.append(v)
        if len(tree.loop) > 2 * tree.size:
            raise AssertionError("the loop is longer than its tree allows")
        v = w
    if len(tree.loop) < 2 * tree.size:
        raise Refusal(32, number)
    # The first run found belongs to position 1, the last one to position 0.
    tree.runs = runs[-1:] + runs[:-1]


def numbering(trees, vertex_count):
    """Step 4: the vertex of each position; the old vertices that the new ones are copies of."""
    met, copied = set(), []
    for tree in trees:
        tree.numbers = []
        for v in tree.loop:
            if v in met:
                tree.numbers.append(vertex_count + len(copied))
                copied.append(v)
            else:
                tree.numbers.append(v)
                met.add(v)
    return copied


def renamed(trees, triangles):
    """Step 4: the old triangles, with the corners in runs replaced."""
    result = [list(triangle) for triangle in triangles]
    for tree in trees:
        for run, v in zip(tree.runs, tree.numbers):
            for t, k in run:
                result[t][k] = v
    return [tuple(triangle) for triangle in result]


def codes_fit(codes):
    """Whether the count of a polygon's codes reaches 0 at the last of them, and not before."""
    count = 1
    for index, code in enumerate(codes):
        count += (code == 3) - (code == 0)
        if count == 0:
            return index == len(codes) - 1
    return False


def part_lengths(codes):
    """For each code the number of codes in the part that it begins; the codes must fit.

    Found from the last code to the first: the left part begins right behind its code, and
    after a 3 the right part begins where the left one ends.
    """
    length = [0] * len(codes)
    for i in reversed(range(len(codes))):
        length[i] = 1
        if codes[i] != 0:
            length[i] += length[i + 1]
        if codes[i] == 3:
            length[i] += length[i + length[i]]
    return length


def polygon(codes, mirrored):
    """Step 5: the triangles of one polygon, as positions. The codes must fit."""
    around = len(codes) + 2
    length = part_lengths(codes)
    result = []
    waiting = [(0, 1)]                      # parts still to do, the next one last
    for index, code in enumerate(codes):
        left, right = waiting.pop()
        if code == 3:
            third = left - 1 - length[index + 1]
        else:
            third = left - 1 if code == 2 else right + 1
        third %= around
        result.append((left, right, third) if mirrored else (left, third, right))
        if code in (2, 3):
            waiting.append((third, right))
        if code in (1, 3):
            waiting.append((left, third))
    assert not waiting
    return result


def first_repeated(triangles):
    """The lowest triangle that has a directed side of a lower one, or None."""
    found = set()
    for t, triangle in enumerate(triangles):
        if any(side in found for side in sides(triangle)):
            return t
        found.update(sides(triangle))
    return None


def placing(kind, trees, places, displacements):
    """Step 6: the places after the split. Refuses by 34."""
    result = dict(enumerate(places))
    steps = iter(displacements)
    for tree in trees:
        for old, new in zip(tree.loop, tree.numbers):
            # Always the place before the record: `places`, not `result`.
            place = kind.displaced(places[old], next(steps))
            if place is None:
                raise Refusal(34, new)
            result[new] = place
    return [result[v] for v in range(len(result))]


def deal_codes(trees, codes):
    """Gives each tree its 2m - 2 codes; check 31."""
    at = 0
    for tree in trees:
        tree.codes = codes[at:at + 2 * tree.size - 2]
        at += len(tree.codes)
    for number, tree in enumerate(trees):
        if not codes_fit(tree.codes):
            raise Refusal(31, number)


def cut_open(trees, vertex_count, triangles):
    """Steps 2 to 4 for all trees: returns the renamed old triangles and the copied vertices."""
    owner = {side: t for t, triangle in enumerate(triangles) for side in sides(triangle)}
    for tree in trees:
        direction(tree, owner)
    for number, tree in enumerate(trees):
        walk(tree, number, triangles, owner)
    copied = numbering(trees, vertex_count)
    return renamed(trees, triangles), copied


def split_lists(kind, lists, trees, codes, displacements):
    """Steps 2 to 6 with the checks 31 to 34: the lists after the split."""
    places, parents, triangles = lists
    deal_codes(trees, codes)
    result, copied = cut_open(trees, len(places), triangles)
    for tree in trees:
        for positions in polygon(tree.codes, tree.mirrored):
            result.append(tuple(tree.numbers[p] for p in positions))
    repeated = first_repeated(result)
    if repeated is not None:
        raise Refusal(33, repeated)
    return placing(kind, trees, places, displacements), parents + copied, result


# ---------------------------------------------------------------- jobs

class Job:
    """A running job: base counts, accepted records and the two tallies."""

    def __init__(self, base_vertices, base_triangles):
        self.base_vertices, self.base_triangles = base_vertices, base_triangles
        self.records = self.forest_edges = self.trees = 0

    def counts(self):
        """The job's own V, E, T."""
        grown = self.forest_edges - self.trees
        triangles = self.base_triangles + 2 * grown
        return self.base_vertices + grown, 3 * triangles // 2, triangles


def work_needed(store):
    return 16 * (store.vertex_capacity + store.triangle_capacity)


def base_call(store, data):
    """Reads the sheet into an empty store and gives a running job.

    Order: 2, 10, 11, 12, 13, 14, 5, 6, 15, 16, 17, 18, 19.
    """
    if store.places or store.triangles:
        raise Refusal(2)
    _, places, triangles = open_sheet(data, store.kind, (store.vertex_capacity, store.triangle_capacity))
    survey(len(places), triangles)
    store.places, store.triangles = places, triangles
    store.parents = list(range(len(places)))
    return Job(len(places), len(triangles))


def split_call(job, store, data, work=None):
    """Applies a record. Returns V, E, T after it, F, K and the trees.

    Order: 1, 3, 4, 20 to 29, 5, 6, 30 to 34. The work table is a list; it isn't needed
    here, but its length is checked, and it holds only zeros afterwards. None stands for
    a table that is long enough.
    """
    short = work is not None and len(work) < work_needed(store)
    if work is not None:
        work[:] = [0] * len(work)
    if short:
        raise Refusal(1)
    try:
        vertex_count, edge_count, triangle_count = survey(len(store.places), store.triangles)
    except Refusal:
        raise Refusal(3) from None
    own = job.counts()
    if (vertex_count, triangle_count) != (own[0], own[2]):
        raise Refusal(4)
    kind = store.kind
    marks = record_head(kind, data, edge_count)                       # 20 to 24
    trees = forest(vertex_count, edge_list(store.triangles), marks)   # 25 to 27
    mark_count, tree_count = sum(marks), len(trees)
    code_count = number_at(data, 6)
    if code_count != 2 * (mark_count - tree_count):
        raise Refusal(28, 6)
    check_record_size(kind, data, edge_count, code_count, mark_count)   # 29
    if vertex_count + mark_count - tree_count > store.vertex_capacity:
        raise Refusal(5)
    if triangle_count + 2 * (mark_count - tree_count) > store.triangle_capacity:
        raise Refusal(6)
    check_spare_code_bits(data, edge_count, code_count)                 # 30
    codes_at = 10 + up(edge_count, 8)
    codes = [get_code(data, codes_at, c) for c in range(code_count)]
    at, width = codes_at + up(code_count, 4), kind.displacement_width
    displacements = [kind.read_displacement(data[at + width * p:at + width * (p + 1)])
                     for p in range(2 * mark_count)]
    after = split_lists(kind, store.lists(), trees, codes, displacements)   # 31 to 34
    store.places, store.parents, store.triangles = after
    job.records += 1
    job.forest_edges += mark_count
    job.trees += tree_count
    return job.counts() + (mark_count, tree_count, trees)


# ---------------------------------------------------------------- the program levels

def next_item(data, at):
    """The item that begins at this offset, or None if it is cut short or too long."""
    if len(data) - at < 4:
        return None
    size = 4 + number_at(data, at)
    if size > LEVELS_ITEM or len(data) - at < size:
        return None
    return data[at:at + size]


def levels(data):
    """What the program levels prints for this input."""
    store = Store(Grid, LEVELS_VERTICES, LEVELS_TRIANGLES)
    item = next_item(data, 0)
    try:
        if item is None:
            raise Refusal(10, 0)
        job = base_call(store, item)
    except Refusal as refusal:
        return refusal.line(0) + "\nTOTAL 0 0 0\n"
    lines = ["BASE %d %d %d" % job.counts()]
    at, index = len(item), 0
    while at < len(data):
        index += 1
        item = next_item(data, at)
        if item is None:
            lines.append(Refusal(20, 0).line(index))
            break
        at += len(item)
        try:
            outcome = split_call(job, store, item)
            lines.append("SPLIT %d %d %d %d %d %d" % ((index,) + outcome[:5]))
        except Refusal as refusal:
            lines.append(refusal.line(index))
    lines.append("TOTAL %d %d %d" % (job.records, job.forest_edges, job.trees))
    return "\n".join(lines) + "\n"


# ---------------------------------------------------------------- the program conformance

def word_item(*numbers):
    """An item of four-byte numbers, its length field included."""
    return struct.pack(">%dI" % (len(numbers) + 1), 4 * len(numbers), *numbers)


def outcome_item(call, *arguments):
    """Makes a call, and gives what it answers as an item of a table, and as the end of a line."""
    try:
        numbers = call(*arguments)
    except Refusal as refusal:
        numbers = refusal.number, refusal.layer, refusal.spot
        return word_item(*numbers), "REFUSED", numbers
    return word_item(*numbers[:5]), "SPLIT", numbers[:5]


def mesh_items(store):
    """The sheet of a store, and behind it its parents."""
    return sheet_bytes(store.kind, store.places, store.triangles) + word_item(*store.parents)


class Table:
    """A table of cases that is read item by item; its form is told in generate_cases.py."""

    def __init__(self, data, at=0):
        self.data, self.at = data, at

    def item(self):
        size = 4 + number_at(self.data, self.at)
        item = self.data[self.at:self.at + size]
        assert len(item) == size
        self.at += size
        return item

    def numbers(self):
        item = self.item()
        return struct.unpack(">%dI" % (len(item) // 4 - 1), item[4:])

    def mesh_parts(self):
        return self.item(), self.item()

    def mesh(self):
        return b"".join(self.mesh_parts())

    def items(self):
        """All items that are left."""
        while self.at < len(self.data):
            yield self.item()


def play_case(table, case, store_name, counts):
    """The lines of a case."""
    kind_byte, records, vertex_capacity, triangle_capacity = table.numbers()
    stores = [Store(KINDS[kind_byte], vertex_capacity, triangle_capacity) for _ in range(2)]
    meshes, job, lines = [table.mesh(), table.mesh()], None, ["CASE %d %s" % (case, store_name)]
    for store, mesh in reversed(list(zip(stores, meshes))):         # the job is that of the first one
        try:
            job = base_call(store, Table(mesh).item())
        except Refusal as refusal:
            job, line = None, refusal.line(0)
    if job is None:
        assert records == 0
        return lines + [line, "TOTAL 0 0 0"]
    lines.append("BASE %d %d %d %s" % (job.counts() + (verdict(stores[0], meshes[0]),)))
    for index in range(1, records + 1):
        number, work_length, *change = table.numbers()
        record, outcome = table.item(), table.item()
        work = [7] * work_length
        stores[number].replace_corner(*change)
        answer, word, numbers = outcome_item(split_call, job, stores[number], record, work)
        assert not any(work)
        if word == "SPLIT" or change[1] < 3:
            meshes[number] = table.mesh()
        said = verdict(stores[number], meshes[number]) if answer == outcome else "DIFFERS IN ITS ANSWER"
        lines.append(" ".join([word, str(index), *map(str, numbers), said]))
        counts[word if word == "SPLIT" else numbers[0]] += 1
        counts["differing"] += said != "SAME"
    lines.append("TOTAL %d %d %d" % (job.records, job.forest_edges, job.trees))
    return lines


def case_starts(data):
    """Where the cases of a table begin."""
    starts, table = [], Table(data)
    while table.at < len(data):
        starts.append(table.at)
        records = table.numbers()[1]
        table.mesh(), table.mesh()
        for _ in range(records):
            corner = table.numbers()[3]
            table.item()
            if len(table.item()) == 24 or corner < 3:
                table.mesh()
    return starts


def verdict(store, mesh):
    """Whether the store's sheet and parents are these."""
    return "SAME" if mesh_items(store) == mesh else "DIFFERS"


def table(data):
    """What the program conformance has to print for a table of cases."""
    lines, at, case, counts = [], 0, 0, collections.Counter()
    while at < len(data):
        for store_name in ("LIST", "CHAIN"):
            reader = Table(data, at)
            lines += play_case(reader, case, store_name, counts)
        at, case = reader.at, case + 1
    lines.append("CASES %d" % case)
    lines.append("SPLITS %d" % counts["SPLIT"])
    lines += ["REFUSALS %d: %d" % (number, counts[number]) for number in range(1, 35) if counts[number]]
    lines.append("DIFFERING %d" % counts["differing"])
    return "\n".join(lines) + "\n"


if __name__ == "__main__":
    given = sys.stdin.buffer.read()
    sys.stdout.write(table(given) if sys.argv[1:] == ["--table"] else levels(given))
