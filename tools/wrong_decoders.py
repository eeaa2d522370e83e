#!/usr/bin/env python3
"""Tries wrong decoders on the table of cases, and prints in how many cases each of them fails.

Each is tools/decoder.py with one function changed by a mistake that a reader of docs/SPLIT.md and
docs/FAULTS.md might make. The first one has no mistake, and must fail in none; the others must fail
in some, or the table is too weak. It needs a few minutes.
"""
import collections
import pathlib
import sys

import decoder
from decoder import Refusal

FOLDER = pathlib.Path(__file__).resolve().parent.parent / "tests"
RIGHT = {name: getattr(decoder, name) for name in (
    "direction", "forest", "renamed", "numbering", "polygon", "deal_codes", "first_repeated", "placing")}


def never_mirrored(tree, owner):
    RIGHT["direction"](tree, owner)
    tree.mirrored = False


def higher_root_triangle(tree, owner):
    RIGHT["direction"](tree, owner)
    tree.mirrored = not tree.mirrored
    tree.root_triangle = max(owner[tree.root, tree.next], owner[tree.next, tree.root])


def leaves(tree):
    return [v for v, others in tree.links.items() if len(others) == 1]


def highest_leaf(tree, owner):
    tree.root = max(leaves(tree))
    tree.next = tree.links[tree.root][0]
    ahead, behind = owner[tree.root, tree.next], owner[tree.next, tree.root]
    tree.root_triangle, tree.mirrored = min(ahead, behind), behind < ahead


def trees_by_root(vertex_count, edges, marks):
    return sorted(RIGHT["forest"](vertex_count, edges, marks), key=lambda tree: min(leaves(tree)))


def runs_one_further(trees, triangles):
    for tree in trees:
        tree.runs = tree.runs[1:] + tree.runs[:1]
    return RIGHT["renamed"](trees, triangles)


def parents_rising(trees, vertex_count):
    return sorted(RIGHT["numbering"](trees, vertex_count))


def last_position_keeps(trees, vertex_count):
    copied = []
    for tree in trees:
        last = {v: position for position, v in enumerate(tree.loop)}
        tree.numbers = []
        for position, v in enumerate(tree.loop):
            if last[v] == position:
                tree.numbers.append(v)
            else:
                tree.numbers.append(vertex_count + len(copied))
                copied.append(v)
    return copied


def polygon_never_mirrored(codes, mirrored):
    return RIGHT["polygon"](codes, False)


def corners_turned(codes, mirrored):
    return [(b, c, a) for a, b, c in RIGHT["polygon"](codes, mirrored)]


def plus_for_minus(codes, mirrored):
    around, length = len(codes) + 2, decoder.part_lengths(codes)
    result, waiting = [], [(0, 1)]
    for index, code in enumerate(codes):
        left, right = waiting.pop()
        third = (left - 1 + length[index + 1] if code == 3 else left - 1 if code == 2 else right + 1) % around
        result.append((left, right, third) if mirrored else (left, third, right))
        waiting += [(third, right)] * (code in (2, 3)) + [(left, third)] * (code in (1, 3))
    return result


def last_tree_off(trees, codes):
    try:
        RIGHT["deal_codes"](trees, codes)
    except Refusal:
        raise Refusal(31, max(n for n, tree in enumerate(trees) if not decoder.codes_fit(tree.codes))) from None


def highest_repeated(triangles):
    found, highest = set(), None
    for t, triangle in enumerate(triangles):
        if any(side in found for side in decoder.sides(triangle)):
            highest = t
        found.update(decoder.sides(triangle))
    return highest


def none_repeated(triangles):
    return None


def positions(trees):
    return [pair for tree in trees for pair in zip(tree.loop, tree.numbers)]


def places_as_they_move(kind, trees, places, displacements):
    result = dict(enumerate(places))
    for (old, new), step in zip(positions(trees), displacements):
        place = kind.displaced(result[old], step)
        if place is None:
            raise Refusal(34, new)
        result[new] = place
    return [result[v] for v in range(len(result))]


def lowest_vertex_off(kind, trees, places, displacements):
    off = [new for (old, new), step in zip(positions(trees), displacements)
           if kind.displaced(places[old], step) is None]
    if off:
        raise Refusal(34, min(off))
    return RIGHT["placing"](kind, trees, places, displacements)


WRONG = [
    ("no mistake", "placing", RIGHT["placing"]),
    ("no tree is mirrored", "direction", never_mirrored),
    ("the root triangle is the higher one", "direction", higher_root_triangle),
    ("the root is the highest leaf", "direction", highest_leaf),
    ("trees go by their roots", "forest", trees_by_root),
    ("a run belongs to the position before", "renamed", runs_one_further),
    ("parents rise", "numbering", parents_rising),
    ("the last position keeps the number", "numbering", last_position_keeps),
    ("added triangles are never mirrored", "polygon", polygon_never_mirrored),
    ("added triangles begin with another corner", "polygon", corners_turned),
    ("a plus in front of n", "polygon", plus_for_minus),
    ("31 tells the last tree", "deal_codes", last_tree_off),
    ("33 tells the highest triangle", "first_repeated", highest_repeated),
    ("33 never comes", "first_repeated", none_repeated),
    ("places are displaced as they move", "placing", places_as_they_move),
    ("34 tells the lowest vertex", "placing", lowest_vertex_off),
]


def main():
    data = (FOLDER / "conformance.bin").read_bytes()
    wanted, case = collections.defaultdict(list), None
    for line in (FOLDER / "conformance.txt").read_text().splitlines():
        case = line if line.startswith("CASE ") else case
        wanted[case].append(line)
    starts = decoder.case_starts(data)
    for mistake, name, function in WRONG:
        setattr(decoder, name, function)
        failing = 0
        for case, start in enumerate(starts):
            try:
                lines = decoder.play_case(decoder.Table(data, start), case, "LIST", collections.Counter())
            except (Exception, AssertionError):
                lines = None                   # the answers differ so much that the items are not what they should be
            failing += lines != wanted["CASE %d LIST" % case]
        setattr(decoder, name, RIGHT[name])
        print("%3d of %d cases fail: %s" % (failing, len(starts), mistake), flush=True)
        if (failing == 0) != (mistake == "no mistake"):
            sys.exit(1)


if __name__ == "__main__":
    main()
