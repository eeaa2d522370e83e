#!/usr/bin/env python3
"""Writes cases of the independent decoder as statements about the definitions of the split.

Each case is a mesh, marks, codes and displacements of zero; what must come out (the triangles and the parents of the new
vertices, or the refusal) is what tools/decoder.py says, which was written from docs/ alone. The file that this script
writes, crates/runs/specs/Decoded.antt, is proved by computation: crates/runs/src/theorems.rt, decoded_cases.
"""
import pathlib
import random
import sys

sys.path.insert(0, str(pathlib.Path(__file__).resolve().parent))
import decoder
import generate_cases as gen

OCTAHEDRON = [(0, 1, 2), (0, 2, 3), (0, 3, 4), (0, 4, 1), (5, 2, 1), (5, 3, 2), (5, 4, 3), (5, 1, 4)]
BLOCK = [(0, 1, 2), (0, 2, 3), (0, 3, 1), (1, 3, 2)]


def outcome(triangles, data):
    """The decoder's answer to one record on a grid mesh at the origin: ('split', triangles, parents) or ('told', ..)."""
    count = max(max(t) for t in triangles) + 1
    store = decoder.Store(decoder.Grid, 64, 128)
    decoder.base_call(store, decoder.sheet_bytes(decoder.Grid, [(0, 0, 0)] * count, triangles))
    job = decoder.Job(count, len(triangles))
    try:
        decoder.split_call(job, store, data)
    except decoder.Refusal as refusal:
        return ("told", refusal.number, refusal.layer, refusal.spot)
    return ("split", list(store.triangles), list(store.parents))


def record_of(triangles, marks, codes):
    count = sum(marks)
    size = decoder.record_size(decoder.Grid, len(marks), len(codes), count)
    buffer = bytearray(size)
    decoder.write_record(decoder.Grid, marks, codes, bytes(12 * count), buffer)
    return bytes(buffer)


def codes_for(rng, edges):
    """Codes that fill a polygon of 2 * edges positions: 2 * edges - 2 of them."""
    open_parts, out, left = 1, [], 2 * edges - 2
    while left:
        choices = [c for c in range(4) if 1 <= open_parts + (c == 3) - (c == 0) <= left - 1 or (left == 1 and open_parts == 1 and c == 0)]
        code = rng.choice(choices)
        open_parts += (code == 3) - (code == 0)
        out.append(code)
        left -= 1
    return out


def random_record(rng, triangles):
    """Marks of a random forest without single edges, as a rule, and codes that fill its polygons."""
    edges = decoder.edge_list(triangles)
    count = max(max(t) for t in triangles) + 1
    marks = [0] * len(edges)
    order = list(range(len(edges)))
    rng.shuffle(order)
    for e in order[:rng.randint(2, 7)]:
        marks[e] = 1
        try:
            decoder.forest(count, edges, marks)
        except decoder.Refusal as refusal:
            if refusal.number == 26:
                marks[e] = 0
    try:
        trees = decoder.forest(count, edges, marks)
    except decoder.Refusal:
        return marks, []
    codes = [c for tree in trees for c in codes_for(rng, tree.size)]
    return marks, codes


def antt_list(items):
    return "".join("%s ∷ " % item for item in items) + "[]"


def statement(name, triangles, marks, codes, result):
    count = max(max(t) for t in triangles) + 1
    mesh = "flat %d (%s)" % (count, antt_list("tri %d %d %d" % t for t in triangles))
    data = antt_list(record_of(triangles, marks, codes))
    if result[0] == "told":
        return "  pub %s : told_of (%s) (%s) ≡ Some (tells %d %d %d)\n" % ((name, mesh, data) + result[1:])
    return "  pub %s : made_of (%s) (%s) ≡ split_of (%s) (%s)\n" % (
        name, mesh, data, antt_list("tri %d %d %d" % t for t in result[1]), antt_list(result[2]))


HEAD = """-- Splits of small meshes, as an independent decoder gives them. Written by tools/definition_cases.py.
use Rattle.std.specs.Prelude.{◌≡◌, ℕ, List, [], ◌∷◌, map, Some, Option}
use Rattle.std.specs.List.{range_with_len}
use Rattle.std.specs.Option.{option_map}
use Rattle.fault.specs.Faults.{Told, told, tells}
use Rattle.place.specs.declared.grid.Grid.{Grid}
use Rattle.place.specs.Grids.{grid, grid_kind}
use Rattle.mesh.specs.Triangles.{Tri, tri}
use Rattle.mesh.specs.Meshes.{Mesh, mesh_of, vertex_of, parents}
use Rattle.runs.specs.Jobs.{base_numbers}
use Rattle.runs.specs.Outcome.{split_fault, split_mesh_after}

-- a mesh of the grid whose vertices all lie in its origin
abbrev pub flat : ℕ → List Tri → Mesh Grid
flat V ts = mesh_of ts (map (λ v. vertex_of (grid 0 0 0) v) (range_with_len 0 V))

-- a mesh by its triangles and its parents
pub record Split : Type 0 where
  pub triangles : List Tri
  pub parents : List ℕ

abbrev pub split_of : List Tri → List ℕ → Split
split_of ts ps = record { triangles = ts; parents = ps }

-- what a split call makes of the mesh of a new job, with room for 64 vertices and 128 triangles
abbrev pub made_of : Mesh Grid → List ℕ → Split
made_of m bs = let after = split_mesh_after grid_kind 64 128 3072 m (base_numbers m) bs in split_of after.triangles (parents after)

abbrev pub told_of : Mesh Grid → List ℕ → Option Told
told_of m bs = option_map told (split_fault grid_kind 64 128 3072 m (base_numbers m) bs)

pub record DecodedCases : Type 0 where
"""


PROOF = """use Rattle.std.proofs.Common.{refl}
use Rattle.survey.specs.Checks.{first_bad, first_repeated, first_open}
use Rattle.survey.specs.Ringwalk.{first_unringed}
use Rattle.runs.proofs.theorems.decoded_cases.Goals as goal

pub returns : goal.returns
unfolding first_bad first_repeated first_open first_unringed
returns c = record {
%s}
"""


def main():
    rng = random.Random(11)
    meshes = [BLOCK, OCTAHEDRON, BLOCK + [tuple(x + 4 for x in t) for t in BLOCK], gen.torus(3, 3)[1]]
    lines, names, accepted = [], [], 0
    for number in range(60):
        triangles = [tuple(t) for t in meshes[number % len(meshes)]]
        rng.shuffle(triangles)
        triangles = [t[k:] + t[:k] for t in triangles for k in [rng.randrange(3)]]
        # two of three cases are to be accepted, which takes some tries
        for _ in range(200):
            marks, codes = random_record(rng, triangles)
            result = outcome(triangles, record_of(triangles, marks, codes))
            if number % 3 == 0 or result[0] == "split":
                break
        accepted += result[0] == "split"
        if result[0] == "split" and len(meshes) < 9:
            meshes.append(result[1])  # a level deeper
        name = "case_%d" % number
        names.append(name)
        lines.append(statement(name, triangles, marks, codes, result))
    crate = pathlib.Path(__file__).resolve().parent.parent / "crates" / "runs"
    (crate / "specs" / "Decoded.antt").write_text(HEAD + "".join(lines))
    proof = crate / "proofs" / "theorems" / "decoded_cases"
    proof.mkdir(parents=True, exist_ok=True)
    (proof / "Answers.antt").write_text(PROOF % "".join("  %s = refl;\n" % name for name in names))
    print("%d cases, %d accepted" % (len(names), accepted))


main()
