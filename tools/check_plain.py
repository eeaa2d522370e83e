#!/usr/bin/env python3
"""Compares the plain Rust program of bench/ with the independent decoder: on the cases of tests/conformance.bin in which the
caller makes no mistake, and on the meshes that bench_split.py measures, at some smaller sizes too. Compared are outcomes, and
checksums of the sheets and parents after each split. It builds the program first.

The plain program's own table of cases is a row of items in the framing of `levels`, each as long as it likes. A case is a head,
an item of four numbers (kind byte, number of items that follow in this case, vertex capacity, triangle capacity), the sheet, and
the records. Its lines are those of `levels`, with CASE in front, and behind each SPLIT

    CRC i s p       the CRC-32 (that of zlib) of the sheet after it, and of the parents, each as four bytes, big-endian

The last line is `N cases`.
"""
import pathlib
import struct
import subprocess
import sys
import zlib

import decoder
import fans_split
import torus_split
from decoder import Refusal, Store, Table

ROOT = pathlib.Path(__file__).resolve().parent.parent
PROGRAM = ROOT / "bench/target/release/plain_split"
TORI = [(3, 3), (3, 4), (4, 5), (20, 50), (40, 50), (40, 100), (80, 100)]
RIMS = [4, 6, 1000, 2000, 4000, 8000]


def case(kind, vertices, triangles, items):
    return decoder.word_item(kind.kind_byte, len(items), vertices, triangles) + b"".join(items)


def cases_without_mistakes(data):
    """The cases of the table in which each record goes to the job's own store as it is, with a work table that is long enough."""
    for start in decoder.case_starts(data):
        table = Table(data, start)
        kind_byte, records, vertices, triangles = table.numbers()
        items, plain = [table.mesh_parts()[0]], True
        table.mesh()
        for _ in range(records):
            second, work, _, corner, _ = table.numbers()
            items.append(table.item())
            if len(table.item()) == 24 or corner < 3:
                table.mesh()
            plain = plain and not second and corner == 3 and work >= 16 * (vertices + triangles)
        if plain:
            yield case(decoder.KINDS[kind_byte], vertices, triangles, items)


def outcome(job, store, index, record):
    """The lines of a record."""
    try:
        told = decoder.split_call(job, store, record)
    except Refusal as refusal:
        return [refusal.line(index)]
    sheet = decoder.sheet_bytes(store.kind, store.places, store.triangles)
    parents = struct.pack(">%dI" % len(store.parents), *store.parents)
    return ["SPLIT %d %d %d %d %d %d" % ((index,) + told[:5]),
            "CRC %d %d %d" % (index, zlib.crc32(sheet), zlib.crc32(parents))]


def expected(cases):
    """What the plain program has to print."""
    table, lines, count = Table(cases), [], 0
    while table.at < len(cases):
        kind_byte, number, vertices, triangles = table.numbers()
        items = [table.item() for _ in range(number)]
        store = Store(decoder.KINDS[kind_byte], vertices, triangles)
        lines.append("CASE %d" % count)
        count += 1
        try:
            job = decoder.base_call(store, items[0])
        except Refusal as refusal:
            lines += [refusal.line(0), "TOTAL 0 0 0"]
            continue
        lines.append("BASE %d %d %d" % job.counts())
        for index, record in enumerate(items[1:], 1):
            lines += outcome(job, store, index, record)
        lines.append("TOTAL %d %d %d" % (job.records, job.forest_edges, job.trees))
    return "\n".join(lines + ["%d cases" % count]) + "\n"


def compare(name, cases):
    cases = list(cases)
    wanted = expected(b"".join(cases))
    said = subprocess.run([PROGRAM, "--table"], input=b"".join(cases), stdout=subprocess.PIPE, check=True).stdout.decode()
    accepted = sum(line.startswith("CRC") for line in wanted.splitlines())
    if said != wanted:
        sys.exit(f"{name}: the plain program says something else than the decoder")
    print(f"{name}: the same; {len(cases)} cases, {accepted} splits accepted")


if __name__ == "__main__":
    subprocess.run(["cargo", "build", "--release", "--quiet"], cwd=ROOT / "bench", check=True)
    compare("table of cases", cases_without_mistakes((ROOT / "tests/conformance.bin").read_bytes()))
    meshes = [torus_split.torus_split(*size) for size in TORI]
    meshes += [fans_split.fans_split(rim, marked) for rim in RIMS for marked in ("rim", "spokes")]
    compare("tori and fans", (case(decoder.Grid, decoder.MAX_VERTICES, decoder.MAX_TRIANGLES, mesh) for mesh in meshes))
