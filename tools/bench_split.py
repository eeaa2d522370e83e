#!/usr/bin/env python3
"""Measures a split call as the engine carries it out and as a plain Rust program does, and prints tables: tori of 1,000 to
8,000 vertices and, with --fans, two fans back to back. bench_split.sh builds both programs first.

A figure of a split call is that of a run with the record less that of a run without one, which makes the base call alone. The
check that the mesh is closed is part of the call; what it costs by itself is told by a record of four bytes, which is refused
behind it. Milliseconds are processor time: a run makes its calls many times over, runs with and without alternate, and the
least of each is taken. Instructions are those that callgrind counts, of one call.
"""
import os
import re
import subprocess
import sys
import tempfile

import fans_split
import torus_split

PROGRAMS = {"engine": "crates/split_bench/out/split_bench", "plain Rust": "bench/target/release/plain_split"}
TORI = [(20, 50), (40, 50), (40, 100), (80, 100)]
RIMS = [500, 1000, 2000, 4000]
RUNS = 20
RUN_MILLISECONDS = 250
REFUSED_RECORD = bytes(4)


def processor_time(program, path, times):
    """Milliseconds of a run that makes its calls so many times."""
    with open(path, "rb") as given:
        child = subprocess.Popen([program, str(times)], stdin=given, stdout=subprocess.DEVNULL)
        _, status, used = os.wait4(child.pid, 0)
        child.returncode = os.waitstatus_to_exitcode(status)
    assert child.returncode == 0
    return 1000 * (used.ru_utime + used.ru_stime)


def least_times(program, paths):
    """For each input the least time of its calls. Runs alternate, so that what else the machine does meets all alike."""
    once = processor_time(program, paths["with"], 1)
    times = max(2, round(RUN_MILLISECONDS / once))
    runs = [[processor_time(program, path, times) for path in paths.values()] for _ in range(RUNS if once < 500 else 3)]
    return {given: least / times for given, least in zip(paths, map(min, zip(*runs)))}


def instructions(program, path):
    with open(path, "rb") as given:
        said = subprocess.run(["valgrind", "--tool=callgrind", "--callgrind-out-file=/dev/null", program],
                              stdin=given, capture_output=True, check=True)
    return int(re.search(rb"Collected *: *(\d+)", said.stderr)[1])


def outcome(path):
    """What both programs say of the record: the vertices after it."""
    said = set()
    for program in PROGRAMS.values():
        with open(path, "rb") as given:
            said.add(subprocess.run([program], stdin=given, capture_output=True, check=True).stdout)
    assert len(said) == 1 and next(iter(said)).startswith(b"SPLIT "), said
    return int(said.pop().split()[1])


def measure(sheet, record):
    """The vertices after the split, and for each program milliseconds and instructions of the call, and of its closedness check."""
    with tempfile.TemporaryDirectory() as folder:
        paths = {given: os.path.join(folder, given) for given in ("without", "refused", "with")}
        for given, behind in zip(paths.values(), (b"", REFUSED_RECORD, record)):
            with open(given, "wb") as file:
                file.write(sheet + behind)
        after = outcome(paths["with"])
        figures = {}
        for name, program in PROGRAMS.items():
            times = least_times(program, paths)
            counts = {given: instructions(program, path) for given, path in paths.items()}
            for given in ("refused", "with"):
                figures[name, given] = [of[given] - of["without"] for of in (times, counts)]
    return after, figures


def growth(now, before):
    return f"{now / before:.2f}" if before else ""


def print_table(unit, form, rows):
    """Rows are vertices before and after, and the figures of both programs. Growth is from the row before."""
    print(f"| vertices | after | {unit}, engine | growth | {unit}, plain Rust | growth | ratio |")
    print("|" + "---:|" * 7)
    before = 0, 0
    for vertices, after, ours, plain in rows:
        cells = f"{vertices:,}", f"{after:,}", form(ours), growth(ours, before[0]), form(plain), growth(plain, before[1])
        print("| " + " | ".join(cells) + f" | {ours / plain:.1f} |")
        before = ours, plain
    print(flush=True)


def tables(title, cases):
    """Measures each case, which is vertices, sheet and record, and prints the tables."""
    measured = [(vertices, *measure(sheet, record)) for vertices, sheet, record in cases]
    for given, of in (("with", title), ("refused", f"{title}: of this the check that the mesh is closed")):
        print(of, end="\n\n")
        for k, (unit, form) in enumerate((("ms", "{:.2f}".format), ("instructions", "{:,}".format))):
            print_table(unit, form, [(vertices, after, *(figures[name, given][k] for name in PROGRAMS))
                                     for vertices, after, figures in measured])


if __name__ == "__main__":
    if sys.argv[1:] not in ([], ["--fans"]):
        sys.exit("usage: bench_split.py [--fans]")
    tables("Tori", ((rows * columns, *torus_split.torus_split(rows, columns)) for rows, columns in TORI))
    if sys.argv[1:]:
        for marked in ("rim", "spokes"):
            tables(f"Fans, {marked} marked", ((rim + 2, *fans_split.fans_split(rim, marked)) for rim in RIMS))
