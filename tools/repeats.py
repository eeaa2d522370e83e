#!/usr/bin/env python3
"""Lists the clauses that stand in three or more contracts of a crate, and the pairs of parameters that go together
through three or more of its functions.

usage: tools/repeats.py [FOLDER]
"""
import collections
import pathlib
import re
import sys

# A function's name, parameters and clauses, each clause on a line of its own as the formatter leaves it.
FUNCTION = re.compile(
    r"\bfn (\w+)(?:<[^(]*>)?\(([^)]*)\)[^{;]*?((?:\n\s+(?:requires|ensures)[^\n]*)+)?\s*(?=\{|;|$)"
)
CLAUSE = re.compile(r"(?:requires|ensures)(?: \w+)? \{(.*)\}\s*$", re.M)
OFTEN = 3


def parameters(text):
    parts = (re.sub(r"\s+", " ", part.strip()) for part in re.split(r",(?![^<]*>)", text))
    return [part for part in parts if part and "self" not in part]


def main():
    root = pathlib.Path(sys.argv[1] if len(sys.argv) > 1 else ".")
    clauses, pairs = collections.defaultdict(set), collections.defaultdict(set)
    for path in sorted(root.glob("crates/*/src/**/*.rt")):
        if path.name.endswith("tests.rt"):
            continue
        crate = path.relative_to(root).parts[1]
        for name, taken, told in FUNCTION.findall(path.read_text()):
            function = f"{path.name}:{name}"
            taken = parameters(taken)
            for i, first in enumerate(taken):
                for second in taken[i + 1:]:
                    pairs[crate, first, second].add(function)
            for clause in CLAUSE.findall(told or ""):
                clauses[crate, re.sub(r"\b(old|new)\b", "now", clause.strip())].add(function)
    for title, found in ("clause", clauses), ("parameters", pairs):
        often = {key: functions for key, functions in found.items() if len(functions) >= OFTEN}
        print(f"{title}: {len(often)}")
        for (crate, *words), functions in sorted(often.items()):
            print(f"    {crate}: {len(functions)} times: {' | '.join(words)}")


main()
