#!/usr/bin/env python3
"""Respells the repository's own definitions and lemmas as the newer toolchain spells names.

usage: python3 tools/respell_names.py [--list]     once, at the top, right after the toolchain's port script

Facts become upper camel case (`Follow-ends`: `FollowEnds`), all else snake case (`add-vertex`: `add_vertex`).
Names that the toolchain makes (goals, steps) and names of its library keep their dashes. Comments and strings
are left alone, but names between backticks in docs/ and README.md follow. It stops before writing anything if
two names of one file would fall together.
"""

import collections
import os
import re
import sys

NAME = r"[^\s(){}\[\];,.:\"`]+"
TOKEN = re.compile(NAME)
DECLARED = re.compile(rf"^[ ]*(?:(?:abbrev|unfoldable|pub|data|record) )*({NAME})(?: *[({{][^=\n]*?)? *:[ \n]", re.M)
MADE = re.compile(rf"\bgoal\.({NAME})")
USE = re.compile(rf"^(?:pub )?(?:ghost )?use ([^\s{{]+?)\.\{{([^}}]*)\}}", re.M)

# Names whose parts are not words alone.
BY_HAND = {"getD-packed": "get_or_packed", "nth-getD": "nth_get_or", "part-getD": "part_get_or"}

# Fields of a job that two records share, the code's and the definitions': each is found by its record.
FIELDS = {"base-vertices", "base-triangles", "forest-edges"}


def files(*ends):
    for folder, dirs, names in os.walk("crates"):
        dirs[:] = sorted(d for d in dirs if d != "out")
        for name in sorted(names):
            if name.endswith(ends):
                yield os.path.join(folder, name)


def read(path):
    with open(path, encoding="utf-8") as f:
        return f.read()


def respelled(name):
    if name in BY_HAND:
        return BY_HAND[name]
    if name[0].isupper():
        head, *rest = name.split("-")
        return head + "".join(part[:1].upper() + part[1:] for part in rest)
    return name.replace("-", "_")


def code_parts(text, mark):
    """The text in pieces, each with whether it is code: comments and strings are not."""
    pattern = re.compile(rf'{mark}[^\n]*|b?"(?:\\.|[^"\\])*"') if mark == "//" else re.compile(r"--(?=[ \n])[^\n]*")
    at = 0
    for m in pattern.finditer(text):
        yield text[at : m.start()], True
        yield m[0], False
        at = m.end()
    yield text[at:], True


def own_names():
    """The dashed names that the repository declares, without those that the toolchain makes."""
    declared, made = set(), set()
    for path in files(".antt"):
        code = "".join(p for p, is_code in code_parts(read(path), "--") if is_code)
        made |= set(MADE.findall(code))
        declared |= {m[1] for m in DECLARED.finditer(code)}
    return {n for n in declared - made if "-" in n and re.fullmatch(r"\w[\w'-]*", n)}


def crate_names():
    return {line.split(":")[0].split()[0] for line in read("crates.txt").splitlines() if ":" in line and not line.startswith("#")}


def library_names(text, crates):
    """The names that a file takes from the toolchain's library."""
    found = set()
    for module, names in USE.findall(text):
        parts = module.split(".")
        if parts[0] != "Rattle" or parts[1] not in crates:
            found |= {n.strip().split(" as ")[-1] for n in names.split(",")}
    return found


def turned(text, table, mark):
    def word(m):
        return table.get(m[0], m[0])

    return "".join(TOKEN.sub(word, piece) if is_code else piece for piece, is_code in code_parts(text, mark))


def fallen_together(path, text, table):
    """The names of one file that would be one name; the modules that it names are none of them."""
    seen = collections.defaultdict(set)
    code = "".join(piece for piece, is_code in code_parts(text, "--") if is_code)
    code = re.sub(r"\buse [^{\n]*", "use ", code)
    for name in {m[0] for m in TOKEN.finditer(code)} - FIELDS:
        seen[table.get(name, name)].add(name)
    return [f"{path}: {' and '.join(sorted(names))} would be {new}" for new, names in sorted(seen.items()) if len(names) > 1]


def in_backticks(text, table):
    def word(m):
        return "`" + TOKEN.sub(lambda w: table.get(w[0], w[0]), m[1]) + "`"

    return re.sub(r"`([^`\n]+)`", word, text)


def main(argv):
    crates = crate_names()
    table = {n: respelled(n) for n in own_names()}
    new, wrong = {}, []
    for path in files(".antt", ".rt", ".edit"):
        text = read(path)
        library = library_names(text, crates)
        here = {old: name for old, name in table.items() if old not in library}
        mark = "--" if path.endswith(".antt") else "//"
        if path.endswith(".antt"):
            wrong += fallen_together(path, text, here)
        new[path] = turned(text, here, mark)
    pages = ["README.md"] + sorted(os.path.join("docs", f) for f in os.listdir("docs") if f.endswith(".md"))
    for path in pages:
        new[path] = in_backticks(read(path), table)
    if "--list" in argv:
        print("\n".join(f"{a} {b}" for a, b in sorted(table.items())))
        return 0
    if wrong:
        print("\n".join(wrong), file=sys.stderr)
        return 1
    changed = [path for path in new if new[path] != read(path)]
    for path in changed:
        with open(path, "w", encoding="utf-8") as f:
            f.write(new[path])
    print(f"{len(table)} names respelled in {len(changed)} files")
    return 0


if __name__ == "__main__":
    raise SystemExit(main(sys.argv[1:]))
