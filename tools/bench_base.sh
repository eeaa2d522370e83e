#!/usr/bin/env bash
# Proves and builds the program base_bench, runs it on tori of 1,000 to 32,000 triangles, and prints a table: seconds of
# processor time (the best of three runs, everything included) and, with valgrind, instructions; behind each by how much
# it grows for four times the triangles.
set -euo pipefail
cd "$(dirname "$0")/.."
(cd crates/base_bench && rt run < stdin) > /dev/null
program=crates/base_bench/out/base_bench
work=$(mktemp -d)
trap 'rm -rf "$work"' EXIT

# The shortest of three runs, in milliseconds.
best_time() {
    local TIMEFORMAT='%U %S' user system
    for _ in 1 2 3; do
        read -r user system <<< "$({ time "$program" < "$1" > "$work/said"; } 2>&1)"
        echo $((10#${user/[.,]/} + 10#${system/[.,]/}))
    done | sort -n | head -n 1
}

# Instructions, or 0 where they are not counted.
instructions() {
    if ! command -v valgrind > /dev/null; then echo 0; return; fi
    valgrind --tool=callgrind --callgrind-out-file=/dev/null "$program" < "$1" 2>&1 > /dev/null |
        sed -n 's/.*Collected *: *\([0-9]*\).*/\1/p'
}

for size in '20 25' '40 50' '80 100' '160 100'; do
    read -r rows columns <<< "$size"
    python3 tools/torus.py "$rows" "$columns" > "$work/sheet"
    time=$(best_time "$work/sheet")
    read -r word _ _ triangles < "$work/said"
    [ "$word $triangles" = "BASE $((2 * rows * columns))" ] || { cat "$work/said" >&2; exit 1; }
    echo "$triangles $time $(instructions "$work/sheet")"
done | awk '
    function growth(now, before) { return before ? sprintf("%.1f", (now / before) ^ (log(4) / log($1 / triangles))) : "" }
    BEGIN { row = "| %9s | %9s | %9s | %15s | %9s |\n"; printf row, "triangles", "seconds", "fourfold", "instructions", "fourfold" }
    { printf row, $1, sprintf("%.3f", $2 / 1e3), growth($2, time), $3 ? $3 : "", growth($3, count); triangles = $1; time = $2; count = $3; fflush() }'
