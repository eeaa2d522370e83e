#!/usr/bin/env bash
# Proves and builds the program split_bench, builds the plain Rust program that does the same (bench/), and measures a split
# call by both (bench_split.py). It needs cargo and valgrind.
set -euo pipefail
cd "$(dirname "$0")/.."
(cd crates/split_bench && rt run < stdin) > /dev/null
(cd bench && cargo build --release --quiet)
exec python3 tools/bench_split.py "$@"
