#!/usr/bin/env bash
# Proves and builds the program levels, and runs it on a file (the block with two records if none is named).
set -euo pipefail
root=$(cd "$(dirname "$0")/.." && pwd)
exec 3< "${1:-$root/samples/block-splits.model}"
cd "$root/crates/levels"
rt run <&3
