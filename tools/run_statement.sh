#!/usr/bin/env bash
# Proves and builds the program statement, and runs it on a model (the fitting if none is named). Further arguments go to it: how
# many records the shop carries out (the first half if there is none), and floats.
set -euo pipefail
root=$(cd "$(dirname "$0")/.." && pwd)
exec 3< "${1:-$root/samples/fitting.model}"
cd "$root/crates/statement"
rt run -- "${@:2}" <&3
