#!/usr/bin/env bash
# Proves the survey for C, links the example with it, and runs it on a file (the block if none is named).
set -euo pipefail
root=$(cd "$(dirname "$0")/.." && pwd)
exec 3< "${1:-$root/samples/block.sheet}"
cd "$root"
(cd crates/survey_export && rt lib) >&2
mkdir -p target/c target/staticlib
cp crates/survey_export/out/libsurvey_export.a target/staticlib/libsurvey_c.a
cc -Wall -O2 -Iinclude examples/c/survey.c target/staticlib/libsurvey_c.a -o target/c/survey
exec target/c/survey <&3
