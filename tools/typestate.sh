#!/usr/bin/env bash
# Programs that must not compile: each file of tools/typestate named .misuse holds the body of a program's main, the error that
# the compiler has to name, and words that the line of the error has to hold. As a control, those named .allowed must check
# without an error, so a call that is refused is one that there is. A copy of the crates is made in a temporary folder, so
# nothing here is changed.
set -euo pipefail
cd "$(dirname "$0")/.."
programs=$PWD/tools/typestate
copy=$(mktemp -d)
trap 'rm -rf "$copy"' EXIT
cp -r crates crates.txt "$copy"
mkdir -p "$copy/crates/misuse/src"
echo 'misuse: fault place mesh edges stores survey sheet record forest runs engine job' >> "$copy/crates.txt"
cd "$copy/crates/misuse"
failed=0
for file in "$programs"/*.allowed; do
    name=$(basename "$file" .allowed)
    grep -v '^#' "$file" > src/main.rt
    if said=$(rt check 2>&1); then
        echo "$name: checked"
    else
        echo "$name: expected no error, found $(grep -Eo 'error.*' <<< "$said" | head -n 1 || true)"
        failed=1
    fi
done
for file in "$programs"/*.misuse; do
    name=$(basename "$file" .misuse)
    expected=$(sed -n 's/^# refused by //p' "$file")
    words=$(sed -n 's/^# which names //p' "$file")
    grep -v '^#' "$file" > src/main.rt
    line=$(rt check 2>&1 | grep -E 'error\[[a-z0-9-]*\]' | head -n 1 || true)
    if [[ $line == *"error[$expected]: "*"$words"* ]]; then
        echo "$name: refused by error[$expected], which names $words"
    else
        echo "$name: expected error[$expected] with $words, found ${line:-no error}"
        failed=1
    fi
done
exit "$failed"
