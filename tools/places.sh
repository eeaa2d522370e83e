#!/bin/sh
# Lists and counts the places that docs/DESIGN-PASS.md speaks of, in the crates below a folder (here, if none is named).
# usage: tools/places.sh [FOLDER]
cd "${1:-.}" || exit 1
sources=$(find crates/*/src -name '*.rt' ! -name '*tests.rt' | sort)

# Prints what a pattern finds, and how often.
count() {
    title=$1
    shift
    found=$(grep -nE "$@" $sources)
    printf '%s: %s\n' "$title" "$(printf '%s' "$found" | grep -c .)"
    [ -z "$found" ] || printf '%s\n' "$found" | sed 's/^/    /'
}

echo "== 1 values that may be missing, refusals, flags, numbers"
count "checks that answer Option<Fault>" -e '-> Option<Fault>'
count "refusals handed on by hand" -e 'if let Some\(fault\)|Some\(fault\) => (Some|Err)|Err\((fault|back|error)\) => Err'
count "missing values handed on or replaced by hand" -e '^\s*None => (None|false|return false|v|P::origin\(\)|Some\(P::origin\(\)\)|if )'
printf '%s: %s\n' "else branches that answer None" "$(cat $sources | perl -0ne '$n = () = /else\s*\{\s*None\s*\}/g; print $n')"
count "a flag with a value beside it" -e 'bool, [a-z]+: (u32|usize)'
count "numbers that mean nothing" -e '^pub fn \w+(<.*>)?\(\) -> u8'
count "numbers for layers, kinds and corners" -e 'fn layer\(&self\) -> u8|fn kind_byte\(\)|const KIND: u8|\b(kind|corner|k): u8'
echo "== 3 loops"
count "loops over a range, and while loops" -e '^\s*(for \w+ in [0-9]+\.\.|while |loop )'
echo "== 4 impls and packing by hand"
count "impls" -e '^impl.*(Display|PartialEq|PartialOrd|Ord|Clone|Copy|Debug|Default|From<.*|TryFrom<.*)\b.* for '
count "bytes of a number taken apart" -e 'let \[.*\] = .*to_be_bytes'
count "numbers put together from bytes" -e 'from_be_bytes'
echo "== 6 buffers, parallel tables, indexes"
count "tables of fixed length" -e '\[(u32|[A-Z]\w*); (16384|[A-Z_]+)( as usize)?\]'
count "counts beside a slice" -e '(^|\s)\w*_count: (usize|u32),|\w+: \w+, at: usize\b'
count "links by number" -e '\b(link|first|next): u32'
echo "== 7 steps chosen by a value, tables of functions, macros"
count "steps" -e 'enum Turn|match self\.turn|macro_rules!'
echo "== 8 proofs"
for crate in crates/*; do
    [ -d "$crate/proofs" ] || continue
    printf '%s: %s files, %s lines\n' "$crate" "$(find "$crate/proofs" -name '*.antt' | grep -c .)" "$(find "$crate/proofs" -name '*.antt' -exec cat {} + | grep -c '')"
done
