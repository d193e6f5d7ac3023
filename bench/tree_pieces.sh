#!/bin/sh
# Measures a tree that comes in pieces of many sizes, a byte at a time too, beside read_tree that has
# all its bytes: 100,000 paths, and 4 MB of the longest arguments, five times in turn each.
# It needs rt. The proved program is built in a folder of its own, outside the repository.
set -eu
here=$(cd "$(dirname "$0")" && pwd)
work=$(mktemp -d)
trap 'rm -rf "$work"' EXIT
cp "$here/../HANDLES" "$work"
crate="$work/crates/tree_pieces"
mkdir -p "$crate/src" "$crate/specs" "$crate/proofs/fed_by"
for name in $("$here/check.py" --names ots_reader); do
    (cd "$here/.." && tar -c --exclude=out "crates/$name") | tar -x -C "$work"
    grep "^$name[ :]" "$here/../crates.txt" >> "$work/crates.txt"
done
echo 'tree_pieces: ots_reader ots_tree anyhow' >> "$work/crates.txt"
cp "$here/tree_pieces/main.rt.in" "$crate/src/main.rt"
: > "$crate/specs/Lib.antt"
echo 'pub mod Came' > "$crate/proofs/Lib.antt"
cp "$here/tree_pieces/Came.antt.in" "$crate/proofs/Came.antt"
cp "$here/tree_pieces/Invariants.antt.in" "$crate/proofs/fed_by/Invariants.antt"
"$here/check.py" --in "$work" --program tree_pieces > "$work/log" 2>&1 || { cat "$work/log"; exit 1; }
"$crate/out/tree_pieces"
