#!/bin/sh
# Measures read_tree on this machine: a tree of 100,000 paths and 1.9 MB, read five times.
# It needs rt. The proved program is built in a folder of its own, outside the repository.
set -eu
here=$(cd "$(dirname "$0")" && pwd)
work=$(mktemp -d)
trap 'rm -rf "$work"' EXIT
cp "$here/../HANDLES" "$work"
mkdir -p "$work/crates/tree_speed/src" "$work/crates/tree_speed/specs"
for name in $("$here/check.py" --names ots_io ots_reader); do
    (cd "$here/.." && tar -c --exclude=out "crates/$name") | tar -x -C "$work"
    grep "^$name[ :]" "$here/../crates.txt" >> "$work/crates.txt"
done
echo 'tree_speed: ots_reader ots_tree ots_attest ots_ops ots_io anyhow' >> "$work/crates.txt"
cp "$here/tree_reader/main.rt.in" "$work/crates/tree_speed/src/main.rt"
: > "$work/crates/tree_speed/specs/Lib.antt"
"$here/check.py" --in "$work" --program tree_speed > "$work/log" 2>&1 || { cat "$work/log"; exit 1; }
"$work/crates/tree_speed/out/tree_speed"
