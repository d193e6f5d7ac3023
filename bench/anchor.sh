#!/bin/sh
# Measures ots_block and ots_anchor on blocks of one MiB and of four, with few long transactions and with many short
# ones: reading, the ids of all transactions, and the search for 1,000 roots, of which none is there. It prints
# microseconds of processor time, in three rounds. It needs rt. The proved program is built in a folder of its own,
# outside the repository.
set -eu
here=$(cd "$(dirname "$0")" && pwd)
work=$(mktemp -d)
trap 'rm -rf "$work"' EXIT
cp "$here/../HANDLES" "$work"
mkdir -p "$work/crates/anchor_speed/src" "$work/crates/anchor_speed/specs"
for name in $("$here/check.py" --names ots_anchor); do
    (cd "$here/.." && tar -c --exclude=out "crates/$name") | tar -x -C "$work"
    grep "^$name[ :]" "$here/../crates.txt" >> "$work/crates.txt"
done
echo 'anchor_speed: ots_anchor ots_block ots_headers sha2 anyhow' >> "$work/crates.txt"
cp "$here/anchor/main.rt.in" "$work/crates/anchor_speed/src/main.rt"
: > "$work/crates/anchor_speed/specs/Lib.antt"
"$here/check.py" --in "$work" --program anchor_speed > "$work/log" 2>&1 || {
    cat "$work/log"
    exit 1
}
"$work/crates/anchor_speed/out/anchor_speed"
