#!/bin/sh
# Measures ots_ripemd beside a plain C body on this machine: 256 MiB each, five times in turn.
# It needs gcc and rt. The proved program is built in a folder of its own, outside the repository.
set -eu
here=$(cd "$(dirname "$0")" && pwd)
work=$(mktemp -d)
trap 'rm -rf "$work"' EXIT
cp "$here/../HANDLES" "$work"
mkdir "$work/crates"
for name in $("$here/check.py" --names ots_ripemd); do
    (cd "$here/.." && tar -c --exclude=out "crates/$name") | tar -x -C "$work"
    grep "^$name[ :]" "$here/../crates.txt" >> "$work/crates.txt"
done
mkdir -p "$work/crates/ripemd160_speed/src" "$work/crates/ripemd160_speed/proofs/fed_pieces"
cp "$here/ripemd160/main.rt.in" "$work/crates/ripemd160_speed/src/main.rt"
cp "$here/ripemd160/Invariants.antt.in" "$work/crates/ripemd160_speed/proofs/fed_pieces/Invariants.antt"
echo 'ripemd160_speed: ots_ripemd hex' >> "$work/crates.txt"
gcc -O3 -o "$work/plain" "$here/ripemd160/plain.c"
"$here/check.py" --in "$work" --program ripemd160_speed > "$work/log" 2>&1 || { cat "$work/log"; exit 1; }
for round in 1 2 3 4 5; do
    echo "plain C      $("$work/plain")"
    echo "ots_ripemd   $("$work/crates/ripemd160_speed/out/ripemd160_speed")"
done
