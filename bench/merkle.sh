#!/bin/sh
# Measures ots_merkle beside plain bodies over the same hash: the root and the paths of all leaves of a
# calendar's tree of 65,536 leaves, and a round of as many, each hashed with a nonce, five times; prints
# microseconds. It needs rt. The proved program is built in a folder of its own, outside the repository.
set -eu
here=$(cd "$(dirname "$0")" && pwd)
work=$(mktemp -d)
trap 'rm -rf "$work"' EXIT
cp "$here/../HANDLES" "$work"
mkdir -p "$work/crates/merkle_speed/src" "$work/crates/merkle_speed/specs"
for name in $("$here/check.py" --names ots_merkle); do
    (cd "$here/.." && tar -c --exclude=out "crates/$name") | tar -x -C "$work"
    grep "^$name[ :]" "$here/../crates.txt" >> "$work/crates.txt"
done
echo 'merkle_speed: ots_merkle ots_ops sha2 anyhow' >> "$work/crates.txt"
cp "$here/merkle/main.rt.in" "$work/crates/merkle_speed/src/main.rt"
: > "$work/crates/merkle_speed/specs/Lib.antt"
"$here/check.py" --in "$work" --program merkle_speed > "$work/log" 2>&1 || {
    cat "$work/log"
    exit 1
}
for round in 1 2 3 4 5; do
    "$work/crates/merkle_speed/out/merkle_speed" |
        awk '{ printf "root %d, plain %d; all paths %d, plain %d; a round %d\n", $1, $2, $3, $4, $5 }'
done
