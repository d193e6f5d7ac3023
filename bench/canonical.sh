#!/bin/sh
# Measures canon, merge with itself and prune on proofs that are made to hurt (bench/canonical/proofs.py), each
# five times; prints the medians in milliseconds. It needs rt and python3. The proved program is built in a
# folder of its own, outside the repository.
set -eu
here=$(cd "$(dirname "$0")" && pwd)
work=$(mktemp -d)
trap 'rm -rf "$work"' EXIT
cp "$here/../HANDLES" "$work"
mkdir -p "$work/crates/canonical_speed/src" "$work/crates/canonical_speed/specs"
for name in $("$here/check.py" --names ots_io ots_detached ots_canon); do
    (cd "$here/.." && tar -c --exclude=out "crates/$name") | tar -x -C "$work"
    grep "^$name[ :]" "$here/../crates.txt" >> "$work/crates.txt"
done
echo 'canonical_speed: ots_canon ots_detached ots_tree ots_io anyhow' >> "$work/crates.txt"
cp "$here/canonical/main.rt.in" "$work/crates/canonical_speed/src/main.rt"
: > "$work/crates/canonical_speed/specs/Lib.antt"
python3 -B "$here/canonical/proofs.py" combs "$work/proof"
"$here/check.py" --in "$work" --program canonical_speed > "$work/log" 2>&1 || {
    cat "$work/log"
    exit 1
}
program=$work/crates/canonical_speed/out/canonical_speed

# The middle of the five runs, of a column in microseconds.
median() {
    awk "{ print \$$1 }" "$work/figures" | sort -n | sed -n 3p
}
echo 'proof bytes canon merge prune'
for kind in $(python3 -B "$here/canonical/proofs.py"); do
    python3 -B "$here/canonical/proofs.py" "$kind" "$work/proof"
    : > "$work/figures"
    for round in 1 2 3 4 5; do
        "$program" "$work/proof" >> "$work/figures"
    done
    echo "$kind $(wc -c < "$work/proof") $(median 1) $(median 2) $(median 3)" |
        awk '{ printf "%s %d %.1f %.1f %.1f\n", $1, $2, $3 / 1000, $4 / 1000, $5 / 1000 }'
done
