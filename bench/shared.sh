#!/bin/sh
# Measures how often a second 1, 2, 4, 16 and 64 threads hold a book in memory, with nothing done in a hold, beside a
# Mutex of std in plain Rust round a book's numbers: 64,000 holds in all, five times in turn. It prints the medians in
# thousands of holds a second. It needs rt and rustc. The proved program is built in a folder of its own, outside the
# repository, over the libraries that rt ci has proved on this machine.
set -eu
here=$(cd "$(dirname "$0")" && pwd)
work=$(mktemp -d)
trap 'rm -rf "$work"' EXIT
speed="$work/crates/shared_speed"
mkdir -p "$speed/src" "$speed/specs" "$speed/proofs/callers/turn" "$speed/proofs/callers/work"
for name in $("$here/check.py" --names ots_shared); do
    (cd "$here/.." && tar -c --exclude=out "crates/$name") | tar -x -C "$work"
    grep "^$name[ :]" "$here/../crates.txt" >> "$work/crates.txt"
done
echo 'shared_speed may_wait=5 tests_may=Threads+Wait: ots_shared ots_calendar ots_store ots_journal ots_disk anyhow' >> "$work/crates.txt"
cp "$here/../HANDLES" "$work/HANDLES"
cp "$here/shared/main.rt.in" "$speed/src/main.rt"
cp "$here/shared/callers.rt.in" "$speed/src/callers.rt"
: > "$speed/specs/Lib.antt"
: > "$speed/proofs/Lib.antt"
cp "$here/shared/turn.antt.in" "$speed/proofs/callers/turn/Answers.antt"
cp "$here/shared/work.antt.in" "$speed/proofs/callers/work/Invariants.antt"
mkdir -p "$speed/proofs/callers/+crew+fn-crew-join+arg3"
cp "$here/shared/crew.antt.in" "$speed/proofs/callers/+crew+fn-crew-join+arg3/Invariants.antt"
"$here/check.py" --in "$work" --program shared_speed > "$work/log" 2>&1 || {
    cat "$work/log"
    exit 1
}
rustc -O -o "$work/plain" "$here/shared/plain.rs"

# The middle of the five runs, as thousands of holds a second.
median() {
    sort -n "$1" | sed -n 3p | awk '{ printf "%.0f", 64000 * 1000 / $1 }'
}
echo 'threads shared mutex'
for callers in 1 2 4 16 64; do
    : > "$work/shared"
    : > "$work/mutex"
    for round in 1 2 3 4 5; do
        "$speed/out/shared_speed" "$callers" $((64000 / callers)) >> "$work/shared"
        "$work/plain" "$callers" $((64000 / callers)) >> "$work/mutex"
    done
    echo "$callers $(median "$work/shared") $(median "$work/mutex")"
done
