#!/bin/sh
# Measures ots_store on journals of 2,500,000 and of 10,000,000 commitments, in rising order as a calendar makes
# them, and shuffled: the opening of the journal and of the store on it, a million look-ups of commitments that are
# there and of others, and the peak of memory. It needs rt, python3 and 1 GB of room in FOLDER (the first word, else
# a temporary folder). The proved program is built in a folder of its own, outside the repository.
set -eu
here=$(cd "$(dirname "$0")" && pwd)
work=$(mktemp -d -p "${1:-${TMPDIR:-/tmp}}")
trap 'rm -rf "$work"' EXIT
cp "$here/../HANDLES" "$work"
mkdir -p "$work/crates/store_speed/src" "$work/crates/store_speed/specs"
for name in $("$here/check.py" --names ots_file ots_store); do
    (cd "$here/.." && tar -c --exclude=out "crates/$name") | tar -x -C "$work"
    grep "^$name[ :]" "$here/../crates.txt" >> "$work/crates.txt"
done
echo 'store_speed: ots_store ots_journal ots_disk ots_file anyhow' >> "$work/crates.txt"
cp "$here/store/main.rt.in" "$work/crates/store_speed/src/main.rt"
: > "$work/crates/store_speed/specs/Lib.antt"
python3 "$here/store/journal.py" "$work/small" rising 1
"$here/check.py" --in "$work" --program store_speed > "$work/log" 2>&1 || {
    cat "$work/log"
    exit 1
}
for count in 2500 10000; do
    for order in rising shuffled; do
        python3 "$here/store/journal.py" "$work/journal" "$order" "$count"
        for round in 1 2 3; do
            echo "$count thousand, $order:"
            python3 "$here/store/peak.py" "$work/crates/store_speed/out/store_speed" "$work/journal"
        done
    done
done
