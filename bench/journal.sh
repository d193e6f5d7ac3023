#!/bin/sh
# Measures ots_journal on a real file beside a C program that makes the same calls of the system: 2,000 appends
# of a commitment, and the opening of a journal of 1 GiB, for which each syncs the file and drops its cached pages. It needs rt, cc and 3 GB of room in FOLDER (the first
# word, else a temporary folder). The proved program is built in a folder of its own, outside the repository.
set -eu
here=$(cd "$(dirname "$0")" && pwd)
work=$(mktemp -d -p "${1:-${TMPDIR:-/tmp}}")
trap 'rm -rf "$work"' EXIT
cp "$here/../HANDLES" "$work"
mkdir -p "$work/crates/journal_speed/src" "$work/crates/journal_speed/specs"
for name in $("$here/check.py" --names ots_file ots_journal); do
    (cd "$here/.." && tar -c --exclude=out "crates/$name") | tar -x -C "$work"
    grep "^$name[ :]" "$here/../crates.txt" >> "$work/crates.txt"
done
echo 'journal_speed: ots_journal ots_file anyhow' >> "$work/crates.txt"
cp "$here/journal/main.rt.in" "$work/crates/journal_speed/src/main.rt"
: > "$work/crates/journal_speed/specs/Lib.antt"
"$here/check.py" --in "$work" --program journal_speed > "$work/log" 2>&1 || {
    cat "$work/log"
    exit 1
}
cc -O2 -o "$work/plain" "$here/journal/plain.c"
proved="$work/crates/journal_speed/out/journal_speed"
for round in 1 2 3; do
    rm -f "$work/a" "$work/b"
    echo "2,000 appends: $("$proved" "$work/a" 2000 | awk '{ print $2 }') microseconds," \
        "plain $("$work/plain" "$work/b" 2000 | awk '{ print $2 }')"
done
cmp "$work/a" "$work/b"
# 19,173,000 commitments, each a group of its own.
python3 - "$work/large" <<'P'
import sys
group = bytes.fromhex("a5000100000031010000002c") + bytes([7]) * 44
with open(sys.argv[1], "wb") as out:
    out.write(b"OTSCAL\x02\n")
    for _ in range(19173):
        out.write(group * 1000)
    out.write(b"\0")
P
ls -l "$work/large" | awk '{ print $5, "bytes" }'
for round in 1 2 3; do
    echo "opening: $("$proved" "$work/large" 0 | awk '{ print $1 }') microseconds," \
        "plain $("$work/plain" "$work/large" 0 | awk '{ print $1 }')"
done
