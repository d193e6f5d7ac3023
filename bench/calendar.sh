#!/bin/sh
# Measures a calendar's book on a real file: a round of 16,384 digests and one of 65,536, all of its tickets taken, and as
# many digests withdrawn; 250 rounds of 100 digests and 1,000; a tip over one million commitments, over four and over ten;
# an answer under an anchor of 1,000 to 10,000,000 commitments, and under one of 1,000 anchors; and beside the openings a plain
# loop over sha2. Each is run three times. It needs rt, python3 and 1 GB of room in FOLDER (the first word, else a temporary
# folder). The proved program is built in a folder of its own, outside the repository, over the
# libraries that rt ci has proved on this machine.
set -eu
here=$(cd "$(dirname "$0")" && pwd)
work=$(mktemp -d -p "${1:-${TMPDIR:-/tmp}}")
trap 'rm -rf "$work"' EXIT
cp "$here/../HANDLES" "$work"
speed="$work/crates/calendar_speed"
mkdir -p "$speed/src" "$speed/specs"
for name in $("$here/check.py" --names ots_file ots_calendar); do
    (cd "$here/.." && tar -c --exclude=out "crates/$name") | tar -x -C "$work"
    grep "^$name[ :]" "$here/../crates.txt" >> "$work/crates.txt"
done
echo 'calendar_speed: ots_calendar ots_store ots_journal ots_disk ots_file ots_attest sha2 anyhow' >> "$work/crates.txt"
cp "$here/calendar/main.rt.in" "$speed/src/main.rt"
: > "$speed/specs/Lib.antt"
"$here/check.py" --in "$work" --program calendar_speed > "$work/log" 2>&1 || {
    cat "$work/log"
    exit 1
}
proved="$speed/out/calendar_speed"

# Three runs on a file that is not there.
anew() {
    for run in 1 2 3; do
        rm -f "$work/new"
        echo "$*: $("$proved" "$1" "$work/new" "$2")"
    done
}

# Three runs on copies of a file.
upon() {
    for run in 1 2 3; do
        cp "$work/made" "$work/copy"
        echo "$*: $("$proved" "$1" "$work/copy" "$2")"
    done
}

echo 'microseconds of processor time: the puts, the close, 100 takes'
anew round 16384
anew round 65536
echo 'all takes, from the first on and from the last on, and all withdrawals, from the middle on'
for count in 16384 65536; do
    anew takes "$count"
    anew takes_back "$count"
    anew withdraws "$count"
done
echo 'all rounds, and by the clock'
anew rounds 250
anew rounds 1000
echo 'the opening, the first tip, the second'
for count in 1000000 4000000 10000000; do
    python3 "$here/calendar/journal.py" "$work/made" "$count"
    upon tip 0 "$count"
done
echo 'as many blocks as a tree over them takes, in a plain loop over sha2'
anew hashes 10000000
echo 'the opening, and the mean of 20 answers, under one anchor and under 1,000'
for count in 1000 100000 1000000 10000000; do
    python3 "$here/calendar/journal.py" "$work/made" "$count" anchored
    upon ask 20
done
python3 "$here/calendar/journal.py" "$work/made" 10000000 anchored 1000
upon ask 20
