#!/bin/sh
# Measures verdict beside the reference library python-opentimestamps on this machine: a proof of 100,000
# paths by 100,000 Bitcoin headers, of which two confirm a path, or none, each table five times in turn. Both
# must print the same verdict. It needs rt, and Debian's python3-opentimestamps. The proved program is built
# in a folder of its own, outside the repository.
set -eu
here=$(cd "$(dirname "$0")" && pwd)
work=$(mktemp -d)
trap 'rm -rf "$work"' EXIT
cp "$here/../HANDLES" "$work"
mkdir -p "$work/crates/verdict_speed/src" "$work/crates/verdict_speed/specs"
for name in $("$here/check.py" --names ots_io ots_detached ots_verdicts); do
    (cd "$here/.." && tar -c --exclude=out "crates/$name") | tar -x -C "$work"
    grep "^$name[ :]" "$here/../crates.txt" >> "$work/crates.txt"
done
echo 'verdict_speed: ots_verdicts ots_headers ots_detached ots_tree ots_io anyhow' >> "$work/crates.txt"
cp "$here/verdict/main.rt.in" "$work/crates/verdict_speed/src/main.rt"
: > "$work/crates/verdict_speed/specs/Lib.antt"
library() {
    PYTHONPATH="$here" /usr/bin/python3 -B "$here/verdict/library.py" "$@"
}
library make "$work/proof" "$work/found" "$work/none"
"$here/check.py" --in "$work" --program verdict_speed > "$work/log" 2>&1 || {
    cat "$work/log"
    exit 1
}
program=$work/crates/verdict_speed/out/verdict_speed

# The middle of the five runs, of a column or a sum of columns in microseconds.
median() {
    awk "{ print $1 }" "$figures" | sort -n | sed -n 3p
}
compare() {
    echo "$(median "$2") $(median "$3")" |
        awk -v what="$1" '{
            printf "  %s: %.1f ms, %.1f ms, %.1f times\n", what, $1 / 1000, $2 / 1000, $2 / $1
        }'
}
for table in found none; do
    figures=$work/$table.figures
    for round in 1 2 3 4 5; do
        "$program" "$work/$table" "$work/proof" > "$work/ours"
        library judge "$work/$table" "$work/proof" > "$work/theirs"
        verdict=$(head -n 1 "$work/ours")
        if [ "$verdict" != "$(head -n 1 "$work/theirs")" ]; then
            echo "$table: ours says '$verdict', the library '$(head -n 1 "$work/theirs")'" >&2
            exit 1
        fi
        case $table:$verdict in
        'found:yes block 50000 time '* | 'none:no path') ;;
        *)
            echo "$table: both say '$verdict'" >&2
            exit 1
            ;;
        esac
        echo "$(tail -n 1 "$work/ours") $(tail -n 1 "$work/theirs")" >> "$figures"
        tail -n 1 "$figures" | awk '{
            printf "ours: reading %d us, verdict %d us; ", $1, $2
            printf "the library: reading %d us, verifying %d us, applying anew and verifying %d us\n", $3, $4, $5
        }'
    done
    echo "$table: $verdict; medians:"
    compare "verdict beside the library's reading and verifying" '$2' '$3 + $4'
    compare "reading and verdict beside the library's reading and verifying" '$1 + $2' '$3 + $4'
    compare "verdict beside the library's applying anew and verifying" '$2' '$5'
done
