#!/bin/sh
# Measures check of ots_chain beside a plain loop of double SHA-256 over the crate sha2, on the same chain of headers in
# memory, five times in turn, of a quarter of the most headers that a table has and of the most. The tips are the same. It
# needs rt and Python. The proved program is built in a folder of its own, outside the repository.
set -eu
here=$(cd "$(dirname "$0")" && pwd)
work=$(mktemp -d)
trap 'rm -rf "$work"' EXIT
cp "$here/../HANDLES" "$work"
mkdir -p "$work/crates/chain_speed/src" "$work/crates/chain_speed/specs"
for name in $("$here/check.py" --names ots_io ots_chain); do
    (cd "$here/.." && tar -c --exclude=out "crates/$name") | tar -x -C "$work"
    grep "^$name[ :]" "$here/../crates.txt" >> "$work/crates.txt"
done
echo 'chain_speed: ots_chain ots_headers ots_io sha2 hex anyhow' >> "$work/crates.txt"
cp "$here/chain/main.rt.in" "$work/crates/chain_speed/src/main.rt"
: > "$work/crates/chain_speed/specs/Lib.antt"
"$here/check.py" --in "$work" --program chain_speed > "$work/log" 2>&1 || {
    cat "$work/log"
    exit 1
}
program=$work/crates/chain_speed/out/chain_speed
median() {
    sort -n "$1" | sed -n 3p
}
for count in 262144 1048576; do
    python3 "$here/chain/mined.py" "$count" > "$work/headers"
    rm -f "$work/sha2" "$work/check"
    for round in 1 2 3 4 5; do
        plain=$("$program" sha2 "$work/headers")
        checked=$("$program" check "$work/headers")
        if [ "${plain% *}" != "${checked% *}" ]; then
            echo "the tips are ${plain% *} and ${checked% *}" >&2
            exit 1
        fi
        echo "${plain#* }" >> "$work/sha2"
        echo "${checked#* }" >> "$work/check"
    done
    echo "$count $(median "$work/sha2") $(median "$work/check")" |
        awk '{ printf "%d headers, medians: sha2 alone %d ms, check %d ms, %.3f times\n", $1, $2, $3, $3 / $2 }'
done
