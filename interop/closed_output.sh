#!/bin/sh
# Runs each command of both programs with standard output closed, and with all three standard streams
# closed:
#     interop/closed_output.sh
# It ends with 0 where each has the status that a failed line gives, 7, or 0 where it prints nothing, where
# each journal opens with all its records, and where no output was made but a whole proof.
set -eu
top=$(CDPATH='' cd -- "$(dirname -- "$0")/.." && pwd)
work=$(mktemp -d)
trap 'rm -rf "$work"' EXIT
"$top/run" ots 2>/dev/null || [ $? -eq 2 ]
"$top/run" otsd 2>/dev/null || [ $? -eq 2 ]
ots=$top/build/ots
otsd=$top/build/otsd
journal=$top/examples/calendar.journal
cd "$work"
cp "$top"/examples/* "$top/crates/ots_closed_streams/data/in.ots" .
head -c 32 /dev/zero >key
printf '00\n' >digests

# ends STATUS WORDS..: both ways of closing
ends() {
    wanted=$1
    shift
    for way in output all; do
        status=0
        if [ $way = output ]; then
            "$@" >&- || status=$?
        else
            "$@" <&- >&- 2>&- || status=$?
        fi
        if [ $status -ne "$wanted" ]; then
            echo "$way closed: $*: $status"
            exit 1
        fi
        after
    done
}

# holds COUNT: the journal opens with so many records, and is made anew
holds() {
    count=$("$otsd" j list | wc -l)
    if [ "$count" -ne "$1" ]; then
        echo "the journal has $count records and not $1"
        exit 1
    fi
    cp "$journal" j
}

after() { :; }
ends 7 "$ots" info in.ots
ends 7 "$ots" verify coinbase coinbase.ots headers --from 0
ends 7 "$ots" sample 10
ends 7 "$ots" frob
after() { cmp -s in.ots out.ots && rm out.ots || { echo 'out.ots is not whole'; exit 1; }; }
ends 0 "$ots" canon in.ots out.ots
ends 0 "$ots" merge in.ots in.ots out.ots
ends 0 "$ots" prune in.ots out.ots
after() { [ ! -e out.ots ] && [ ! -e coinbase2.ots ] || { echo 'an output was made'; exit 1; }; }
cp coinbase coinbase2
ends 7 "$ots" upgrade --calendars http://127.0.0.1:1 in.ots out.ots
ends 7 "$ots" stamp --calendars http://127.0.0.1:1 --min 1 coinbase2

cp "$journal" j
after() { holds 1; }
ends 7 "$otsd" j list
ends 7 "$otsd" j serve --key key --uri http://127.0.0.1:1 --port 47999
ends 7 "$otsd" frob
after() { holds 2; }
ends 7 "$otsd" j tip
ends 7 "$otsd" j batch --key key --uri http://127.0.0.1:1 digests
"$otsd" j tip >tip
cp j tipped
after() { [ "$("$otsd" j list | wc -l)" -eq 3 ] && cp tipped j || { echo 'no anchor is stored'; exit 1; }; }
ends 7 "$otsd" j anchor block.raw --height 7
cp "$journal" j
echo 'each command keeps what it prints out of files'
