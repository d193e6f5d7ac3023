#!/bin/sh
# Measures `otsd serve` beside a plain threaded server of std that appends and syncs once a request, and beside the
# same server where it is careful: its workers wait for connections one at a time, each connection has a time limit
# for each way, and before it is closed its writing half is shut and what still comes is read, as by `otsd`.
#
#     bench/serving.sh OTSD [REQUESTS [MICROSECONDS]]
#
# OTSD is the built program. For POST and then GET, and for 1, 4, 16 and 64 clients with as many workers, all servers
# run at once, on the same disk, and are asked in turn, five times each. It prints the medians of how many requests a
# second each answered and of the 99th percentile in milliseconds, and what part of the others' requests
# `otsd` answers. With MICROSECONDS each sync of all servers takes so much longer, as on a slower disk, and only POST is
# measured. It needs rustc, and cc for that, speaks to 127.0.0.1 alone, and is run by hand.
set -eu
otsd=$1
requests=${2:-2000}
longer=${3:-}
kinds='post get'
slow=
top=$(cd "$(dirname "$0")" && pwd)
work=$(mktemp -d -p "${BENCH_FOLDER:-$PWD}")
trap 'kill ${server:-} ${plain:-} ${careful:-} 2>/dev/null || true; rm -rf "$work"' EXIT
rustc -O -o "$work/plain" "$top/serving/plain.rs"
rustc -O -o "$work/load" "$top/serving/load.rs"
printf 'kkkkkkkkkkkkkkkkkkkkkkkkkkkkkkkk' > "$work/key"
if [ -n "$longer" ]; then
    cc -O1 -shared -fPIC -o "$work/slow_sync.so" "$top/serving/slow_sync.c" -ldl
    slow="env SYNC_MICROSECONDS=$longer LD_PRELOAD=$work/slow_sync.so"
    kinds=post
fi
port=24788

# Waits until a server prints its first line.
wait_for() {
    tries=0
    until [ -s "$1" ]; do
        tries=$((tries + 1))
        [ "$tries" -lt 300 ] || { echo "the server did not begin" >&2; exit 1; }
        sleep 0.1
    done
}

# The median of a column of five lines.
median() {
    cut -d ' ' -f "$2" "$1" | sort -n | sed -n 3p
}

for kind in $kinds; do
    for clients in 1 4 16 64; do
        port=$((port + 3))
        $slow "$otsd" "$work/journal-$port" serve --key "$work/key" --uri "http://127.0.0.1:$port" \
            --port "$port" --workers "$clients" > "$work/out-otsd-$port" &
        server=$!
        $slow "$work/plain" "$work/file-$port" "$((port + 1))" "$clients" > "$work/out-plain-$port" &
        plain=$!
        $slow "$work/plain" "$work/careful-$port" "$((port + 2))" "$clients" careful > "$work/out-careful-$port" &
        careful=$!
        wait_for "$work/out-otsd-$port"
        wait_for "$work/out-plain-$port"
        wait_for "$work/out-careful-$port"
        rm -f "$work/otsd-figures" "$work/plain-figures" "$work/careful-figures"
        for time in 1 2 3 4 5; do
            "$work/load" "$port" "$kind" "$clients" "$requests" >> "$work/otsd-figures"
            "$work/load" "$((port + 1))" "$kind" "$clients" "$requests" >> "$work/plain-figures"
            "$work/load" "$((port + 2))" "$kind" "$clients" "$requests" >> "$work/careful-figures"
        done
        kill "$server" "$plain" "$careful"
        wait "$server" "$plain" "$careful" 2>/dev/null || true
        for which in otsd plain careful; do
            printf '%s %s clients, %s: %s a second, 99th percentile %s ms\n' "$kind" "$clients" "$which" \
                "$(median "$work/$which-figures" 1)" "$(median "$work/$which-figures" 2)"
        done
        for which in plain careful; do
            printf '%s %s clients: %s of the %s server\n' "$kind" "$clients" "$(awk "BEGIN {
                printf \"%.2f\", $(median "$work/otsd-figures" 1) / $(median "$work/$which-figures" 1) }")" "$which"
        done
    done
done
