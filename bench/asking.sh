#!/bin/sh
# Measures what one client that stamps waits beside 16 that ask `otsd serve`, with as many workers.
#
#     bench/asking.sh OTSD [COUNT..]
#
# OTSD is the built program. For journals of COUNT commitments under one anchor (1,000, 100,000 and 1,000,000 where none is
# given), three times in turn: 16 clients ask for unknown commitments, then for anchored ones, while one sends 500 digests.
# It prints the milliseconds that a digest waited (the middle one, the slowest hundredth) and the questions a second. It
# needs rustc and python3, speaks to 127.0.0.1 alone, and is run by hand.
set -eu
otsd=$1
shift
here=$(cd "$(dirname "$0")" && pwd)
work=$(mktemp -d -p "${BENCH_FOLDER:-$PWD}")
trap 'kill "${server:-}" 2>/dev/null || true; rm -rf "$work"' EXIT
rustc -O -o "$work/beside" "$here/serving/beside.rs"
printf 'kkkkkkkkkkkkkkkkkkkkkkkkkkkkkkkk' > "$work/key"
port=24988
for count in ${*:-1000 100000 1000000}; do
    python3 "$here/calendar/journal.py" "$work/made" "$count" anchored
    for round in 1 2 3; do
        for kind in unknown known; do
            port=$((port + 1))
            cp "$work/made" "$work/journal"
            "$otsd" "$work/journal" serve --key "$work/key" --uri "http://127.0.0.1:$port" --port "$port" \
                --workers 17 > "$work/out" &
            server=$!
            tries=0
            until grep -q listening "$work/out"; do
                tries=$((tries + 1))
                [ "$tries" -lt 600 ] || { echo "the server did not begin" >&2; exit 1; }
                sleep 0.1
            done
            echo "$count commitments, $kind: $("$work/beside" "$port" 16 500 "$count" "$kind")"
            kill "$server"
            wait "$server" 2>/dev/null || true
        done
    done
done
