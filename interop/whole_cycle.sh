#!/bin/sh
# Runs the whole cycle in memory, with the client and the calendar in one process:
#     interop/whole_cycle.sh
# Three files are stamped by the replies of two connections that the calendar serves, of which the second can draw no
# nonce; an early upgrade finds the commitment pending; its tip is anchored in a block; upgrades complete the three
# proofs, and they are verified by the block's header. What the client sends, and each proof, are compared with bytes
# that Python's hashlib and hmac made. The test is run by `rt try`, which proves nothing: its own proof takes too long
# for the gate. It ends with 0 where the test passes.
set -eu
top=$(CDPATH='' cd -- "$(dirname -- "$0")/.." && pwd)
work=$(mktemp -d)
trap 'rm -rf "$work"' EXIT
for crate in "$top"/crates/*; do
    name=$(basename "$crate")
    mkdir -p "$work/crates/$name"
    for part in src specs proofs; do
        if [ -d "$crate/$part" ]; then
            cp -R "$crate/$part" "$work/crates/$name/$part"
        fi
    done
done
cp "$top/crates.txt" "$top/HANDLES" "$work"
echo 'ots_cycle_tests tests_may=Threads+Wait: ots_cli ots_calendar ots_store ots_journal ots_block ots_attest ots_tree ots_ops ots_shared ots_connection ots_outside ots_calendar_commands ots_disk ots_io sha2 hex' >>"$work/crates.txt"
mkdir -p "$work/crates/ots_cycle_tests/src" "$work/crates/ots_cycle_tests/specs"
: >"$work/crates/ots_cycle_tests/specs/Lib.antt"
mkdir "$work/crates/ots_cycle_tests/src/client_runs"
for file in bytes calendar client client_runs client_runs/proofs client_runs/runs cycle lib; do
    cp "$top/interop/whole_cycle/$file.rt.in" "$work/crates/ots_cycle_tests/src/$file.rt"
done
# The runs of the calendar that its own tests have.
cp -R "$top/crates/ots_calendar_tests/src/calendar_runs.rt" "$top/crates/ots_calendar_tests/src/calendar_runs" \
    "$work/crates/ots_cycle_tests/src/"
cd "$work/crates/ots_cycle_tests"
rt try --test
