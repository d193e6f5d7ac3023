#!/bin/sh
# Measures read_request and read_reply of ots_http on bytes that are made to hurt: heads of 8,192 bytes and a long
# body, which come a byte at a time over a link in memory. It prints the microseconds of making the link, and of
# making and reading it, each the mean of a thousand rounds. It needs rt. The proved program is built in a folder of
# its own, outside the repository.
set -eu
here=$(cd "$(dirname "$0")" && pwd)
work=$(mktemp -d)
trap 'rm -rf "$work"' EXIT
cp "$here/../HANDLES" "$work"
mkdir -p "$work/crates/http_heads_speed/src" "$work/crates/http_heads_speed/specs"
for name in $("$here/check.py" --names ots_io ots_http); do
    (cd "$here/.." && tar -c --exclude=out "crates/$name") | tar -x -C "$work"
    grep "^$name[ :]" "$here/../crates.txt" >> "$work/crates.txt"
done
echo 'http_heads_speed: ots_http ots_io anyhow' >> "$work/crates.txt"
cp "$here/http_heads/main.rt.in" "$work/crates/http_heads_speed/src/main.rt"
: > "$work/crates/http_heads_speed/specs/Lib.antt"
"$here/check.py" --in "$work" --program http_heads_speed > "$work/log" 2>&1 || {
    cat "$work/log"
    exit 1
}
"$work/crates/http_heads_speed/out/http_heads_speed"
