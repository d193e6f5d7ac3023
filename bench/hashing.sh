#!/bin/sh
# Measures hash_source beside the crate sha2 alone on this machine: one file of 1 GiB from the page cache,
# five times in turn. Each digest must be that of sha256sum. It needs rt. The proved program is built in a
# folder of its own, outside the repository.
set -eu
here=$(cd "$(dirname "$0")" && pwd)
work=$(mktemp -d)
trap 'rm -rf "$work"' EXIT
cp "$here/../HANDLES" "$work"
mkdir -p "$work/crates/hashing_speed/src" "$work/crates/hashing_speed/specs"
for name in $("$here/check.py" --names ots_io ots_detached); do
    (cd "$here/.." && tar -c --exclude=out "crates/$name") | tar -x -C "$work"
    grep "^$name[ :]" "$here/../crates.txt" >> "$work/crates.txt"
done
echo 'hashing_speed: ots_detached ots_ops ots_io sha2 hex anyhow' >> "$work/crates.txt"
cp "$here/hashing/main.rt.in" "$work/crates/hashing_speed/src/main.rt"
: > "$work/crates/hashing_speed/specs/Lib.antt"
"$here/check.py" --in "$work" --program hashing_speed > "$work/log" 2>&1 || {
    cat "$work/log"
    exit 1
}
program=$work/crates/hashing_speed/out/hashing_speed

head -c 1073741824 /dev/urandom > "$work/file"
sync "$work/file"
expected=$(sha256sum < "$work/file")
expected=${expected%% *}
for round in 1 2 3 4 5; do
    for way in sha2 hash_source; do
        answer=$("$program" "$way" "$work/file")
        if [ "${answer% *}" != "$expected" ]; then
            echo "$way: the digest is ${answer% *}, that of sha256sum $expected" >&2
            exit 1
        fi
        echo "$way ${answer#* } ms"
        echo "${answer#* }" >> "$work/$way"
    done
done
median() {
    sort -n "$1" | sed -n 3p
}
echo "$(median "$work/sha2") $(median "$work/hash_source")" |
    awk '{ printf "medians: sha2 %d ms, hash_source %d ms, %.3f times\n", $1, $2, $2 / $1 }'
