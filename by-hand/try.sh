#!/bin/sh
# Tries the edits that lie in this folder and not in the gate, which the prover must refuse as it does those of
# crates/NAME/must-fail:
#     by-hand/try.sh [NAME..]
# tries those of the named crates, or of all. It works on a temporary copy of the crates, whose own edits it
# leaves out, and ends with the status of `rt ci`, which proves there what was not proved on this machine before.
set -eu
here=$(CDPATH='' cd -- "$(dirname -- "$0")" && pwd)
top=$here/..
work=$(mktemp -d)
trap 'rm -rf "$work"' EXIT
mkdir "$work/.git" "$work/crates"
cp "$top/crates.txt" "$top/HANDLES" "$work"
for crate in "$top"/crates/*; do
    mkdir "$work/crates/${crate##*/}"
    for part in "$crate"/*; do
        case ${part##*/} in
        out | must-fail) ;;
        *) cp -R "$part" "$work/crates/${crate##*/}/" ;;
        esac
    done
done
[ $# -gt 0 ] || set -- $(cd "$here" && ls -d ots_*)
for name; do
    mkdir "$work/crates/$name/must-fail"
    cp "$here/$name"/*.edit "$work/crates/$name/must-fail/"
done
cd "$work"
rt ci "$@"
