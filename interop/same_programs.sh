#!/bin/sh
# Whether the five programs are the same bytes wherever and whenever they are built:
#     interop/same_programs.sh                   proves and builds them from nothing in two clones of this commit, in folders
#                                                whose names have different lengths, and compares the two
#     interop/same_programs.sh --audit           the same in one clone, and compares with the table of docs/AUDIT.md
#     interop/same_programs.sh --built FOLDER..  compares the programs that lie in these folders with that table
# It prints a line for each program, and ends with 0 where all are the same, with 1 where one differs, with 64 on other
# words, and with what `rt ci` ends with where that fails. From nothing it takes hours: each clone proves all that the
# programs stand on.
set -u
programs='ots otsd otsmirror otsgate otsarchive'
top=$(CDPATH='' cd -- "$(dirname -- "$0")/.." && pwd) || exit 70
work=
trap '[ -z "$work" ] || rm -rf "$work"' EXIT

# The SHA-256 of each program of a folder, as NAME SUM, in the order of their names. Of a package the client is gahopiki-ots.
sums_of() {
    for program in $programs; do
        file=$1/$program
        [ "$program" != ots ] || [ ! -e "$1/gahopiki-ots" ] || file=$1/gahopiki-ots
        echo "$program $(sha256sum < "$file" | cut -d ' ' -f 1)"
    done | sort
}

# The same of the table of docs/AUDIT.md.
sums_of_audit() {
    sed -n 's/^| `\(ots[a-z]*\)` | `\([0-9a-f]\{64\}\)` |$/\1 \2/p' "$top/docs/AUDIT.md" | sort
}

# Proves and builds the programs from nothing in a clone of which only their crates are left, without the edits that must be
# refused, which say nothing of the programs; and puts them into a folder.
build() {
    git clone -q "$top" "$1" || return 70
    needed=$(cd "$1" && python3 bench/check.py --names $programs) || return 70
    for crate in "$1"/crates/*; do
        case " $(echo $needed) " in
        *" ${crate##*/} "*) rm -rf "$crate/must-fail" ;;
        *) rm -rf "$crate" ;;
        esac
    done
    echo $needed | tr ' ' '\n' | awk '
        NR == FNR { wanted[$1] = 1; next }
        { sub(/#.*/, "") }
        /:/ { split(substr($0, 1, index($0, ":") - 1), words, " "); if (words[1] in wanted) print }
    ' - "$1/crates.txt" > "$1/crates.new"
    mv "$1/crates.new" "$1/crates.txt"
    (cd "$1" && rt ci --anew) >&2 || return
    mkdir -p "$2"
    for program in $programs; do
        cp "$1/crates/$program/out/$program" "$2/" || return 70
    done
}

# Compares two lists of sums, named by the rest of the line.
compare() {
    one=$1
    other=$2
    shift 2
    [ "$(grep -c . "$one")" = "$(echo $programs | wc -w)" ] || { echo "there are no sums of all programs in $*" >&2; return 1; }
    if cmp -s "$one" "$other"; then
        sed "s|\$| the same: $*|" "$one"
        return 0
    fi
    diff "$one" "$other"
    echo "they differ: $*"
    return 1
}

work=$(mktemp -d) || exit 70
sums_of_audit > "$work/audit"
case ${1-} in
'')
    build "$work/a" "$work/first" || exit
    build "$work/a-longer-name" "$work/second" || exit
    sums_of "$work/first" > "$work/one"
    sums_of "$work/second" > "$work/two"
    compare "$work/one" "$work/two" "two clones"
    ;;
--audit)
    build "$work/clone" "$work/first" || exit
    sums_of "$work/first" > "$work/one"
    compare "$work/one" "$work/audit" "a clone and docs/AUDIT.md"
    ;;
--built)
    shift
    [ $# -gt 0 ] || exit 64
    status=0
    for folder; do
        sums_of "$folder" > "$work/one"
        compare "$work/one" "$work/audit" "$folder and docs/AUDIT.md" || status=1
    done
    exit $status
    ;;
*) exit 64 ;;
esac
