#!/bin/sh
# Runs the commands that the pages show, as they are written, and compares what each prints with the page:
#     interop/documented_commands.sh [PREFIX]
# README.md, docs/GUIDE.md, docs/FORMAT.md, docs/HTTP.md, docs/OPERATOR.md: in a block between ``` a line that begins with "$ " is a command,
# and the lines after it, up to the next one, are what it prints. A block of the language sh is one command;
# its lines "# prints TEXT" are what it prints. Blocks that ask a node are left out. man/ots.1, man/otsd.1, man/otsmirror.1,
# man/otsgate.1 and man/otsarchive.1: the same of their literal blocks. The programs have to be built (./run ots, otsd, otsmirror,
# otsgate, otsarchive); xxd, openssl and curl have to be there. It ends with 0 where
# all is as written, with 1 on a difference, and with 70 where the program is not there.
# Where PREFIX is given, as where a package was unpacked, the programs of PREFIX/bin run, by that path, the commands of the
# man pages below PREFIX/share/man. The client there is gahopiki-ots: another program may be called ots.
set -u

top=$(CDPATH='' cd -- "$(dirname -- "$0")/.." && pwd) || exit 70
bin=$top/build
prefix=${1:+$(CDPATH='' cd -- "$1" && pwd)} || exit 70
[ -z "$prefix" ] || bin=$prefix/bin
# The file of a program in that folder.
file_of() {
    if [ -n "$prefix" ] && [ "$1" = ots ]; then echo gahopiki-ots; else echo "$1"; fi
}

for program in ots otsd otsmirror otsgate otsarchive; do
    if [ ! -x "$bin/$(file_of $program)" ]; then
        echo "$bin/$(file_of $program) is not there: ./run $program builds build/$program" >&2
        exit 70
    fi
done
work=$(mktemp -d) || exit 70
trap 'rm -rf "$work"' EXIT
trap 'exit 70' HUP INT TERM

# Writes each command of the page as FOLDER/NUMBER.command, and what it is to print as FOLDER/NUMBER.wanted.
# The number is the line of the page where the command stands.
commands_of() {
    awk -v folder="$2" '
        function begin() {
            name = sprintf("%s/%05d", folder, NR)
            printf "" >(name ".command")
            printf "" >(name ".wanted")
            is_open = 1
        }
        function end() {
            if (is_open) {
                close(name ".command")
                close(name ".wanted")
            }
            is_open = 0
        }
        /^ *```/ || /^\.Bd -literal/ || /^\.Ed/ {
            end()
            inside = !inside
            match($0, /^ */)
            indent = RLENGTH
            is_script = inside && $0 ~ /```sh$/
            if (is_script) begin()
            next
        }
        !inside { next }
        {
            text = $0
            for (i = 0; i < indent && substr(text, 1, 1) == " "; i++) text = substr(text, 2)
        }
        is_script {
            print text >(name ".command")
            if (sub(/^# prints /, "", text)) print text >(name ".wanted")
            next
        }
        text ~ /^\$ / {
            end()
            begin()
            print substr(text, 3) >(name ".command")
            next
        }
        is_open { print text >(name ".wanted") }
    ' "$1"
}

asks_a_node() {
    grep -q -e bitcoin-cli -e litecoin-cli "$1"
}

# A folder in which the page's commands run: the examples, the same files under the names that the guide uses,
# and the two scripts of the repository's top.
make_folder() {
    mkdir -p "$1/bin" || exit 70
    cp -R "$top/examples" "$1/examples"
    cp "$top/examples/headers" "$1/headers"
    cp "$top/examples/coinbase" "$1/file"
    cp "$top/examples/coinbase.ots" "$1/file.ots"
    for program in ots otsd otsmirror otsgate otsarchive; do
        ln -s "$bin/$(file_of $program)" "$1/bin/$program"
    done
    for script in run install; do
        printf '#!/bin/sh\nexec "%s/%s" "$@"\n' "$top" "$script" >"$1/$script"
        chmod +x "$1/$script"
    done
}

run=0
failed=0

# Runs the commands of a page in order, in a folder made for it or in this one below that.
try_page() {
    page=$1
    room=$work/$(basename "$page")
    mkdir -p "$room.commands" || exit 70
    make_folder "$room"
    commands_of "$page" "$room.commands"
    tried=0
    for command in "$room.commands"/*.command; do
        if [ ! -e "$command" ] || asks_a_node "$command"; then
            continue
        fi
        tried=$((tried + 1))
        (cd "$room/$2" && HOME=$room PATH=$room/bin:$PATH sh "$command") </dev/null >"$work/got" 2>"$work/errors"
        if ! cmp -s "$work/got" "${command%.command}.wanted"; then
            failed=$((failed + 1))
            line=$(basename "$command" .command | sed 's/^0*//')
            echo "$page, line $line prints something else than the page says:"
            sed 's/^/    /' "$command"
            diff "${command%.command}.wanted" "$work/got" | sed 's/^/    /'
            sed 's/^/    /' "$work/errors"
        fi
    done
    if [ $tried -eq 0 ]; then
        failed=$((failed + 1))
        echo "$page: no command was found"
    fi
    run=$((run + tried))
    echo "$page: $tried commands"
}

cd "$top" || exit 70
if [ -n "$prefix" ]; then
    mkdir "$work/pages" || exit 70
    for program in ots otsd otsmirror otsgate otsarchive; do
        gzip -dc "$prefix/share/man/man1/$(file_of $program).1.gz" >"$work/pages/$program.1" || exit 70
        try_page "$work/pages/$program.1" examples
    done
else
    for page in README GUIDE FORMAT HTTP OPERATOR; do
        [ $page = README ] || page=docs/$page
        try_page $page.md .
    done
    for program in ots otsd otsmirror otsgate otsarchive; do
        try_page man/$program.1 examples
    done
fi
if [ $failed -ne 0 ]; then
    echo "$failed of $run commands print something else"
    exit 1
fi
echo "all $run commands print what the pages say"
