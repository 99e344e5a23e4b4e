#!/bin/bash
# The README's examples: each command of its `console` blocks writes exactly what stands below it, on standard output and standard error.
# They run in their order, in a folder with links to the repository's; a `c` block is saved under the name in its first line.
# What they use is built before: the command mfer, the static library and the two programs. The last line counts the tests.
set -u
cd "$(dirname "$0")/.." || exit 2
. tests/common.sh

repository=$PWD
PATH=$repository/rust/target/release:$PATH
mkdir "$work/folder" && cd "$work/folder" || exit 2
ln -s "$repository/crates" "$repository/include" "$repository/rust" "$repository/target" .

# Runs a command, if there is one, and holds what it writes to what is expected.
try() {
    if [ -n "$1" ]; then
        printf '%s' "$2" >"$work/expected"
        bash -c "$1" >"$work/wrote" 2>&1
        diff "$work/expected" "$work/wrote" >"$work/difference"
        count "$1" $? $'\n'"$(cat "$work/difference")"
    fi
}

# The kind of the block that a line stands in; in a console block the last command, and what stands below it.
block='' asked='' expected=''
while IFS= read -r line; do
    case $block:$line in
    :'```'*)
        block=${line#'```'}
        ;;
    :*) ;;
    *:'```')
        try "$asked" "$expected"
        block='' asked='' expected=''
        ;;
    console:'$ '*)
        try "$asked" "$expected"
        asked=${line#'$ '} expected=''
        ;;
    console:*)
        expected=$expected$line$'\n'
        ;;
    c:'/* '*'.c */')
        saved=${line#'/* '}
        saved=${saved%' */'}
        : >"$saved"
        ;;
    c:*)
        printf '%s\n' "$line" >>"$saved"
        ;;
    esac
done <"$repository/README.md"

counted
