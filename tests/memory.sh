#!/bin/bash
# Memory: a smaller corpus through the comparison program under valgrind, which sees a read or a write past a file or a buffer.
# MFER_MEMORY_FILES sets how many generated files (default 300); of calls of the maker there are as many. The last line counts the tests.
set -u
cd "$(dirname "$0")/../rust" || exit 2
. ../tests/common.sh

cargo build --release --quiet --offline --locked --package compare || exit 2
program=${CARGO_TARGET_DIR:-target}/release/compare

# Starts the program with these words; `ended` waits for it and counts it.
start() {
    valgrind -q --error-exitcode=99 "$program" "$@" > "$work/$1" 2>&1 &
}
ended() {
    local status
    wait "$1"
    status=$?
    cat "$work/$2"
    count "compare $2 under valgrind" "$status" "status $status"
}

# Valgrind takes one processor for all threads of a program.
files=${MFER_MEMORY_FILES:-300}
start small
small=$!
start "$files" 7000000
generated=$!
ended "$small" small
start make "$files" 7000000
made=$!
ended "$generated" "$files"
ended "$made" make

counted
