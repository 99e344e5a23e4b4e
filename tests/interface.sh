#!/bin/bash
# The C interface: compiles tests/interface.c as C99 and as C++ with warnings as errors, runs both, and runs the first once more under
# valgrind. The header's examples are compiled and run too. The library is taken from MFER_LIB_DIR, else from target/staticlib. The last
# line counts the tests.
set -u
cd "$(dirname "$0")/.." || exit 2
. tests/common.sh

library=${MFER_LIB_DIR:-target/staticlib}/libmfer.a
if [ ! -f "$library" ]; then
    echo "$library is not there: build it with './build archive'" >&2
    exit 2
fi

# Compiles with a compiler and the library to a program of the name given first.
compile() {
    local program=$1 status
    shift
    "$@" -Wall -Wextra -Werror -pedantic -Wconversion -Wshadow -O1 -g -Iinclude -x none "$library" -o "$work/$program"
    status=$?
    count "compile $program" "$status"
    return "$status"
}

cc=${CC:-cc}
cxx=${CXX:-c++}
if compile c99 "$cc" -std=c99 -Wstrict-prototypes tests/interface.c; then
    add last_line "$work/c99"
    add last_line valgrind -q --error-exitcode=99 --leak-check=full "$work/c99" small
fi
if compile cxx "$cxx" -std=c++11 -x c++ tests/interface.c; then
    add last_line "$work/cxx"
fi

# The examples in the header's first comment: document 01's P2, P6 and P9 are printed, a frame of four octets that declares as many samples
# as there may be, and a file that was made.
{
    sed -n '/^ \*     #include <inttypes.h>$/,/^ \*\/$/s/^ \*     //p' include/mfer.h
    cat <<'MAIN'
int main(void)
{
    static const uint8_t p2[] = {0x01, 0x01, 0x01, 0x04, 0x01, 0x02, 0x05, 0x01, 0x02, 0x3F, 0x01, 0x03,
                                 0x04, 0x01, 0x01, 0x1E, 0x06, 0x01, 0x00, 0x02, 0x00, 0xFF, 0xFF};
    static const uint8_t p6[] = {0x05, 0x01, 0x02, 0x3F, 0x02, 0x00};
    static const uint8_t p9[] = {0x06, 0x01, 0x02, 0x1E, 0x02, 0x00, 0x05};
    static const uint8_t declared[] = {0x04, 3, 0x10, 0, 0, 0x06, 4, 0xFF, 0xFF, 0xFF, 0xFF, 0x1E, 4, 0, 1, 0, 2};
    static uint8_t made[MFER_HEAD_OCTETS + MFER_MAKE_ROOM(1, 4) + MFER_MAKE_ROOM(1, 2)];
    size_t length;
    return print_file(p2, sizeof p2) != 0 || print_file(p6, sizeof p6) != 1 || print_file(p9, sizeof p9) != 0 ||
           print_file(declared, sizeof declared) != 0 ||
           make_file(made, sizeof made, &length) != 0 || print_file(made, length) != 0 ||
           make_file(made, length - 1, &length) != 1;
}
MAIN
} > "$work/example.c"
if compile example "$cc" -std=c99 "$work/example.c"; then
    says=$("$work/example" 2>"$work/refusal") &&
        [ "$says" = "$(printf '%s\n' 'frame at 0' 'channel 0: lead 0' 1 2 'channel 1: lead 0' -1 \
            'frame at 0' 'channel 0: lead 0' 5 'no data: 1 samples' \
            'frame at 0' 'channel 0: lead 0' 1 2 'no data: 4503599626321918 samples' \
            'frame at 0' 'channel 0: lead 2' 1 null 'frame at 2' 'channel 0: lead 2' -1)" ] &&
        [ "$(cat "$work/refusal")" = "refused 8 at 3: channel number not below the channel count
refused 23: what is written is longer than the output buffer, or the file than 15's limit (2,147,483,647 octets)" ]
    count "the header's examples" $?
fi

counted
