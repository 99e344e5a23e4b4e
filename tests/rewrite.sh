#!/bin/bash
# Runs the program that writes canonical files on the files of document 01 and at its limits: tests/rewrite.sh target/bin/rewrite
set -u

. "$(dirname "$0")/common.sh"

program=$(program_of "${1:?"usage: rewrite.sh PROGRAM"}")
file=$work/file
wrote=$work/wrote
errors=$work/errors
# What it is to write, and what to say on standard error.
expected=$work/expected
said=$work/said
: >"$said"

# A file's octets in hexadecimal, at most 40 of them.
shown() {
    od -An -v -tx1 -N40 "$1" | tr -d '\n'
}

# Holds what the program wrote, and what it said on standard error, to what is expected; it ended with this status.
compare() {
    [ "$2" -eq 0 ] && cmp -s "$wrote" "$expected" && cmp -s "$errors" "$said"
    same=$?
    count "$1, $(($(wc -c <"$expected"))) octets" "$same" \
        "status $2, $(($(wc -c <"$wrote"))) octets$(shown "$wrote") for$(shown "$expected"), \"$(cat "$errors")\""
}

# Runs the program on a file.
run() {
    "$program" <"$2" >"$wrote" 2>"$errors"
    compare "$1" $?
}

# The same, and once more on what it wrote: that comes back unchanged.
both() {
    run "$1" "$file"
    mv "$wrote" "$work/first"
    run "$1, rewritten" "$work/first"
}

# The same for a file and its canonical file, both in hexadecimal.
hex() {
    octets "$2" >"$file"
    octets "$3" >"$expected"
    both "$1"
}

# A file in hexadecimal that is refused.
refuse() {
    octets "$2" >"$file"
    line "$1" "$3"
}

# Runs the program on $file: a line on standard output.
line() {
    printf '%s\n' "$2" >"$expected"
    run "$1: $2" "$file"
}

# Runs the program on $file: nothing on standard output, one line on standard error.
long() {
    : >"$expected"
    printf 'too long\n' >"$said"
    run "$1: too long" "$file"
    : >"$said"
}

# A channel's group before its type, with its number, length and block length, and from behind its type to its offset.
front() {
    printf '3F %s %s 04 04 00 00 00 %s 08 02 00 00 09 02 00 00 0A 01' "$1" "$2" "$3"
}
scales="0B 06 00 00 00 00 03 E8 0C 06 00 FA 00 00 00 01"

# The group of a channel of type 0, and of one of type 5.
words() {
    printf '%s 00 %s 0D 02 00 00 12 00' "$(front "$1" 27 "$2")" "$scales"
}
bytes() {
    printf '%s 05 %s 0D 01 00 12 00' "$(front "$1" 26 "$2")" "$scales"
}

# What stands before the groups: the channels in two octets, the length and value of 06, pointer 0.
start() {
    printf '01 01 00 05 04 00 00 %s 06 %s 07 04 00 00 00 00' "$1" "$2"
}
once="04 00 00 00 01"
twice="04 00 00 00 02"

hex P1 "" ""
canonical="01 01 00 05 04 00 00 00 02 06 04 00 00 00 01 07 04 00 00 00 00 \
3F 00 27 04 04 00 00 00 02 08 02 00 00 09 02 00 00 0A 01 00 0B 06 00 00 00 00 03 E8 0C 06 00 FA 00 00 00 01 0D 02 00 00 12 00 \
3F 01 27 04 04 00 00 00 01 08 02 00 00 09 02 00 00 0A 01 00 0B 06 00 00 00 00 03 E8 0C 06 00 FA 00 00 00 01 0D 02 00 00 12 00 \
1E 06 00 01 00 02 FF FF"
hex P2 "01 01 01 04 01 02 05 01 02 3F 01 03 04 01 01 1E 06 01 00 02 00 FF FF" "$canonical"
hex "canonical file of P2" "$canonical" "$canonical"
hex P3 "1E 00" "$(start "00 01" 00) $(words 00 01) 1E 00"
hex P4 "05 01 02 3F 00 03 0A 01 03 0A 01 05 1E 02 07 08" "$(start "00 02" "$once") $(bytes 00 01) $(bytes 01 01) 1E 02 07 08"
hex P5 "3F 00 03 0A 01 03 1E 02 00 09" "$(start "00 01" "$once") $(words 00 01) 1E 02 00 09"
refuse P6 "05 01 02 3F 02 00" "refused 8 at 3"
refuse P7 "0A 80" "refused 2 at 0"
refuse P8 "3F 00 80" "refused 10 at 0"
hex P9 "06 01 02 1E 02 00 05" "$(start "00 01" "$twice") $(words 00 01) 1E 02 00 05"
refuse P10 "0D 01 01 1E 02 00 05" "refused 12 at 3"
hex P11 "05 02 01 00 3F 81 7F 03 0A 01 03" ""
hex "one surplus octet" "1E 03 00 01 02" "$(start "00 01" "$once") $(words 00 01) 1E 02 00 01"
hex "half a sample" "06 01 02 1E 01 09" "$(start "00 01" "$twice") $(words 00 01) 1E 00"
hex "a sample and a half, little-endian" "01 01 01 06 01 02 1E 03 05 00 09" "$(start "00 01" "$twice") $(words 00 01) 1E 02 00 05"

hex "every attribute, little-endian" "01 01 01 05 01 01 07 02 FE FF 08 01 07 09 02 34 12 0A 01 02 0B 03 01 FD 05 0C 04 02 01 10 00 \
0D 04 78 56 34 12 12 04 FF FF FF FF 1E 04 04 03 02 01" "01 01 00 05 04 00 00 00 01 06 04 00 00 00 01 07 04 FF FF FF FE \
3F 00 2D 04 04 00 00 00 01 08 02 00 07 09 02 12 34 0A 01 02 0B 06 01 FD 00 00 00 05 0C 06 02 01 00 00 00 10 \
0D 04 12 34 56 78 12 04 FF FF FF FF 1E 04 01 02 03 04"

# A channel number above 127 takes two octets. The 39 octets of a group's items are the same in every channel.
octets "05 02 01 00 1E 00" >"$file"
octets "$(words 00 01)" | tail -c 39 >"$work/items"
{
    octets "$(start "01 00" 00)"
    channel=0
    while [ "$channel" -lt 256 ]; do
        number=$(printf '%02X' $((channel % 128)))
        if [ "$channel" -ge 128 ]; then
            number="81 $number"
        fi
        octets "3F $number 27"
        cat "$work/items"
        channel=$((channel + 1))
    done
    octets "1E 00"
} >"$expected"
both "256 channels"
refuse "257 channels" "05 02 01 01 1E 00" "refused 7 at 0"

{ octets "1E 82 EA 5C" && zeros 59996; } >"$file"
{ octets "$(start "00 01" "04 00 00 75 2E") $(words 00 01) 1E 82 EA 5C" && zeros 59996; } >"$expected"
run "60,000 octets" "$file"
octets "00" >>"$file"
long "60,001 octets"
zeros 1000000 >"$file"
long "1,000,000 octets"

# The canonical file has 120,000 octets: three, 2,104 frames of 57 and one of 69.
{ octets "0A 01 05" && octets "1E 00" | repeated 2104 && octets "1E 08 01 02 03 04 05 06 07 08"; } >"$file"
{
    octets "01 01 00"
    octets "$(start "00 01" 00) $(bytes 00 01) 1E 00" | tail -c 57 | repeated 2104
    octets "$(start "00 01" "04 00 00 00 08") $(bytes 00 01) 1E 08 01 02 03 04 05 06 07 08" | tail -c 69
} >"$expected"
run "a canonical file of 120,000 octets" "$file"
{ octets "0A 01 05" && octets "1E 00" | repeated 2104 && octets "1E 09 01 02 03 04 05 06 07 08 09"; } >"$file"
line "a canonical file of 120,001 octets" "refused 23 at 0"

# 176 KiB of the stack are the program's own buffers.
octets "01 01 00 1E 02 00 01" >"$file"
octets "$(start "00 01" "$once") $(words 00 01) 1E 02 00 01" >"$expected"
(ulimit -s 304 && env -i "$program" <"$file" >"$wrote" 2>"$errors")
compare "a stack of 128 KiB beside the buffers" $?

counted
