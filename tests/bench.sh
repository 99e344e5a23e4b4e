#!/bin/bash
# Runs the bench program on the files of document 01 and at its limits: tests/bench.sh target/bin/bench
set -u

. "$(dirname "$0")/common.sh"

program=$(program_of "${1:?"usage: bench.sh PROGRAM"}")
file=$work/file
line=$work/line

# Holds what the program wrote to the line that is expected; it ended with this status.
compare() {
    printf '%s\n' "$2" >"$work/expected"
    [ "$3" -eq 0 ] && cmp -s "$line" "$work/expected"
    count "$1: $2" $? "status $3, \"$(cat "$line")\""
}

# Runs the program on $file.
run() {
    "$program" <"$file" >"$line"
    compare "$1" "$2" $?
}

# Runs the program on a file in hexadecimal.
hex() {
    octets "$2" >"$file"
    run "$1" "$3"
}

hex P1 "" "frames 0"
hex P2 "01 01 01 04 01 02 05 01 02 3F 01 03 04 01 01 1E 06 01 00 02 00 FF FF" "frames 1"
hex P3 "1E 00" "frames 1"
hex P4 "05 01 02 3F 00 03 0A 01 03 0A 01 05 1E 02 07 08" "frames 1"
hex P5 "3F 00 03 0A 01 03 1E 02 00 09" "frames 1"
hex P6 "05 01 02 3F 02 00" "refused 8 at 3"
hex P7 "0A 80" "refused 2 at 0"
hex P8 "3F 00 80" "refused 10 at 0"
hex P9 "06 01 02 1E 02 00 05" "frames 1"
hex P10 "0D 01 01 1E 02 00 05" "refused 12 at 3"
hex P11 "05 02 01 00 3F 81 7F 03 0A 01 03" "frames 0"
hex "one surplus octet" "1E 03 00 01 02" "frames 1"

rest="08 02 00 00 09 02 00 00 0A 01 00 0B 06 00 00 00 00 03 E8 0C 06 00 FA 00 00 00 01 0D 02 00 00 12 00"
hex "canonical file of P2" "01 01 00 05 04 00 00 00 02 06 04 00 00 00 01 07 04 00 00 00 00 \
3F 00 27 04 04 00 00 00 02 $rest 3F 01 27 04 04 00 00 00 01 $rest 1E 06 00 01 00 02 FF FF" "frames 1"

hex "256 channels" "05 02 01 00 1E 00" "frames 1"
hex "256 channels, 4,294,967,295 sequences, 4 octets" "05 02 01 00 06 04 FF FF FF FF 1E 04 00 01 00 02" "frames 1"
hex "257 channels" "05 02 01 01 1E 00" "refused 7 at 0"

octets "1E 00" | repeated 4096 >"$file"
run "4,096 frames" "frames 4096"
octets "1E 00" >>"$file"
run "4,097 frames" "refused 11 at 8192"

{ octets "1E 82 EA 5C" && zeros 59996; } >"$file"
run "60,000 octets" "frames 1"
octets "00" >>"$file"
run "60,001 octets" "too long"
{ octets "1E 82 EA 5D" && zeros 59996; } >"$file"
run "60,000 octets, one too few for the waveform" "refused 3 at 0"
{ zeros 59998 && octets "20 00"; } >"$file"
run "60,000 octets, a context tag last" "refused 1 at 59998"
zeros 1000000 >"$file"
run "1,000,000 octets" "too long"

# Annex A of source document 000 as document 01 corrects it, with its sequences, the length of its waveform and so many octets.
annex() {
    octets "40 20"
    printf 'MFR Standard 12 leads ECG       '
    octets "17 26"
    printf 'Nihon Manufacture co.^ECG-2003^1.02.33'
    octets "01 01 00 08 01 01 0B 04 01 FD 00 01 0C 04 00 F7 03 E8 04 04 00 00 00 01 05 04 00 00 00 08 06 04 $1"
    for channel in 0 1 2 3 4 5 6 7; do
        octets "3F 0$channel 03 09 01 0$((channel + 1))"
    done
    octets "1E 84 $2"
    zeros "$3"
}
annex "00 00 27 10" "00 02 71 00" 160000 >"$file"
run "annex A, 160,164 octets" "too long"
annex "00 00 03 E8" "00 00 3E 80" 16000 >"$file"
run "annex A with 1,000 sequences" "frames 1"
annex "00 00 27 10" "00 00 3E 80" 16000 >"$file"
run "annex A with a waveform of 16,000 octets" "frames 1"
annex "00 00 27 10" "00 02 71 00" 16000 >"$file"
run "annex A, cut after 16,000 octets of waveform" "refused 3 at 158"

{ octets "05 01 02 3F" && sleep 1 && octets "00 03 0A 01 03 0A 01 05 1E 02 07 08"; } | "$program" >"$line"
compare "P4 in two pieces" "frames 1" $?

# 59 KiB of the stack are the program's own buffer.
octets "05 01 02 3F 00 03 0A 01 03 0A 01 05 1E 02 07 08" >"$file"
(ulimit -s 128 && env -i "$program" <"$file" >"$line")
compare "P4 with a stack of 128 KiB" "frames 1" $?

counted
