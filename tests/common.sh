# What the test scripts share; they source it, in bash. `work` is a folder of the script's own, which is removed when it ends.

work=$(mktemp -d) || exit 2
trap 'rm -rf "$work"' EXIT
passed=0
failed=0

# Counts a test by a status, 0 where it went well; where it did not, the words after it are said.
count() {
    if [ "$2" -eq 0 ]; then
        passed=$((passed + 1))
        printf 'test %s ... ok\n' "$1"
    else
        failed=$((failed + 1))
        printf 'test %s ... FAILED%s\n' "$1" "${3:+: $3}"
    fi
}

# The script's last line; its status is the script's.
counted() {
    printf '%s passed, %s failed\n' "$passed" "$failed"
    [ "$failed" -eq 0 ]
}

# The tests that a program counts in its last line.
last_line() {
    tail -n 1 "$1" | sed -n 's/^\([0-9]\{1,\}\) passed, \([0-9]\{1,\}\) failed$/\1 \2/p'
}

# Runs a command, shows what it says, and adds the tests that the function named first finds there. A command that fails without a failed
# test is one failure, and so is one that counts no test.
add() {
    local counts=$1 status good bad tests=0 more=0 began=$SECONDS
    shift
    echo "=== $*"
    "$@" 2>&1 | tee "$work/says"
    status=${PIPESTATUS[0]}
    while read -r good bad; do
        passed=$((passed + good))
        tests=$((tests + good + bad))
        more=$((more + bad))
    done < <("$counts" "$work/says")
    if { [ "$status" -ne 0 ] || [ "$tests" -eq 0 ]; } && [ "$more" -eq 0 ]; then
        more=1
    fi
    failed=$((failed + more))
    echo "=== exit status $status, $tests tests, $more failures, $((SECONDS - began)) s"
}

# A program's name as it can be called.
program_of() {
    case $1 in
    */*) printf '%s' "$1" ;;
    *) printf './%s' "$1" ;;
    esac
}

# Octets from hexadecimal, each two digits and set apart by spaces.
octets() {
    for octet in $1; do
        printf '%b' "\\0$(printf '%03o' "0x$octet")"
    done
}

# N zero octets.
zeros() {
    dd if=/dev/zero bs="$1" count=1 2>/dev/null
}

# N copies of standard input.
repeated() {
    cat >"$work/copies"
    : >"$work/all"
    left=$1
    while [ "$left" -gt 0 ]; do
        if [ $((left % 2)) -eq 1 ]; then
            cat "$work/copies" >>"$work/all"
        fi
        cat "$work/copies" "$work/copies" >"$work/twice"
        mv "$work/twice" "$work/copies"
        left=$((left / 2))
    done
    cat "$work/all"
}
