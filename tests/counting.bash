# Sourced by the scripts of this folder and by the gate: what passed and what failed, the last line that says so, and numbers of the header.
export LC_ALL=C.UTF-8 # what the tools say is compared
unset LANGUAGE
passed=0
failed=0
least_file=$(dirname "${BASH_SOURCE[0]}")/least

# least PATTERN: how much the names that match it pass at least, by the file of that name; nothing where no name does
least() { awk -v names="^($1)\$" '$1 ~ names { sum += $2; found = 1 } END { if (found) print sum }' "$least_file"; }

# figure NAME: a number that the header defines
figure() { sed -n "s/^#define ENERGY_$1 \([0-9]*\)\$/\1/p" include/energy.h; }

# verdict STATUS NAME
verdict() {
    if [ "$1" -eq 0 ]; then
        passed=$((passed + 1))
    else
        failed=$((failed + 1))
        echo "FAILED: $2"
    fi
}

# check NAME EXPECTED ACTUAL
check() {
    [ "$2" = "$3" ]
    verdict $? "$1$(printf '\n  expected: %q\n  found:    %q' "$2" "$3")"
}

# counted COMMAND ..: runs a command that ends with 'N passed, M failed' and adds its counts
counted() {
    local log status
    log=$(mktemp)
    "$@" 2>&1 | tee "$log"
    status=${PIPESTATUS[0]}
    if [[ $(tail -n 1 "$log") =~ ^([0-9]+)\ passed,\ ([0-9]+)\ failed$ ]]; then
        passed=$((passed + BASH_REMATCH[1]))
        failed=$((failed + BASH_REMATCH[2]))
        [ "$status" -eq 0 ] || [ "${BASH_REMATCH[2]}" -gt 0 ] || verdict 1 "$*: status $status"
    else
        verdict 1 "$*: did not end with its counts"
    fi
    rm -f "$log"
}

# finish PATTERN: the counts as the last line; fails where something failed, or fewer passed than tests/least says of the names that match
finish() {
    local least
    least=$(least "$1")
    [ "$failed" -gt 0 ] || [ "$passed" -ge "$least" ] || verdict 1 "only $passed passed, and tests/least says '$least': a check, an edit or a row is gone"
    printf '%d passed, %d failed\n' "$passed" "$failed"
    [ "$failed" -eq 0 ]
    exit
}
