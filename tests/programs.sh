#!/usr/bin/env bash
# The built program plan on accepted, refused, truncated, oversized and endless inputs, and with reads and writes that fail.
# The last line is 'N passed, M failed'.
set -u
cd "$(dirname "$0")/.." || exit 2
source tests/counting.bash
source tests/plan.bash
folder=$(mktemp -d)
trap 'rm -rf "$folder"' EXIT

plan_built >"$folder/build" 2>&1 || { cat "$folder/build"; echo '0 passed, 1 failed'; exit 1; }

# the limits that the header names
most=$(figure MAX_FRAMES)
other=$(figure OTHER_WORDS)
bytes=$((4 * ($(figure FRAME_WORDS) * most + other)))

# words as bytes, the lowest byte first: word 9 0x40000001 ..
word() {
    local w
    for w in "$@"; do
        printf "$(printf '\\x%02x\\x%02x\\x%02x\\x%02x' $((w & 255)) $((w >> 8 & 255)) $((w >> 16 & 255)) $((w >> 24 & 255)))"
    done
}

# harvest words, so many of them, of one value
harvests() {
    local i
    for ((i = 0; i < $1; i++)); do word $((0x40000000 + $2)); done
}

# the word file of a request: file CAPACITY START END HARVEST ..
file() {
    local h
    word "${@:1:3}"
    for h in "${@:4}"; do harvests 1 "$h"; done
    word $((0xC0000000 + $# - 3))
}

# the words of a frame's least and most
least_word() { word $((0x80000000 + $1)); }
most_word() { word $((0xA0000000 + $1)); }

plan() { $program; }

# the listing of document 01, and other plans
listing='frames 6 capacity 5 needed 6
1 4 4 0
2 3 5 0
3 3 2 0
4 2 0 0
5 4 1 0
6 4 2 0
worth 320 480 100'
file 5 2 2 6 4 0 0 5 5 >"$folder/listing"
check 'listing' "$listing" "$(plan <"$folder/listing")"
check 'listing, capacity 6' 'frames 6 capacity 6 needed 6
1 3 5 0
2 3 6 0
3 3 3 0
4 3 0 0
5 4 1 0
6 4 2 0
worth 320 480 100' "$(file 6 2 2 6 4 0 0 5 5 | plan)"
check 'harvest 1, 2' 'frames 2 capacity 9 needed 0
1 1 0 0
2 2 0 0
worth 48 72 15' "$(file 9 0 0 1 2 | plan)"
check 'capacity 0' 'frames 1 capacity 0 needed 0
1 5 0 0
worth 80 120 25' "$(file 0 0 0 5 | plan)"

# plans within bounds
check 'most 3 in frame 1' 'frames 6 capacity 5 needed 6
1 3 5 0
2 4 5 0
3 3 2 0
4 2 0 0
5 4 1 0
6 4 2 0
worth 320 480 100' "$( (word 5 2 2; harvests 1 6; most_word 3; for h in 4 0 0 5 5; do harvests 1 $h; done; word 0xC0000006) | plan)"
check 'least 3 in frame 4' 'frames 6 capacity 5 needed 6
1 4 4 0
2 3 5 0
3 2 3 0
4 3 0 0
5 4 1 0
6 4 2 0
worth 320 480 100' "$( (word 5 2 2; for h in 6 4 0 0; do harvests 1 $h; done; least_word 3; harvests 2 5; word 0xC0000006) | plan)"
check 'most 1 everywhere, least 1 in frame 1' 'frames 6 capacity 5 needed 2
1 1 5 2
2 1 5 3
3 1 4 0
4 1 3 0
5 1 5 2
6 1 5 4
worth 96 144 30' "$( (word 5 2 2; harvests 1 6; least_word 1; most_word 1; for h in 4 0 0 5 5; do harvests 1 $h; most_word 1; done; word 0xC0000006) | plan)"
check 'a written least of 0' "$listing" "$( (word 5 2 2; harvests 1 6; least_word 0; for h in 4 0 0 5 5; do harvests 1 $h; done; word 0xC0000006) | plan)"

# files that the plan program refuses
check 'no byte' 'refused 8 0' "$(printf '' | plan)"
check 'one byte' 'refused 8 0' "$(printf '\0' | plan)"
check 'two bytes' 'refused 8 0' "$(printf '\0\0' | plan)"
check 'three bytes' 'refused 8 0' "$(printf '\0\0\0' | plan)"
check 'a first word of kind 1' 'refused 8 0' "$(word 0x40000001 | plan)"
check 'three figures and nothing' 'refused 8 3' "$(word 0 0 0 | plan)"
check 'three figures, no frames' 'refused 1 0' "$(word 0 0 0 0xC0000000 | plan)"
check 'a fourth figure' 'refused 8 3' "$(word 9 0 0 9 | plan)"
check 'a least before the first harvest' 'refused 8 3' "$(word 9 0 0 0x80000001 0x40000001 0xC0000001 | plan)"
check 'a most before the first harvest' 'refused 8 3' "$(word 9 0 0 0xA0000001 0x40000001 0xC0000001 | plan)"
check 'a least behind a most' 'refused 8 5' "$(word 9 0 0 0x40000001 0xA0000001 0x80000001 0xC0000001 | plan)"
check 'a second least' 'refused 8 5' "$(word 9 0 0 0x40000001 0x80000001 0x80000001 0xC0000001 | plan)"
check 'a second most' 'refused 8 6' "$(word 9 0 0 0x40000001 0x80000001 0xA0000001 0xA0000001 0xC0000001 | plan)"
check 'a count of all words' 'refused 8 6' "$(word 9 0 0 0x40000001 0x80000001 0xA0000001 0xC0000003 | plan)"
check 'a least above its most' 'refused 10 2' "$(word 9 0 0 0x40000001 0x40000001 0x80000002 0xA0000001 0xC0000002 | plan)"
check 'leasts that are not feasible' 'refused 11 0' "$(word 9 0 0 0x40000001 0x80000002 0xC0000001 | plan)"
check 'a wrong count' 'refused 8 5' "$(word 9 0 0 0x40000001 0x40000002 0xC0000003 | plan)"
check 'no end word' 'refused 8 5' "$(word 9 0 0 0x40000001 0x40000002 | plan)"
check 'a truncated end word' 'refused 8 5' "$(word 9 0 0 0x40000001 0x40000002 0xC0000002 | head -c 23 | plan)"
check 'a byte after the end word' 'refused 8 6' "$( (word 9 0 0 0x40000001 0x40000002 0xC0000002; printf 'x') | plan)"
check 'a word after the end word' 'refused 8 6' "$(word 9 0 0 0x40000001 0x40000002 0xC0000002 0 | plan)"
check 'a file after a file' 'refused 8 5' "$(word 9 0 0 0x40000001 0xC0000001 9 0 0 0x40000001 0xC0000001 | plan)"
check 'the largest figure' 'refused 3 0' "$(word 0x3FFFFFFF 0 0 0x40000001 0xC0000001 | plan)"
check 'the largest harvest value' 'refused 6 2' "$(word 9 0 0 0x40000001 0x7FFFFFFF 0xC0000002 | plan)"
check 'harvest 400,001' 'refused 6 1' "$(word 9 0 0 $((0x40000000 + 400001)) 0xC0000001 | plan)"
check 'start above capacity' 'refused 4 0' "$(word 9 10 0 0x40000001 0xC0000001 | plan)"
check 'end above capacity' 'refused 5 0' "$(word 9 0 10 0x40000001 0xC0000001 | plan)"
check 'out of reach' 'refused 9 1' "$(word 8 3 8 0x40000004 0xC0000001 | plan)"

# the limits of the file's size
frames() { (word 9 0 0; harvests "$1" 1; word $((0xC0000000 + $1))); }
check 'one frame too many' 'refused 2 0' "$(frames $((most + 1)) | plan)"
check 'one frame too many: bytes' $((4 * (most + 1 + other))) "$(frames $((most + 1)) | wc -c)"
check 'the most frames without bounds' "frames $most capacity 9 needed 0" "$(frames "$most" | plan | head -n 1)"
(word 9 0 0; for ((i = 0; i < most; i++)); do word 0x40000001 0x80000001 0xA0000001; done; word $((0xC0000000 + most))) >"$folder/full"
check 'size of a full file' "$bytes" "$(wc -c <"$folder/full")"
check 'the most frames' "frames $most capacity 9 needed 0" "$(plan <"$folder/full" | head -n 1)"
check 'the most frames: lines' $((most + 2)) "$(plan <"$folder/full" | wc -l)"
check 'the most bytes and one more' 'refused 2 0' "$( (cat "$folder/full"; printf 'x') | plan)"
check 'the most bytes of no file' 'refused 8 0' "$(head -c "$bytes" /dev/zero | tr '\0' '\377' | plan)"
check 'the most bytes of no file and one more' 'refused 2 0' "$(head -c $((bytes + 1)) /dev/zero | tr '\0' '\377' | plan)"
check 'an endless input' 'refused 2 0' "$(timeout 20 $program </dev/zero)"
check 'an input in small pieces' "$listing" "$(while IFS= read -r -d '' -n 1 b || [ -n "$b" ]; do if [ -n "$b" ]; then printf '%s' "$b"; else printf '\0'; fi; done <"$folder/listing" | plan)"

# reads and writes that fail, and such as move few bytes at a time: told on standard error, and after a failed read nothing is printed
cc -shared -fPIC -O1 -Wall -Wextra -Werror -o "$folder/faults.so" tests/faults.c || echo 'tests/faults.c: not compiled'
plan_out() { env "$@" LD_PRELOAD="$folder/faults.so" $program <"$folder/listing" 2>/dev/null; }
plan_err() { env "$@" LD_PRELOAD="$folder/faults.so" $program <"$folder/listing" 2>&1 >/dev/null; }
check 'reads and writes of 7 bytes' "$listing" "$(plan_out PIECE=7)"
check 'reads and writes of 7 bytes: nothing told' '' "$(plan_err PIECE=7)"
check 'reads and writes of 1 byte' "$listing" "$(plan_out PIECE=1)"
check 'the first read fails' '' "$(plan_out READS=0)"
check 'the first read fails: told' 'plan: standard input: Input/output error' "$(plan_err READS=0)"
check 'the fifth read fails' '' "$(plan_out PIECE=7 READS=4)"
check 'the fifth read fails: told' 'plan: standard input: Input/output error' "$(plan_err PIECE=7 READS=4)"
check 'the read for the end fails' '' "$(plan_out READS=1)"
check 'the read for the end fails: told' 'plan: standard input: Input/output error' "$(plan_err READS=1)"
check 'the first write fails: told' 'plan: standard output: Input/output error' "$(plan_err WRITES=0)"
check 'the third write fails: told' 'plan: standard output: Input/output error' "$(plan_err PIECE=7 WRITES=2)"
check 'a directory' '' "$($program <"$folder" 2>/dev/null)"
check 'a directory: told' 'plan: standard input: Is a directory' "$($program <"$folder" 2>&1 >/dev/null)"
check 'a closed input: told' 'plan: standard input: Bad file descriptor' "$($program 2>&1 >/dev/null <&-)"
check 'a full disk: told' 'plan: standard output: No space left on device' "$($program <"$folder/listing" 2>&1 >/dev/full)"
check 'a closed output: told' 'plan: standard output: Bad file descriptor' "$($program <"$folder/listing" 2>&1 >&-)"

# the exit status: 1 where a read or a write failed, else 0
status() { "$@" >/dev/null 2>&1; echo $?; }
check 'status of a listing' 0 "$(status $program <"$folder/listing")"
check 'status of a refusal' 0 "$(status $program </dev/null)"
check 'status of a failed read' 1 "$(status $program <"$folder")"
check 'status of a failed write' 1 "$(status env WRITES=0 LD_PRELOAD="$folder/faults.so" $program <"$folder/listing")"

finish programs.sh
