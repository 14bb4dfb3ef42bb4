#!/usr/bin/env bash
# A copy of the program works in an empty root, with the C library that README says.
# The last line is 'N passed, M failed'.
set -u
cd "$(dirname "$0")/.." || exit 2
root=$PWD
source tests/counting.bash
folder=$(mktemp -d)
trap 'rm -rf "$folder"' EXIT

"$root/bin/gomzhiva" --version >"$folder/build" 2>&1 || { cat "$folder/build"; echo '0 passed, 1 failed'; exit 1; }
# in its root are a request and what ldd names, the loader and the C libraries
program=$root/target/rust/release/gomzhiva
copy=$folder/copy
mkdir "$copy"
cp "$program" examples/day.txt "$copy"
ldd "$program" | grep -o '/[^ ]*' | xargs cp -L --parents -t "$copy"
PATH=$PATH:/usr/sbin
chroot "$copy" /gomzhiva --version >/dev/null 2>&1 && enter=(chroot) || enter=(unshare -r chroot)
copied() { "${enter[@]}" "$copy" /gomzhiva "$@" 2>&1; }
check 'a plan' "$(cd "$copy" && "$program" plan day.txt --chart ../day.svg)" "$(copied plan day.txt --chart day.svg)"
cmp "$folder/day.svg" "$copy/day.svg"
check 'a picture' 0 $?
check 'a shift' $'start capacity 5 start 2 end 2 harvest 6 4 0 0 5 5 *e637905d\nrecord 1 3 *f11fcd2b' \
    "$(copied shift start day.txt --journal shift.journal >/dev/null && copied shift record 1 3 --journal shift.journal >/dev/null; cat "$copy/shift.journal")"
said=$(sed -n 's/.*glibc \([0-9.]*[0-9]\) .*/\1/p' README.md)
needs=$(objdump -T "$program" | grep -o 'GLIBC_[0-9.]*' | sed 's/GLIBC_//' | sort -uV | tail -n 1)
[ -n "$needs" ] && [ -n "$said" ] && [ "$(printf '%s\n' "$needs" "$said" | sort -V | tail -n 1)" = "$said" ]
verdict $? "it needs glibc '$needs', and README says '$said'"

finish copied.sh
