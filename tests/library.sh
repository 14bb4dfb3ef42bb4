#!/usr/bin/env bash
# The tests from outside: the Rust tests over libenergy.a, the program's among them, how often a harvest is read, every
# function called from C, what stack it takes, what the archive is and needs, the declarations for Rust against the
# header, and the examples in C and Rust.
# Its last line is 'N passed, M failed'; anything failed exits non-zero.
set -u
cd "$(dirname "$0")/.." || exit 2

library=${ENERGY_LIB_DIR:-crates/energy/out}/libenergy.a
work=$(mktemp -d)
trap 'rm -rf "$work"' EXIT
source tests/counting.bash
compare() { # a test's name, its expected output, and the command
    local name=$1 expected=$2
    shift 2
    "$@" >"$work/out" && diff "$expected" "$work/out"
    verdict $? "$name"
}
c_program() { # a C file and the program to make of it
    ${CC:-cc} -std=c99 -pedantic -Wall -Wextra -Werror -Iinclude "$1" "$library" -o "$2"
}
# mnemonics: the instructions of the archive, each once
mnemonics() { objdump -d --no-show-raw-insn "$library" | sed -nE 's/^ +[0-9a-f]+:\t([a-z0-9]+).*/\1/p' | sort -u; }
# what docs/C.md says of the archive
archive() {
    check 'archive: it exports the functions of the header' "$(sed -nE 's/^(struct Energy[A-Za-z]+|size_t) (energy_[a-z_]+)\(.*/T \2/p' include/energy.h | sort)" \
        "$(nm -g --defined-only "$library" | awk 'NF == 3 { print $2, $3 }' | sort)"
    check 'archive: what it needs' 'memset' "$(nm -u "$library" | sed -n 's/^ *U //p' | sort | paste -sd ' ')"
    check 'archive: its machine' 'elf64-x86-64' "$(objdump -f "$library" | sed -n 's/.*file format //p')"
    check 'archive: bytes that can be written' 0 "$(size "$library" | awk 'NR > 1 { sum += $2 + $3 } END { print sum }')"
    check 'archive: no tables for unwinding' '' "$(readelf -SW "$library" | grep -o '\.eh_frame')"
    mnemonics | grep -qx pcmpgtq
    verdict $? 'archive: instructions of x86-64-v2'
    check 'archive: no instructions of x86-64-v3 and later' '' \
        "$(mnemonics | grep -xE 'v.*|k[a-z]+[bwdq]|andn|bextr|bls.*|bzhi|mulx|pdep|pext|rorx|sarx|shlx|shrx|tzcnt|lzcnt|movbe|xgetbv')"
    ${CC:-cc} -shared -o "$work/energy.so" -Wl,-z,defs -Wl,-z,text -Wl,--whole-archive "$library" -Wl,--no-whole-archive
    verdict $? 'archive: a shared library can be made of it'
    local said
    said=$(sed -nE 's/.* at most ([0-9]+) KiB of code and constants.*/\1/p' docs/C.md)
    [ "$(size "$library" | awk 'NR > 1 { sum += $1 } END { print sum }')" -le $((${said:-0} * 1024)) ]
    verdict $? "archive: code and constants of at most '$said' KiB"
    if command -v "${CXX:-c++}" >/dev/null; then
        "${CXX:-c++}" -std=c++11 -Wall -Wextra -pedantic -Werror -fsyntax-only -x c++ include/energy.h
        verdict $? 'the header is C++'
    else
        echo 'no C++ compiler here: the header is not tried as C++'
    fi
}

if [ -d crates/energy ] && [ -z "${ENERGY_LIB_DIR:-}" ]; then
    tools/library
    verdict $? 'static library'
fi

rust/cargo test -p energy -p evidence -p gomzhiva 2>&1 | tee "$work/log"
status=${PIPESTATUS[0]}
while read -r ok bad; do
    passed=$((passed + ok))
    failed=$((failed + bad))
done < <(sed -n 's/^test result: .* \([0-9]*\) passed; \([0-9]*\) failed;.*/\1 \2/p' "$work/log")
verdict "$status" 'Rust tests'
rust/cargo run -q -p evidence --bin bench -- --reads
verdict $? 'no harvest that is lent is read more often than docs/BENCHMARKS.md says, and no instructions grow by more'
compare 'example in Rust' tests/example.out rust/cargo run -q -p energy --example plan

rust/energy/bindings --check
verdict $? 'declarations for Rust are those of the header'

if [ -f "$library" ]; then
    c_program tests/header.c "$work/header" && compare 'every function from C' tests/header.out "$work/header"
    [ -x "$work/header" ] || verdict 1 'header.c compiles'
    c_program tests/stack.c "$work/stack" && "$work/stack" "$(sed -n 's/.* at most \([0-9]*\) KiB of it\.$/\1/p' include/energy.h)" >"$work/taken"
    verdict $? 'the stack that the header promises'
    check 'BENCHMARKS: the stack of each function' "$(sed -nE 's/^\| `(energy_[a-z_]+)` \|.* ([0-9]+) \|$/\1 \2/p' docs/BENCHMARKS.md | sort)" \
        "$(awk -F'[: ]+' '$2 > most[$1] { most[$1] = $2 } END { for (call in most) print call, int((most[call] + 1023) / 1024) }' "$work/taken" | sort)"
    c_program examples/plan.c "$work/plan" && compare 'example in C' tests/example.out "$work/plan"
    [ -x "$work/plan" ] || verdict 1 'plan.c compiles'
    c_program examples/panel.c "$work/panel" && compare 'example of a panel' tests/panel.out "$work/panel"
    [ -x "$work/panel" ] || verdict 1 'panel.c compiles'
    archive
else
    verdict 1 "there is $library"
fi

finish library.sh
