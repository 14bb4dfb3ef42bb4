#!/usr/bin/env bash
# bin/gomzhiva in a folder with a blank in its name where installing, proving and building are stand-ins that succeed or fail: what is not proved is
# never run, what is told of it is told in time, and nothing runs on; then tools/install and tools/library over stand-ins for apt-get and rattle, and
# tools/bench over stand-ins for these.
# The last line is 'N passed, M failed'.
set -u
cd "$(dirname "$0")/.." || exit 2
source tests/counting.bash
folder=$(mktemp -d)/'a b'
trap 'rm -rf "${folder%/*}"' EXIT
mkdir -p "$folder"/{bin,crates/model,crates/energy,include,rust/energy,rust/gomzhiva/src,rust/gomzhiva/tests,tools,kit}
cp bin/gomzhiva "$folder/bin"
cp tools/program "$folder/tools"
touch "$folder"/crates.txt "$folder"/rust/Cargo.toml "$folder"/rust/README.md "$folder"/rust/gomzhiva/tests/a.rs

# stand_in FILE: what stands on standard input, as a program
stand_in() {
    cat >"$1"
    chmod +x "$1"
}
# step NAME appends it to the log, and that it holds the lock where it does, and fails where it stands in the file 'fails'; in_time PATTERN FILE
# waits for a line, but not for ever; endless is a job with a child, neither of which is to end by itself, nor, where it is stubborn, when it is
# asked to
stand_in "$folder/steps" <<'EOF'
folder=$(dirname "$0")/..
fails() { grep -qx "$1" "$folder/fails"; }
locked() { [ ! -e "/proc/$$/fd/9" ] || echo locked; }
step() { cat; echo "$1" $(locked) >>"$folder/log"; ! fails "$1"; }
in_time() { for _ in $(seq 3000); do ! grep -q "$1" "$folder/$2" || return 0; sleep 0.1; done; echo "no $1 in $2" >>"$folder/log"; return 1; }
endless() { ! fails stubborn || trap '' TERM; sleep 300 & echo $$ $! >>"$folder/running"; wait; echo ended >>"$folder/log"; }
EOF
stand_in "$folder/kit/rt" </dev/null
# it goes on only when what it installs is told
stand_in "$folder/tools/install" <<'EOF'
#!/bin/bash
. "$(dirname "$0")/../steps"
[ ! -e "$folder/missing" ] || { echo installing gcc cargo; in_time 'installing gcc' told; }
echo 'Setting up: installing is under way'
step install
EOF
# it goes on only when the other job has begun and a crate's line is told, if it can be; where it fails the other job would not end
stand_in "$folder/tools/library" <<'EOF'
#!/bin/bash
. "$(dirname "$0")/../steps"
echo '1 of 3 crates proved already'
step prove || { in_time . running; echo 'fn model::x: NOT PROVED' >&2; exit 1; }
! fails 'crates\|nothing\|stubborn' || endless
in_time crates log
echo '2 of 3 crates proved: model'
fails untold || in_time '2 of 3' told
echo '3 of 3 crates proved: energy'
EOF
# it makes the program, unless it is to go elsewhere
stand_in "$folder/rust/cargo" <<'EOF'
#!/bin/bash
. "$(dirname "$0")/../steps"
case "$*" in
tree*) printf '%s\n' 'gomzhiva v0.1.0 (/rust/gomzhiva)' 'clap v4.0.32' 'energy v0.1.0 (/rust/energy)' 'libc v0.2.139' ;;
'build --release -p clap:4.0.32 -p libc:0.2.139')
    in_time prove log
    ! fails crates || { in_time . running; in_time '1 of 3' told; }
    echo '   Compiling clap v4.0.32' >&2
    step crates || { echo 'error: no matching package' >&2; exit 101; }
    ! fails 'prove\|nothing\|stubborn' || endless ;;
'build --release -p gomzhiva')
    step build
    ! fails elsewhere || exit 0
    mkdir -p "$CARGO_TARGET_DIR/release"
    printf '#!/bin/sh\necho ran "$@"\n[ ! -e /proc/$$/fd/9 ] || echo locked\ncat\n' >"$CARGO_TARGET_DIR/release/gomzhiva"
    chmod +x "$CARGO_TARGET_DIR/release/gomzhiva"
    ! fails build ;;
*) echo "cargo $*" >>"$folder/log" ;;
esac
EOF

# run FAILING: the program with that step failing; what it printed, its status, and the steps that ran
run() {
    echo "$1" >"$folder/fails"
    : >"$folder/log"
    : >"$folder/running"
    local out status
    out=$(cd / && echo input | CARGO_TARGET_DIR=/nowhere PATH="$folder/kit:$PATH" "${gomzhiva:-$folder/bin/gomzhiva}" plan - 2>"$folder/told")
    status=$?
    echo "$out status $status: $(xargs <"$folder/log")"
}
# under_way FAILING: the program, whose process is $!, and both jobs, which would not end
under_way() {
    echo "$1" >"$folder/fails"
    : >"$folder/log"
    : >"$folder/running"
    PATH="$folder/kit:$PATH" env --default-signal "$folder/bin/gomzhiva" plan - </dev/null >/dev/null 2>&1 &
    until [ "$(wc -l <"$folder/running")" -eq 2 ] || ! kill -0 $!; do sleep 0.1; done
}
# interrupted SIGNAL FAILING: the program with that signal while both jobs are under way; its status, and the steps that ran
interrupted() {
    under_way "${2:-nothing}"
    kill -s "$1" $!
    wait $!
    echo "status $?: $(xargs <"$folder/log")"
}
# second SIGNAL: the program while another call of it is under way, or its jobs alone after that signal, until they end; what it printed, its
# status, and the steps of both
second() {
    local status
    under_way nothing
    kill -s "$1" $!
    echo none >"$folder/fails"
    : >"$folder/told"
    echo input | PATH="$folder/kit:$PATH" "$folder/bin/gomzhiva" plan - >"$folder/out" 2>"$folder/told" &
    until grep -q 'another call' "$folder/told" || ! kill -0 $!; do sleep 0.1; done
    # shellcheck disable=SC2046 # the processes are parted by blanks
    kill $(cat "$folder/running")
    wait $!
    status=$?
    echo "$(cat "$folder/out") status $status: $(xargs <"$folder/log")"
} 2>/dev/null
# the jobs of the last run that are still there
left() {
    local process
    for process in $(cat "$folder/running"); do [ ! -e "/proc/$process/exe" ] || echo "$process"; done
}
older() { touch -d '1 hour ago' "$folder/target/gomzhiva.built"; }
# what the last run told, and what its log holds of the other job and of failures
told() { sed "s|$folder/||" "$folder/told"; }
logged() { grep -E 'Compiling|NOT PROVED|error' "$folder/target/gomzhiva.log"; }

begins='gomzhiva: not built, or older than its sources: proving the library and building the program; from nothing this takes 5 to 6 minutes on four processors
gomzhiva: the log is target/gomzhiva.log'
proves='gomzhiva: 1 of 3 crates proved already
gomzhiva: 2 of 3 crates proved: model
gomzhiva: 3 of 3 crates proved: energy
gomzhiva: building the program'

check 'a failed installation' ' status 3: install' "$(run install)"
check 'a failed proof' ' status 3: install prove crates' "$(run prove)"
check 'a failed proof: the job beside it does not run on' '' "$(left)"
check 'a failed proof is told, with the log' "$begins
gomzhiva: 1 of 3 crates proved already
$(cat "$folder/target/gomzhiva.log")
gomzhiva: not built: see above, or target/gomzhiva.log" "$(told)"
check 'a failed proof stands in the log' 'fn model::x: NOT PROVED
   Compiling clap v4.0.32' "$(logged | sort -r)"
check 'a failed job beside the proofs' ' status 3: install prove crates' "$(run crates)"
check 'the proofs do not run on' '' "$(left)"
check 'a failed job is told, with the log' "$begins
gomzhiva: 1 of 3 crates proved already
1 of 3 crates proved already
   Compiling clap v4.0.32
error: no matching package
gomzhiva: not built: see above, or target/gomzhiva.log" "$(told | grep -v Setting)"
check 'a failed build' ' status 3: install prove crates build' "$(run build)"
check 'a program that went elsewhere' ' status 3: install prove crates build' "$(run elsewhere)"
check 'nothing failed: the input is the program'\''s' $'ran plan -\ninput status 0: install prove crates build' "$(run none)"
check 'what is told: nothing of installing, where nothing is missing' "$begins"$'\n'"$proves" "$(told)"
check 'the log is kept' '   Compiling clap v4.0.32' "$(logged)"
check 'it is built' $'ran plan -\ninput status 0: ' "$(run prove)"
check 'it is built: nothing is told' '' "$(told)"
older
check 'sources are newer and the proof fails: no old program is run' ' status 3: install prove crates' "$(run prove)"
check 'and not at the next call either' ' status 3: install prove crates' "$(run prove)"
older
check 'a program that went elsewhere: no old one is run' ' status 3: install prove crates build' "$(run elsewhere)"
touch "$folder/missing"
check 'it is built again' $'ran plan -\ninput status 0: install prove crates build' "$(run none)"
check 'what is told: what is installed, before that is done' "$begins"$'\ngomzhiva: installing gcc cargo\n'"$proves" "$(told)"
rm "$folder/missing"
touch -d '1 hour' "$folder"/rust/README.md "$folder"/rust/gomzhiva/tests/a.rs
check 'documents and tests are no sources' $'ran plan -\ninput status 0: ' "$(run prove)"
touch -d '1 hour' "$folder/crates/model/out/kept"
check 'what rt keeps is no source' $'ran plan -\ninput status 0: ' "$(run prove)"
mkdir "$folder/path" && ln -s "$folder/bin/gomzhiva" "$folder/path/planner"
check 'by a link from another folder' $'ran plan -\ninput status 0: ' "$(PATH=$folder/path:$PATH gomzhiva=planner run prove)"
older
check 'an interruption' 'status 130: install prove crates' "$(interrupted INT)"
check 'an interruption: nothing runs on' '' "$(left)"
check 'an end from outside' 'status 143: install prove crates' "$(interrupted TERM)"
check 'an end from outside: nothing runs on' '' "$(left)"
check 'a closed terminal' 'status 129: install prove crates' "$(interrupted HUP)"
check 'a closed terminal: nothing runs on' '' "$(left)"
check 'an end that the jobs do not heed' 'status 143: install prove crates' "$(interrupted TERM stubborn)"
check 'an end that the jobs do not heed: nothing runs on' '' "$(left)"
waits="gomzhiva: another call builds the program; its log is target/gomzhiva.log"
both=$'ran plan -\ninput status 0: install prove crates install prove crates build'
check 'a second call waits until the first one has failed' "$both" "$(second 0)"
check 'it tells that it waits' "$waits"$'\n'"$begins"$'\n'"$proves" "$(told)"
older
check 'a second call waits for what a killed one began' "$both" "$(second KILL)"
check 'it tells that it waits, too' "$waits"$'\n'"$begins"$'\n'"$proves" "$(told)"
# standard error is closed, is full, or has no reader any more
for nobody in '2>&-' '2>/dev/full' '2>&8'; do
    stand_in "$folder/untold" <<EOF
#!/bin/bash
exec 8> >(:)
wait \$!
exec "$folder/bin/gomzhiva" "\$@" $nobody
EOF
    older
    check "a failed proof with $nobody" ' status 3: install prove crates' "$(gomzhiva=$folder/untold run prove)"
    check "a build with $nobody" $'ran plan -\ninput status 0: install prove crates build' "$(gomzhiva=$folder/untold run untold)"
done
older
check 'no old program is run after that' ' status 3: install prove crates' "$(run prove)"
check 'but a new one' $'ran plan -\ninput status 0: install prove crates build' "$(run none)"
touch -d '1 hour' "$folder/crates/model"
check 'a source that came or went' ' status 3: install prove crates' "$(run prove)"

check 'and then the build' $'ran plan -\ninput status 0: install prove crates build' "$(touch -d '1 hour ago' "$folder/crates/model"; run none)"
mv "$folder/include" "$folder/gone"
check 'sources that cannot be looked at' ' status 3: install prove crates' "$(run prove)"
rm "$folder/target/gomzhiva.lock" && mkdir "$folder/target/gomzhiva.lock"
check 'a lock that cannot be had' ' status 3: ' "$(run none)"
check 'a lock that cannot be had is told' 'gomzhiva: the program has to be built, and the folder target cannot be written' "$(told | tail -n 1)"
mkdir "$folder/elsewhere"
check 'tools/program: a log by a relative name' '   Compiling clap v4.0.32' \
    "$(echo untold >"$folder/fails"; cd "$folder/elsewhere" && "$folder/tools/program" log >/dev/null </dev/null; grep Compiling log)"

# tools/library over stand-ins for the kit: what it says of four crates, of which the library stands on three
real=$folder/real
mkdir -p "$real"/{tools,kit/bin,debian} "$real"/crates/{model,request,energy,day}/src
cp tools/library tools/install "$real/tools"
printf '%s\n' 'model:' 'request: model' 'energy staticlib: model request' 'day: model' >"$real/crates.txt"
touch "$real"/crates/{model,request,energy,day}/src/lib.rt "$real/kit/KIT-ID"
stand_in "$real/kit/bin/rt" </dev/null
stand_in "$real/kit/bin/rattle" <<'EOF'
#!/bin/bash
for argument; do [[ $argument != b/* ]] || { echo 'half a path'; exit 1; }; done
[ ! -e "$(dirname "$0")/refuses-$3" ] || { echo "fn $3::x: NOT PROVED" >&2; exit 1; }
echo "proved $3"
case ${!#} in *.a) touch "${!#}" ;; *) mkdir -p "${!#}" && touch "${!#}/format" ;; esac
EOF
library() { PATH="$real/kit/bin:$PATH" "$real/tools/library" 2>/dev/null | grep ' of '; echo "status ${PIPESTATUS[0]}"; }

check 'the library from nothing' '0 of 3 crates proved already
1 of 3 crates proved: model
2 of 3 crates proved: request
3 of 3 crates proved: energy
status 0' "$(library)"
check 'the library stands' $'3 of 3 crates proved already\nstatus 0' "$(library)"
touch "$real/crates/request/src/lib.rt" "$real/kit/bin/refuses-energy"
check 'a crate that is newer, and one above it that is refused' $'1 of 3 crates proved already\n2 of 3 crates proved: request\nstatus 2' "$(library)"
rm "$real/kit/bin/refuses-energy"
check 'what was proved then is not proved again' $'2 of 3 crates proved already\n3 of 3 crates proved: energy\nstatus 0' "$(library)"

stand_in "$real/kit/bin/make" <<'EOF'
#!/bin/bash
case "$*" in *--always-make*) PATH=${PATH#*:} exec make "$@" ;; *) exit 2 ;; esac
EOF
check 'make fails before anything is proved' 'status 2' "$(library)"

# tools/install over stand-ins for Debian's commands
stand_in "$real/debian/apt-get" <<'EOF'
#!/bin/sh
echo "apt-get $*"
EOF
stand_in "$real/debian/dpkg-query" <<'EOF'
#!/bin/sh
[ ! -e "$(dirname "$0")/installed" ] || echo install ok installed
EOF
ln -s "$(command -v grep)" "$(command -v dirname)" "$(command -v sh)" "$real/debian"
install() { PATH=$real/debian "$BASH" "$real/tools/install" program; }
# packages BEHIND: the names on the lines, each of which has them behind that word
packages() { sed "s/.*$1 //" | xargs; }
said=$(install)
check 'what is missing is told first' 'installing gcc cargo make librust-' "$(head -n 1 <<<"$said" | grep -o '^installing gcc cargo make librust-')"
check 'what is told is what is installed' "$(head -n 1 <<<"$said" | packages installing)" "$(grep '^apt-get install' <<<"$said" | packages recommends)"
touch "$real"/debian/{installed,cc,cargo,make}
chmod +x "$real"/debian/{cc,cargo,make}
check 'nothing is missing: nothing is told or done' '' "$(install)"

# tools/bench over stand-ins for what it runs first: that is told on standard error, and what is asked is handed on
bench=$folder/bench
mkdir -p "$bench"/{tools,rust/evidence/src/bin/bench,target/rust/release}
cp tools/bench "$bench/tools"
echo 'bench --week' >"$bench/rust/evidence/src/bin/bench/help.txt"
for name in tools/install tools/library rust/cargo; do
    stand_in "$bench/$name" <<'EOF'
#!/bin/sh
echo "${0##*/} $*"
[ ! -e "$0.fails" ] || exit 2
EOF
done
stand_in "$bench/target/rust/release/bench" <<'EOF'
#!/bin/sh
echo "asked $*"
exit 1
EOF
bench() { "$bench/tools/bench" --week 2>"$bench/told"; echo "status $?"; }
check 'the benchmark says what was asked, and ends as it does' $'asked --week\nstatus 1' "$(bench)"
check 'what it needs is there before' $'install bench\nlibrary \ncargo build --release -p evidence --bin bench' "$(cat "$bench/told")"
check 'its help needs nothing' 'bench --week' "$(touch "$bench/tools/install.fails"; "$bench/tools/bench" --help)"
check 'an option that there is not needs nothing either' $'what is --month? tools/bench --help says what there is\nstatus 2' \
    "$("$bench/tools/bench" --month 2>&1; echo "status $?")"
ln -s "$bench/tools/bench" "$folder/linked"
rm "$bench/tools/install.fails" && check 'it can be called by a link' $'asked --week\nstatus 1' "$("$folder/linked" --week 2>/dev/null; echo "status $?")"
touch "$bench/tools/library.fails"
check 'another library is measured without a proof of this one' $'asked --week\nstatus 1' "$(ENERGY_LIB_DIR=. bench)"
check 'a machine without the kit is told so' $'there is no rt here: the Rattle kit has it, and its folder belongs on the PATH\nstatus 2' \
    "$(PATH=$real/debian "$BASH" "$real/tools/library" 2>&1; echo "status $?")"
check 'nothing is measured of what is not proved' 'status 2' "$(bench)"

finish launcher.sh
