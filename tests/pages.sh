#!/usr/bin/env bash
# The pages against what they show: each command of a page's `console` blocks, run in a folder that has what the repository has, prints what
# stands below it; each picture of a page is what a command of the page draws; what pages say of files holds (tools/pages); their limits and the
# words of a word file are those of the header and of the definitions; and what README says of the first call is so.
# The last line is 'N passed, M failed'.
set -u
cd "$(dirname "$0")/.." || exit 2
root=$PWD
source tests/counting.bash
source tests/plan.bash
folders=$(mktemp -d)
trap 'rm -rf "$folders"' EXIT

# a folder in which a page's commands find what they name, and write nothing into the repository
folder_of() {
    local folder=$folders/${1//\//_}
    mkdir -p "$folder/docs" "$folder/home"
    ln -s "$root"/{bin,crates,examples,include,rust,tools} "$folder"
    echo "$folder"
}
# run FOLDER COMMAND: as a reader would who has the program on the PATH, with a home of the folder's own, save for what cargo keeps
export CARGO_HOME=${CARGO_HOME:-~/.cargo} RUSTUP_HOME=${RUSTUP_HOME:-~/.rustup}
run() { (cd "$1" && HOME=$1/home PATH=$root/bin:$PATH bash -c "$2" 2>&1); }
# try_page PAGE: its commands one after the other, and then its pictures
try_page() {
    local folder commands line command='' expected='' picture
    folder=$(folder_of "$1")
    commands=$(tools/pages --commands "$1") || verdict 1 "$1: its commands cannot be read"
    while IFS= read -r line; do
        case $line in
        '$ '*)
            [ -z "$command" ] || check "$1: $command" "$expected" "$(run "$folder" "$command")"
            command=${line#'$ '}
            expected=
            ;;
        *) expected=$expected${expected:+$'\n'}${line#$'\t'} ;;
        esac
    done <<<"$commands"$'\n$ true'
    for picture in $(grep -o '](\([^)]*\.svg\))' "$1" | tr -d ']()'); do
        picture=$(realpath -m --relative-to=. "$(dirname "$1")/$picture")
        cmp "$folder/$picture" "$picture"
        check "$1: $picture is what the page draws" 0 $?
    done
}

# what the pages' commands run: the program, the library and the program plan
{ "$root/bin/gomzhiva" --version && tools/library && plan_built; } >"$folders/build" 2>&1 || { cat "$folders/build"; echo '0 passed, 1 failed'; exit 1; }
built=$(stat -c %y.%i target/gomzhiva.built)
for page in README.md docs/*.md rust/README.md rust/*/README.md; do [ ! -e "$page" ] || try_page "$page"; done
check 'a built program is not built again' "$built" "$(stat -c %y.%i target/gomzhiva.built)"
counted tools/pages

# in_threes: a number with its digits in threes; says PAGE ROW FIGURE: the line that begins so has the figure
in_threes() { sed ':a; s/\([0-9]\)\([0-9]\{3\}\)\($\|,\)/\1,\2\3/; ta'; }
says() {
    [ -n "$3" ] && grep "^$2" "$1" | grep -qw -- "$3"
    verdict $? "$1: the line '$2' has not $3"
}
says README.md '| frame |' "$(figure MAX_FRAMES)"
says README.md '| harvest |' "$(figure MAX_HARVEST | in_threes)"
says README.md '| capacity |' "$(figure MAX_CAPACITY | in_threes)"
says README.md '| least, most |' "$(figure MAX_BOUND | in_threes)"
says docs/WORD-FILE.md 'In this order: 2 if' "$(in_threes <<<$((4 * ($(figure FRAME_WORDS) * $(figure MAX_FRAMES) + $(figure OTHER_WORDS)))))"
says docs/NOTATION.md 'A figure that a request gets' "$(in_threes <<<$(($(sed -n 's/^pub const MOST_BYTES: usize = \(.*\);/\1/p' rust/gomzhiva/src/files.rs))))"

# the words of a word file are those of the definitions: kinds in the top two bits, marks of bounds in the top three
words=crates/words/specs/Words.antt
for word in figure_kind harvest_kind end_kind least_mark most_mark; do
    bit=30
    [ "${word#*_}" = kind ] || bit=29
    says docs/WORD-FILE.md "| ${word%_*} |" "$(printf '0x%08X' $(($(sed -n "s/^$word = //p" $words) << bit)) | sed 's/^0x00000000$/value/')"
done

# the oldest Rust is the packages' own
for page in docs/RUST.md rust/README.md; do says "$page" '.*Rust' "$(sed -n 's/^rust-version = "\(.*\)"/\1/p' rust/energy/Cargo.toml)"; done

told=$(grep -o '[0-9]\+ minutes on four processors' bin/gomzhiva)
said=$(grep '^bin/gomzhiva plan .* first call' README.md | grep -o '[0-9]\+ minutes on four processors')
[ -n "$told" ] && [ "$told" = "$said" ]
verdict $? "the first call tells '$told' of its time, and README says '$said'"

finish pages.sh
