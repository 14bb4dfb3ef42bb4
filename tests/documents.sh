#!/usr/bin/env bash
# The documents against the files: every name in a READING table of names stands in the file beside it, every inner function is public,
# the entries ask nothing and promise what READING says, must-fail edits have controls, and the lists of foreign crates are one.
# The last line is 'N passed, M failed'.
set -u
cd "$(dirname "$0")/.." || exit 2
source tests/counting.bash

# stands NAME FILE: a definition, theorem or function of that name, or a field R.f of a record
stands() {
    local name=$1 file=crates/$2
    [ -f "$file" ] || return 1
    case $name in
    *.*) awk -v record="${name%.*}" -v field="${name#*.}" '
            /^[^ ]/ { inside = ($0 ~ "^pub record " record " ") }
            inside && index($0, "  pub " field " :") == 1 { found = 1 }
            END { exit !found }' "$file" ;;
    *) case $file in
        *.rt) grep -Eq "^ *(pub )?fn ${name#*::}[(<]" "$file" ;;
        *) grep -Eq "^ *(abbrev |unfoldable )?pub (record |data )?$name( |\$)" "$file" ;;
        esac ;;
    esac
}

# stand NAMES FILE: the names of one cell in the file of the next one
stand() {
    local file found name
    file=$(tr -d '` ' <<<"$2")
    found=$(grep -o '`[^`]*`' <<<"$1" | tr -d '`')
    [ -n "$found" ]
    verdict $? "READING: no name beside $file"
    for name in $found; do
        stands "$name" "$file"
        verdict $? "READING: no $name in $file"
    done
}

# every row of a table headed 'name | file', and of one headed 'name | file | shown by | in': one file, and the names in the cell before it
named=0
shown=0
while IFS='|' read -r start _ names file theorems there _; do
    if [ "$names|$file" = ' name | file ' ]; then
        named=1
        [ "$theorems|$there" = ' shown by | in ' ] && shown=1 || shown=0
        continue
    fi
    [ -z "$start" ] && [ -n "$names" ] || named=0
    [ $named -eq 1 ] && [ "$names" != --- ] || continue
    stand "$names" "$file"
    [ $shown -eq 0 ] || stand "$theorems" "$there"
done <docs/READING.md

# names_in TABLE: 'crate name' for every name in READING's table with this head: the crate is the first cell, or begins the second one's path
names_in() {
    awk -F'|' -v head="$1" '
        $0 == head { inside = 1; next }
        !/^\|/ { inside = 0 }
        !inside || $2 ~ /^-+$/ { next }
        { crate = $2; names = $3 }
        head ~ /^\| entry / { crate = $3; names = $2 }
        { gsub(/[` ]|\/.*/, "", crate); gsub(/[` ]/, "", names) }
        { n = split(names, each, ","); for (i = 1; i <= n; i++) print crate, each[i] }' docs/READING.md | sort
}

# passed_on FILE: what stands behind each 'pub use' of a source, one a line
passed_on() { tr -s '\n' ' ' <"$1" | grep -o 'pub use [^;]*;' | sed 's/^pub use //; s/;$//'; }

# methods_of CRATE TYPE ..: every method of these types that other crates can call, as Type::method
methods_of() {
    local source=crates/$1/src
    awk -v types=" ${*:2} " '
        /^impl/ { type = $0; sub(/^impl(<[^>]*>)? */, "", type); trait = type ~ / for /; sub(/[^A-Za-z0-9_].*/, "", type)
                  inside = !trait && index(types, " " type " ") }
        /^}/ { inside = 0 }
        inside && match($0, /^    pub (const )?fn [a-z_0-9]+/) { name = substr($0, 1, RLENGTH); sub(/.* /, "", name); print type "::" name }
    ' "$source"/*.rt
}

# handed_on CRATE: every function that other crates can call, by name or in a public module, and every method of the types it hands on
handed_on() {
    local source=crates/$1/src module names files
    files=$source/lib.rt
    for module in $(sed -n 's/^pub mod \([a-z_]*\);$/\1/p' "$source/lib.rt"); do files="$files $source/$module.rt"; done
    names=$(passed_on "$source/lib.rt" | sed 's/^[a-z_]*:://' | tr -s '{}, ' '\n')
    grep -x '[a-z_]\+' <<<"$names"
    # shellcheck disable=SC2086 # the files of a crate, none of which has a blank in its name
    sed -n 's/^pub fn \([a-z_]*\)[(<].*/\1/p' $files
    # shellcheck disable=SC2046,SC2086
    methods_of "$1" $(grep -x '[A-Z][A-Za-z0-9]*' <<<"$names") $(sed -n 's/^pub \(struct\|enum\) \([A-Za-z0-9]*\).*/\2/p' $files)
}

# every function that a crate hands on is an entry or an inner function of READING, save what energy has for C, and none is missing
public=$(for lib in crates/*/src/lib.rt; do
    crate=${lib#crates/}
    crate=${crate%%/*}
    [ "$crate" = energy ] || handed_on "$crate" | sed "s/^/$crate /"
done | sort)
listed=$( (names_in '| entry | code | promise |'; names_in '| crate | functions | condition |') | grep -v '^energy ' | sort)
differing=$(diff <(echo "$listed") <(echo "$public") | grep '^[<>]')
verdict $((${#differing} > 0)) "READING: entries and inner functions (<) and what the crates hand on (>) differ:"$'\n'"$differing"
! for lib in crates/*/src/lib.rt; do passed_on "$lib"; done | grep -vEx '[a-z_]+::([A-Za-z0-9_]+|\{[A-Za-z0-9_, ]+\})'
verdict $? 'a crate hands on more than single names'

# rows_of TABLE: the rows of READING's table with this head
rows_of() { awk -v head="$1" '$0 == head { inside = 1; next } !/^\|/ { inside = 0 } inside && !/^\|--/' docs/READING.md; }

# contract FUNCTION FILE: what stands between a function's name and its body, on one line
contract() { awk -v name="${1#*::}" '$0 ~ "fn " name "[(<]" { inside = 1 } inside && /^ *\{$/ { exit } inside' "$2" | tr -s ' \n' ' '; }

# every row of the entries: the function asks nothing, and promises what stands there
rows=0
while IFS='|' read -r _ entry file promise _; do
    entry=$(tr -d '` ' <<<"$entry")
    file=crates/$(tr -d '` ' <<<"$file")
    promise=$(sed 's/(.*//; s/`, `/ (/; s/[` ]*$//; s/^[` ]*//' <<<"$promise")
    clauses=$(contract "$entry" "$file")
    [[ $clauses == *" ensures { $promise "* && $clauses != *' ensures '*' ensures '* && $clauses != *requires* ]]
    verdict $? "READING: $entry of $file has a requires, or its one ensures is not $promise: $clauses"
    asking=$(grep -oE '[A-Z][A-Za-z0-9]*' <<<"${clauses%%->*}" | grep -vxE 'C|Figures|Outlook|Request|Shift|Typed')
    verdict $((${#asking} > 0)) "READING: $entry of $file takes $asking, which may ask something"
    rows=$((rows + 1))
done < <(rows_of '| entry | code | promise |')
verdict $((rows == 0)) 'READING: no entries'
! grep -n 'ghost' crates/{model,shift}/src/lib.rt crates/rest/src/outlook.rt | grep -v 'ghost use'
verdict $? 'a struct that an entry takes asks something'
check 'READING: what is exported to C' "$(grep -rhoE 'extern "C" fn [a-z_]+' crates/*/src | sed 's/.* //' | sort)" \
    "$(names_in '| entry | code | promise |' | sed -n 's/^energy //p')"

# fields_of RECORD FILE: the names of a record's fields, in their order
fields_of() {
    awk -v record="$1" '
        /^[^ ]/ { inside = ($0 ~ "^pub record " record "( |$)") }
        inside && /^  pub [^ ]+ :/ { printf "%s ", $2 }' "$2"
}
while IFS='|' read -r _ record fields file _; do
    record=$(tr -d '` ' <<<"$record")
    check "READING: the fields of $record" "$(fields_of "$record" "crates/$(tr -d '` ' <<<"$file")")" "$(tr -d '\140,' <<<"${fields# }")"
done < <(rows_of '| promise | fields | file |')
# every record that an entry's contract names has its fields there
check 'READING: promises without their fields' '' "$(comm -23 <(grep -rhoE '^pub record [A-Za-z]+(Says|Means|Demand|Demand3) ' crates/*/specs | cut -d' ' -f3 | sort) \
    <(rows_of '| promise | fields | file |' | cut -d'|' -f2 | tr -d '` ' | sort))"

# the table of crates has each crate once
check 'READING: the crates' "$(sed -n 's/^\([a-z]*\)[ :].*/\1/p' crates.txt | sort)" \
    "$(rows_of '| crate | what it holds |' | cut -d'|' -f2 | tr -d '` ' | tr , '\n' | sort)"

# every must-fail edit has a control of its shape, and every shared error of the list can still be made
counted tools/controls
check 'must-fail edits with a control of their own' "$(least controls)" "$(grep -l '^# control: ' crates/*/must-fail/*.edit | wc -l)"
counted tools/shared-errors --texts

# the rows of the table of worked cases, each of which begins with a name or a bracket; the first follows no other
cases=$((1 + $(grep -cE '^    ∷ [a-z(]' crates/cases/specs/Cases.antt)))
[ "$cases" -ge "$(least cases)" ]
verdict $? "the table of cases has $cases rows, and tests/least says '$(least cases)'"

[[ $(cat docs/WORD-FILE.md) == *$'```text\n'"$(cat crates/day/stdout)"$'\n```'* ]]
verdict $? 'WORD-FILE: not what day prints'

# the foreign crates of rust/*/Cargo.toml, with the part of their versions that stays; tools/install has Debian's names, some with a feature
foreign=$(sed -sn '/dependencies\]$/,/^$/p' rust/*/Cargo.toml |
    sed -nE 's/^([a-z0-9_-]+) = (\{ version = )?"(0\.[0-9]+|[1-9][0-9]*).*/\1-\3/p' | sort)
listed_in() { sed -n 's/.*for crate in \([^;]*\);.*/\1/p' "$1" | tr ' ' '\n' | sort; }
check 'rust/cargo: the crates that Cargo.toml names' "$foreign" "$(listed_in rust/cargo)"
check 'tools/install: the crates that Cargo.toml names' "$(sed 's/-[0-9.]*$//; s/_/-/g' <<<"$foreign" | sort)" \
    "$(listed_in tools/install | sed 's/+.*//' | sort)"

# ---- the header: its refusals are those of the core and of the Rust binding, its house curves the definitions', its version the packages'

# as_in_c: names of cases as C has them: NoFrames is NO_FRAMES
as_in_c() { sed -E 's/([a-z])([A-Z])/\1_\2/g' | tr '[:lower:]' '[:upper:]'; }
# cases_of FILE: the cases of the enum Refusal, one a line, with what they hold
cases_of() { sed -nE '/^pub enum Refusal/,/^}/s/^    ([A-Z].*)$/\1/p' "$1"; }
# defined: the header's refusals, with their numbers, and with 'p' where the comment above says what p is
defined() {
    awk '/^\/\*/ { above = "" }
        { above = above $0 }
        /^#define ENERGY_REFUSED_/ { print substr($2, 16), $3, above ~ /; p is / ? "p" : "0"; above = "" }' include/energy.h
}
core=crates/model/src/refusal.rt
check 'header: the refusals and their numbers' "$(sed -nE 's/^ *Refusal::([A-Za-z]+)(\(_\))? => ([0-9]+),$/\1 \3/p' $core | as_in_c)" \
    "$(defined | cut -d' ' -f1,2)"
check 'header: the refusals in the order of their cases' "$(cases_of $core | grep -o '^[A-Za-z]*' | as_in_c)" "$(defined | cut -d' ' -f1)"
check 'header: the refusals that have a p' "$(cases_of $core | sed -n 's/(u64),$//p' | as_in_c)" "$(defined | sed -n 's/ [0-9]* p$//p')"
check 'rust/energy: the refusals of the core' "$(cases_of $core | grep -o '^[A-Za-z]*')" \
    "$(cases_of rust/energy/src/refusal.rs | grep -o '^[A-Za-z]*' | grep -vx Unknown)"

# house_curve N: each gain and the edge up to which a unit has it, as the definitions have them, and as the header's comment has them
house_curve() {
    sed -nE '/^house_curve /s/.*edges = ([0-9 ∷]*)\[\]; gains = ([0-9 ∷]*)\[\].*/\1\n\2/p' crates/model/specs/Curves.antt | tr -d '∷' | sed -n "$((2 * $1 + 1)),$((2 * $1 + 2))p" |
        awk 'NR == 1 { n = split($0, edges) } NR == 2 { split($0, gains); for (i = 1; i <= n; i++) printf "%d %d ", gains[i], edges[i]; print gains[n + 1] }'
}
for curve in 0 1 2; do
    check "header: house curve $curve" "$(house_curve $curve)" "$(sed -nE "s/^ \* ([0-9].*) above, by house curve $curve.*/\1/p" include/energy.h | sed 's/ up to / /g; s/,//g')"
    check "README: house curve $curve" "$(house_curve $curve)" "$(sed -nE "s/^\| $curve \| ([0-9].*) \|$/\1/p" README.md | sed 's/ up to / /g; s/,//g; s/ then / /')"
done

version=$(sed -nE 's/^#define ENERGY_VERSION_(MAJOR|MINOR|PATCH) ([0-9]+)$/\2/p' include/energy.h | paste -sd .)
for package in rust/*/Cargo.toml; do
    check "$package: the version of the header" "$version" "$(sed -n 's/^version = "\(.*\)"$/\1/p' "$package")"
done

finish documents.sh
