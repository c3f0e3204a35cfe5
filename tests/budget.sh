#!/usr/bin/env bash
# What the gate costs, and the rules that keep it so (docs/ARCHITECTURE.md):
#   bash tests/budget.sh watch FILE   notes in FILE what processor time each check takes, until it is ended
#   bash tests/budget.sh [FILE]       tests the rules, and with FILE prints the seconds by crate
# Machines differ, so a crate over its time is a warning. What fails: a file of computed examples outside worked_examples, an exported
# function without ensures, and one with requires. The last line is 'N passed, M failed'.
set -eu

# Seconds of processor time: of a crate, its proof and its edits; of a test program; of all crates. More have capi,
# which has the calls for C; clock, whose cycle is one function for its speed; and test_engine, which has the cases of three
# crates.
each=200
program=60
all=4000
more=' capi:240 clock:240 test_engine:100 '

# watch FILE: a line for each check that runs, three times a second: what tells it from others, its crate, what it is
# for, and its hundredths of a second so far. An edit is checked over what the crate's own check left.
watch() {
    local process name args stat fields crate kind
    while sleep 0.3; do
        for process in /proc/[0-9]*; do
            { read -r name < "$process/comm"; } 2> /dev/null || continue
            [ "$name" = rattle ] || continue
            { mapfile -d '' -t args < "$process/cmdline" && read -r stat < "$process/stat"; } 2> /dev/null || continue
            [[ "${args[*]}" =~ \ (check|build)\ --crate-name\ ([a-z0-9_]+)\  ]] || continue
            crate=${BASH_REMATCH[2]}
            kind=proof
            case "${BASH_REMATCH[1]} ${args[*]}" in
                check*--incremental*) kind=edits ;;
                build*--incremental*) kind=library ;;
            esac
            read -r -a fields <<< "${stat##*) }"
            echo "${process#/proc/}:${fields[19]} $crate $kind $((fields[11] + fields[12]))"
        done
    done >> "$1"
}

# seconds FILE: the table, and a line for each that is over
seconds() {
    echo "processor time in seconds, by crate: its proof, its edits, what is built for the library and the README, all"
    awk -v each="$each" -v program="$program" -v all="$all" -v more="$more" '
        { time[$1 " " $2 " " $3] = $4 / 100 }
        END {
            for (key in time) {
                split(key, part, " ")
                spent[part[2] " " part[3]] += time[key]
                crates[part[2]] += time[key]
                total += time[key]
            }
            for (crate in crates) {
                printf "%8d %8d %8d %8d  %s\n", spent[crate " proof"], spent[crate " edits"], spent[crate " library"], crates[crate], crate | "sort -k4nr"
            }
            close("sort -k4nr")
            printf "%35d  all\n", total
            for (crate in crates) {
                own = spent[crate " proof"] + spent[crate " edits"]
                most = crate ~ /^test_/ ? program : each
                if (match(more, " " crate ":[0-9]+")) most = substr(more, RSTART + length(crate) + 2, RLENGTH - length(crate) - 2)
                if (own > most + 0) printf "warning: %s takes %d seconds, and is to take %d at most\n", crate, own, most
            }
            if (total > all) printf "warning: all take %d seconds, and are to take %d at most\n", total, all
        }' "$1"
}

# exported: each exported function of a library as crate::name, with what its contract has
exported() {
    local file crate
    for file in crates/*/src/*.rt; do
        crate=${file#crates/}
        crate=${crate%%/*}
        [ -f "crates/$crate/src/main.rt" ] || awk -v crate="$crate" '
            /^ *pub fn / { match($0, /fn [a-z0-9_]+/); name = substr($0, RSTART + 3, RLENGTH - 3); has = "" }
            name != "" && /^ *(requires|ensures)/ { has = has " " $1 }
            name != "" && /\{$/ && !/(requires|ensures)/ { print crate "::" name has; name = "" }
        ' "$file"
    done
}

cd "$(dirname "${BASH_SOURCE[0]}")/.."
if [ "${1:-}" = watch ]; then
    watch "$2"
fi
[ -z "${1:-}" ] || seconds "$1"
source tests/verdict.sh

verdict "a file of computed examples outside worked_examples" "$(find crates -name 'Examples*.antt' -not -path '*/out/*' | tr '\n' ' ')"
verdict "exported without ensures" "$(exported | awk '!/ ensures/ { printf "%s ", $1 } END { if (NR == 0) print "nothing was found" }')"
verdict "exported with requires" "$(exported | awk '/ requires/ { printf "%s ", $1 }')"
echo "$passed passed, $failed failed"
[ "$failed" -eq 0 ]
