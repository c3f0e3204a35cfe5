#!/usr/bin/env bash
# Tests what a C caller is told beside the calls' contracts: bash tests/boundary.sh [FOLDER]. The folder has libcapi.a, by
# default out/; rt makes the library if it is not there. Needs cc with pthreads, nm and size. Prints a line for each failure
# and last 'N passed, M failed'; ends with 1 if any failed.
#
# The numbers, kinds, limits and places of the header are those of the wrapper, of the crates and of the library; the archive
# exports the header's functions, has no variables, and needs two functions of the C library; and the programs of
# tests/boundary: numbers, pointers, threads, and the stack that each call has.
set -eu

source "$(dirname "${BASH_SOURCE[0]}")/library.sh" "${1:-}"
source tests/verdict.sh
header=include/channel_bench.h
archive=$library/libcapi.a

# apart A B: the lines that only one of two lists has, in a line; and a word if the first has none
apart() {
    [ -n "$1" ] || echo "nothing was found"
    diff <(sort <<< "$1") <(sort <<< "$2") | sed -n 's/^[<>] //p' | sort -u | paste -sd ' '
}

# capitals: names in capitals with _ between words, as C has them
capitals() {
    sed -E 's/([a-z])([A-Z])/\1_\2/g' | tr a-z A-Z
}

# The numbers of the header, of the wrapper and of the crates, as lines NAME NUMBER.
header_names=$(sed -nE 's/^(#define|   ) CHANNEL_BENCH_([A-Z_]+)( =)? ([0-9]+),?( .*)?$/\2 \4/p' "$header")
wrapper_names=$(
    awk '
        /^pub const [A-Z_]+: [a-z0-9]+ = [0-9_]+;$/ { sub(":", "", $3); gsub(/[_;]/, "", $6); print $3, $6 }
        /^    pub const [A-Z_]+: Refused = Refused\([0-9]+\);$/ { sub(":", "", $3); gsub(/[^0-9]/, "", $6); print "REFUSED_" $3, $6 }
        /^    [A-Z][a-z]+ = [0-9]+,$/ { sub(",", "", $3); print "KIND_" toupper($1), $3 }
    ' examples/rust/channel_bench.rs
    echo ACCEPTED 0
)
verdict "the wrapper's numbers" \
    "$(apart "$(grep -vE '^[A-Z_]+_STACK_BYTES ' <<< "$header_names")" "$wrapper_names")"
verdict "the numbers of crate refusal" "$(apart \
    "$(grep -E '^REFUSED_' <<< "$header_names")" \
    "$(sed -nE 's/^    ([A-Za-z]+) = ([0-9]+),$/Refused_\1 \2/p' crates/refusal/src/lib.rt | capitals)")"
verdict "the kinds of crate pearl" "$(apart \
    "$(grep -E '^KIND_' <<< "$header_names")" \
    "$(sed -nE 's/^ +([0-9]+) => Ok\(Kind::([A-Z][a-z]+)\),$/Kind_\2 \1/p' crates/pearl/src/lib.rt | capitals)")"
verdict "a number that tests/boundary/numbers.c does not provoke" "$(apart \
    "$(grep -oE '^(REFUSED_[A-Z_]+|ACCEPTED)' <<< "$header_names")" \
    "$(sed -nE 's/^    NUMBER\(CHANNEL_BENCH_(REFUSED_[A-Z_]+|ACCEPTED), .*/\1/p' tests/boundary/numbers.c | sort -u)")"

# The functions of the header, of the archive and of the tests.
functions=$(sed -nE 's/^uint[0-9]+_t (channel_bench_[a-z_]+)\(.*/\1/p' "$header")
verdict "what the archive exports" "$(apart "$functions" "$(nm -g --defined-only -j "$archive" | grep -v ':$' | grep .)")"
verdict "what the archive needs" "$(apart "$(printf 'memcpy\nmemset')" "$(nm -u -j "$archive" | grep -v ':$' | grep .)")"
verdict "variables in the archive" \
    "$(size -A "$archive" | awk '
        /^\.(data|bss|tdata|tbss)/ && !/^\.data\.rel\.ro/ && $2 > 0 { printf "%s ", $1 }
        /^\.text/ { found = 1 }
        END { if (!found) print "nothing was found" }')"
verdict "a function that tests/boundary/calls.h does not call" \
    "$(apart "$functions" "$(grep -oE 'channel_bench_[a-z_]+\(' tests/boundary/calls.h | tr -d '(')")"

# program NAME: builds a program of tests/boundary, runs it on the large image, and adds what its last line counts
program() {
    local status=0
    cc -std=c11 -O2 -Wall -Wextra -pedantic -Werror -Iinclude -pthread -o "$scratch/$1" "tests/boundary/$1.c" "$archive"
    timeout 300 "$scratch/$1" tests/images/large.image > "$scratch/said" || status=$?
    sed '$d' "$scratch/said"
    if [[ $status -le 1 && $(tail -n 1 "$scratch/said") =~ ^([0-9]+)\ passed,\ ([0-9]+)\ failed$ ]]; then
        passed=$((passed + BASH_REMATCH[1]))
        failed=$((failed + BASH_REMATCH[2]))
    else
        verdict "tests/boundary/$1.c" "it ended with status $status"
    fi
}

for name in numbers pointers threads stack; do
    program "$name"
done
echo "$passed passed, $failed failed"
[ "$failed" -eq 0 ]
