#!/usr/bin/env bash
# Tests the examples that stand on the library: bash tests/examples.sh [FOLDER]. The folder has libcapi.a, by default
# out/; rt makes the library if it is not there. Needs cc, nm, rustc 1.80 or later, and cmp. Prints a line
# for each failure and last 'N passed, M failed'; ends with 1 if any failed.
#
# examples/c/figure4.c has to print figure4.output, also with the library as a shared object, which has to export the
# functions of the header and nothing else. examples/rust/trace.rs has to print what the trace program prints,
# on the examples and on all of tests/trace.
set -eu

source "$(dirname "${BASH_SOURCE[0]}")/library.sh" "${1:-}"
passed=0
failed=0

# check NAME EXPECTED PROGRAM: what the program prints, with status 0, and nothing else
check() {
    reason=
    "$3" > "$scratch/out" 2> "$scratch/err" || reason="status $?"
    if [ -z "$reason" ] && [ -s "$scratch/err" ]; then
        reason="standard error is not empty"
    fi
    if [ -z "$reason" ]; then
        reason=$(cmp - "$2" < "$scratch/out" 2>&1) || true
    fi
    if [ -z "$reason" ]; then
        passed=$((passed + 1))
    else
        failed=$((failed + 1))
        echo "failed: $1: $reason"
    fi
}

cc -std=c11 -O2 -Wall -Wextra -pedantic -Werror -Iinclude \
    -o "$scratch/figure4" examples/c/figure4.c "$library/libcapi.a"
check examples/c/figure4.c examples/c/figure4.output "$scratch/figure4"

cc -shared -o "$scratch/libchannel_bench.so" -Wl,-soname,libchannel_bench.so -Wl,-z,text,-z,defs \
    -Wl,--whole-archive "$library/libcapi.a" -Wl,--no-whole-archive
cc -std=c11 -O2 -Wall -Wextra -pedantic -Werror -Iinclude \
    -o "$scratch/shared" examples/c/figure4.c -L"$scratch" -lchannel_bench -Wl,-rpath,"$scratch"
check "examples/c/figure4.c on the shared object" examples/c/figure4.output "$scratch/shared"
sed -nE 's/^uint[0-9]+_t (channel_bench_[a-z_]+)\(.*/\1/p' include/channel_bench.h | sort > "$scratch/functions"
exported() { nm -D --defined-only -j "$scratch/libchannel_bench.so" | sort; }
check "what the shared object exports" "$scratch/functions" exported

rustc --edition 2021 -C opt-level=3 -D warnings -L "$library" -o "$scratch/trace" examples/rust/trace.rs
for input in examples/*.input; do
    check "trace.rs on $input" "${input%.input}.trace" "$scratch/trace" < "$input"
done
for input in tests/trace/*.input; do
    check "trace.rs on $input" "${input%.input}.output" "$scratch/trace" < "$input"
done
for _ in $(seq 241); do cat tests/trace/seventeen.words; done > "$scratch/words"
cat tests/trace/two-nodes.image "$scratch/words" > "$scratch/over"
echo "refused 14" > "$scratch/refused"
check "trace.rs on 4,096 words" tests/trace/words-4096.trace "$scratch/trace" < <(head -c -8 "$scratch/over")
check "trace.rs on 4,097 words" "$scratch/refused" "$scratch/trace" < "$scratch/over"

echo "$passed passed, $failed failed"
[ "$failed" -eq 0 ]
