#!/usr/bin/env bash
# Tests the programs trace and judge from outside: bash tests/trace.sh [TRACE [JUDGE]], by default crates/trace/out/trace
# and crates/judge/out/judge; rt makes those that are not there. Needs coreutils and cmp. Prints a line for each failure
# and last 'N passed, M failed'; ends with 1 if any failed.
#
# tests/trace/NAME.input is what trace reads, NAME.output what it has to print, byte for byte, with status 0 and
# nothing on standard error. Inputs of some 4,096 words are put together here. What is expected was worked out by a
# separate simulator, written from the rules and not from the engine. What judge has to print follows from it.
set -eu

root=$(realpath "$(dirname "${BASH_SOURCE[0]}")/..")

# made NAME [PROGRAM]: the program's path; rt makes it if none is given and it is not there
made() {
    local path
    path=$(realpath -m "${2:-$root/crates/$1/out/$1}")
    if [ ! -x "$path" ] && [ $# -eq 1 ]; then
        (cd "$root/crates/$1" && rt run < /dev/null >&2)
    fi
    echo "$path"
}
trace=$(made trace "${@:1:1}")
judge=$(made judge "${@:2:1}")
for program in "$judge" "$trace"; do
    if [ ! -x "$program" ]; then
        echo "$program is not there"
        exit 1
    fi
done
cd "$root/tests/trace"
scratch=$(mktemp -d)
trap 'rm -rf "$scratch"' EXIT
source "$root/tests/verdict.sh"

# run [ARGUMENT ..]: the program, on what comes in, with its status kept; one that hangs is ended after a minute
run() {
    status=0
    timeout 60 "$program" "$@" > "$scratch/out" 2> "$scratch/err" || status=$?
}

# quiet: the reason against a run that ended otherwise than with status 0 and nothing on standard error
quiet() {
    if [ "$status" -ne 0 ]; then
        echo "status $status"
    elif [ -s "$scratch/err" ]; then
        echo "standard error is not empty"
    fi
}

# told LINE: the reason against a run that ended otherwise than with status 1 and this line on standard error
told() {
    echo "$1" > "$scratch/line"
    if [ "$status" -ne 1 ]; then
        echo "status $status"
    else
        cmp - "$scratch/line" < "$scratch/err" 2>&1 || true
    fi
}

# check NAME EXPECTED < INPUT
check() {
    run
    reason=$(quiet)
    if [ -z "$reason" ]; then
        reason=$(cmp - "$2" < "$scratch/out" 2>&1) || true
    fi
    verdict "$1" "$reason"
}

# prints NAME LINE < INPUT: the line, and nothing else
prints() {
    echo "$2" > "$scratch/expected"
    check "$1" "$scratch/expected"
}

# refused NAME NUMBER < INPUT
refused() {
    prints "$1" "refused $2"
}

# digest NAME FILE < INPUT, for outputs too long to keep
digest() {
    run
    sha256sum < "$scratch/out" > "$scratch/sum"
    reason=$(quiet)
    if [ -z "$reason" ]; then
        reason=$(cmp - "$2" < "$scratch/sum" 2>&1) || true
    fi
    verdict "$1" "$reason"
}

# zeros COUNT: that many words of 0
zeros() {
    head -c $((8 * $1)) /dev/zero
}

# pieces SIZE FILE: the file in pieces, with a pause after each, so that reads come short
pieces() {
    for _ in $(seq $((($(stat -c %s "$2") + $1 - 1) / $1))); do
        head -c "$1"
        sleep 0.01
    done < "$2"
}

for input in *.input; do
    check "${input%.input}" "${input%.input}.output" < "$input"
done
for input in "$root"/examples/*.input; do
    check "examples/$(basename "$input")" "${input%.input}.trace" < "$input"
done

# 4,096 words are the most. Seventeen words, 241 times over, are 4,097.
for _ in $(seq 241); do cat seventeen.words; done > "$scratch/words"
cat two-nodes.image "$scratch/words" > "$scratch/over"
head -c -8 "$scratch/over" > "$scratch/full"
bad='\0\0\0\0\0\0\0\200'
check words-4096 words-4096.trace < "$scratch/full"
refused words-4097 14 < "$scratch/over"
refused words-4096-and-a-byte 3 < <(cat "$scratch/full"; printf x)
refused words-4097-and-a-byte 3 < <(cat "$scratch/over"; printf x)
refused words-4095-and-seven-bytes 3 < <(head -c -1 "$scratch/full")
refused bad-last-word-of-4096 12 < <(head -c -8 "$scratch/full"; printf "$bad")
refused bad-first-word-of-4097 14 < <(cat two-nodes.image; printf "$bad"; zeros 4096)
refused bad-last-word-of-4097 14 < <(cat "$scratch/full"; printf "$bad")
refused bad-kind-and-4097-words 4 < <(cat refused-4-kind-0.input; zeros 4096)
refused stations-257-and-4097-words 11 < <(cat refused-11-stations-257.input; zeros 4096)
refused stations-257-and-4097-words-and-a-byte 3 < <(cat refused-11-stations-257.input; zeros 4096; printf x)
refused no-nodes-and-4097-words 2 < <(cat refused-2-no-nodes.input; zeros 4097)

# The longest input with the longest output, 5,131,517 bytes, and one with many stations.
cat widest.image <(zeros 4096) > "$scratch/widest"
digest longest-output widest.sha256 < "$scratch/widest"
digest largest-netlist-4096-words largest.sha256 < <(cat nodes-64-channels-96-no-words.input; zeros 4096)
refused longest-input-and-a-word 14 < <(cat "$scratch/widest"; zeros 1)
refused longest-input-and-a-byte 3 < <(cat "$scratch/widest"; printf x)

# A megabyte more than the longest input is counted to its end.
refused megabyte-of-words 14 < <(cat "$scratch/widest"; zeros 131072)
refused megabyte-of-words-and-a-byte 3 < <(cat "$scratch/widest"; zeros 131072; printf x)
refused megabyte-after-bad-kind 4 < <(cat refused-4-kind-0.input; zeros 131072)
refused megabyte-after-no-nodes 2 < <(cat refused-2-no-nodes.input; zeros 131072)

# Reads that come short.
check short-reads-of-1 "$root/examples/figure4.trace" < <(pieces 1 "$root/examples/figure4.input")
check short-reads-of-7 "$root/examples/ring.trace" < <(pieces 7 "$root/examples/ring.input")
check short-reads-of-4093 words-4096.trace < <(pieces 4093 "$scratch/full")
check one-write-for-each-byte words-4096.trace < <(dd bs=1 status=none < "$scratch/full")
refused short-reads-ragged-tail 3 < <(pieces 7 refused-3-words-and-tail-of-seven-bytes.input)
refused short-reads-empty 1 < <(sleep 0.1)

# What judge says of the image of each input: a number up to 11 is the image's. Inputs that are refused with 1 to 3
# because of their length are judged whole.
program=$judge
image() {
    local sizes
    read -r -a sizes < <(head -c 2 "$1" | od -An -tu1)
    head -c $((2 + 5 * sizes[0] + 5 * sizes[1])) "$1"
}
for input in *.input; do
    read -r line < "${input%.input}.output"
    case $line in
        refused\ [123]) prints "judge-$input" "$line" < "$input" ;;
        refused\ 12) prints "judge-$input" accepted < <(image "$input") ;;
        refused*) prints "judge-$input" "$line" < <(image "$input") ;;
        *) prints "judge-$input" accepted < <(image "$input") ;;
    esac
done
prints judge-largest accepted < widest.image
refused judge-largest-and-a-byte 3 < <(cat widest.image; printf x)
refused judge-megabyte 3 < <(cat widest.image; zeros 131072)
prints judge-short-reads-of-1 accepted < <(pieces 1 two-nodes.image)

# Both programs on broken input and output, on an image that is accepted and makes the longest trace, and on one that is
# refused with 6.
accepted=widest.image
refused=refused-6-port-of-choose.input

# unwritable NAME INPUT: on an output that is full, and on one that is closed
unwritable() {
    status=0
    timeout 60 "$program" < "$2" > /dev/full 2> "$scratch/err" || status=$?
    verdict "$1-output-full" "$(told "$name: standard output cannot be written")"
    status=0
    timeout 60 "$program" < "$2" >&- 2> "$scratch/err" || status=$?
    verdict "$1-output-closed" "$(told "$name: standard output cannot be written")"
}

# nothing NAME LINE: the run printed nothing but this line, on standard error
nothing() {
    reason=$(told "$2")
    if [ -s "$scratch/out" ]; then
        reason="standard output is not empty"
    fi
    verdict "$1" "$reason"
}

# arguments NAME [ARGUMENT ..]: the usage is told, and the input is still there for whoever reads next
arguments() {
    {
        run "${@:2}"
        cat > "$scratch/rest"
    } < "$accepted"
    nothing "$1" "usage: $name < $usage"
    verdict "$1-input-not-read" "$(cmp "$scratch/rest" "$accepted" 2>&1)"
}

# together: many runs that append to one file. Each line has to be one write, or some are torn.
together() {
    for _ in $(seq 1000); do "$program" < "$refused" >> "$scratch/together" & done
    wait
    reason=$(grep -vxc 'refused 6' "$scratch/together") || true
    verdict "$name-lines-torn" "${reason#0}"
    verdict "$name-lines-lost" "$(cmp <(wc -l < "$scratch/together") <(echo 1000) 2>&1)"
    rm "$scratch/together"
}

for program in "$trace" "$judge"; do
    name=trace
    usage=INPUT
    if [ "$program" = "$judge" ]; then
        name=judge
        usage=IMAGE
    fi
    unwritable "$name-accepted" "$accepted"
    unwritable "$name-refused" "$refused"
    run <&-
    nothing "$name-input-closed" "$name: standard input cannot be read"
    run < "$root"
    nothing "$name-input-is-a-directory" "$name: standard input cannot be read"
    arguments "$name-one-argument" "$accepted"
    arguments "$name-empty-argument" ''
    arguments "$name-three-arguments" - --help x
    together
done

# A reader that closes early, with the signal for it left at work by the caller and with the signal ignored: the program
# minds it in neither case. The output is far more than a pipe holds, so it is still writing. What was read is how a trace
# begins; the status and standard error tell that there is no end.
program=$trace
name=trace
printf 'cycle states\n0 T-214' > "$scratch/expected"
early() {
    {
        status=0
        timeout 60 env "$2" "$program" < "$scratch/widest" 2> "$scratch/err" || status=$?
        echo "$status" > "$scratch/status"
    } | head -c 20 > "$scratch/out"
    read -r status < "$scratch/status"
    reason=$(told "trace: standard output cannot be written")
    if [ -z "$reason" ]; then
        reason=$(cmp - "$scratch/expected" < "$scratch/out" 2>&1) || true
    fi
    verdict "$1" "$reason"
}
early reader-closes-early --default-signal=PIPE
early reader-closes-early-signal-ignored --ignore-signal=PIPE
unwritable longest-trace "$scratch/widest"

echo "$passed passed, $failed failed"
[ "$failed" -eq 0 ]
