#!/usr/bin/env bash
# Runs the commands of README.md and of examples/README.md: bash tests/readme.sh. Prints a line for each failure and last
# 'N passed, M failed'; ends with 1 if any failed.
#
# Each block that begins with ```sh is one test. It is run as it stands, in order, by bash in the root folder; it has to end
# with status 0, and where a block ```text follows, what it prints has to end with that. The block that runs the gate is
# left to the gate, which runs this.
set -eu

root=$(realpath "$(dirname "${BASH_SOURCE[0]}")/..")
cd "$root"
scratch=$(mktemp -d)
trap 'rm -rf "$scratch"' EXIT
passed=0
failed=0

# check PAGE: the blocks of a page, the n-th as n.sh and, if there is one, n.text
check() {
    rm -f "$scratch"/*
    awk -v folder="$scratch" '
        /^```sh$/ { n++; file = sprintf("%s/%03d.sh", folder, n); next }
        /^```text$/ { file = sprintf("%s/%03d.text", folder, n); next }
        /^```/ { file = ""; next }
        file != "" { print > file }
    ' "$1"
    for block in "$scratch"/*.sh; do
        if grep -qx 'bash .ci/run' "$block"; then
            continue
        fi
        text=${block%.sh}.text
        reason=
        timeout 1800 bash -euo pipefail "$block" > "$scratch/out" 2>&1 < /dev/null || reason="status $?"
        if [ -z "$reason" ] && [ -f "$text" ]; then
            reason=$(tail -c "$(stat -c %s "$text")" "$scratch/out" | cmp - "$text" 2>&1) || true
        fi
        if [ -z "$reason" ]; then
            passed=$((passed + 1))
        else
            failed=$((failed + 1))
            echo "failed: $1: $(head -n 1 "$block"): $reason"
        fi
    done
}

check README.md
check examples/README.md
echo "$passed passed, $failed failed"
[ "$failed" -eq 0 ]
