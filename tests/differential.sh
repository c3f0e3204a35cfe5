#!/usr/bin/env bash
# Compares the library with a second simulator on pseudo-random inputs: bash tests/differential.sh [FOLDER [SEED]]. The
# folder has libcapi.a, by default out/, where the archive of crate capi_c is put first (rt makes it). Needs rustc 1.80 or later.
# The last line is 'N passed, M failed', a group of inputs being one test; ends with 1 if any failed.
set -eu

source "$(dirname "${BASH_SOURCE[0]}")/library.sh" "${1:-}"
rustc --edition 2021 -C opt-level=3 -L "$library" -o "$scratch/differential" tests/differential/main.rs
status=0
timeout 600 "$scratch/differential" ${2:+"$2"} || status=$?
if [ "$status" -gt 1 ]; then
    echo "the test ended with status $status"
    echo "0 passed, 1 failed"
fi
[ "$status" -eq 0 ]
