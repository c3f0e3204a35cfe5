#!/usr/bin/env bash
# Times the library against ordinary Rust and prints a table: bash docs/src/benchmark.sh [FOLDER [PAD]]. The folder has
# libcapi.a, by default out/, where the archive of crate capi_c is put first (rt makes it). Needs rustc 1.88 or later.
#
# PAD is how many bytes stand before the library's code, 0 by default. A loop's time differs by up to a tenth by where the
# linker puts it; so two libraries are compared at several places, 0, 16, .. 112.
set -eu

source "$(dirname "${BASH_SOURCE[0]}")/../../tests/library.sh" "${1:-}"
PAD=${2:-0} rustc --edition 2021 -C opt-level=3 -L "$library" -o "$scratch/benchmark" docs/src/benchmark.rs
"$scratch/benchmark" tests/images/large.image crates/test_strict/stdin
