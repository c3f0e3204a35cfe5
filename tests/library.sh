# What the scripts share that use the library. To be sourced, with the folder that has libcapi.a or with an empty word,
# which stands for out/. Sets root, library and scratch, and goes to the root folder. In out/ it puts the archive of crate
# capi_c, which rt makes if it is not there, under its C callers' name for it.
root=$(realpath "$(dirname "${BASH_SOURCE[0]}")/..")
library=$(realpath -m "${1:-$root/out}")
cd "$root"
if [ -z "${1:-}" ]; then
    [ -f crates/capi_c/out/libcapi_c.a ] || (cd crates/capi_c && rt lib)
    mkdir -p out
    cp crates/capi_c/out/libcapi_c.a out/libcapi.a
fi
scratch=$(mktemp -d)
trap 'rm -rf "$scratch"' EXIT
