#!/usr/bin/env bash
# Proves and builds the static library of the crate exports, and the harness over it; the agreement and speed scripts begin with it.
set -euo pipefail
bench=$(cd "$(dirname "$0")" && pwd)
(cd "$bench/../crates/exports" && rt lib) >&2
# The kit stands where `rt doc` has its pages, and has the heap calls of the C library that the library uses.
kit=$(rt doc)
while [ ! -e "$kit/c/liblibc_c.a" ]; do
    [ "$kit" != / ] || { echo 'the kit has no c/liblibc_c.a' >&2; exit 1; }
    kit=$(dirname "$kit")
done
export PROVED_LIBRARY="$bench/../crates/exports/out/libexports.a"
export HEAP_LIBRARY="$kit/c/liblibc_c.a"
cd "$bench/harness"
cargo build --offline --release >&2
