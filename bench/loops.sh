#!/usr/bin/env bash
# Builds the proved loops as a static library, links them with plain Rust loops, and prints the ratios of one run.
set -eu
cd "$(dirname "$0")/.."
(cd crates/rowbench && rt lib >/dev/null)
kit=$(dirname "$(rt doc)")
work=$(mktemp -d)
trap 'rm -rf "$work"' EXIT
rustc --edition 2024 -C opt-level=3 -C target-cpu=x86-64-v2 bench/loops.rs -o "$work/loops" \
    -C link-arg=crates/rowbench/out/librowbench.a -C link-arg="$kit/c/liblibc_c.a"
"$work/loops"
