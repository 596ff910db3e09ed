#!/bin/sh
# Builds the kernel as a static library, links the Rust program bench/native with it and runs it: a comparison on random inputs, then times.
# Words are handed on: how many thousand inputs, and the seed. `NO_BUILD=1` takes the library as it stands.
set -eu
cd "$(dirname "$0")/.."
[ -n "${NO_BUILD:-}" ] || (cd crates/native && "${RT:-rt}" lib >/dev/null)
mkdir -p target/bench
rustc --edition 2024 -C opt-level=3 -C debuginfo=1 -L native=crates/native/out -l static=native -o target/bench/native bench/native/main.rs
exec target/bench/native "$@"
