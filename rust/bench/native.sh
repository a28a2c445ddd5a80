#!/usr/bin/env bash
# The benchmark at full speed on either kind of machine. On x86-64 it times the shipped archive. On Arm, where a time under an emulator
# says nothing, it times the same code compiled for Arm (arm/build), with one function more: the part that lays the turn list.
#     rust/bench/native.sh            proves and compiles the engine, then runs the benchmark
#     rust/bench/native.sh --picture docs/speed.svg    the same, and writes the picture; all its words are handed on
# Needs cargo and, on Arm, rt. Leaves target/native/libdesk.a there.
set -euo pipefail
here=$(cd "$(dirname "$0")/../.." && pwd)
cd "$here"
if [ "$(uname -m)" = x86_64 ]; then
    exec .ci/cargo run --release -p bench -- "$@"
fi

arm/build --laying target/native
OUTLINE_ARCHIVE=$here/target/native/libdesk.a exec cargo run --release --manifest-path rust/Cargo.toml --target-dir target/native/cargo -p bench --features laying -- "$@"
