#!/usr/bin/env bash
# fields.sh: proves the calls, compiles them for the machine at hand, and prints what extension fields cost a reader
# (bench/fields/main.rs says of which). It wants rustc. Not part of the gate.
set -euo pipefail
cd "$(dirname "$0")/.."
lscpu | sed -n 's/^Model name: */processor: /p'
for name in blake3_native sfc_native; do bench/native-lib "$name" >/dev/null; done
mkdir -p target/bench
rustc --edition 2021 -C opt-level=3 -D warnings -L native=target/native -l static=sfc_native -l static=blake3_native \
  -o target/bench/fields bench/fields/main.rs
target/bench/fields
