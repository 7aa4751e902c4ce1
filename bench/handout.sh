#!/usr/bin/env bash
# handout.sh [REVISION]: proves the calls, compiles them for the machine at hand, and prints ratios of one run (bench/handout/main.rs
# says of what); with a revision, also to the hand-out as it was there. It wants rustc. Not part of the gate.
set -euo pipefail
cd "$(dirname "$0")/.."
lscpu | sed -n 's/^Model name: */processor: /p'
for name in blake3_native sfc_native; do bench/native-lib "$name" >/dev/null; done
mkdir -p target/bench
linked=(-l static=sfc_native -l static=blake3_native)
if [ $# -gt 0 ]; then
  bench/native-before "$1" sfc_native sfc_hand_out sfc_turn sfc_release sfc_write
  before=turns
  if nm target/native/libbefore_sfc_native.a | grep -q ' T before_sfc_hand_out$'; then before=whole; fi
  linked+=(-l static=before_sfc_native --cfg before --cfg "before=\"$before\"")
fi
rustc --edition 2021 -C opt-level=3 -D warnings --check-cfg 'cfg(before, values(none(), "whole", "turns"))' \
  -L native=target/native "${linked[@]}" -o target/bench/handout bench/handout/main.rs
target/bench/handout
