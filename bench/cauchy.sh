#!/usr/bin/env bash
# cauchy.sh [REVISION]: proves the calls, compiles them for the machine at hand, and prints ratios of one run (bench/cauchy/main.rs
# says of what); with a revision, also to the calls as they were there. It wants rustc; with libjerasure-dev and par2 installed
# (Debian) it compares with those too. Not part of the gate.
set -euo pipefail
cd "$(dirname "$0")/.."
lscpu | sed -n 's/^Model name: */processor: /p'
bench/native-lib cauchy_native >/dev/null
mkdir -p target/bench
linked=(-l static=cauchy_native)
if [ $# -gt 0 ]; then
  bench/native-before "$1" cauchy_native cauchy_recovery cauchy_recovery_four cauchy_rebuild_all
  linked+=(-l static=before_cauchy_native --cfg before)
fi
if headers=$(dpkg -L libjerasure-dev 2>/dev/null | grep '/galois\.h$'); then
  # its headers name each other as if they all stood in one folder
  cc -std=c11 -O2 -Wall -Wextra -Werror -I "$(dirname "$headers")" -c -o target/bench/rival.o bench/jerasure/rival.c
  ar rcs target/native/librival.a target/bench/rival.o
  linked+=(-l static=rival -l Jerasure -l gf_complete --cfg jerasure)
fi
rustc --edition 2021 -C opt-level=3 -D warnings --check-cfg 'cfg(before, jerasure)' -L native=target/native "${linked[@]}" \
  -o target/bench/cauchy bench/cauchy/main.rs
target/bench/cauchy
