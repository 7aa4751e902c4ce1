#!/usr/bin/env bash
# blake3.sh: the speed of the proved hash against a plain scalar implementation, in one run, and against `b3sum --num-threads 1`
# where that is there. Not part of the gate.
set -euo pipefail
cd "$(dirname "$0")/.."
bench/native-lib blake3_native >/dev/null
mkdir -p target/bench
rustc --edition 2021 -C opt-level=3 bench/blake3/main.rs -o target/bench/blake3 -L target/native -l static=blake3_native
target/bench/blake3
if command -v b3sum >/dev/null; then
  file=target/bench/text
  python3 -c "import sys; sys.stdout.buffer.write((bytes(i % 251 for i in range(251)) * 267361)[:64 << 20])" >"$file"
  best=$(for _ in 1 2 3 4 5 6 7 8 9; do { TIMEFORMAT=%R; time b3sum --num-threads 1 "$file" >/dev/null; } 2>&1; done | sort -n | head -n 1)
  python3 -c "print('b3sum --num-threads 1, with vectors, its start and its reading included: %.0f MB/s' % ((64 << 20) / $best / 1e6))"
fi
