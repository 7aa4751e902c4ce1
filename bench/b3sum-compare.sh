#!/usr/bin/env bash
# b3sum-compare.sh: compares the second program's BLAKE3 with b3sum (Debian package b3sum) on the vectors' lengths. Not part of the gate.
set -euo pipefail
cd "$(dirname "$0")/.."
mkdir -p target/second
rustc --edition 2021 -O second/src/main.rs -o target/second/second
lengths="0 1 2 3 4 5 6 7 8 63 64 65 127 128 129 1023 1024 1025 2048 2049 3072 3073 4096 4097 5120 5121 6144 6145 7168 7169 8192 8193 16384 31744 65536"
good=0
for length in $lengths; do
  theirs=$(python3 -c "import sys; sys.stdout.buffer.write(bytes(i % 251 for i in range($length)))" | b3sum --no-names)
  ours=$(target/second/second hash "$length")
  if [ "$ours" != "$theirs" ]; then
    echo "$length: second $ours, b3sum $theirs"
    exit 1
  fi
  good=$((good + 1))
done
echo "$good hashes agree with b3sum"
