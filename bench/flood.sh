#!/usr/bin/env bash
# flood.sh [FILES [SEED]]: runs sfc_probe and the second program on frames of damaged, reordered and forged files (a million,
# from seed 1, if nothing is said), a slice at a time, and stops at the first difference. Not part of the gate.
set -euo pipefail
cd "$(dirname "$0")/.."
files=${1:-1000000}
seed=${2:-1}
slice=5000
room=target/flood
mkdir -p "$room"
rustc --edition 2021 -C opt-level=3 -o "$room/second" second/src/main.rs
(cd crates/sfc_probe && rt run <stdin >/dev/null)

# Says which file of the slice the two programs differ on, and how.
report() {
  local line
  line=$(cmp "$room/second.out" "$room/probe.out" 2>&1 | sed -n 's/.*line \([0-9]*\).*/\1/p')
  [ -n "$line" ] || line=$(wc -l <"$room/probe.out")
  echo "the first difference is in line $line, of $(head -n "$line" "$room/second.out" | grep '^seed' | tail -n 1):"
  echo "second: $(sed -n "${line}p" "$room/second.out")"
  echo "probe:  $(sed -n "${line}p" "$room/probe.out")"
  echo "the frames are in $room/frames"
}

done_files=0
while [ "$done_files" -lt "$files" ]; do
  "$room/second" flood "$seed" "$slice" >"$room/frames"
  "$room/second" sfc_probe <"$room/frames" >"$room/second.out"
  .ci/program sfc_probe <"$room/frames" >"$room/probe.out"
  if ! cmp -s "$room/second.out" "$room/probe.out"; then
    report
    exit 1
  fi
  done_files=$((done_files + slice))
  seed=$((seed + 1))
done
echo "$done_files files, no difference; the next seed is $seed"
