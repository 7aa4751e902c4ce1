#!/usr/bin/env bash
# instructions.sh REVISION: how many x86-64 instructions encoding and rebuilding take, at that revision and now, counted by the
# emulator that older kits had on other machines, whose times say nothing; today's kit has none, and it then says so. Not part of
# the gate.
set -euo pipefail
cd "$(dirname "$0")/.."
revision=$(git rev-parse --verify "${1:?usage: instructions.sh REVISION}^{commit}")
kit=$(cd "$(dirname "$(rt doc)")/.." && pwd -P)
tools=$kit/on/$(uname -m)/toolchain/bin
[ -x "$tools/qemu-x86_64" ] || { printf 'the kit has no emulator here: cauchy.sh measures times\n' >&2; exit 1; }
bench/native-lib cauchy_native >/dev/null
bench/native-before "$revision" cauchy_native
declare -A archive=([before]=target/before/$revision/target/native/libcauchy_native.a [now]=target/native/libcauchy_native.a)
room=$(mktemp -d)
trap 'rm -rf "$room"' EXIT

# The emulator tells each piece of code that it translates, by instructions, and each run of a piece.
add_up='
  /^OP:/ { fresh = 1 }
  /^ ---- / { if (fresh) { first = $2; size[first] = 0; fresh = 0 } size[first]++ }
  /^Trace/ { split($0, part, "/"); total += size[part[2]] }
  END { printf "%.0f", total }'

# executed WHEN WORK N M S GONE: the instructions of a program that does this work
executed() {
  local ways=()
  nm "${archive[$1]}" | grep -q ' T cauchy_recovery_four$' && ways+=(-DBY_FOURS)
  "$tools/clang" --target=x86_64-unknown-linux-gnu -O2 -ffreestanding -fno-builtin -fno-pic -fno-stack-protector -Wall -Wextra \
    -DWORK="$2" -DN="$3" -DM="$4" -DS="$5" -DGONE="$6" "${ways[@]}" -c -o "$room/main.o" bench/instructions/main.c
  "$tools/ld.lld" -static -o "$room/main" "$room/main.o" "${archive[$1]}"
  "$tools/qemu-x86_64" -d op,exec,nochain -D /dev/stdout "$room/main" | awk "$add_up" || { printf 'a call was refused\n' >&2; return 1; }
}

# compare N M S GONE
compare() {
  local when work count=()
  for when in before now; do
    for work in NOTHING ENCODE REBUILD; do count+=("$(executed "$when" "$work" "$@")"); done
  done
  printf 'N=%s M=%s S=%s, %s gone: ' "$@"
  awk -v c="${count[*]}" 'BEGIN { split(c, x, " "); printf "before / now: encode %.2f, rebuild %.2f (now %d and %d instructions)\n",
    (x[2] - x[1]) / (x[5] - x[4]), (x[3] - x[1]) / (x[6] - x[4]), x[5] - x[4], x[6] - x[4] }'
}

compare 1024 32 4096 30
compare 1024 32 64 30
compare 1024 32 2 30
compare 1024 32 4096 1
compare 1024 1 4096 1
compare 1 32 4096 1
compare 4 4 4096 4
compare 32 32 4096 32
compare 1 32 64 1
compare 1 1 2 1
