#!/usr/bin/env bash
# jerasure.sh [SEED]: prints the recovery blocks that jerasure computes for some sets of data blocks, with 16-bit words, document
# 01's polynomial and its own original Cauchy matrix. published/jerasure.txt is what it prints from seed 1, if nothing is said.
# It wants a C compiler, the Debian package libjerasure-dev and a little-endian machine. Not part of the gate.
set -euo pipefail
cd "$(dirname "$0")/.."
room=target/jerasure
mkdir -p "$room"
# its headers name each other as if they all stood in one folder
headers=$(dirname "$(dpkg -L libjerasure-dev | grep '/galois\.h$')")
cc -std=c11 -O2 -Wall -Wextra -Werror -I "$headers" -o "$room/witness" bench/jerasure/witness.c -lJerasure -lgf_complete
"$room/witness" "${1:-1}"
