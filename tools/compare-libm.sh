#!/bin/sh
# Compares the proved floor and ceil with libm's, bit for bit, and times both.
# Ends with a status other than 0 if any result differs. Work files go to target/compare-libm/.
set -eu
cd "$(dirname "$0")/.."
tools/need.sh rt cc
work=target/compare-libm
mkdir -p "$work"
(cd crates/floats_c && rt lib)
cc -O2 -fno-builtin -Wall -Wextra -o "$work/compare" tools/compare-libm.c crates/floats_c/out/libfloats_c.a -lm
"$work/compare"
