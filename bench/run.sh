#!/bin/sh
# The benchmark: the Rattle program and the Rust on the same scenarios in one run, with equal answers and final bits asserted.
# Usage: bench/run.sh [ROUNDS [SCENARIO..]]; 5 rounds of every scenario unless named. The table is also at target/bench/table.md.
# Builds what is out of date. REHEARSE names another build of the Rattle program.
set -eu
cd "$(dirname "$0")/.."
# In the background, since a shell that is interrupted waits for what it runs in front.
tools/build.sh oracle rehearse & wait $!
[ $# -gt 0 ] || set -- 5
exec python3 -B bench/bench.py "$@"
