#!/bin/sh
# explained.sh NAME: runs the scenario examples/NAME.txt, each answer explained in a sentence.
# Ends with status 0 only if every answer is the one that the scenario expects. REHEARSE names another build of the program.
set -eu
cd "$(dirname "$0")/.."
program=${REHEARSE:-target/bin/rehearse}
work=target/examples
mkdir -p "$work"
# In the background, since a shell that is interrupted waits for what it runs in front.
tools/build.sh rehearse & wait $!

"$program" < "examples/$1.txt" > "$work/$1.answers"
python3 -B examples/explain.py "examples/$1.txt" "$work/$1.answers"
