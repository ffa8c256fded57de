#!/bin/sh
# Two ways to be refused: a bad table and a Failed broker (examples/refused.txt), each answer explained in a sentence.
exec "$(dirname "$0")/explained.sh" refused
