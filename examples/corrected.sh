#!/bin/sh
# A vendor's rows with their corrections, and the check that takes their table (examples/corrected.txt), each answer explained.
exec "$(dirname "$0")/explained.sh" corrected
