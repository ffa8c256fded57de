#!/bin/sh
# The tests of the sheet and of the scripts: figures against a plan worked out by hand, bad files named, nothing written half, nothing
# left behind.
# Builds the program where it is out of date. REHEARSE names another build of it.
set -eu
root=$(cd "$(dirname "$0")/../.." && pwd)
# In the background, since a shell that is interrupted waits for what it runs in front.
"$root/tools/build.sh" rehearse & wait $!
cd "$root/sheet/tests" && exec python3 -B -m unittest
