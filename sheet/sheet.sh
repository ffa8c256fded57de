#!/bin/sh
# A fact sheet from closing quotes, weights and a plan: sheet.sh --quotes CSV --weights CSV --plan FILE --to FOLDER (--help says more).
# Builds the program where it is out of date. REHEARSE names another build of it.
set -eu
here=$(cd "$(dirname "$0")" && pwd)
part=rehearse
case " $* " in *" -h "* | *" --help "* | *" --version "*) part= ;; esac
# In the background, since a shell that is interrupted waits for what it runs in front.
"$here/../tools/build.sh" $part & wait $!
exec python3 -B "$here/sheet.py" "$@"
