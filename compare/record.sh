#!/bin/sh
# Records the answers that the gate replays, or with --check says whether they stand, by record.py, which takes the
# same options. Builds what is out of date; the engine not, where --engine or REHEARSE names one.
set -eu
root=$(cd "$(dirname "$0")/.." && pwd)
[ -z "${REHEARSE:-}" ] || set -- --engine "$REHEARSE" "$@"
case " $* " in
*" --engine"*) parts=oracle ;;
*) parts="oracle rehearse" ;;
esac
# In the background, since a shell that is interrupted waits for what it runs in front.
"$root/tools/build.sh" $parts & wait $!
exec python3 -B "$root/compare/record.py" "$@"
