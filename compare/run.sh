#!/bin/sh
# Compares the engine with the Rust and with document 01's model, and the program `quotes` with the reader of lines.py, by
# compare.py, which takes the same options. Builds what is out of date; the engine not, where --engine or REHEARSE names one, or
# --driver wants none; `quotes` not, where --quotes or QUOTES names one, or --driver or --liars wants none.
set -eu
root=$(cd "$(dirname "$0")/.." && pwd)
[ -z "${REHEARSE:-}" ] || set -- --engine "$REHEARSE" "$@"
[ -z "${QUOTES:-}" ] || set -- --quotes "$QUOTES" "$@"
parts=oracle
case " $* " in
*" --engine"* | *" --driver "*) ;;
*) parts="$parts rehearse" ;;
esac
case " $* " in
*" --quotes"* | *" --driver "* | *" --liars "*) ;;
*) parts="$parts quotes" ;;
esac
# In the background, since a shell that is interrupted waits for what it runs in front.
"$root/tools/build.sh" $parts & wait $!
exec python3 -B "$root/compare/compare.py" "$@"
