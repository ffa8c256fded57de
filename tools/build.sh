#!/bin/sh
# Builds what is out of date, for the scripts that start a built program: build.sh PART.., each of
#   rehearse    target/bin/rehearse, by `rt run` in crates/rehearse, which proves again only what has changed;
#               nothing where REHEARSE names another build of the program
#   engine, recording   the same
#   quotes      target/bin/quotes, in the same way; nothing where QUOTES names another build
#   two_ticks   target/bin/two_ticks, in the same way
#   oracle      the Rust's drivers, by the sum of their sources
# First it looks for all that the parts need, and for Python, which every script needs. All that is said goes to standard error.
set -eu
cd "$(dirname "$0")/.."
needed=python3 parts=
for part in "$@"; do
    case $part in engine | recording) part=rehearse ;; esac
    case $part in
    rehearse) [ -z "${REHEARSE:-}" ] || continue; program=rt ;;
    quotes) [ -z "${QUOTES:-}" ] || continue; program=rt ;;
    two_ticks) program=rt ;;
    oracle) program=cargo ;;
    *)
        echo "build.sh: there is no part '$part'" >&2
        exit 2
        ;;
    esac
    parts="$parts $part"
    # Each program once, so that one that is missing is told once.
    case " $needed " in *" $program "*) ;; *) needed="$needed $program" ;; esac
done
tools/need.sh $needed
# One process that takes this one's place, so that it sees when its caller ends.
[ -z "$parts" ] || exec python3 -B tools/building.py $parts
