#!/bin/sh
# Many mixes over the same quotes, through GNU parallel:
#   sweep.sh --quotes CSV --plan FILE --to FOLDER [--jobs N] [--hosts FILE] WEIGHTS.csv..
# Each mix has its sheet in FOLDER/sheets/NAME; their figures are joined in FOLDER/mixes.csv and FOLDER/mixes.svg. Interrupted, the
# same command goes on with the mixes that are missing. Hosts, one a line, are reached by ssh and see the same folders.
# REHEARSE names another build of the program.
set -eu
root=$(cd "$(dirname "$0")/.." && pwd)
quotes= plan= folder= hosts= jobs=100%
usage() {
    sed -n '2,3p' "$0" | cut -c3- >&2
    exit 2
}
while [ $# -gt 0 ]; do
    case $1 in
    --quotes) quotes=${2:-}; shift 2 || usage ;;
    --plan) plan=${2:-}; shift 2 || usage ;;
    --to) folder=${2:-}; shift 2 || usage ;;
    --hosts) hosts=${2:-}; shift 2 || usage ;;
    --jobs) jobs=${2:-}; shift 2 || usage ;;
    -*) usage ;;
    *) break ;;
    esac
done
[ -n "$quotes" ] && [ -n "$plan" ] && [ -n "$folder" ] && [ $# -gt 0 ] || usage
"$root/tools/need.sh" parallel
# In the background, since a shell that is interrupted waits for what it runs in front.
"$root/tools/build.sh" rehearse & wait $!

mkdir -p "$folder/sheets"
folder=$(cd "$folder" && pwd)
python3 -B "$root/sheet/mixes.py" "$folder" "$quotes" "$plan" "$@"
python3 -B "$root/sheet/sheet.py" --quotes "$quotes" --weights "$@" --prepare "$folder/quotes.ready"

REHEARSE=${REHEARSE:-$root/target/bin/rehearse}
case $REHEARSE in /*) ;; *) REHEARSE=$PWD/$REHEARSE ;; esac
export REHEARSE
# The interpreter itself starts sooner than one behind a shim; without site packages (-S) sooner still.
PATH=$(python3 -c 'import os, sys; print(os.path.dirname(sys.executable))'):$PATH
set --
[ -z "$hosts" ] || set -- --sshloginfile "$hosts" --env REHEARSE
# A mix that fails says why in its file; the others go on.
python3 -B "$root/sheet/swept.py" "$folder" parallel "$@" --will-cite --jobs "$jobs" --workdir "$root" --colsep '\t' --trim n \
    --joblog "$folder/joblog" --resume-failed --arg-file "$folder/mixes.txt" \
    python3 -S -B sheet/sheet.py --no-scenario --prepared {3} --weights {2} --plan {4} --to {5} '>' {6} '2>&1' &
running=$!
stop() {
    kill "$running" 2> /dev/null || true
    wait "$running" || true
    echo "the same command goes on from here" >&2
    exit 130
}
trap stop INT TERM HUP
wait "$running" || true
exec python3 -B "$root/sheet/joined.py" "$folder"
