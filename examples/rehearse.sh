#!/bin/sh
# Two rehearsals for a person at a shell: two funds over ten days from two small CSV files, and ten made-up securities over
# five years. Each sheet is printed; the picture and every day are in target/examples. REHEARSE names another build of the program.
set -eu
cd "$(dirname "$0")/.."
work=target/examples
mkdir -p "$work"
# In the background, since a shell that is interrupted waits for what it runs in front.
tools/build.sh rehearse & wait $!
export REHEARSE="${REHEARSE:-target/bin/rehearse}"

echo "== two funds, ten days: examples/two-funds"
sheet/sheet.sh --quotes examples/two-funds/quotes.csv --weights examples/two-funds/weights.csv \
    --plan examples/two-funds/plan.txt --to "$work/two-funds"
echo
echo "== ten securities, five years, made up by examples/savings_mix.py"
python3 -B examples/savings_mix.py "$work"
sheet/sheet.sh --quotes "$work/quotes.csv" --weights "$work/weights.csv" --plan examples/savings-mix.plan --to "$work/savings-mix"
