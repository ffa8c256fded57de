#!/bin/sh
# Builds the oracle's four drivers, offline, into target/oracle/: unchanged, bent, mended and bent_mended.
# Each is built from a copy in target/oracle/work/; what is changed in a copy is counted, and any other count fails.
# With --changed, only where the sources' sum is not the one that the last build left in target/oracle/sources.sum.
set -eu
here=$(cd "$(dirname "$0")" && pwd)
"$here/../tools/need.sh" cargo
out=$(dirname "$here")/target/oracle
work=$out/work

exchange=rotala/src/exchange/uist_v1.rs
quotes=rotala/src/input/penelope.rs
broker_traits=rotala-client/src/broker/mod.rs
broker=rotala-client/src/broker/uist.rs
strategy=rotala-client/src/strategy/staticweight.rs
schedule=rotala-client/src/schedule/mod.rs

# One sum over every file that the programs are made from, this script among them.
sources_sum() {
    (cd "$here" && find . -type f ! -name README.md | LC_ALL=C sort | xargs sha256sum | sha256sum)
}

# Are all four programs there, built from sources of this sum?
is_built() {
    for variant in unchanged bent mended bent_mended; do
        [ -x "$out/$variant" ] || return 1
    done
    [ "$(cat "$out/sources.sum" 2>/dev/null)" = "$sum" ]
}

# copy VARIANT: the oracle as it is, but for its build products.
copy() {
    rm -rf "$work/$1/source"
    mkdir -p "$work/$1/source"
    for part in Cargo.toml published rotala rotala-client stand-ins driver; do
        cp -R "$here/$part" "$work/$1/source/"
    done
}

# edit VARIANT FILE SCRIPT: edits a published file in that copy.
edit() {
    file=$work/$1/source/published/$2
    sed "$3" "$file" > "$file.edited"
    mv "$file.edited" "$file"
}

# Maps that walk by ascending name, and a stable sort of the waiting orders with the sells first.
bend() {
    for file in "$quotes" "$broker_traits" "$broker" "$strategy"; do
        edit "$1" "$file" 's/HashMap/BTreeMap/g'
    done
    edit "$1" "$exchange" '
        s/order_buffer\.sort_by(|a, _b| match /order_buffer.sort_by_key(|a| match /
        s/^\( *\)std::cmp::Ordering::Less$/\10/
        s/^\( *\)_ => std::cmp::Ordering::Greater,$/\1_ => 1,/'
}

# One line: the broker looks up a holding without a copy of all of them.
mend() {
    edit "$1" "$broker" '/^impl<C: Client> Portfolio<UistQuote> for UistBroker<C> {$/a\
    fn get_position_qty(\&self, symbol: \&str) -> Option<f64> { self.holdings.get(symbol).copied() }'
}

# expect VARIANT FILE REMOVED ADDED: fails unless the copy's file lacks and adds exactly so many lines.
expect() {
    changes=$(diff "$here/published/$2" "$work/$1/source/published/$2" || true)
    removed=$(printf '%s\n' "$changes" | grep -c '^<' || true)
    added=$(printf '%s\n' "$changes" | grep -c '^>' || true)
    if [ "$removed" != "$3" ] || [ "$added" != "$4" ]; then
        echo "$1: $2: $removed lines removed and $added added, not $3 and $4" >&2
        exit 1
    fi
}

# expect_all VARIANT BENT MENDED: the last two are 1 or 0.
expect_all() {
    expect "$1" "$exchange" $((3 * $2)) $((3 * $2))
    expect "$1" "$quotes" $((5 * $2)) $((5 * $2))
    expect "$1" "$broker_traits" $((3 * $2)) $((3 * $2))
    expect "$1" "$broker" $((3 * $2)) $((3 * $2 + $3))
    expect "$1" "$strategy" $((2 * $2)) $((2 * $2))
    expect "$1" "$schedule" 0 0
}

build() {
    cargo build --offline --release --quiet \
        --manifest-path "$work/$1/source/Cargo.toml" --target-dir "$work/$1/build"
    cp "$work/$1/build/release/driver" "$out/$1"
    echo "built target/oracle/$1"
}

sum=$(sources_sum)
if [ "${1:-}" = --changed ] && is_built; then
    exit 0
fi
(cd "$here/published" && sha256sum --check --strict --quiet SHA256SUMS)
mkdir -p "$work"
# The old sum goes first: a build that fails leaves none.
rm -f "$out/sources.sum"
for variant in unchanged bent mended bent_mended; do
    copy "$variant"
done
bend bent
bend bent_mended
mend mended
mend bent_mended
expect_all unchanged 0 0
expect_all bent 1 0
expect_all mended 0 1
expect_all bent_mended 1 1
(cd "$work/unchanged/source/published" && sha256sum --check --strict --quiet SHA256SUMS)
for variant in unchanged bent mended bent_mended; do
    build "$variant"
done
echo "$sum" > "$out/sources.sum"
