#!/bin/sh
# Times the contraction of coloured networks: benches/coloured.sh [CHECKOUT]..
#
# For this checkout, and for each other one that is named, it copies skein_network and the crates below it, with what
# earlier checks kept, adds a program to the copy, proves, builds and runs it.
set -eu

benches=$(cd "$(dirname "$0")" && pwd)
top=$(dirname "$benches")

copy=$(mktemp -d)
trap 'rm -rf "$copy"' EXIT
for checkout in "$top" "$@"; do
    rm -rf "$copy/crates" "$copy/crates.txt"
    mkdir -p "$copy/crates/coloured_bench/src"
    cp "$checkout/HANDLES" "$copy"
    below="plain_sum $(sed -n 's/^skein_network://p' "$checkout/crates.txt") skein_network"
    for crate in $below; do
        if [ -d "$checkout/crates/$crate" ]; then
            cp -a "$checkout/crates/$crate" "$copy/crates"
            grep "^$crate:" "$checkout/crates.txt" >> "$copy/crates.txt"
        fi
    done
    echo "coloured_bench: $below" >> "$copy/crates.txt"
    cp "$benches/coloured.rt.txt" "$copy/crates/coloured_bench/src/main.rt"
    echo "== $checkout"
    (cd "$copy/crates/coloured_bench" && rt run > "$copy/log" 2>&1) || { tail -n 20 "$copy/log"; exit 1; }
    "$copy/crates/coloured_bench/out/coloured_bench"
done
