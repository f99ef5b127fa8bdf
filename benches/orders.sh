#!/bin/sh
# Times the orders of a contraction at large networks: benches/orders.sh [CHECKOUT]..
#
# For this checkout, and for each other one that is named, it copies the crates that the contraction stands on,
# with what earlier checks kept, adds a program to the copy, proves, builds and runs it.
set -eu

benches=$(cd "$(dirname "$0")" && pwd)
top=$(dirname "$benches")
below="list_lemmas graph_parts state_sums arc_gluing arc_pairing kept_seams frontier_laws kept_tables ring_identities residue_ring root_quantum plain_sum frontier_sweep"

copy=$(mktemp -d)
trap 'rm -rf "$copy"' EXIT
for checkout in "$top" "$@"; do
    rm -rf "$copy/crates" "$copy/crates.txt"
    mkdir -p "$copy/crates/orders_bench/src"
    cp "$checkout/HANDLES" "$copy"
    for crate in $below; do
        cp -a "$checkout/crates/$crate" "$copy/crates"
        grep "^$crate:" "$checkout/crates.txt" >> "$copy/crates.txt"
    done
    echo "orders_bench: $below arrayvec indexmap" >> "$copy/crates.txt"
    cp "$benches/orders.rt.txt" "$copy/crates/orders_bench/src/main.rt"
    echo "== $checkout"
    (cd "$copy/crates/orders_bench" && rt run > "$copy/log" 2>&1) || { tail -n 20 "$copy/log"; exit 1; }
    "$copy/crates/orders_bench/out/orders_bench"
done
