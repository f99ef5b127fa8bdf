#!/bin/sh
# Times the proved contraction beside the same walk in plain Rust: benches/run.sh [RUNS]
#
# It copies the crates that the contraction stands on, with what earlier checks kept, adds a program to the
# copy, proves, builds and runs it, and then runs both programs in turn, 5 times each if RUNS is left out.
# The table has the fastest round of each, by turns, and by how much more the slowest run's fastest round took.
set -eu

runs=${1:-5}
benches=$(cd "$(dirname "$0")" && pwd)
top=$(dirname "$benches")
below="list_lemmas graph_parts state_sums arc_gluing arc_pairing kept_seams frontier_laws kept_tables ring_identities residue_ring root_quantum plain_sum frontier_sweep"

copy=$(mktemp -d)
trap 'rm -rf "$copy"' EXIT
mkdir -p "$copy/crates/sweep_bench/src"
cp "$top/HANDLES" "$copy"
for crate in $below; do
    cp -a "$top/crates/$crate" "$copy/crates"
    grep "^$crate:" "$top/crates.txt" >> "$copy/crates.txt"
done
echo "sweep_bench: $below arrayvec indexmap" >> "$copy/crates.txt"
cp "$benches/sweep.rt.txt" "$copy/crates/sweep_bench/src/main.rt"

rustc -O -o "$copy/plain" "$benches/plain.rs"
cd "$copy/crates/sweep_bench"
rt run > "$copy/log" 2>&1 || { tail -n 20 "$copy/log"; exit 1; }

run=0
while [ "$run" -lt "$runs" ]; do
    "$copy/plain" | sed 's/^/plain /' >> "$copy/times"
    out/sweep_bench | sed 's/^/proved /' >> "$copy/times"
    run=$((run + 1))
done

awk '
    {
        value[$1, $2] = $3
        turns[$1, $2] = $4
        if (!(($1, $2) in least) || $5 < least[$1, $2]) least[$1, $2] = $5
        if ($5 > most[$1, $2]) most[$1, $2] = $5
    }
    function per_turn(program, name) { return least[program, name] / turns[program, name] }
    function spread(program, name) { return 100 * (most[program, name] / least[program, name] - 1) }
    END {
        print "network    value    turns  plain ns/turn  spread  proved ns/turn  spread  ratio"
        split("torus braid weave", names)
        for (i = 1; i <= 3; i++) {
            name = names[i]
            if (value["plain", name] != value["proved", name] || turns["plain", name] != turns["proved", name]) {
                print name ": the two programs differ"
                differ = 1
            } else {
                plain = per_turn("plain", name)
                proved = per_turn("proved", name)
                printf "%-7s %8d %8d %14.1f %6.0f%% %15.1f %6.0f%% %6.2f\n", name, value["plain", name], turns["plain", name], plain, spread("plain", name), proved, spread("proved", name), proved / plain
            }
        }
        exit differ
    }
' "$copy/times"
