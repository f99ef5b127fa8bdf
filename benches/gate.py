#!/usr/bin/env python3
"""Measures what the gate costs: runs `rt ci --anew` at the top of the repository and writes docs/gate.md.

Each second the processor time of every prover in this run's session is read from /proc, by its crate and by what it does: the
crate's proof, the proof of its tests, or a must-fail edit. A prover's last second may be missed. Run it from the top of a clean
clone; what else runs then costs wall time, and some processor time by the shared memory:

    python3 benches/gate.py
"""
import os
import re
import subprocess
import sys
import time
from collections import Counter

TICK = os.sysconf("SC_CLK_TCK")
KINDS = ("proof", "tests", "edits")


def read_prover(pid, session):
    """The key, crate, kind and processor seconds of a prover of that session, or None for another process."""
    try:
        with open(f"/proc/{pid}/stat") as it:
            text = it.read()
        name, rest = text[text.index("(") + 1 : text.rindex(")")], text[text.rindex(")") + 2 :].split()
        if not name.startswith("rattle") or int(rest[3]) != session:
            return None
        with open(f"/proc/{pid}/cmdline", "rb") as it:
            words = it.read().decode(errors="replace").split("\0")
        folder = os.readlink(f"/proc/{pid}/cwd")
    except (OSError, ValueError):
        return None
    crate = words[words.index("--crate-name") + 1] if "--crate-name" in words else os.path.basename(folder)
    kind = "edits" if "/rt-edit-" in folder else "tests" if "--test" in words else "proof"
    return (pid, rest[19]), crate, kind, (int(rest[11]) + int(rest[12])) / TICK


def sample(seen, session):
    for pid in os.listdir("/proc"):
        found = read_prover(pid, session) if pid.isdigit() else None
        if found:
            key, crate, kind, seconds = found
            seen[key] = crate, kind, seconds


def longest_chain(crates, cost):
    """The dearest chain of crates, each of which stands on the one before it, and its seconds of proof."""
    best = {}
    for name, below in crates.items():
        under = max((best[it] for it in below if it in best), key=lambda it: it[0], default=(0, []))
        best[name] = under[0] + cost[name, "proof"], under[1] + [name]
    return max(best.values(), key=lambda it: it[0])


def read_crates():
    with open("crates.txt") as it:
        lines = [line.split("#")[0].split(":") for line in it if ":" in line.split("#")[0]]
    return {name.split()[0]: below.split() for name, below in lines}


def main():
    seen, began = {}, time.time()
    with open("gate.log", "w") as log:
        gate = subprocess.Popen(["rt", "ci", "--anew"], stdout=log, stderr=subprocess.STDOUT, start_new_session=True)
        while gate.poll() is None:
            sample(seen, gate.pid)
            time.sleep(1)
    cost = Counter()
    for crate, kind, seconds in seen.values():
        cost[crate, kind] += seconds
    crates = read_crates()
    with open("gate.log") as log:
        verdict = log.read().rstrip().split("\n")[-1]
    chain_seconds, chain = longest_chain(crates, cost)
    whole = sum(cost.values())
    rows = sorted(crates, key=lambda it: -sum(cost[it, kind] for kind in KINDS))
    with open("docs/gate.md", "w") as it:
        it.write("# What the gate costs\n\n")
        it.write("Processor seconds of the provers in one run of `rt ci` from nothing, written by `benches/gate.py`; linking and running are not counted.\n")
        it.write(f"The budget is 180 processor minutes in all, 10 for a crate, and 40 for the longest chain of crates.\n\n")
        it.write(f"{verdict}. In all {whole / 60:.0f} processor minutes, {(time.time() - began) / 60:.0f} minutes of wall time on {os.cpu_count()} processors.\n")
        it.write(f"Longest chain: {chain_seconds / 60:.0f} processor minutes, {' < '.join(chain)}.\n\n")
        it.write("| Crate | Proof | Proof of tests | Edits | In all |\n|---|---|---|---|---|\n")
        for name in rows:
            parts = [cost[name, kind] for kind in KINDS]
            it.write(f"| {name} | {' | '.join(f'{part:.0f}' for part in parts)} | {sum(parts):.0f} |\n")
    return gate.returncode


if __name__ == "__main__":
    sys.exit(main())
