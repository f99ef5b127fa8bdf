#!/usr/bin/env python3
"""Times the program on the brackets of closed braids, start and reading included: benches/closed_braids.py PROGRAM [PROGRAM..]

The programs take turns, five runs each, and for each braid it prints the turns and, for each program, the least processor seconds of a
run, and the nanoseconds that this is a turn. All programs have to print the same. Two states are set side by side by their programs,
as `rt run` or `rt ci` leave them in crates/wrt_main/out.
"""
import os
import resource
import subprocess
import sys

MODULUS = 4611686018427387761
LEVEL = 10
RUNS = 5


def root_of_order(order):
    """A residue of that order, which is 40."""
    for g in range(2, 1000):
        a = pow(g, (MODULUS - 1) // order, MODULUS)
        if all(pow(a, order // p, MODULUS) != 1 for p in (2, 5)):
            return a


def torus(strands, turns):
    return strands, [s for _ in range(turns) for s in range(1, strands)]


def weave(strands, columns):
    """Columns of crossings between neighbours, over and under in turn."""
    word = []
    for column in range(columns):
        first, sign = (1, 1) if column % 2 == 0 else (2, -1)
        word += [sign * s for s in range(first, strands, 2)]
    return strands, word


BRAIDS = {
    "T(8,16)": torus(8, 16),
    "weave 16-16": weave(16, 16),
    "T(10,11)": torus(10, 11),
    "weave 20-24": weave(20, 24),
    "T(12,13)": torus(12, 13),
}


def closure(strands, word):
    """The closed braid: the top of each position is joined with its bottom."""
    last = {}
    for at, entry in enumerate(word):
        last[abs(entry)] = last[abs(entry) + 1] = at
    labels = list(range(strands + 1))
    unused = strands + 1
    items = []
    for at, entry in enumerate(word):
        i = abs(entry)
        x, y = labels[i], labels[i + 1]
        for position in (i, i + 1):
            if last[position] == at:
                labels[position] = position
            else:
                labels[position] = unused
                unused += 1
        left, right = labels[i], labels[i + 1]
        items.append(f"X[{y},{right},{left},{x}]" if entry > 0 else f"X[{x},{y},{right},{left}]")
    items += [f"Loop[{p}]" for p in range(1, strands + 1) if p not in last]
    return f"PD[{','.join(items)}]"


def run(program, text):
    """What the program prints, and its processor seconds."""
    words = [program, "bracket", str(MODULUS), str(root_of_order(4 * LEVEL)), str(LEVEL), "--order=greedy", "--turns"]
    before = resource.getrusage(resource.RUSAGE_CHILDREN)
    said = subprocess.run(words, input=text, capture_output=True, text=True)
    after = resource.getrusage(resource.RUSAGE_CHILDREN)
    return said.stdout + said.stderr, after.ru_utime + after.ru_stime - before.ru_utime - before.ru_stime


def main():
    programs = [os.path.abspath(it) for it in sys.argv[1:]]
    if not programs:
        sys.exit(__doc__)
    for name, (strands, word) in BRAIDS.items():
        text = closure(strands, word)
        seconds, said = {it: [] for it in programs}, set()
        for _ in range(RUNS):
            for program in programs:
                answer, took = run(program, text)
                seconds[program].append(took)
                said.add(answer)
        if len(said) != 1:
            sys.exit(f"{name}: the programs differ: {said}")
        residue, turns = said.pop().split("\n")[:2]
        count = int(turns.split()[1])
        least = [min(seconds[it]) for it in programs]
        print(f"{name}: {count} turns;", "; ".join(f"{it:.3f} s, {it / count * 1e9:.1f} ns a turn" for it in least), flush=True)


if __name__ == "__main__":
    main()
