#!/usr/bin/env python3
"""Prints surgery values of known manifolds from closed formulas, modulo M, for A of order 4R, beside words and texts that the program
takes. No diagram is summed here: the values come of sums over the colours of a tree of unknots, so they check the program from outside.

    python3 examples/manifolds.py 41 2 5
    python3 examples/manifolds.py 11 2 5 --even

Sources: Hopf links, twists and surgery values of trees of framed unknots: Lickorish, ch. 13; lens spaces by chains and the Poincare
sphere by the E8 tree: Kirby and Scharlemann; the three-torus by the number of colours of a torus: Turaev, ch. IV. Connected sums multiply.
"""
import sys
from fractions import Fraction
from itertools import product


class Level:
    """The colours and quantum numbers at A modulo m, with A of order 4r, or in the even form 4r or 2r."""

    def __init__(self, m, a, r, even):
        self.m, self.a, self.r = m, a, r
        self.colours = range(0, r - 2, 2) if even else range(r - 1)

    def power(self, e):
        return pow(self.a, e % (4 * self.r), self.m)

    def hopf(self, i, j):
        """The Hopf link of these colours: with n = (i+1)(j+1), A^(2(n-1)) + A^(2(n-3)) + .. + A^(-2(n-1)), signed."""
        n = (i + 1) * (j + 1)
        return (-1) ** (i + j) * sum(self.power(2 * (n - 1 - 2 * k)) for k in range(n)) % self.m

    def delta(self, n):
        return self.hopf(n, 0)

    def curl(self, n, t):
        return (-1) ** (n * t % 2) * self.power((n * n + 2 * n) * t) % self.m

    def kirby(self, framings, edges):
        """The sum over the colours of a tree of unknots, linked once along each edge."""
        # An unknot of degree d has its delta to the power 1 in the weight, and 1 - d in the value of the tree.
        degree = [sum(v in edge for edge in edges) for v in range(len(framings))]
        total = 0
        for c in product(self.colours, repeat=len(framings)):
            term = 1
            for v, n in enumerate(c):
                term = term * pow(self.delta(n), 2 - degree[v], self.m) * self.curl(n, framings[v]) % self.m
            for v, w in edges:
                term = term * self.hopf(c[v], c[w]) % self.m
            total += term
        return total % self.m

    def tree(self, framings, edges=()):
        """The surgery value of the tree."""
        value = self.kirby(framings, edges)
        for sign, count in zip((1, -1), signs(framings, edges)):
            value = value * pow(self.kirby([sign], ()), -count, self.m) % self.m
        return value


def signs(framings, edges):
    """How many positive and negative entries a diagonal form of the tree's linking matrix has."""
    n = len(framings)
    rows = [[Fraction(framings[v] if v == w else (v, w) in edges or (w, v) in edges) for w in range(n)] for v in range(n)]
    positive = negative = 0
    while rows:
        n = len(rows)
        pivot = next((v for v in range(n) if rows[v][v]), None)
        if pivot is None:
            place = next(((v, w) for v in range(n) for w in range(n) if rows[v][w]), None)
            if place is None:
                break
            pivot, other = place
            for w in range(n):
                rows[pivot][w] += rows[other][w]
            for v in range(n):
                rows[v][pivot] += rows[v][other]
        p = rows[pivot][pivot]
        positive += p > 0
        negative += p < 0
        left = [v for v in range(n) if v != pivot]
        rows = [[rows[v][w] - rows[v][pivot] * rows[pivot][w] / p for w in left] for v in left]
    return positive, negative


def text(count, edges):
    """A diagram of the tree of unknots: two crossings along each edge, in each of which another of the two strands is above."""
    ends = [[] for _ in range(count)]
    crossings = []
    label = 0

    def fresh():
        nonlocal label
        label += 1
        return ("inner", label)

    for v, w in edges:
        inner_v, inner_w = fresh(), fresh()
        a, b, c, d = [(kind, v, w) for kind in ("a", "b", "c", "d")]
        crossings += [[a, inner_w, inner_v, c], [inner_w, b, d, inner_v]]
        ends[v].append((a, b))
        ends[w].append((d, c))
    same = {}
    for passed in ends:
        for k, (_, out) in enumerate(passed):
            same[passed[(k + 1) % len(passed)][0]] = out
    items, numbers = [], {}
    for slots in crossings:
        names = [numbers.setdefault(same.get(slot, slot), len(numbers) + 1) for slot in slots]
        items.append("X[" + ",".join(map(str, names)) + "]")
    for v in range(count):
        if not ends[v]:
            items.append(f"Loop[{len(numbers) + 1}]")
            numbers[v] = len(numbers) + 1
    return "PD[" + ",".join(items) + "]"


def main():
    m, a, r = map(int, sys.argv[1:4])
    even = "--even" in sys.argv[4:]
    level = Level(m, a, r, even)
    chain = [(0, 1), (1, 2)]
    # a branch of two, of three and of five from the node 2
    e8 = [(0, 1), (1, 2), (2, 3), (3, 4), (4, 5), (5, 6), (2, 7)]
    trees = [(f"lens space L({p},1)", [p], []) for p in range(-3, 6)]
    trees += [
        ("S1 x S2", [0], []),
        ("lens space L(5,2)", [-3, -2], [(0, 1)]),
        ("lens space L(7,3)", [-3, -2, -2], chain),
        ("L(3,1) # S1 x S2", [3, 0], []),
        ("three-sphere", [2, 1], [(0, 1)]),
        ("three-sphere", [0, 7], [(0, 1)]),
    ]
    if len(level.colours) <= 2:
        trees.append(("Poincare sphere", [-2] * 8, e8))
    words = f"wrt {m} {a} {r}" + (" --even" if even else "")
    for name, framings, edges in trees:
        print(f"{name}: {words} --framing={','.join(map(str, framings))} {text(len(framings), edges)} {level.tree(framings, edges)}")
    squares = sum(level.delta(n) ** 2 for n in level.colours)
    print(f"three-torus: {words} --framing=0,0,0 examples/borromean.pd {len(level.colours) * squares**2 % m}")


main()
