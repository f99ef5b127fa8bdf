#!/usr/bin/env python3
"""Prints values of coloured links, nets and surgered manifolds from closed formulas, modulo M, for A of order 4R. No diagram is
summed here, so these values check the program from outside.

    python3 examples/closed_values.py 41 2 5

Sources: quantum integers, theta and tetrahedral nets, and the twist of a vertex: Kauffman and Lins, ch. 9; the figure eight: Habiro's
cyclotomic formula; surgery values of framed unknots and their connected sums: Lickorish, ch. 13.
"""
import sys


def sign(n):
    return -1 if n % 2 else 1


class Level:
    """The quantum numbers at A modulo m, with A of order 4r."""

    def __init__(self, m, a, r):
        self.m, self.a, self.r = m, a, r

    def power(self, e):
        return pow(self.a, e % (4 * self.r), self.m)

    def quotient(self, x, y):
        return x * pow(y, -1, self.m) % self.m

    def integer(self, n):
        """[n]: the sum of A^(2(n-1)), A^(2(n-3)), .. down to A^(-2(n-1))."""
        return sum(self.power(2 * (n - 1 - 2 * k)) for k in range(n)) % self.m

    def factorial(self, n):
        product = 1
        for k in range(1, n + 1):
            product = product * self.integer(k) % self.m
        return product

    def delta(self, n):
        return sign(n) * self.integer(n + 1) % self.m

    def curl(self, n, t):
        """mu_n to the power t: the factor of t positive curls on a strand of colour n."""
        return sign(n * t) * self.power((n * n + 2 * n) * t) % self.m

    def hopf(self, i, j):
        return sign(i + j) * self.integer((i + 1) * (j + 1)) % self.m

    def theta(self, a, b, c):
        x, y, z = (a + b - c) // 2, (b + c - a) // 2, (c + a - b) // 2
        above = self.factorial(x + y + z + 1) * self.factorial(x) * self.factorial(y) * self.factorial(z)
        below = self.factorial(x + y) * self.factorial(y + z) * self.factorial(z + x)
        return sign(x + y + z) * self.quotient(above, below) % self.m

    def tetrahedron(self, a, b, e, c, d, f):
        """The net with the vertices (a,d,e), (b,c,e), (a,b,f), (c,d,f)."""
        low = [(a + d + e) // 2, (b + c + e) // 2, (a + b + f) // 2, (c + d + f) // 2]
        high = [(b + d + e + f) // 2, (a + c + e + f) // 2, (a + b + c + d) // 2]
        inner = 1
        for x in low:
            for y in high:
                inner = inner * self.factorial(y - x) % self.m
        outer = 1
        for x in (a, b, c, d, e, f):
            outer = outer * self.factorial(x) % self.m
        total = 0
        for s in range(max(low), min(high) + 1):
            below = 1
            for x in low:
                below = below * self.factorial(s - x) % self.m
            for y in high:
                below = below * self.factorial(y - s) % self.m
            total += sign(s) * self.quotient(self.factorial(s + 1), below)
        return self.quotient(inner * total, outer)

    def torus(self, count, n):
        """The closed braid of two strands of colour n with so many crossings X[2i,2i+2,2i+1,2i-1], fewer than none for the mirror image.

        Each crossing turns a vertex (n,n,c), which is worth (-1)^((2n-c)/2) A^(2n-c+(2n^2-c^2)/2) to the power -1 or 1."""
        total = 0
        for c in range(0, 2 * n + 1, 2):
            turn = sign((2 * n - c) // 2 * count) * self.power(-(2 * n - c + (2 * n * n - c * c) // 2) * count)
            total += self.delta(c) * turn
        return total % self.m

    def figure_eight(self, n):
        total = 0
        for k in range(n + 1):
            product = 1
            for i in range(1, k + 1):
                for step in (n + 1 + i, n + 1 - i):
                    product = product * (self.power(2 * step) - self.power(-2 * step)) % self.m
            total += product
        return self.delta(n) * total % self.m

    def colours(self):
        return range(self.r - 1)

    def omega(self, t):
        """The Kirby sum of a circle without crossings, framed t."""
        return sum(self.delta(n) ** 2 * self.curl(n, t) for n in self.colours()) % self.m

    def unknot_surgery(self, t):
        """Surgery on the unknot framed t: S1 x S2 at 0, the sphere at 1 and -1, else the lens space L(t,1)."""
        if t == 0:
            return self.omega(0)
        return self.quotient(self.omega(t), self.omega(1 if t > 0 else -1))


def rows(level):
    for n in range(min(level.r, 5)):
        yield f"unknot {n}", level.delta(n)
        yield f"unknot with a curl {n}", level.delta(n) * level.curl(n, 1) % level.m
    for n in (1, 2, 3):
        yield f"left-handed trefoil {n}", level.torus(-3, n)
        yield f"figure eight {n}", level.figure_eight(n)
    for i, j in ((1, 1), (2, 2), (1, 3), (3, 1)):
        yield f"Hopf link {i},{j}", level.hopf(i, j)
    for colours in ((1, 1, 2), (2, 2, 2), (1, 2, 3)):
        yield "theta net " + ",".join(map(str, colours)), level.theta(*colours)
    for colours in ((1, 1, 2, 1, 1, 2), (2, 2, 2, 2, 2, 2)):
        yield "tetrahedral net " + ",".join(map(str, colours)), level.tetrahedron(*colours)
    for t in range(-5, 6):
        yield f"unknot framed {t}", level.unknot_surgery(t)
    yield "two unknots framed 2 and 3 (a connected sum)", level.unknot_surgery(2) * level.unknot_surgery(3) % level.m


def main():
    level = Level(*map(int, sys.argv[1:] or ("41", "2", "5")))
    for name, value in rows(level):
        print(f"{name}: {value}")


if __name__ == "__main__":
    main()
