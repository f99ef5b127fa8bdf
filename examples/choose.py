#!/usr/bin/env python3
"""Prints the table of docs/choosing.md: for each level R the least prime M with 4R dividing M - 1, and the greatest below 2^61, each
with the least A whose order modulo M is exactly 4R.

    python3 examples/choose.py
"""

WITNESSES = (2, 3, 5, 7, 11, 13, 17, 19, 23, 29, 31, 37)


def is_prime(n):
    """Miller and Rabin's test, which with these witnesses is exact below 2^64."""
    if n < 2:
        return False
    for p in WITNESSES:
        if n % p == 0:
            return n == p
    d, s = n - 1, 0
    while d % 2 == 0:
        d, s = d // 2, s + 1
    for a in WITNESSES:
        x = pow(a, d, n)
        if x in (1, n - 1):
            continue
        for _ in range(s - 1):
            x = x * x % n
            if x == n - 1:
                break
        else:
            return False
    return True


def prime_factors(n):
    return [p for p in range(2, n + 1) if n % p == 0 and is_prime(p)]


def has_order(a, t, m):
    return pow(a, t, m) == 1 and all(pow(a, t // p, m) != 1 for p in prime_factors(t))


def root(m, t):
    """The least number whose order modulo the prime m is t, a divisor of m - 1: the least power of one such that has that order."""
    found = next(a for a in (pow(g, (m - 1) // t, m) for g in range(2, m)) if has_order(a, t, m))
    return min(pow(found, k, m) for k in range(1, t) if has_order(pow(found, k, m), t, m))


def main():
    print("| R | small M | A | 61-bit M | A |\n|---|---|---|---|---|")
    for r in range(3, 11):
        t = 4 * r
        small = next(m for m in range(t + 1, 10**6, t) if is_prime(m))
        top = 2**61 - 1 - (2**61 - 2) % t
        large = next(m for m in range(top, 0, -t) if is_prime(m))
        print(f"| {r} | {small} | {root(small, t)} | {large} | {root(large, t)} |")


if __name__ == "__main__":
    main()
