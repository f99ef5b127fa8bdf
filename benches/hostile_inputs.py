#!/usr/bin/env python3
"""Runs the program on hostile inputs, and counts the statuses that the runs end with.

For each command: bytes drawn at random, tokens drawn at random, and a text of the command's shape with one byte changed, dropped or put in.
A run has to end within a minute with status 0 and nothing on standard error, or with 1, 5 or 6, nothing on standard output and one line on
standard error; any other end is told, and the script ends with 1. Build the program first (`rt run` in crates/wrt_main):

    python3 benches/hostile_inputs.py crates/wrt_main/out/wrt_main [RUNS A KIND]
"""
import collections
import os
import random
import subprocess
import sys

TREFOIL = "PD[X[1,4,2,5],X[3,6,4,1],X[5,2,6,3]]"
TEXTS = {
    "bracket 41 2 5 --turns": TREFOIL,
    "colored 41 2 5 --colors=2": TREFOIL,
    "net 41 2 5 --colors=2,2,2": "Net[Y[1,2,3],Y[3,2,1]]",
    "wrt 41 2 5 --framing=-1": TREFOIL,
    "moves 41 2 5": f"Moves[{TREFOIL},R2[1,3],R2Undo[4,5],Curl[1,+],BlowUp[-]]",
    "moves 41 2 5 --colors=2": f"Moves[{TREFOIL},R2[1,3],R2Undo[4,5],Curl[1,+],BlowUp[-]]",
    "moves 13 2 3 --framing=2,3": "Moves[PD[X[2,4,3,1],X[4,2,1,3]],Slide[1,2],R2[1,2]]",
    "braid 41 2 5": "BR[3,{1,-2,1,-2}]",
    "tv 41 2 5": "TV[F[1,2,3],F[1,5,6],F[2,4,6],F[3,4,5],T[1,2,3,4,5,6]]",
}
TOKENS = "PD Net Moves BR TV X Xp Y Loop R2 R2Undo R3 Curl CurlUndo BlowUp Slide F T [ ] { } , - + 0 1 2 3 4 5 6 12 999999 1000000".split() + [" ", "\n"]
BYTES = bytes(range(256))
USUAL = b"0123456789,[]{}+- XLoopPDRCurlSide\n\x00\xff"


def random_bytes(draw, text):
    return bytes(draw.choices(BYTES, k=draw.randrange(200)))


def random_tokens(draw, text):
    return "".join(draw.choices(TOKENS, k=draw.randrange(60))).encode()


def near_text(draw, text):
    given = bytearray(text.encode())
    place = draw.randrange(len(given))
    kind = draw.randrange(3)
    if kind == 0:
        given[place] = draw.choice(USUAL)
    elif kind == 1:
        del given[place]
    else:
        given.insert(place, draw.choice(USUAL))
    return bytes(given)


KINDS = {"random bytes": random_bytes, "random tokens": random_tokens, "one byte changed": near_text}


def is_well(ended):
    if ended.returncode == 0:
        return ended.stdout.endswith(b"\n") and not ended.stderr
    line = ended.stderr
    return ended.returncode in (1, 5, 6) and not ended.stdout and line.startswith(b"wrtcalc: ") and line.count(b"\n") == 1


def main():
    program = os.path.abspath(sys.argv[1])
    runs = int(sys.argv[2]) if len(sys.argv) > 2 else 300
    draw, bad = random.Random(1), False
    print("| Words | Input | Runs | Statuses |\n|---|---|---|---|")
    for words, text in TEXTS.items():
        for kind, make in KINDS.items():
            statuses = collections.Counter()
            for _ in range(runs):
                given = make(draw, text)
                ended = subprocess.run([program, *words.split()], input=given, capture_output=True, timeout=60)
                statuses[ended.returncode] += 1
                if not is_well(ended):
                    bad = True
                    print(f"otherwise: {words} {given!r}: {ended}", file=sys.stderr)
            ends = ", ".join(f"{count} times {ended}" for ended, count in sorted(statuses.items()))
            print(f"| `{words}` | {kind} | {runs} | {ends} |", flush=True)
    return 1 if bad else 0


if __name__ == "__main__":
    sys.exit(main())
