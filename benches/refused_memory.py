#!/usr/bin/env python3
"""Refuses each allocation of a run in turn, and counts the statuses that the runs end with.

The program is run with a library before the C library's that refuses one allocation, by its number, and tells how many there were.
A run has to end with status 7, or with 0 and the report of an undisturbed run; any other end is told, and the script ends with 1.
Build the program first (`rt run` in crates/wrt_main). It needs a C compiler, and writes nothing into the repository:

    python3 benches/refused_memory.py crates/wrt_main/out/wrt_main
"""
import collections
import os
import subprocess
import sys
import tempfile

SHIM = r"""
#define _GNU_SOURCE
#include <dlfcn.h>
#include <errno.h>
#include <fcntl.h>
#include <stdatomic.h>
#include <stdlib.h>
#include <sys/mman.h>
#include <unistd.h>

/* The count stands in a file, since the program may end without a word to libraries. */
static atomic_long *calls;
static long refused;

__attribute__((constructor)) static void begin(void) {
    int file = open(getenv("ALLOCATIONS_FILE"), O_RDWR);
    refused = atol(getenv("REFUSED_ALLOCATION"));
    calls = mmap(NULL, sizeof *calls, PROT_READ | PROT_WRITE, MAP_SHARED, file, 0);
    close(file);
}

static int is_refused(void) {
    return calls && atomic_fetch_add(calls, 1) + 1 == refused;
}

#define NEXT(name) static __typeof__(name) *next; if (!next) next = dlsym(RTLD_NEXT, #name)

void *malloc(size_t size) {
    NEXT(malloc);
    return is_refused() ? (errno = ENOMEM, NULL) : next(size);
}

void *realloc(void *old, size_t size) {
    NEXT(realloc);
    return is_refused() ? (errno = ENOMEM, NULL) : next(old, size);
}

void *aligned_alloc(size_t align, size_t size) {
    NEXT(aligned_alloc);
    return is_refused() ? (errno = ENOMEM, NULL) : next(align, size);
}

int posix_memalign(void **to, size_t align, size_t size) {
    NEXT(posix_memalign);
    return is_refused() ? ENOMEM : next(to, align, size);
}
"""

TREFOIL = "PD[X[1,4,2,5],X[3,6,4,1],X[5,2,6,3]]"
HOPF = "PD[X[2,4,3,1],X[4,2,1,3]]"
CHAIN = "PD[X[1,6,2,5],X[6,3,5,2],X[3,8,4,7],X[8,1,7,4]]"
TETRAHEDRA = "TV[F[1,2,3],F[1,5,6],F[2,4,6],F[3,4,5],T[1,2,3,4,5,6],T[1,2,3,4,5,6]]"

RUNS = [
    ("bracket 41 2 5 --turns", "PD[X[1, 4, 2, 5], X[3, 6, 4, 1],\n X[5, 2, 6, 3]]\n"),
    ("net 41 2 5 --colors=2,2,2", "Net[Y[1,2,3],Y[3,2,1]]"),
    ("wrt 41 2 5 --framing=0,0,0 --workers=2", CHAIN),
    ("moves 41 2 5", f"Moves[{TREFOIL},R2[1,3],R2Undo[4,5],Curl[1,+]]"),
    ("moves 41 2 5 --colors=2", f"Moves[{TREFOIL},R2[1,3],R2Undo[4,5]]"),
    ("moves 13 2 3 --framing=2,3", f"Moves[{HOPF},Slide[1,2]]"),
    ("braid 41 2 5", "BR[3,{1,-2,1,-2}]"),
    ("wrt 41 2 5 --even --framing=0,0,0 --workers=3", CHAIN),
    ("tv 41 2 5", TETRAHEDRA),
]


def run(program, words, given, shim, refused, told):
    """The status and the output of a run that refuses that allocation (0: none), and how many it made."""
    settings = {"LD_PRELOAD": shim, "REFUSED_ALLOCATION": str(refused), "ALLOCATIONS_FILE": told}
    with open(told, "wb") as file:
        file.write(bytes(8))
    ended = subprocess.run([program, *words.split()], input=given.encode(), capture_output=True, env=settings, timeout=60)
    with open(told, "rb") as file:
        return ended.returncode, ended.stdout, int.from_bytes(file.read(8), "little")


def refuse_each(program, words, given, shim, told):
    """The statuses of the runs, by how many ended so, and the numbers of those that ended otherwise than they may."""
    status, report, made = run(program, words, given, shim, 0, told)
    statuses, others = collections.Counter(), []
    for number in range(1, made + 1):
        ended, printed, _ = run(program, words, given, shim, number, told)
        statuses[ended] += 1
        if ended != 7 and (ended, printed) != (status, report):
            others.append(number)
    return status, made, statuses, others


def main():
    program = os.path.abspath(sys.argv[1])
    bad = False
    with tempfile.TemporaryDirectory() as room:
        source, shim, told = (os.path.join(room, name) for name in ("shim.c", "shim.so", "allocations"))
        with open(source, "w") as file:
            file.write(SHIM)
        subprocess.run(["cc", "-O2", "-shared", "-fPIC", "-fno-builtin", "-o", shim, source, "-ldl"], check=True)
        print("| Words | Undisturbed | Allocations | Statuses of the runs | Other ends |\n|---|---|---|---|---|")
        for words, given in RUNS:
            status, made, statuses, others = refuse_each(program, words, given, shim, told)
            bad |= bool(others)
            ends = ", ".join(f"{count} times {ended}" for ended, count in sorted(statuses.items()))
            print(f"| `{words}` | {status} | {made} | {ends} | {len(others)}{' ' + str(others[:9]) if others else ''} |", flush=True)
    return 1 if bad else 0


if __name__ == "__main__":
    sys.exit(main())
