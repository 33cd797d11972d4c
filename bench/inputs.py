"""Prints an input for `manu run`, of one of the kinds that docs/PERFORMANCE.md measures.

    python3 inputs.py inserts 200000 64            > inserts.jsonl
    python3 inputs.py searches 40000 256 2000      > searches.jsonl
    python3 inputs.py mixed 200000 64              > mixed.jsonl
    python3 inputs.py callers 200000 64 8 4        > callers.jsonl    (as many lines, 8 callers, 4 channels)

The numbers are the same on every run: the generator has a fixed seed.
"""

import random
import sys

RANDOM = random.Random(7)


def vector(dim):
    return f"{RANDOM.getrandbits(dim):0{dim // 4}x}"


def header(dim, channels=1):
    print(f'{{"op":"create","dim":{dim},"channels":{channels}}}')


def insert(key, dim, caller=0):
    print(f'{{"op":"insert","caller":{caller},"key":{key},"vector":"{vector(dim)}"}}')


def inserts(lines, dim):
    header(dim)
    for key in range(lines):
        insert(key, dim)


def searches(rows, dim, count):
    inserts(rows, dim)
    for _ in range(count):
        print(f'{{"op":"search","k":10,"level":"Strong","vector":"{vector(dim)}"}}')


def mixed(lines, dim):
    """Inserts, upserts and deletes of keys below a quarter of the lines."""
    header(dim)
    for _ in range(lines):
        key = RANDOM.randrange(lines // 4)
        op = RANDOM.choice(("insert", "insert", "upsert", "delete"))
        bits = "" if op == "delete" else f',"vector":"{vector(dim)}"'
        print(f'{{"op":"{op}","key":{key}{bits}}}')


def callers(lines, dim, count, channels):
    header(dim, channels)
    for key in range(lines):
        insert(key, dim, key % count)


KINDS = {"inserts": inserts, "searches": searches, "mixed": mixed, "callers": callers}

if __name__ == "__main__":
    KINDS[sys.argv[1]](*map(int, sys.argv[2:]))
