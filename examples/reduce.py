#!/usr/bin/env python3
"""Writes reduce.coll and reduce.report: an allreduce of every operation on every type among three ranks (fi_collective(3)).

The expected bytes are computed here (elements.py). All pairs of the elements meet between ranks 0 and 1.

    python3 reduce.py                       writes the two files
    python3 reduce.py RANKS ROUNDS BYTES    prints a file of so many rounds of FI_SUM over shares of so many bytes, to be timed
"""
import functools
import sys

from elements import TYPES, folding, lists, order_of, raw, values, write

RANKS = 3


def example():
    """The lines of the file, and those that each rank has."""
    file = ["# An allreduce of every operation on every type: written by reduce.py.", "coll 1", f"peers {RANKS}"]
    results = []
    for num, is_signed, bits in TYPES:
        order = order_of(is_signed, bits)
        shares = lists(bits)
        words = " ".join(values(share, order) for share in shares)
        for name, f in folding(order, (1 << bits) - 1).items():
            file.append(f"allreduce {name} {num} {words}")
            folded = [functools.reduce(f, elements) for elements in zip(*shares)]
            results.append(f"{len(file)} allreduce {raw(folded, bits)}")
    report = [f"coll 1 peers {RANKS}"]
    for rank in range(RANKS):
        report += [f"peer {rank}", *results]
    return file, report + ["end done"]


def timed(ranks, rounds, size):
    """The lines of a file of such rounds: the element at place i of rank r is 7 r + i, modulo 256."""
    shares = " ".join(",".join(str((7 * rank + i) % 256) for i in range(size)) for rank in range(ranks))
    return ["coll 1", f"peers {ranks}"] + [f"allreduce FI_SUM u8 {shares}"] * rounds


def main():
    if len(sys.argv) > 1:
        print("\n".join(timed(*map(int, sys.argv[1:]))))
        return
    for name, lines in zip(("reduce.coll", "reduce.report"), example()):
        write(name, lines)


main()
