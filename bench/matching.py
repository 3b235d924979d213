#!/usr/bin/env python3
"""Times `gkey match` on catalogues with recursive keys and on chains of pairs that depend on each other.

Usage: bench/matching.py [--before PROGRAM] [KIND SIZE ..]

The kinds are those of bench/graphs.py. With no words: catalogues of 10^4, 10^5 and 10^6 triples and chains of 10^3 and 10^4
pairs. With `--before` another program runs the same in turn, and what both print is compared. Seconds are of processor time,
each the least of three.

It makes graphs in a temporary folder, needs nothing but the program, and prints a line for each.
"""

import pathlib
import tempfile

from asking import asked
from graphs import line_count, written
from timing import best_in_turn, built, planned, print_the_same, programs

COLUMNS = "{:>8} {:>13} {:>10} {:>10} {:>10} {:>10}"
PLAN = [("catalogue", 10 ** 4), ("catalogue", 10 ** 5), ("catalogue", 10 ** 6), ("chain", 10 ** 3), ("chain", 10 ** 4)]


def measure(compared, folder, kind, size):
    graph, keys = written(folder, kind, size)
    commands = [[str(program), "match", str(graph), str(keys)] for program in compared]
    print_the_same(commands, f"{kind} {size}")
    for name, run in zip(["now", "before"], best_in_turn(commands, rounds=3)):
        print(COLUMNS.format(name, kind, size, line_count(graph), f"{run.seconds:.2f}", f"{run.megabytes:.0f}"), flush=True)


def main():
    compared, words = programs(asked(__doc__))
    built()
    print(COLUMNS.format("program", "graph", "size", "triples", "seconds", "peak MB"))
    with tempfile.TemporaryDirectory() as folder:
        for kind, size in planned(words, PLAN):
            measure(compared, pathlib.Path(folder), kind, size)


if __name__ == "__main__":
    main()
