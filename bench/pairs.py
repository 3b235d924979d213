#!/usr/bin/env python3
"""Times `gkey match` on graphs with many candidate pairs: catalogues with crowded titles, a bibliography, hubs whose
pairs never match, match, or wake each other, a chain, and one class.

Usage: bench/pairs.py [--before PROGRAM] [KIND SIZE ..]

The kinds are those of bench/graphs.py. With --before, another build of the program runs in turn with this one, and both must
print the same bytes.

It makes graphs in a temporary folder, needs nothing but the program, and prints for each seconds of processor time, the least
of three, and megabytes.
"""

import pathlib
import tempfile

from asking import asked
from graphs import written
from timing import best_in_turn, built, planned, print_the_same, programs

PLAN = [("crowded", 10 ** 5), ("crowded", 4 * 10 ** 5), ("crowded", 10 ** 6), ("common", 10 ** 6),
        ("bibliography", 3 * 10 ** 5), ("bibliography", 10 ** 6), ("missed", 10 ** 6), ("matched", 10 ** 6), ("woken", 10 ** 6),
        ("chain", 10 ** 5), ("linked", 10 ** 5)]


def measure(folder, kind, size, compared):
    graph, keys = written(folder, kind, size)
    commands = [[str(program), "match", str(graph), str(keys)] for program in compared]
    print_the_same(commands, f"{kind} {size}")
    runs = best_in_turn(commands, rounds=3)
    print(f"{kind:>13} {size:>9}" + "".join(f" {run.seconds:>9.2f} {run.megabytes:>6.0f}" for run in runs), flush=True)


def main():
    compared, words = programs(asked(__doc__))
    built()
    print(f"{'graph':>13} {'size':>9}" + f" {'seconds':>9} {'MB':>6}" + (f" {'before':>9} {'MB':>6}" if len(compared) > 1 else ""))
    with tempfile.TemporaryDirectory() as folder:
        for kind, size in planned(words, PLAN):
            measure(pathlib.Path(folder), kind, size, compared)


if __name__ == "__main__":
    main()
