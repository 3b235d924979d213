#!/usr/bin/env python3
"""Times `gkey merge` beside `gkey match` of the same graph and keys, and beside `sort -u` of the graph file: catalogues and chains.

Usage: bench/merging.py [--before PROGRAM] [KIND SIZE ..]

The kinds are those of bench/graphs.py. A catalogue's size is about the number of its triples, and a chain has six triples for
each of its size. With --before, another build of the program merges in turn with this one, and must print the same bytes. Times
are seconds of processor time, each the least of five runs; `sort -u` compares bytes and has one thread. `times` is how often the
time of `match` holds that of `merge`. At the end stands the load of the machine.

It makes graphs in a temporary folder, needs nothing but the program, and prints a line for each.
"""

import pathlib
import tempfile

from asking import asked
from graphs import written
from timing import PROGRAM, best_in_turn, built, planned, print_load, print_the_same, programs

PLAN = [("catalogue", 10 ** 5), ("catalogue", 10 ** 6), ("chain", 16667), ("chain", 166667)]
SORT = ["env", "LC_ALL=C", "sort", "--parallel=1", "-u"]


def measure(folder, kind, size, compared):
    graph, keys = written(folder, kind, size)
    merges = [[str(program), "merge", str(graph), str(keys)] for program in compared]
    print_the_same(merges, f"{kind} {size}")
    runs = best_in_turn([[str(PROGRAM), "match", str(graph), str(keys)], [*SORT, str(graph)], *merges])
    times = runs[2].seconds / max(runs[0].seconds, 1e-6)
    print(f"{kind:>10} {size:>8} {times:>6.2f}" + "".join(f" {run.seconds:>8.2f} {run.megabytes:>6.0f}" for run in runs), flush=True)


def main():
    compared, words = programs(asked(__doc__))
    built()
    names = ["match", "sort -u", "merge", "before"][:2 + len(compared)]
    print(f"{'graph':>10} {'size':>8} {'times':>6}" + "".join(f" {name:>8} {'MB':>6}" for name in names))
    with tempfile.TemporaryDirectory() as folder:
        for kind, size in planned(words, PLAN):
            measure(pathlib.Path(folder), kind, size, compared)
    print_load()


if __name__ == "__main__":
    main()
