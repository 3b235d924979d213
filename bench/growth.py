#!/usr/bin/env python3
"""Times `gkey grow` beside `gkey match` on both graphs together, where one graph has most of the triples.

Usage: bench/growth.py [KIND SIZE ..]

The kinds are those of bench/graphs.py. With no words: a catalogue of 10^6 triples and a chain of 10^5 pairs. Of the lines of a
graph the last hundredth is what is added.
The columns are seconds of processor time of `match` on the first graph, of `match` on both together, and of `grow`, and the
greatest part of memory that `grow` had in use. What both print is compared.

It makes graphs in a temporary folder, needs nothing but the program, and prints a line for each.
"""

import pathlib
import tempfile

from asking import asked
from graphs import line_count, parted, written
from timing import PROGRAM, best_in_turn, built, planned, print_the_same

COLUMNS = "{:>13} {:>10} {:>10} {:>10} {:>10} {:>10} {:>10} {:>10}"
PLAN = [("catalogue", 10 ** 6), ("chain", 10 ** 5)]


def measure(folder, kind, size):
    both, keys = written(folder, kind, size)
    first, more = parted(folder, both)
    match_first = [str(PROGRAM), "match", str(first), str(keys)]
    match_both = [str(PROGRAM), "match", str(both), str(keys)]
    grow = [str(PROGRAM), "grow", str(first), str(more), str(keys)]
    print_the_same([grow, match_both], f"{kind} {size}")
    runs = best_in_turn([match_first, match_both, grow], rounds=3)
    seconds = [f"{run.seconds:.2f}" for run in runs]
    print(COLUMNS.format(kind, size, line_count(first), line_count(more), *seconds, f"{runs[2].megabytes:.0f}"), flush=True)


def main():
    words = asked(__doc__)
    built()
    print(COLUMNS.format("graph", "size", "first", "more", "match 1st", "match both", "grow", "peak MB"))
    with tempfile.TemporaryDirectory() as folder:
        for kind, size in planned(words, PLAN):
            measure(pathlib.Path(folder), kind, size)


if __name__ == "__main__":
    main()
