#!/usr/bin/env python3
"""Times `gkey match` on bibliographies, whose venues are hubs, beside a plain matcher, and measures the near lists.

Usage: bench/near.py [TRIPLES ..]

With no words: 10^5, 3 * 10^5 and 10^6 triples. Seconds are processor time, the best of three runs of the program and one
run of bench/plain.py, whose report has to be the same. The candidate pairs and the lengths of the near lists are counted
by bench/plain.py from their definitions, since the program does not print them.

It makes graphs in a temporary folder, needs nothing but the program, and prints a line for each.
"""

import pathlib
import subprocess
import sys
import tempfile

import graphs
import plain
from asking import asked
from timing import PROGRAM, TOP, best_of_three, built, timed

COLUMNS = "{:>10} {:>9} {:>8} {:>10} {:>9} {:>9} {:>9} {:>10} {:>6} {:>9}"


def report(command):
    return subprocess.run(command, check=True, capture_output=True).stdout


def measure(folder, size):
    graph, keys = graphs.written(folder, "bibliography", size)
    ours = [str(PROGRAM), "match", str(graph), str(keys)]
    other = [sys.executable, str(TOP / "bench" / "plain.py"), str(graph), str(keys)]
    run, beside = best_of_three(ours), timed(other)
    if report(ours) != report(other):
        sys.exit("the reports differ")
    with graph.open(encoding="utf-8") as lines:
        rows = plain.read_graph(lines)
    read = plain.read_keys(graphs.BIBLIOGRAPHY_KEYS)
    lengths = plain.near_lengths(rows, read)
    pairs, mean = len(plain.candidate_pairs(rows, read)), sum(lengths) / len(lengths)
    print(COLUMNS.format(len(rows.rows), f"{run.seconds:.2f}", f"{run.megabytes:.0f}", f"{beside.seconds:.2f}",
                         f"{beside.megabytes:.0f}", pairs, len(lengths), sum(lengths), f"{mean:.2f}", max(lengths)), flush=True)


def main():
    words = asked(__doc__)
    built()
    print(COLUMNS.format("triples", "seconds", "peak MB", "plain s", "plain MB", "pairs", "lists", "entries", "mean", "greatest"))
    with tempfile.TemporaryDirectory() as folder:
        for size in [int(word) for word in words] or [10 ** 5, 3 * 10 ** 5, 10 ** 6]:
            measure(pathlib.Path(folder), size)


if __name__ == "__main__":
    main()
