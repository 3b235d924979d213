#!/usr/bin/env python3
"""Times parts of the matcher by themselves: the candidate pairs, the classes, and the report.

Usage: bench/parts.py

Candidate pairs: entities of one type, of which 2, 10 or 1,000 share each value, and with a second value that two share.
Classes: names that are joined one by one in random order into one class.
Report: 330,000 names, of which 82,500 stand in classes of two, by 1, 2 and 4 threads on as many processors.

It makes three programs in a temporary folder, needs the kit (`rt`), and prints three tables.
"""

import pathlib
import statistics
import subprocess
import tempfile

from asking import asked
from building import build

SEEDS = [(10 ** 5, 2, "one"), (10 ** 6, 2, "one"), (10 ** 5, 10, "one"), (10 ** 6, 10, "one"), (10 ** 5, 1000, "one"),
         (10 ** 5, 1000, "two"), (10 ** 6, 1000, "two")]
BOOKS = [10 ** 5, 10 ** 6]
PROCESSORS = {1: "0", 2: "0,1", 4: "0-3"}  # by the number of threads
TIMES = 20


def best(command):
    """Of three runs the numbers of the one that took least time, which is the last number."""
    runs = (subprocess.run([str(word) for word in command], check=True, capture_output=True, text=True) for _ in range(3))
    return min(([int(word) for word in run.stdout.split()] for run in runs), key=lambda numbers: numbers[-1])


def main():
    asked(__doc__)
    with tempfile.TemporaryDirectory() as name:
        program = build(pathlib.Path(name), "seed_times", ["pair_seed", "typed_graph", "chase_laws", "gk_base", "anyhow"])
        print("{:>10} {:>6} {:>7} {:>10} {:>9} {:>9} {:>8}".format("entities", "share", "values", "pairs", "graph ms", "pairs ms", "ns/pair"))
        for entities, share, values in SEEDS:
            pairs, built, done = best([program, entities, share, values])
            print(f"{entities:>10} {share:>6} {values:>7} {pairs:>10} {built:>9} {done - built:>9} {(done - built) * 10 ** 6 // pairs:>8}")
    with tempfile.TemporaryDirectory() as name:
        program = build(pathlib.Path(name), "book_times", ["class_book", "chase_laws", "gk_base", "anyhow"])
        print("\n{:>10} {:>10} {:>11} {:>8} {:>11}".format("names", "entries", "relabelled", "ms", "ns/label"))
        for names in BOOKS:
            entries, relabelled, took = best([program, names])
            print(f"{names:>10} {entries:>10} {relabelled:>11} {took:>8} {took * 10 ** 6 // relabelled:>11}")
    with tempfile.TemporaryDirectory() as name:
        program = build(pathlib.Path(name), "report_times", ["term_text", "term_table", "gk_base", "anyhow"])
        print("\n{:>10} {:>10} {:>8} {:>8}".format("threads", "bytes", "least ms", "middle"))
        for threads, processors in PROCESSORS.items():
            command = ["taskset", "-c", processors, str(program), str(threads), str(TIMES)]
            numbers = [int(word) for word in subprocess.run(command, check=True, capture_output=True, text=True).stdout.split()]
            took = [microseconds / 1000 for microseconds in numbers[::2]]
            print(f"{threads:>10} {numbers[1]:>10} {min(took):>8.1f} {statistics.median(took):>8.1f}")


if __name__ == "__main__":
    main()
