#!/usr/bin/env python3
"""Runs `gkey match` many times with 1 to 64 workers on the examples and on made graphs, and says whether the bytes are ever other
than those of one worker.

Usage: bench/agreeing.py [RUNS]   (200, if no number is given)

It makes graphs of six kinds in a temporary folder, needs nothing but the program, and prints a line for each graph.
"""

import pathlib
import subprocess
import sys
import tempfile

from asking import asked
from graphs import written
from timing import PROGRAM, TOP, built

WORKERS = (4, 4, 4, 2, 3, 8, 64)
MADE = [("crowded", 10 ** 4), ("bibliography", 10 ** 4), ("missed", 10 ** 4), ("matched", 10 ** 4), ("woken", 10 ** 4), ("chain", 10 ** 3)]


def report(graph, keys, workers):
    command = [str(PROGRAM), "match", "--workers", str(workers), str(graph), str(keys)]
    return subprocess.run(command, stdout=subprocess.PIPE, check=True).stdout


def agree(name, graph, keys, runs):
    alone = report(graph, keys, 1)
    for run in range(runs):
        workers = WORKERS[run % len(WORKERS)]
        if report(graph, keys, workers) != alone:
            sys.exit(f"{name}: other bytes with {workers} workers, at run {run}")
    print(f"{name}: {runs} runs, {len(alone)} bytes", flush=True)


def main():
    words = asked(__doc__)
    runs = int(words[0]) if words else 200
    built()
    for graph in sorted((TOP / "examples").glob("*/graph.nt")):
        agree(graph.parent.name, graph, graph.parent / "keys.gk", runs)
    with tempfile.TemporaryDirectory() as name:
        for kind, size in MADE:
            agree(kind, *written(pathlib.Path(name), kind, size), runs)


if __name__ == "__main__":
    main()
