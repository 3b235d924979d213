#!/usr/bin/env python3
"""Reads each graph of the W3C's N-Triples test suite with `gkey match` and an empty key file, and tells which are judged wrongly.

Usage: bench/suite.py FOLDER

FOLDER has the suite's files, as test/NTriplesTests of the source of Debian's package serd does (`apt-get source serd`). A file
with `bad` in its name is to be refused with a line of the graph, and any other accepted. The exit status is 1 where one is not.

It makes nothing, needs nothing but the program and the suite, and prints how many are judged rightly, and which are not.
"""

import pathlib
import subprocess
import sys
import tempfile

import graphs
from asking import asked
from timing import PROGRAM, built


def is_right(graph, keys):
    run = subprocess.run([PROGRAM, "match", graph, keys], capture_output=True, check=False)
    if "bad" in graph.name:
        return run.returncode == 2 and run.stderr.startswith(b"graph:") and not run.stdout
    return run.returncode == 0 and not run.stderr


def main():
    folder, = asked(__doc__)
    built()
    files = sorted(pathlib.Path(folder).glob("*.nt"))
    with tempfile.TemporaryDirectory() as folder:
        keys = pathlib.Path(folder) / "keys.gk"
        keys.write_text(graphs.NO_KEY)
        wrong = [graph.name for graph in files if not is_right(graph, keys)]
    print(f"{len(files) - len(wrong)} of {len(files)} are judged rightly")
    for name in wrong:
        print(f"wrong: {name}")
    sys.exit(1 if wrong or not files else 0)


if __name__ == "__main__":
    main()
