#!/usr/bin/env python3
"""Runs the program with words that are not UTF-8, one in each place, and with words longer than the buffer for them.

Usage: bench/words.py. It ends with status 0 where each run ends as it should: a name of a file that is not UTF-8 is one
that can't be read, and any other such word makes the words no command.

It makes nothing, needs nothing but the program, and prints each run that ends otherwise.
"""

import subprocess
import sys

from asking import asked
from timing import PROGRAM, TOP, built

GRAPH = str(TOP / "examples/albums/graph.nt").encode()
KEYS = str(TOP / "examples/albums/keys.gk").encode()
NO_TEXT = b"\xff.nt"
LONG = b"n" * 100_000
USAGE = b"usage:\n"

# the words, the status, and how the error text begins
RUNS = [
    ([b"match", NO_TEXT, KEYS], 3, b"graph: read failed\n"),
    ([b"match", GRAPH, NO_TEXT], 3, b"keys: read failed\n"),
    ([b"match", NO_TEXT, NO_TEXT], 3, b"graph: read failed\n"),
    ([b"match", LONG, KEYS], 3, b"graph: read failed\n"),
    ([b"match\xff", GRAPH, KEYS], 64, USAGE),
    ([b"\xc3", GRAPH, KEYS], 64, USAGE),
    ([b"match", GRAPH, KEYS, NO_TEXT], 64, USAGE),
    ([NO_TEXT], 64, USAGE),
    ([b"match", GRAPH, LONG + NO_TEXT], 3, b"keys: read failed\n"),
    ([b"match", GRAPH, KEYS], 0, b""),
]


def main():
    asked(__doc__)
    built()
    wrong = 0
    for words, status, error in RUNS:
        run = subprocess.run([str(PROGRAM).encode(), *words], capture_output=True)
        as_it_should = run.returncode == status and run.stderr.startswith(error) and (status != 0 or not run.stderr)
        if not as_it_should:
            wrong += 1
            shown = [word if len(word) < 100 else word[:20] + b".." for word in words]
            print(f"{shown}: status {run.returncode}, not {status}; {run.stderr[:60]!r}")
    print(f"{len(RUNS) - wrong} of {len(RUNS)} runs end as they should")
    sys.exit(wrong != 0)


if __name__ == "__main__":
    main()
