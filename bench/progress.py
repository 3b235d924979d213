#!/usr/bin/env python3
"""Runs the program with its error stream on a terminal and elsewhere, and looks at the line that tells how far a run is: it comes after
two seconds, on a terminal alone, and is gone before anything else is written.

Usage: bench/progress.py. It ends with status 0 where each run writes what it should.

It makes nothing, needs nothing but the program, and prints a line for each run.
"""

import os
import pty
import re
import subprocess
import sys
import threading
import time

from asking import asked
from timing import PROGRAM, TOP, built

GRAPH = (TOP / "examples/albums/graph.nt").read_bytes()
KEYS = TOP / "examples/albums/keys.gk"
GONE = r"\r\x1b\[K"
LINES = rf"({GONE}gkey: (reading|searching|working), \d+ MB read, \d+ searches, \d+ s)+{GONE}"
REPORT = r"<urn:al1> <urn:al2>\r\n"

# how the graph comes: its bytes, and how many seconds late the last of them are; and what is to stand on the terminal
RUNS = [
    ("a short run", GRAPH, 0, REPORT),
    ("a long run", GRAPH, 4, LINES + REPORT),
    ("a long run that ends with a refusal", GRAPH + b"broken\n", 4, LINES + r"graph:\d+: [a-z ]+\r\n"),
]


def hand_over(graph, late, stream):
    with stream:
        stream.write(graph[:40])
        stream.flush()
        time.sleep(late)
        stream.write(graph[40:])


def ran(graph, late, out, err):
    run = subprocess.Popen([PROGRAM, "match", "/dev/stdin", KEYS], stdin=subprocess.PIPE, stdout=out, stderr=err)
    threading.Thread(target=hand_over, args=(graph, late, run.stdin)).start()
    return run


def on_terminal(graph, late):
    """What a run writes on a terminal that has both of its streams."""
    ours, its = pty.openpty()
    run, said = ran(graph, late, its, its), b""
    os.close(its)
    try:
        while piece := os.read(ours, 4096):
            said += piece
    except OSError:
        pass  # (the program has ended)
    run.wait()
    os.close(ours)
    return said.decode()


def elsewhere(graph, late):
    """What a run writes on its error stream, where that is no terminal."""
    run = ran(graph, late, subprocess.DEVNULL, subprocess.PIPE)
    said = run.stderr.read().decode()
    run.wait()
    return said


def main():
    asked(__doc__)
    built()
    wrong = 0
    for name, graph, late, wanted in RUNS:
        shown, said = on_terminal(graph, late), elsewhere(graph, late)
        for where, found, is_right in (("on a terminal", shown, re.fullmatch(wanted, shown)), ("elsewhere", said, "\r" not in said)):
            wrong += not is_right
            print(f"{'right' if is_right else 'WRONG'}: {name} {where}: {found!r}")
    return 1 if wrong else 0


if __name__ == "__main__":
    sys.exit(main())
