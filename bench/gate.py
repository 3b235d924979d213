#!/usr/bin/env python3
"""Runs the gate, and tells how long each crate took: its proof, its tests and its must-fail edits.

Usage: bench/gate.py [WORDS]

The words are those of `rt ci`: --anew proves and tries all, whatever earlier runs on this machine have kept. Seconds are of
processor time, of all processes together, as they are seen twice a second; a process is left out whose last half second no look
fell in. The gate's own lines come first. The status is that of the gate.

It makes what `rt ci` makes, needs the kit (`rt`), and prints a table by crate.
"""

import collections
import os
import pathlib
import subprocess
import sys
import time

from asking import asked


TOP = pathlib.Path(__file__).resolve().parent.parent
TICKS = os.sysconf("SC_CLK_TCK")
COLUMNS = "{:>16} {:>8} {:>8} {:>8} {:>8}"


def below(gate):
    """The processes that a process started, and that these did, by their numbers and starts, each with its words and its ticks."""
    parents, seen = {}, {}
    for entry in pathlib.Path("/proc").iterdir():
        if entry.name.isdigit():
            try:
                fields = (entry / "stat").read_text().rpartition(")")[2].split()
                words = (entry / "cmdline").read_bytes().decode(errors="replace").split("\0")
            except OSError:
                continue
            parents[int(entry.name)] = int(fields[1])
            seen[int(entry.name)] = (int(fields[19]), words, sum(int(ticks) for ticks in fields[11:15]))
    for number, (start, words, ticks) in seen.items():
        above = number
        while above in parents and above != gate:
            above = parents[above]
        if above == gate:
            yield (number, start), words, ticks


def part_of(words):
    """Which crate a process of the prover works on, and at what; None for other processes."""
    if len(words) < 2 or pathlib.Path(words[0]).name != "rattle" or "--crate-name" not in words:
        return None
    name = words[words.index("--crate-name") + 1]
    return name, "tests" if "--test" in words else "proof" if words[1] == "build" else "edits"


def main():
    words = asked(__doc__)
    gate = subprocess.Popen(["rt", "ci", *words], cwd=TOP)
    ticks = {}
    while gate.poll() is None:
        for process, words, taken in below(gate.pid):
            part = part_of(words)
            if part:
                ticks[process] = (part, taken)
        time.sleep(0.5)
    parts = collections.Counter()
    for part, taken in ticks.values():
        parts[part] += taken / TICKS
    print(COLUMNS.format("crate", "proof", "tests", "edits", "all"))
    kinds = ("proof", "tests", "edits")
    rows = {name: [parts[name, kind] for kind in kinds] for name, _ in parts}
    whole = [sum(row[place] for row in rows.values()) for place in range(len(kinds))]
    for name, row in [*sorted(rows.items(), key=lambda it: -sum(it[1])), ("all", whole)]:
        print(COLUMNS.format(name, *(f"{seconds:.0f}" for seconds in [*row, sum(row)])))
    print("load of the machine:", *(f"{load:.1f}" for load in os.getloadavg()), "with", os.cpu_count(), "processors")
    sys.exit(gate.returncode)


if __name__ == "__main__":
    main()
