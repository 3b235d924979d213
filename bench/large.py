#!/usr/bin/env python3
"""Measures the table of docs/SIZES.md of graphs beyond the limits: `gkey --large`, beside `serdi` and `sort -u`.

Usage: bench/large.py [--write] [TRIPLES ..]

Graphs of bench/graphs.py, catalogues and bibliographies, of about so many triples: 10^6 and 10^7 with no words. Each is matched by
four workers; `serdi` reads and writes the same file, which is reading alone, and `sort -u` sorts its lines. Of the smallest and the
next the proof is written and checked too. One run each. It prints a table with seconds by the clock, seconds a million triples,
the greatest part of memory in use and bytes of it a triple; with --write the table is put into the page.

It makes graphs in a temporary folder (TMPDIR), 125 bytes a triple, and needs Debian's `serdi`. A graph of 10^8 triples takes 25 GB
of disk with its copies, 20 GB of memory, and half an hour.
"""

import os
import pathlib
import subprocess
import sys
import tempfile
import time
from typing import NamedTuple

from asking import asked, need
from graphs import line_count, written
from sizes import load, machine
from timing import PROGRAM, TOP, built

PAGE = TOP / "docs" / "SIZES.md"
BEGIN, END = "<!-- by bench/large.py -->", "<!-- to here, large -->"
PLAN = [10 ** 6, 10 ** 7]
MOST_PROVED = 10 ** 7


class Run(NamedTuple):
    seconds: float  # by the clock
    bytes: int      # the greatest part of memory in use


def timed(words, out):
    """One run, whose output goes to the file."""
    began = time.perf_counter()
    with open(out, "wb") as sink:
        child = subprocess.Popen(words, stdout=sink)
        _, status, usage = os.wait4(child.pid, 0)
    if status != 0:
        sys.exit(f"{words}: status {os.waitstatus_to_exitcode(status)}")
    return Run(time.perf_counter() - began, usage.ru_maxrss * 1024)


def rows(folder, kind, size):
    graph, keys = written(folder, kind, size)
    triples, proof = line_count(graph), folder / "proof"
    large = [PROGRAM, "--large"]
    commands = [("gkey --large match", [*large, "match", graph, keys], folder / "report"),
                ("serdi", ["serdi", "-i", "ntriples", "-o", "ntriples", graph], os.devnull),
                ("sort -u", ["sort", "-u", "-T", folder, graph], os.devnull)]
    if size <= MOST_PROVED:
        commands += [("gkey --large prove", [*large, "prove", graph, keys], proof),
                     ("gkey --large check", [*large, "check", graph, keys, proof], folder / "verdict")]
    for name, words, out in commands:
        run = timed(words, out)
        yield (f"| {kind} | {triples:,} | `{name}` | {run.seconds:.1f} | {run.seconds / triples * 1e6:.2f} | "
               f"{run.bytes / 1e6:,.0f} | {run.bytes / triples:.0f} |")


def table(sizes):
    before, told = load(), []
    for size in sizes:
        for kind in "catalogue", "bibliography":
            with tempfile.TemporaryDirectory() as name:
                for row in rows(pathlib.Path(name), kind, size):
                    print(row, file=sys.stderr)
                    told.append(row)
    return "\n".join([
        f"By `bench/large.py`, on {machine()}.",
        f"The load of the machine was {before} when it began and {load()} when it ended. One run each, four workers.", "",
        "| Graph | Triples | Program | Seconds | a million triples | MB | bytes a triple |", "|---|---|---|---|---|---|---|", *told])


def main():
    words = asked(__doc__)
    need({"serdi": "serdi"})
    built()
    text = table([int(word) for word in words if word != "--write"] or PLAN)
    print(text)
    if "--write" in words:
        page = PAGE.read_text(encoding="utf-8")
        front, behind = page.split(BEGIN)[0], page.split(END)[1]
        PAGE.write_text(f"{front}{BEGIN}\n{text}\n{END}{behind}", encoding="utf-8")


if __name__ == "__main__":
    main()
