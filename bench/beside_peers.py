#!/usr/bin/env python3
"""Times `gkey match` beside programs that read the same graph, and beside some that find the same classes, all in one run.

Usage: bench/beside_peers.py [KIND SIZE ..]

It makes graphs of the kinds of bench/graphs.py; with no words, catalogues with few pairs a name (`catalogue`) and with many
(`common`). `serdi`, `rapper` and `sort -u` only read the graph and write it again. clingo has the keys as rules (see beside_clingo.py),
and bench/plain.py is a plain matcher in Python: both must find the classes that gkey finds. A program has MOST_SECONDS of processor
time and MOST_BYTES of address space; where it needs more, a word says so. It needs Debian's packages serdi, raptor2-utils and gringo,
and names one that is missing.

It prints a table as MEASURED.md has them: seconds by the clock and of processor time, of which the least of three runs counts where
one takes under ten seconds; megabytes, the greatest part of memory in use; and the ratio to the processor time of gkey by one worker.
"""

import datetime
import multiprocessing
import os
import pathlib
import resource
import subprocess
import sys
import tempfile
import time
from typing import NamedTuple, Optional

import plain
from asking import asked, need
from beside_clingo import Numbers, classes_of, write_program
from graphs import line_count, written
from timing import PROGRAM, TOP, built, planned, print_load

PACKAGES = {"serdi": "serdi", "rapper": "raptor2-utils", "clingo": "gringo"}
PLAN = [("catalogue", 10 ** 5), ("common", 10 ** 5), ("catalogue", 10 ** 6), ("common", 10 ** 6)]
MOST_SECONDS = 120
MOST_BYTES = 6 << 30
ROUNDS, LONG = 3, 10
READERS = ("serdi", "rapper", "sort -u")


class Run(NamedTuple):
    processor: float  # seconds in user mode and in the system, of all threads together
    seconds: float    # by the clock
    megabytes: float  # the greatest part of memory in use


def limit():
    resource.setrlimit(resource.RLIMIT_CPU, (MOST_SECONDS, MOST_SECONDS))
    resource.setrlimit(resource.RLIMIT_AS, (MOST_BYTES, MOST_BYTES))


def timed(name: str, words: list, out: pathlib.Path) -> Optional[Run]:
    """One run, whose output goes to the file; none where it did not come to its end."""
    began = time.perf_counter()
    with out.open("wb") as sink:
        child = subprocess.Popen(words, stdout=sink, stderr=subprocess.DEVNULL, preexec_fn=limit, env=dict(os.environ, LC_ALL="C"))
        _, status, usage = os.wait4(child.pid, 0)
    child.returncode = os.waitstatus_to_exitcode(status)
    # (clingo ends with 30 where it has one answer and knows of no other)
    if child.returncode not in ((10, 30) if name == "clingo" else (0,)):
        return None
    return Run(usage.ru_utime + usage.ru_stime, time.perf_counter() - began, usage.ru_maxrss / 1024)


def write_rules(folder, graph, keys):
    """The graph as facts and the keys as rules, and the terms by their numbers."""
    numbers = Numbers()
    with graph.open(encoding="utf-8") as lines:
        write_program(folder / "program.lp", plain.read_graph(lines), plain.read_keys(keys.read_text()), numbers)
    (folder / "terms").write_text("\n".join(numbers), encoding="utf-8")


def finds_the_same(folder, report, name):
    """Whether what a program wrote are the classes of the report."""
    wanted = {frozenset(line.split()) for line in report.read_text(encoding="utf-8").splitlines()}
    text = (folder / name).read_text(encoding="utf-8")
    if name == "clingo":
        return classes_of(text, (folder / "terms").read_text(encoding="utf-8").split("\n")) == wanted
    return {frozenset(line.split()) for line in text.splitlines()} == wanted


def apart(function, *given):
    """What a function answers in a process of its own: the memory of this one counts as that of each program that it starts."""
    with multiprocessing.get_context("fork").Pool(1) as pool:
        return pool.apply(function, given)


def commands(folder, graph, keys):
    return {
        "gkey, 1 worker": [str(PROGRAM), "match", "--workers", "1", str(graph), str(keys)],
        "gkey, 4 workers": [str(PROGRAM), "match", "--workers", "4", str(graph), str(keys)],
        "serdi": ["serdi", "-i", "ntriples", "-o", "ntriples", str(graph)],
        "rapper": ["rapper", "-q", "-i", "ntriples", "-o", "ntriples", str(graph)],
        "sort -u": ["sort", "-u", str(graph)],
        "clingo": ["clingo", "--outf=0", "-V1", "-n", "1", str(folder / "program.lp")],
        "plain.py": [sys.executable, str(TOP / "bench" / "plain.py"), str(graph), str(keys)],
    }


def cells(run, one):
    if run is None:
        return f"more than {MOST_SECONDS} s or {MOST_BYTES >> 30} GB | | |"
    return f"{run.seconds:.2f} | {run.processor:.2f} | {run.megabytes:,.0f} | {run.processor / one.processor:.2f} |"


def measure(folder, kind, size):
    graph, keys = written(folder, kind, size)
    apart(write_rules, folder, graph, keys)
    best, over = {}, set()
    for _ in range(ROUNDS):
        for name, words in commands(folder, graph, keys).items():
            if name in over:
                continue
            run = timed(name, words, folder / name)
            if run is None or run.processor > LONG:
                over.add(name)
            best[name] = min(run, best.get(name) or run) if run else best.get(name)
    triples = line_count(graph)
    for name, run in best.items():
        same = run is None or name in READERS or apart(finds_the_same, folder, folder / "gkey, 1 worker", name)
        if not same:
            sys.exit(f"{kind} {size}: {name} finds other classes")
        print(f"| {kind} | {triples:,} | {name} | {cells(run, best['gkey, 1 worker'])}", flush=True)


def main():
    words = asked(__doc__)
    need(PACKAGES)
    built()
    print(f"{datetime.date.today()}, {os.cpu_count()} processors\n")
    print("| Graph | Triples | Program | Seconds | Processor | MB | To gkey |\n|---|---|---|---|---|---|---|")
    with tempfile.TemporaryDirectory() as name:
        for kind, size in planned(words, PLAN):
            measure(pathlib.Path(name), kind, size)
    print_load()


if __name__ == "__main__":
    main()
