#!/usr/bin/env python3
"""Times `gkey match` on graphs in which many entities share a value.

Usage: bench/crowded.py [--before PROGRAM] [--counts PROGRAM] [KIND SIZE ..]

The kinds are those of bench/graphs.py. With no words: catalogues with names of which a few are common, bibliographies, hubs of
10^6 and 10^7 pairs and more, and graphs with more valuations than pairs. Each is matched by one worker and by four, and read by
as many, with no key. With `--before` another program runs the same in turn, and what all print is compared: one that goes by
pairs alone, say, which is this one where `way_for` of crates/chase_ways/src/way.rt answers nothing else. A run has ten minutes of
the processor; where it takes longer, or is refused, the row says so. bench/beside_clingo.py takes the same kinds.

It makes graphs in a temporary folder, and needs the kit (`rt`) where no `--counts` is given: `--counts PROGRAM` names a build of
`programs/way_counts`. It prints a table as MEASURED.md has it: candidate pairs, valuations that a chase by signatures lists, seconds
by the clock and of processor time, one run each, the greatest part of memory in use in megabytes, and the ratio of the processor
time to that of reading alone; with `--before` also the ratio of the other program's to this one's.
"""

import os
import pathlib
import resource
import subprocess
import sys
import tempfile
import time
from typing import NamedTuple

from asking import asked
from building import build
from graphs import NO_KEY, line_count, written
from timing import built, planned, print_load, programs

NEEDS = ["pair_seed", "key_valuations", "valuation_groups", "graph_rows", "key_lang", "gk_io", "gk_base", "anyhow"]

COLUMNS = ["Graph", "Triples", "Candidate pairs", "Valuations", "Workers", "Seconds", "Processor", "MB", "To reading"]
BEFORE = ["Before: seconds", "Processor", "MB", "To now"]
PLAN = [("common", 10 ** 6), ("common", 4 * 10 ** 6), ("crowded", 10 ** 6), ("bibliography", 10 ** 6),
        ("bibliography", 4 * 10 ** 6),
        *((kind, size) for size in (10 ** 6, 10 ** 7, 67_000_000) for kind in ("matched", "missed", "woken")),
        ("wide", 10 ** 5), ("fanned", 10 ** 5), ("fanned", 10 ** 6)]
MOST_SECONDS = 600


class Run(NamedTuple):
    status: int
    seconds: float    # by the clock
    processor: float  # seconds in user mode and in the system, of all threads together
    megabytes: float  # the greatest part of memory in use


def timed(words, out):
    """One run, whose output goes to a file."""
    began = time.perf_counter()
    with open(out, "wb") as sink:
        child = subprocess.Popen(words, stdout=sink, stderr=subprocess.DEVNULL,
                                 preexec_fn=lambda: resource.setrlimit(resource.RLIMIT_CPU, (MOST_SECONDS, MOST_SECONDS)))
        _, status, usage = os.wait4(child.pid, 0)
    child.returncode = os.waitstatus_to_exitcode(status)
    return Run(child.returncode, time.perf_counter() - began, usage.ru_utime + usage.ru_stime, usage.ru_maxrss / 1024)


def cells(run):
    """What a run took; where it is not at its end, how it ended instead."""
    ended = {0: f"{run.seconds:.2f}", 2: "refused"}.get(run.status, f"status {run.status}")
    return [ended, f"{run.processor:.2f}", f"{run.megabytes:,.0f}"]


def ratio(run, other):
    return f"{run.processor / max(other.processor, 0.001):.2f}" if (run.status, other.status) == (0, 0) else ""


def measure(compared, counting, folder, kind, size):
    graph, keys = written(folder, kind, size)
    counts = subprocess.run([counting, graph, keys], check=True, capture_output=True, text=True).stdout.split()[:2]
    no_key, report, printed = folder / "none.gk", folder / "report", set()
    no_key.write_text(NO_KEY)
    for workers in (1, 4):
        front = ["match", "--workers", str(workers), str(graph)]
        reading, runs = timed([str(compared[0]), *front, str(no_key)], report), []
        for program in compared:
            runs.append(timed([str(program), *front, str(keys)], report))
            if runs[-1].status == 0:
                printed.add(report.read_bytes())
        row = [kind, f"{line_count(graph):,}", *(f"{int(count):,}" for count in counts), str(workers), *cells(runs[0]), ratio(runs[0], reading)]
        for run in runs[1:]:
            row += [*cells(run), ratio(run, runs[0])]
        print("| " + " | ".join(row) + " |", flush=True)
    if len(printed) > 1:
        sys.exit(f"{kind} {size}: one prints something else than the others")


def main():
    compared, words = programs(asked(__doc__))
    counting = None
    if words[:1] == ["--counts"]:
        counting, words = pathlib.Path(words[1]).resolve(), words[2:]
    built()
    with tempfile.TemporaryDirectory() as name:
        folder = pathlib.Path(name)
        counting = counting or build(folder, "way_counts", NEEDS)
        columns = COLUMNS + BEFORE * (len(compared) - 1)
        print("| " + " | ".join(columns) + " |\n|" + "---|" * len(columns))
        for kind, size in planned(words, PLAN):
            measure(compared, counting, folder, kind, size)
    print_load()


if __name__ == "__main__":
    main()
