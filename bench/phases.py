#!/usr/bin/env python3
"""Times the phases of a match by 1, 2 and 4 workers on as many processors: reading and numbering of the graph, its indexes, the
preparing of the chase, the chase, and the report.

Usage: bench/phases.py [--spread] [--program PROGRAM] [KIND SIZE ..]

The kinds are those of bench/graphs.py. Times are milliseconds by the clock: of several runs, which come in turn, the middle and
the least. `MB` is the greatest part of memory in use. `times` is how often the time of one worker holds that of so many: the
middle of the ratios of runs that stood side by side, and the ratio of the least. --program names a build of the measuring program
that is there already. --spread runs the program in the system's real-time class (`chrt`, which needs the right to), so that each
thread that can run has a processor at once. At the end stands the load of the machine.

It makes graphs in a temporary folder, needs the kit (`rt`) where no `--program` is given, and prints a table.
"""

import os
import pathlib
import statistics
import subprocess
import sys
import tempfile

from asking import asked
from building import build
from graphs import written
from timing import on_processors, planned, print_load, spread

NEEDS = ["match_run", "steal_pool", "chase_core", "chase_laws", "typed_graph", "term_text", "term_table", "graph_rows", "key_lang",
         "gk_io", "gk_base", "anyhow"]
PROCESSORS = {1: "0", 2: "0,1", 4: "0-3"}  # by the number of workers
PLAN = [(kind, size) for size in (10 ** 6, 4 * 10 ** 6) for kind in ("mixed", "catalogue", "bibliography")]
PLAN += [("chain", 10 ** 6 // 6), ("chain", 4 * 10 ** 6 // 6)]
PHASES = ["read", "index", "prepare", "chase", "report"]
ROUNDS = 7


def timed(program, graph, keys, workers, is_spread):
    """The milliseconds of each phase and of all, and the megabytes."""
    command = [*on_processors(PROCESSORS[workers], is_spread), str(program), str(graph), str(keys), str(workers)]
    child = subprocess.Popen(command, stdout=subprocess.PIPE, text=True)
    out = child.stdout.read()
    _, status, usage = os.wait4(child.pid, 0)
    if status != 0:
        sys.exit(f"{command}: status {os.waitstatus_to_exitcode(status)}")
    phases = [int(word) / 1000 for word in out.split()]
    return [*phases, sum(phases)], usage.ru_maxrss / 1024


def measure(program, folder, kind, size, is_spread):
    graph, keys = written(folder, kind, size)
    rounds = [{workers: timed(program, graph, keys, workers, is_spread) for workers in PROCESSORS} for _ in range(ROUNDS)]
    for workers in PROCESSORS:
        runs = [one[workers][0] for one in rounds]
        ratios = [one[1][0][-1] / one[workers][0][-1] for one in rounds]
        least = [min(run[phase] for run in runs) for phase in range(len(PHASES) + 1)]
        middle = [statistics.median(run[phase] for run in runs) for phase in range(len(PHASES) + 1)]
        megabytes = max(one[workers][1] for one in rounds)
        times = statistics.median(ratios), min(one[1][0][-1] for one in rounds) / least[-1]
        print(f"{kind:>12} {size:>8} {workers:>2} ", *(f"{m:>6.0f} {n:>5.0f}" for m, n in zip(middle, least)),
              f"{megabytes:>6.0f}", *(f"{t:>5.2f}" for t in times), flush=True)


def main():
    is_spread, words = spread(asked(__doc__))
    given = None
    if words[:1] == ["--program"]:
        given, words = pathlib.Path(words[1]), words[2:]
    with tempfile.TemporaryDirectory() as name:
        folder = pathlib.Path(name)
        program = given or build(folder, "phase_times", NEEDS)
        print(f"{'graph':>12} {'size':>8} {'by':>2} ", *(f"{phase:>12}" for phase in [*PHASES, "all"]), f"{'MB':>6} {'times':>11}")
        for kind, size in planned(words, PLAN):
            measure(program, folder, kind, size, is_spread)
    print_load()


if __name__ == "__main__":
    main()
