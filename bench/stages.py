#!/usr/bin/env python3
"""Times the stages of a match on 1, 2 and 4 processors with as many workers: the candidate pairs, the filter, the chase. On one
processor the chase also by one thread that drains it, in the row of 0 workers.

Usage: bench/stages.py [--spread] [KIND SIZE ..]

The kinds are those of bench/graphs.py. Times are seconds by the clock, each the least of three runs, which come in turn.
`searches` are those of the chase by so many workers, with the looks for pairs that nothing can match: what goes beyond the kept
pairs may match and was looked at first, or was searched again, because it was woken or because a label had changed meanwhile.
In the row of 0 workers they are those of the thread alone. `woken` is how often an entry wakes a pair where one thread drains
the chase, and `ns` the nanoseconds that the chase takes for each kept pair.
`all` is the chase over all candidate pairs, none of them filtered and each searched by all keys: the filter pays where `filter`
and `chase` are less together. `times` is how often the time of one worker holds that of so many, in the chase and in the whole
run. --spread is that of `phases.py`. At the end stands the load of the machine.

It makes graphs in a temporary folder, needs the kit (`rt`), and prints a table.
"""

import pathlib
import subprocess
import tempfile
import time

from asking import asked
from building import build
from graphs import written
from timing import PROGRAM, built, on_processors, planned, print_load, spread

NEEDS = ["match_run", "steal_pool", "chase_core", "pair_filter", "pair_seed", "graph_rows", "key_lang", "gk_io", "gk_base", "anyhow"]
PROCESSORS = {0: "0", 1: "0", 2: "0,1", 4: "0-3"}  # by the number of workers
PLAN = [("crowded", 10 ** 5), ("crowded", 4 * 10 ** 5), ("crowded", 10 ** 6), ("common", 10 ** 6), ("bibliography", 10 ** 6),
        ("catalogue", 10 ** 6), ("missed", 10 ** 6), ("matched", 10 ** 6), ("woken", 10 ** 6), ("chain", 10 ** 5), ("linked", 10 ** 5),
        ("wide", 10 ** 5)]
COLUMNS = "{:>13} {:>9} {:>4} {:>9} {:>9} {:>9} {:>8} {:>8} {:>8} {:>8} {:>8} {:>8} {:>6} {:>6} {:>6}"


def stages(program, graph, keys, workers, is_spread):
    """Counts of pairs, kept pairs, searches and woken pairs, and the seconds of the candidates, the filter, the chase, and that over
    all."""
    command = [*on_processors(PROCESSORS[workers], is_spread), str(program), str(graph), str(keys), str(workers)]
    kept, over_all = ([int(word) for word in subprocess.run([*command, which], check=True, capture_output=True, text=True).stdout.split()]
                      for which in ("kept", "all"))
    return [*kept[:3], kept[6]], [microseconds / 1e6 for microseconds in (*kept[3:6], over_all[5])]


def whole(graph, keys, workers, is_spread):
    """The seconds of a whole run of the program by the clock."""
    command = [*on_processors(PROCESSORS[workers], is_spread), str(PROGRAM), "match", "--workers", str(max(workers, 1)), str(graph),
               str(keys)]
    began = time.perf_counter()
    subprocess.run(command, check=True, stdout=subprocess.DEVNULL)
    return time.perf_counter() - began


def measure(program, folder, kind, size, is_spread):
    graph, keys = written(folder, kind, size)
    runs = [{w: (*stages(program, graph, keys, w, is_spread), whole(graph, keys, w, is_spread)) for w in PROCESSORS} for _ in range(3)]
    least = {w: [min(run[w][1][stage] for run in runs) for stage in range(4)] + [min(run[w][2] for run in runs)] for w in PROCESSORS}
    for workers, seconds in least.items():
        times = (least[1][stage] / max(seconds[stage], 1e-6) for stage in (2, 4))
        counts = runs[0][workers][0]
        each = round(seconds[2] * 1e9 / max(counts[1], 1))
        print(COLUMNS.format(kind, size, workers, *counts, *(f"{s:.3f}" for s in seconds), each, *(f"{t:.2f}" for t in times)), flush=True)


def main():
    is_spread, words = spread(asked(__doc__))
    built()
    with tempfile.TemporaryDirectory() as name:
        folder = pathlib.Path(name)
        program = build(folder, "stage_times", NEEDS)
        print(COLUMNS.format("graph", "size", "by", "pairs", "kept", "searches", "woken", "seed", "filter", "chase", "all", "whole", "ns",
                             "times", "times"))
        for kind, size in planned(words, PLAN):
            measure(program, folder, kind, size, is_spread)
    print_load()


if __name__ == "__main__":
    main()
