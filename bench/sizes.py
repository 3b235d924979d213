#!/usr/bin/env python3
"""Measures the tables of docs/SIZES.md: time and memory by the number of triples, by command, and by the number of pairs.

Usage: bench/sizes.py [--write] [--small]

It prints the tables, with the machine, the day and its load before and after. With --write they are put in the place of
those of the page. With --small all sizes are a hundredth, to try the script. Of three runs the one that took least by the
clock counts. The graphs are those of bench/graphs.py; the candidate pairs are counted by examples/recipes/foresee.awk, which
is exact for these, since each of their entities has one literal under a predicate. All of it takes some ten minutes and 4 GB
of memory on a machine without load.
"""

import datetime
import os
import pathlib
import platform
import re
import subprocess
import sys
import tempfile
import time
from typing import NamedTuple

from asking import asked
from graphs import SITE, line_count, members, parted, written
from timing import PROGRAM, TOP, built

PAGE = TOP / "docs" / "SIZES.md"
BEGIN, END = "<!-- by bench/sizes.py -->", "<!-- to here -->"
# For each kind the types and predicates of the values that make candidate pairs.
VALUES = {
    "catalogue": [(f"<{SITE}{kind}>", f"<{SITE}{predicate}>")
                  for kind, predicate in (("Label", "code"), ("Artist", "name"), ("Album", "title"))],
    "chain": [("<urn:T>", "<urn:name>")],
}
VALUES["crowded"] = VALUES["catalogue"]
BY_TRIPLES = [("catalogue", 10 ** 5), ("catalogue", 10 ** 6), ("catalogue", 4 * 10 ** 6),
              ("chain", 10 ** 5 // 6), ("chain", 10 ** 6 // 6), ("chain", 4 * 10 ** 6 // 6), ("crowded", 10 ** 6)]
BY_COMMAND = 10 ** 6
BY_PAIRS = [("matched", 10 ** 6), ("matched", 10 ** 7), ("matched", 67_000_000), ("missed", 10 ** 6), ("missed", 10 ** 7),
            ("missed", 67_000_000)]
TELLS = {"matched": "all are the same", "missed": "none is another"}


class Run(NamedTuple):
    seconds: float    # by the clock
    processor: float  # seconds in user mode and in the system, of all threads together
    megabytes: float  # the greatest part of memory in use


def timed(words, out):
    """One run, whose output goes to the file."""
    began = time.perf_counter()
    with open(out, "wb") as file:
        child = subprocess.Popen([PROGRAM, *words], stdout=file)
        _, status, usage = os.wait4(child.pid, 0)
    if status != 0:
        sys.exit(f"{words}: status {os.waitstatus_to_exitcode(status)}")
    return Run(time.perf_counter() - began, usage.ru_utime + usage.ru_stime, usage.ru_maxrss / 1024)


def best(*words, out=os.devnull):
    return min(timed([str(word) for word in words], out) for _ in range(3))


COLUMNS = "1 worker: seconds | 4 workers: seconds | processor | MB"


def by_workers(*words, out=os.devnull):
    """The cells of a match with one worker, and with four."""
    one, four = (best("match", "--workers", workers, *words, out=out) for workers in (1, 4))
    return f"{one.seconds:.2f} | {shown(four)}"


def shown(run):
    return f"{run.seconds:.2f} | {run.processor:.2f} | {run.megabytes:,.0f}"


def pairs_of(kind, graph):
    """How many candidate pairs the graph has under the keys of its kind."""
    recipe, total = TOP / "examples/recipes/foresee.awk", 0
    for type_, predicate in VALUES[kind]:
        command = ["awk", "-v", f"type={type_}", "-v", f"predicate={predicate}", "-f", recipe, graph, graph]
        total += int(subprocess.run(command, check=True, stdout=subprocess.PIPE, text=True).stdout.split()[2])
    return total


def by_triples(folder, share):
    yield f"| Graph | Triples | MB of text | Candidate pairs | Classes | {COLUMNS} |"
    yield "|---|---|---|---|---|---|---|---|---|"
    for kind, size in BY_TRIPLES:
        graph, keys = written(folder, kind, size // share)
        report = folder / "report"
        cells = by_workers(graph, keys, out=report)
        counts = line_count(graph), round(graph.stat().st_size / 1e6), pairs_of(kind, graph), line_count(report)
        yield f"| {kind} | {' | '.join(f'{count:,}' for count in counts)} | {cells} |"


def by_command(folder, share):
    yield "| Command | Seconds | processor | MB |"
    yield "|---|---|---|---|"
    graph, keys = written(folder, "catalogue", BY_COMMAND // share)
    proof, (first, more) = folder / "proof", parted(folder, graph)
    report = subprocess.run([PROGRAM, "match", graph, keys], check=True, stdout=subprocess.PIPE, text=True).stdout
    ends = report.split("\n")[0].split()
    yield f"| `match` | {shown(best('match', graph, keys))} |"
    yield f"| `prove` | {shown(best('prove', graph, keys, out=proof))} |"
    yield f"| `check` | {shown(best('check', graph, keys, proof))} |"
    yield f"| `convert` | {shown(best('convert', proof))} |"
    yield f"| `merge` | {shown(best('merge', graph, keys))} |"
    yield f"| `why` | {shown(best('why', graph, keys, ends[0], ends[-1]))} |"
    yield f"| `grow`, the last hundredth as MORE | {shown(best('grow', first, more, keys))} |"


def by_pairs(folder, share):
    yield f"| Entities that share one value | Candidate pairs | | {COLUMNS} |"
    yield "|---|---|---|---|---|---|---|"
    for kind, size in BY_PAIRS:
        graph, keys = written(folder, kind, size // share)
        count = members(size // share)
        yield f"| {count:,} | {count * (count - 1) // 2:,} | {TELLS[kind]} | {by_workers(graph, keys)} |"


def load():
    return ", ".join(f"{each:.1f}" for each in os.getloadavg())


def machine():
    with open("/proc/cpuinfo", encoding="utf-8") as file:
        model = re.search(r"^model name\s*: (.*)$", file.read(), re.M)[1]
    memory = os.sysconf("SC_PAGE_SIZE") * os.sysconf("SC_PHYS_PAGES") // 2 ** 30
    return f"{model}, {os.cpu_count()} processors,\n{memory} GB of memory, {platform.system()} {platform.release()}"


def tables(folder, share):
    before = load()
    parts = [("**By triples.** `match` of two sources of one catalogue, of a chain whose pairs are found one after another, and\n"
              "of a catalogue in which a few titles are crowded:", by_triples),
             (f"**By command.** The catalogue of about {BY_COMMAND // share:,} triples, four workers:", by_command),
             ("**By pairs.** `match` of entities of one type that share one value:", by_pairs)]
    told = []
    for text, rows in parts:
        told += [text, "", *rows(folder, share), ""]
    head = (f"Taken on {datetime.date.today()} by `bench/sizes.py`, on {machine()}.\n"
            f"The load of the machine was {before} when it began and {load()} when it ended (the means of 1, 5 and 15 minutes,\n"
            "which have the script's own runs in them). Seconds are by the clock, and `processor` is the processor time of all threads\n"
            "together. Of small runs the memory told is no less than Python's own, some 16 MB.")
    return "\n".join([head, "", *told])


def main():
    words = asked(__doc__)
    built()
    with tempfile.TemporaryDirectory() as name:
        text = tables(pathlib.Path(name), 100 if "--small" in words else 1)
    print(text)
    if "--write" in words:
        page = PAGE.read_text(encoding="utf-8")
        front, behind = page.split(BEGIN)[0], page.split(END)[1]
        PAGE.write_text(f"{front}{BEGIN}\n{text}{END}{behind}", encoding="utf-8")


if __name__ == "__main__":
    main()
