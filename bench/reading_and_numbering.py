#!/usr/bin/env python3
"""Times `gkey match` with an empty key file beside `serdi` and `rapper -c` on the same graphs.

Usage: bench/reading_and_numbering.py [--before PROGRAM] [MILLIONS ..]   (1 2 4, if none are given)

It needs Debian's packages serdi and raptor2-utils. The tools run in turn, five times each, and the best run of each
counts. `serdi` and `rapper` only parse; `gkey` also numbers every term and builds the graph's indexes. With `--before` another
gkey runs among them.

It makes graphs in a temporary folder, and prints a line for each tool and size.
"""

import pathlib
import tempfile

import graphs
from asking import asked, need
from timing import best_in_turn, built, programs

PACKAGES = {"serdi": "serdi", "rapper": "raptor2-utils"}
COLUMNS = "{:>10} {:>8} {:>10} {:>10} {:>12} {:>10} {:>10}"


def tools(compared, graph, keys):
    for name, program in zip(["gkey", "before"], compared):
        yield name, [str(program), "match", graph, keys]
    yield "serdi", ["serdi", "-i", "ntriples", "-o", "ntriples", graph]
    yield "rapper", ["rapper", "-q", "-c", "-i", "ntriples", graph]


def main():
    compared, words = programs(asked(__doc__))
    need(PACKAGES)
    built()
    sizes = [float(word) for word in words] or [1, 2, 4]
    print(COLUMNS.format("triples", "MB", "tool", "seconds", "triples/s", "MB/s", "peak MB"))
    with tempfile.TemporaryDirectory() as folder:
        keys = pathlib.Path(folder) / "keys.gk"
        keys.write_text(graphs.NO_KEY)
        for size in sizes:
            triples = int(size * 1_000_000)
            graph = pathlib.Path(folder) / "graph.nt"
            with graph.open("w", encoding="utf-8") as out:
                graphs.mixed(out, triples)
            megabytes = graph.stat().st_size / 1e6
            names, commands = zip(*tools(compared, str(graph), str(keys)))
            for tool, run in zip(names, best_in_turn(commands)):
                print(COLUMNS.format(triples, f"{megabytes:.0f}", tool, f"{run.seconds:.2f}",
                                     f"{triples / run.seconds:.0f}", f"{megabytes / run.seconds:.0f}", f"{run.megabytes:.0f}"),
                      flush=True)


if __name__ == "__main__":
    main()
