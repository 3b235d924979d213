#!/usr/bin/env python3
"""Times `gkey check` beside `gkey match` of the same graph and keys: chains, catalogues, and a class of many names.

Usage: bench/checking.py [--before PROGRAM] [KIND SIZE ..]

The kinds are those of bench/graphs.py. The proofs are those that `gkey prove` makes. With --before, another build of the program
checks them too, in turn with this one, and must say the same. Times are seconds of processor time, each the least of five runs;
at the end stands the load of the machine.

It makes graphs and proofs in a temporary folder, needs nothing but the program, and prints a line for each graph.
"""

import pathlib
import subprocess
import tempfile

from asking import asked
from graphs import written
from timing import PROGRAM, best_in_turn, built, planned, print_load, print_the_same, programs

PLAN = [("chain", 16667), ("chain", 166667), ("catalogue", 10 ** 5), ("catalogue", 10 ** 6), ("matched", 10 ** 6)]


def proved(folder, kind, size):
    """The graph of a kind, its key file and the proof of its classes, written to the folder, and how many steps the proof has."""
    graph, keys = written(folder, kind, size)
    proof = folder / "proof.gkp"
    with proof.open("wb") as out:
        subprocess.run([PROGRAM, "prove", graph, keys], stdout=out, check=True)
    return graph, keys, proof, int(proof.read_bytes().split()[-1])


def measure(folder, kind, size, compared):
    graph, keys, proof, steps = proved(folder, kind, size)
    checks = [[str(program), "check", str(graph), str(keys), str(proof)] for program in compared]
    print_the_same(checks, f"{kind} {size}")
    runs = best_in_turn([[str(PROGRAM), "match", str(graph), str(keys)], *checks])
    print(f"{kind:>10} {size:>8} {steps:>8}" + "".join(f" {run.seconds:>8.2f} {run.megabytes:>6.0f}" for run in runs), flush=True)


def main():
    compared, words = programs(asked(__doc__))
    built()
    names = ["match", "check", "before"][:1 + len(compared)]
    print(f"{'graph':>10} {'size':>8} {'steps':>8}" + "".join(f" {name:>8} {'MB':>6}" for name in names))
    with tempfile.TemporaryDirectory() as folder:
        for kind, size in planned(words, PLAN):
            measure(pathlib.Path(folder), kind, size, compared)
    print_load()


if __name__ == "__main__":
    main()
