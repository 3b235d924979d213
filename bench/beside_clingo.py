#!/usr/bin/env python3
"""Times `gkey match` beside clingo, an answer set solver (Debian's package gringo), with the same keys as rules.

Usage: bench/beside_clingo.py [KIND SIZE ..]

The kinds are those of bench/graphs.py. Both must find the same classes. Times are seconds of processor time, one run each; a run
of clingo is ended after ten minutes. What this script takes to write the graph as facts is not counted.

It makes graphs, and the rules for clingo, in a temporary folder; needs Debian's package gringo, which it names where it is
missing; and prints a line for each graph.
"""

import os
import pathlib
import subprocess
import sys
import tempfile
import threading

import plain
from asking import asked, need
from graphs import written
from timing import PROGRAM, built, planned, timed

PACKAGES = {"clingo": "gringo"}
MOST_SECONDS = 600
PLAN = [("crowded", 10 ** 5), ("bibliography", 10 ** 5), ("missed", 10 ** 6), ("matched", 10 ** 5), ("woken", 10 ** 6),
        ("chain", 10 ** 4)]

CLOSURE = """
same(Y, X) :- same(X, Y).
same(X, Z) :- same(X, Y), same(Y, Z), X != Z.
equal(X, X) :- entity(X).
equal(X, Y) :- same(X, Y).
#show same/2.
"""


class Numbers(dict):
    """A number for each term, and for a new term the next one."""

    def __missing__(self, term):
        self[term] = len(self)
        return self[term]


def side(key, hand, numbers):
    """What one side of a valuation asks: a variable for each slot, and the parts of a rule."""
    names, parts = [], []
    for place, (kind, term) in enumerate(key.slots):
        names.append(str(numbers[term]) if kind == "fixed" else f"V{place}" if kind == "value" else f"{hand}{place}")
        if kind == "value":
            parts.append(f"literal({names[-1]})")
        elif kind != "fixed":
            parts.append(f"row({names[-1]}, {numbers[plain.TYPE]}, {numbers[term]})")
            parts.append(f"entity({names[-1]})")
    parts += [f"row({names[start]}, {numbers[predicate]}, {names[end]})" for start, predicate, end in key.edges]
    parts += [f"{names[one]} != {names[other]}" for other in range(len(names)) for one in range(other)]
    return names, parts


def rule(key, numbers):
    """A key as a rule: two valuations that coincide make the names at slot 0 the same."""
    lefts, left_parts = side(key, "L", numbers)
    rights, right_parts = side(key, "R", numbers)
    coincide = [f"equal({lefts[place]}, {rights[place]})" for place, (kind, _) in enumerate(key.slots) if place and kind == "entity"]
    return f"same(L0, R0) :- {', '.join(left_parts + right_parts + coincide + ['L0 != R0'])}.\n"


def write_program(path, graph, keys, numbers):
    """The graph as facts and the keys as rules."""
    rows = [(numbers[s], numbers[p], numbers[o]) for s, p, o in graph.rows]
    rules = "".join(rule(key, numbers) for key in keys)
    ends = {end for s, _, o in rows for end in (s, o)}
    literals = {number for term, number in numbers.items() if term.startswith('"')}
    with path.open("w", encoding="ascii") as out:
        out.writelines(f"row({s},{p},{o}).\n" for s, p, o in rows)
        out.writelines(f"literal({n}).\n" for n in sorted(literals))
        out.writelines(f"entity({n}).\n" for n in sorted(ends - literals))
        out.write(CLOSURE + rules)


def classes_of(text, terms):
    """The classes that clingo's answer says."""
    least = {}
    for atom in text.split():
        if atom.startswith("same("):
            one, other = (terms[int(number)] for number in atom[5:-1].split(","))
            least.setdefault(one, {one}).add(other)
    return {frozenset(members) for members in least.values()}


def run_clingo(program, answer):
    """The seconds of processor time that it took to write the answer, or none where it was ended."""
    command = ["clingo", "--outf=0", "-V1", "-n", "1", str(program)]
    with answer.open("wb") as out:
        child = subprocess.Popen(command, stdout=out, stderr=subprocess.DEVNULL)
    late = threading.Timer(MOST_SECONDS, child.kill)
    late.start()
    _, status, usage = os.wait4(child.pid, 0)
    late.cancel()
    return None if os.WIFSIGNALED(status) else usage.ru_utime + usage.ru_stime


def measure(folder, kind, size):
    graph, keys = written(folder, kind, size)
    program = folder / "program.lp"
    numbers = Numbers()
    with graph.open(encoding="utf-8") as lines:
        write_program(program, plain.read_graph(lines), plain.read_keys(keys.read_text()), numbers)
    command = [str(PROGRAM), "match", str(graph), str(keys)]
    report = subprocess.run(command, stdout=subprocess.PIPE, check=True).stdout.decode()
    own = timed(command)
    other = run_clingo(program, folder / "answer")
    classes = {frozenset(line.split()) for line in report.splitlines()}
    if other is not None and classes_of((folder / "answer").read_text(), list(numbers)) != classes:
        sys.exit(f"{kind} {size}: other classes")
    told = f"{other:>9.2f}" if other is not None else f"{'> ' + str(MOST_SECONDS):>9}"
    print(f"{kind:>13} {size:>9} {own.seconds:>9.2f} {told}", flush=True)


def main():
    words = asked(__doc__)
    need(PACKAGES)
    built()
    print(f"{'graph':>13} {'size':>9} {'gkey':>9} {'clingo':>9}")
    with tempfile.TemporaryDirectory() as folder:
        for kind, size in planned(words, PLAN):
            measure(pathlib.Path(folder), kind, size)


if __name__ == "__main__":
    main()
