#!/usr/bin/env python3
"""Measures how fast the reader of N-Triples reads, beside `serdi` on the same file.

Usage: bench/reading.py [--lines N] [--file FILE]

It makes a file of N lines (1,000,000 if left out), the same at every call, or takes FILE; builds the program of
bench/programs/count_triples in a temporary folder; runs the program and `serdi` (Debian's package of that name) three times
each; and prints the best processor time of each. Both read and check every triple: the program keeps all of them in
memory, `serdi` writes them to /dev/null. Where there is no `serdi`, its row is left out.
"""

import argparse
import pathlib
import random
import shutil
import subprocess
import tempfile

from building import build
from timing import best_of_three

WORDS = (
    "alpha beta gamma delta epsilon zeta eta theta iota kappa lambda mu nu xi omicron pi rho sigma tau upsilon phi chi psi"
    " omega"
).split()
FOREIGN = ["Müller", "naïve", "東京", "Ελλάδα", "résumé", "Привет", "😀"]
TAGS = ["en", "de", "fr", "en-US", "el", "ja", "zh-Hant-TW"]
XSD = "http://www.w3.org/2001/XMLSchema#"


def iri(choose):
    return f"<http://example.org/resource/{choose.choice(WORDS)}/{choose.randrange(300000)}>"


def literal(choose):
    """A plain, tagged, typed or escaped literal."""
    kind = choose.random()
    word = choose.choice(WORDS)
    if kind < 0.45:
        return '"%s"' % " ".join(choose.choice(WORDS) for _ in range(choose.randrange(1, 17)))
    if kind < 0.62:
        return f'"{choose.choice(FOREIGN)} {word}"@{choose.choice(TAGS)}'
    if kind < 0.82:
        return f'"{choose.randrange(100000)}"^^<{XSD}integer>'
    if kind < 0.87:
        return f'"{word}"^^<{XSD}string>'
    return f'"{word}\\n\\"{choose.choice(WORDS)}\\"\\t\\u00E9 \\U0001F600"'


def line(choose):
    """A triple, in one line of forty with a comment; in one of a hundred a comment alone, or nothing."""
    kind = choose.random()
    if kind < 0.005:
        return "# " + choose.choice(WORDS)
    if kind < 0.01:
        return ""
    subject = iri(choose) if choose.random() < 0.85 else f"_:b{choose.randrange(100000)}"
    predicate = f"<http://www.example.org/ontology/{choose.choice(WORDS)}>"
    which = choose.random()
    if which < 0.35:
        thing = iri(choose)
    elif which < 0.42:
        thing = f"_:b{choose.randrange(100000)}.x-{choose.randrange(9)}"
    else:
        thing = literal(choose)
    return f"{subject} {predicate} {thing} ." + (" # noted" if choose.random() < 0.025 else "")


def make_graph(path, count):
    with path.open("wb", buffering=1 << 20) as out:
        choose = random.Random(7)
        for _ in range(count):
            out.write(line(choose).encode() + b"\n")


def main():
    parser = argparse.ArgumentParser(description=__doc__, usage=argparse.SUPPRESS, formatter_class=argparse.RawDescriptionHelpFormatter)
    parser.add_argument("--lines", type=int, default=1000000, help="how many lines are made")
    parser.add_argument("--file", help="measure this file in place of a made one")
    given = parser.parse_args()
    with tempfile.TemporaryDirectory() as name:
        folder = pathlib.Path(name)
        path = pathlib.Path(given.file or folder / "mixed.nt")
        if not given.file:
            make_graph(path, given.lines)
        program = build(folder, "count_triples", ["nt_reader", "nt_lex", "gk_base", "anyhow"])
        count = int(subprocess.run([program, path], check=True, capture_output=True, text=True).stdout)
        size = path.stat().st_size / 1e6
        print(f"{size:.1f} MB, {count} triples")
        tools = [("count_triples", [str(program), str(path)])]
        if shutil.which("serdi"):
            tools.append(("serdi", ["serdi", "-i", "ntriples", "-o", "ntriples", str(path)]))
        print(f"{'program':<14}{'seconds':>9}{'MB/s':>9}{'triples/s':>12}{'peak MB':>9}")
        for title, command in tools:
            best = best_of_three(command)
            print(f"{title:<14}{best.seconds:>9.3f}{size / best.seconds:>9.0f}{count / best.seconds:>12.0f}{best.megabytes:>9.0f}")


main()
