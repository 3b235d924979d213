#!/usr/bin/env python3
"""Turns a proof into a graph of its steps in the language of Graphviz: an arrow leads from each step to the steps that need it.

Usage: proof_picture.py PROOF | dot -Tsvg > proof.svg

The proof is of version 2, and one of version 1 is turned into it by `gkey convert`. A box has a step's number, its key, and
the two terms that it makes the same; an arrow has the number of the slot at which the step below needs the step above.
"""

import sys


def quoted(text):
    return '"' + text.replace("\\", "\\\\").replace('"', '\\"').replace("\n", "\\n") + '"'


def drawn(lines):
    """The lines of the graph, from those of the proof."""
    lines = iter(lines)
    if next(lines) != "gkey-proof 2":
        sys.exit("proof_picture.py: not a proof of version 2")
    terms = [next(lines) for _ in range(int(next(lines).split()[1]))]
    yield "digraph proof {"
    yield '  node [shape=box, fontname="sans-serif", fontsize=11];'
    yield '  edge [fontname="sans-serif", fontsize=10];'
    step, key, left = 0, "", ""
    for line in lines:
        word, *rest = line.split() or [""]
        if word == "step":
            step, key = step + 1, rest[0]
        elif word == "left":
            left = terms[int(rest[0]) - 1]
        elif word == "right":
            yield f"  s{step} [label={quoted(f'{step}. {key}' + chr(10) + left + chr(10) + terms[int(rest[0]) - 1])}];"
        elif word == "by":
            for support in rest[1:]:
                yield f'  s{support} -> s{step} [label="{rest[0]}"];'
    yield "}"


def main():
    with open(sys.argv[1], encoding="utf-8", newline="\n") as file:
        print("\n".join(drawn(file.read().split("\n"))))


main()
