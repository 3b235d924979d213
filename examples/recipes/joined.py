#!/usr/bin/env python3
"""Prints the classes that the steps of a proof join, as a report has them.

Usage: joined.py PROOF

The proof is of version 2, and one of version 1 is turned into it by `gkey convert`. This script reads which terms each step
makes the same, and does not look whether the step holds. Terms are taken as they are spelled, as `gkey` spells them.
"""

import sys


def pairs_of(proof):
    """The two first terms of each step."""
    lines = iter(proof.split(b"\n"))
    if next(lines) != b"gkey-proof 2":
        sys.exit("joined.py: not a proof of version 2")
    terms = [next(lines) for _ in range(int(next(lines).split()[1]))]
    left = None
    for line in lines:
        words = line.split()
        if words[:1] == [b"left"]:
            left = terms[int(words[1]) - 1]
        elif words[:1] == [b"right"]:
            yield left, terms[int(words[1]) - 1]


def classes_of(pairs):
    leads = {}

    def first(term):
        while leads.setdefault(term, term) != term:
            leads[term] = leads[leads[term]]
            term = leads[term]
        return term

    for left, right in pairs:
        leads[first(left)] = first(right)
    classes = {}
    for term in leads:
        classes.setdefault(first(term), []).append(term)
    return sorted(sorted(members) for members in classes.values())


def main():
    with open(sys.argv[1], "rb") as file:
        for members in classes_of(pairs_of(file.read())):
            sys.stdout.buffer.write(b" ".join(members) + b"\n")


main()
