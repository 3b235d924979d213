#!/usr/bin/env python3
"""Compares `gkey match` with a plain matcher on random small graphs and key files.

Usage: bench/compare.py [--before PROGRAM] [RUNS [SEED]]. It ends with status 0 where every report is the same.
The program is run with `--large` as well. With `--before` another program has to print the same, too: one that always goes by signatures, say, which is this one where
`way_for` of crates/chase_ways/src/way.rt answers nothing else.
The matcher here lists whole valuations, joins what coincides and begins again until nothing changes. It works on the
terms before they are written down, so it reads neither graphs nor keys, and shares nothing with the program.

It makes its cases in a temporary folder, needs nothing but the program, and prints how many agree, or the first that differs.
"""

import itertools
import pathlib
import random
import subprocess
import sys
import tempfile
from typing import NamedTuple, Optional

from asking import asked
from timing import built, programs

XSD_STRING = "http://www.w3.org/2001/XMLSchema#string"


class Term(NamedTuple):
    kind: str                       # iri, blank or literal
    text: str
    datatype: Optional[str] = None  # none is xsd:string, where there is no tag
    tag: Optional[str] = None

    def is_literal(self):
        return self.kind == "literal"

    def canonical(self):
        if self.kind == "iri":
            return f"<{self.text}>"
        if self.kind == "blank":
            return f"_:{self.text}"
        form = self.text.replace("\\", "\\\\").replace('"', '\\"').replace("\n", "\\n").replace("\r", "\\r")
        return f'"{form}"' + (f"^^<{self.datatype}>" if self.datatype else f"@{self.tag}" if self.tag else "")

    def folded(self):
        return (self.text.casefold(), self.datatype, self.tag) if self.is_literal() else self


RDF_TYPE = Term("iri", "http://www.w3.org/1999/02/22-rdf-syntax-ns#type")


class Slot(NamedTuple):
    kind: str  # entity, any, value, folded or fixed
    name: str
    term: Optional[Term] = None  # the type or the constant

    def written(self, rng):
        if self.kind == "fixed":
            return spelled(self.term, rng)
        return {"entity": "?", "any": "_", "value": "$", "folded": "$"}[self.kind] + self.name


class Key(NamedTuple):
    name: str
    slots: list
    edges: list  # (slot, predicate, slot)


def escaped(text, rng):
    """Some spelling of a text inside quotation marks or angle brackets."""
    return "".join(f"\\u{ord(c):04X}" if rng.randrange(12) == 0 else f"\\U{ord(c):08x}" if rng.randrange(24) == 0 else c
                   for c in text)


def spelled(term, rng):
    """Some spelling of the term in N-Triples."""
    if term.kind == "blank":
        return f"_:{term.text}"
    if term.kind == "iri":
        return f"<{escaped(term.text, rng)}>"
    quoted = {"\\": "\\\\", '"': '\\"', "\n": "\\n", "\r": "\\r", "\t": "\\t"}
    form = '"' + "".join(quoted.get(c) or escaped(c, rng) for c in term.text) + '"'
    if term.tag:
        return form + "@" + (term.tag.upper() if rng.randrange(2) else term.tag)
    datatype = term.datatype or (XSD_STRING if rng.randrange(4) == 0 else None)
    blank = rng.choice(["", "", " ", "\t"])
    return form + (f"{blank}^^{blank}<{datatype}>" if datatype else "")


def graph_text(rows, rng):
    lines = []
    for row in rows:
        for _ in range(1 + (rng.randrange(8) == 0)):
            parts = [spelled(term, rng) for term in row]
            gap = rng.choice([" ", " ", "\t", "  "])
            # A blank node's label would take the dot along.
            lines.append(gap.join(parts) + " ." + rng.choice(["", "", " ", " # comment"]))
        if rng.randrange(10) == 0:
            lines.append(rng.choice(["", "# comment", " \t"]))
    rng.shuffle(lines)
    text = "".join(line + rng.choice(["\n", "\n", "\r\n", "\r"]) for line in lines[:-1])
    return text + (lines[-1] + rng.choice(["", "\n"]) if lines else "")


def keys_text(keys, rng):
    lines = []
    for key in keys:
        lines.append(f"key {key.name} {spelled(key.slots[0].term, rng)}")
        for slot in key.slots[1:]:
            if slot.kind in ("entity", "any"):
                lines.append(f"{slot.kind} {slot.written(rng)} {spelled(slot.term, rng)}")
            elif slot.kind != "fixed":
                lines.append(f"{slot.kind} {slot.written(rng)}")
        for start, predicate, end in key.edges:
            lines.append(f"{key.slots[start].written(rng)} {spelled(predicate, rng)} {key.slots[end].written(rng)}")
        lines.append("end")
    return "".join(rng.choice(["", "", " "]) + line + rng.choice(["", "", " # comment"]) + rng.choice(["\n", "\n", "\r\n"])
                   for line in lines)


class Matcher:
    """The chase by whole valuations."""

    def __init__(self, rows, keys):
        self.rows, self.keys = set(rows), keys
        self.terms = {term for s, _, o in self.rows for term in (s, o)}
        self.parent = {term: term for term in self.terms}
        self.valuations = [list(self.of_key(key)) for key in keys]

    def fits(self, slot, term):
        if slot.kind in ("entity", "any"):
            return not term.is_literal() and (term, RDF_TYPE, slot.term) in self.rows
        if slot.kind == "fixed":
            return term == slot.term
        return term.is_literal()

    def of_key(self, key):
        choices = [[term for term in self.terms if self.fits(slot, term)] for slot in key.slots]
        for valuation in itertools.product(*choices):
            if len(set(valuation)) == len(valuation) and all(
                    (valuation[s], predicate, valuation[t]) in self.rows for s, predicate, t in key.edges):
                yield valuation

    def find(self, term):
        while self.parent[term] != term:
            term = self.parent[term]
        return term

    def coincide(self, key, left, right):
        for place, slot in enumerate(key.slots):
            a, b = left[place], right[place]
            if (slot.kind == "value" and a != b) or (slot.kind == "folded" and a.folded() != b.folded()) or (
                    slot.kind == "entity" and place > 0 and self.find(a) != self.find(b)):
                return False
        return True

    def chase(self):
        changed = True
        while changed:
            changed = False
            for key, valuations in zip(self.keys, self.valuations):
                for left, right in itertools.combinations(valuations, 2):
                    a, b = self.find(left[0]), self.find(right[0])
                    if a != b and self.coincide(key, left, right):
                        self.parent[a] = b
                        changed = True

    def report(self):
        classes = {}
        for term in self.terms:
            classes.setdefault(self.find(term), []).append(term.canonical().encode())
        lines = sorted(sorted(members) for members in classes.values() if len(members) > 1)
        return b"".join(b" ".join(members) + b"\n" for members in lines)


def random_case(rng):
    types = [Term("iri", f"urn:T{n}") for n in range(rng.randrange(1, 3))]
    predicates = [Term("iri", f"urn:p{n}") for n in range(rng.randrange(1, 3))] + [RDF_TYPE] * (rng.randrange(8) == 0)
    things = [Term(*rng.choice([("iri", f"urn:e{n}"), ("blank", f"b.{n}")])) for n in range(rng.randrange(2, 7))]
    forms = rng.sample(["x", "X", "stra\u00dfe", "STRASSE", "\u00c9", "\u00e9", 'a "b"\n', "1"], rng.randrange(1, 4))
    literals = [Term("literal", form, *rng.choice([(), (), (), (None, "en"), ("urn:d", None)])) for form in forms]
    rows = [(thing, RDF_TYPE, t) for thing in things for t in types if rng.randrange(4)]
    for _ in range(rng.randrange(4, 28)):
        end = rng.choice(literals) if rng.randrange(3) else rng.choice(things)
        rows.append((rng.choice(things), rng.choice(predicates), end))
    keys = [random_key(rng, n, types, predicates, things, literals) for n in range(rng.randrange(1, 4))]
    return rows, keys


def random_key(rng, number, types, predicates, things, literals):
    slots = [Slot("entity", "x", rng.choice(types))]
    edges = []
    for n in range(rng.choice([1, 1, 2, 3])):
        kind = rng.choice(["value", "value", "folded", "entity", "entity", "any", "fixed"])
        term = rng.choice(types) if kind in ("entity", "any") else (
            rng.choice(things[:3] + literals + types) if kind == "fixed" else None)
        if kind == "fixed" and term.kind == "blank":
            term = types[0]
        if kind == "fixed" and any(slot.kind == "fixed" and slot.term == term for slot in slots):
            continue
        subjects = [place for place, slot in enumerate(slots) if slot.kind in ("entity", "any")]
        slots.append(Slot(kind, f"v{n}", term))
        edge = (rng.choice(subjects), rng.choice(predicates), len(slots) - 1)
        if kind in ("entity", "any") and rng.randrange(2):
            edge = (edge[2], edge[1], edge[0])
        edges.append(edge)
    if not edges:
        return random_key(rng, number, types, predicates, things, literals)
    for _ in range(rng.randrange(2)):
        subjects = [place for place, slot in enumerate(slots) if slot.kind in ("entity", "any")]
        edge = (rng.choice(subjects), rng.choice(predicates), rng.randrange(len(slots)))
        if edge not in edges:
            edges.append(edge)
    # Constants are slots after the variables.
    order = [p for p, slot in enumerate(slots) if slot.kind != "fixed"] + [p for p, slot in enumerate(slots) if slot.kind == "fixed"]
    place = {old: new for new, old in enumerate(order)}
    return Key(f"k{number}", [slots[p] for p in order], [(place[s], p, place[t]) for s, p, t in edges])


def main():
    compared, words = programs(asked(__doc__))
    runs = int(words[0]) if words else 1000
    rng = random.Random(int(words[1]) if len(words) > 1 else 1)
    built()
    # (a program before this one may know no --large)
    ways = [*((program, ["match"]) for program in compared), (compared[0], ["--large", "match"])]
    with_classes = 0
    with tempfile.TemporaryDirectory() as folder:
        graph, keys_file = pathlib.Path(folder) / "graph.nt", pathlib.Path(folder) / "keys.gk"
        for number in range(runs):
            rows, keys = random_case(rng)
            graph.write_bytes(graph_text(rows, rng).encode())
            keys_file.write_bytes(keys_text(keys, rng).encode())
            matcher = Matcher(rows, keys)
            matcher.chase()
            wanted = matcher.report()
            for program, command in ways:
                done = subprocess.run([program, *command, graph, keys_file], capture_output=True)
                if (done.returncode, done.stdout, done.stderr) != (0, wanted, b""):
                    sys.exit(f"run {number} differs:\n{graph.read_bytes()!r}\n{keys_file.read_bytes()!r}\n"
                             f"wanted {wanted!r}\ngot {done}")
            with_classes += wanted != b""
    print(f"{runs} runs agree, {with_classes} of them with classes")


if __name__ == "__main__":
    main()
