#!/usr/bin/env python3
"""A plain matcher with indexes, which shares nothing with the program, and what it can tell of a graph.

Usage: bench/plain.py GRAPH KEYS

It prints the report, as `gkey match` does. It knows of N-Triples and of keys only what the graphs and keys of graphs.py
need: one blank between the parts of a line, no escapes, no folded values.

It makes nothing, and needs Python alone.
"""

import collections
import itertools
import sys
from typing import NamedTuple

from asking import asked

TYPE = "<http://www.w3.org/1999/02/22-rdf-syntax-ns#type>"


class Key:
    """A key's slots, as kind and type or constant, and its edges, as slot, predicate and slot."""

    def __init__(self, type_name):
        self.numbers, self.slots, self.edges = {"?x": 0}, [("entity", type_name)], []

    def declare(self, kind, variable, term=None):
        self.numbers[variable] = len(self.slots)
        self.slots.append((kind, term))

    def slot(self, word):
        if word not in self.numbers:
            self.declare("fixed", word, word)
        return self.numbers[word]

    def finish(self):
        """The distance of each slot from slot 0, and the slots in that order."""
        self.distance, ends = {0: 0}, [0]
        for near in ends:
            for start, _, end in self.edges:
                for this, other in ((start, end), (end, start)):
                    if this == near and other not in self.distance:
                        self.distance[other] = self.distance[near] + 1
                        ends.append(other)
        self.order = ends


class Graph(NamedTuple):
    rows: set
    out: dict       # the objects of a subject and a predicate
    into: dict      # the subjects of a predicate and an object
    of_type: dict   # the names of a type, in order


def read_keys(text):
    keys = []
    for words in (line.split() for line in text.splitlines()):
        if not words or words[0] in ("#", "end"):
            continue
        if words[0] == "key":
            keys.append(Key(words[2]))
        elif words[0] in ("entity", "any", "value"):
            keys[-1].declare(words[0], *words[1:])
        else:
            start, end = keys[-1].slot(words[0]), keys[-1].slot(words[2])
            keys[-1].edges.append((start, words[1], end))
    for key in keys:
        key.finish()
    return keys


def read_graph(lines):
    rows, out, into = set(), collections.defaultdict(list), collections.defaultdict(list)
    for line in lines:
        if line.startswith("#"):
            continue
        row = tuple(map(sys.intern, line[:-3].split(" ", 2)))
        if row not in rows:
            rows.add(row)
            out[row[0], row[1]].append(row[2])
            into[row[1], row[2]].append(row[0])
    of_type = {end: sorted(names) for (predicate, end), names in into.items() if predicate == TYPE}
    return Graph(rows, out, into, of_type)


def fits(graph, slot, name):
    kind, term = slot
    if kind in ("entity", "any"):
        return name[0] != '"' and (name, TYPE, term) in graph.rows
    return name == term if kind == "fixed" else name[0] == '"'


def candidate_pairs(graph, keys):
    """The pairs of the type of some key that share a literal for each edge from slot 0 to a value."""
    pairs = set()
    for key in keys:
        groups = collections.defaultdict(list)
        values = [predicate for start, predicate, end in key.edges if start == 0 and key.slots[end][0] == "value"]
        for name in graph.of_type.get(key.slots[0][1], ()):
            literals = ([o for o in graph.out.get((name, predicate), ()) if o[0] == '"'] for predicate in values)
            for shared in itertools.product(*literals):
                groups[shared].append(name)
        for names in groups.values():
            pairs.update(itertools.combinations(names, 2))
    return pairs


class Matcher:
    """The chase by whole valuations: entities whose valuations agree at values and, up to what is the same, at entity
    variables are the same, until nothing changes."""

    def __init__(self, graph, keys):
        self.graph, self.parent = graph, {}
        self.marks = [({mark for name in graph.of_type.get(key.slots[0][1], ()) for mark in self.of_entity(key, name)},
                       [kind == "entity" for kind, _ in key.slots[1:] if kind in ("entity", "value")]) for key in keys]

    def find(self, name):
        while name in self.parent:
            name = self.parent[name]
        return name

    def led(self, key, slot, at):
        """What an edge leads to at a slot from one that has a name."""
        for start, predicate, end in key.edges:
            if end == slot and start in at:
                return self.graph.out.get((at[start], predicate), ())
            if start == slot and end in at:
                return self.graph.into.get((predicate, at[end]), ())

    def valuations(self, key, at):
        """All ways to go on from names at the first slots in the key's order."""
        if len(at) == len(key.order):
            yield at
            return
        slot = key.order[len(at)]
        for name in self.led(key, slot, at):
            if name not in at.values() and fits(self.graph, key.slots[slot], name):
                more = {**at, slot: name}
                if all((more[start], predicate, more[end]) in self.graph.rows for start, predicate, end in key.edges
                       if slot in (start, end) and start in more and end in more):
                    yield from self.valuations(key, more)

    def of_entity(self, key, name):
        """The entity, with the names at values and entity variables of each of its valuations."""
        for at in self.valuations(key, {0: name}):
            if all((name, predicate, name) in self.graph.rows for start, predicate, end in key.edges if start == end == 0):
                yield (name,) + tuple(at[slot] for slot in range(1, len(at)) if key.slots[slot][0] in ("entity", "value"))

    def chase(self):
        changed = True
        while changed:
            changed = False
            for marks, entity in self.marks:
                first = {}
                for name, *others in marks:
                    label = tuple(self.find(n) if is_entity else n for n, is_entity in zip(others, entity))
                    a, b = self.find(name), self.find(first.setdefault(label, name))
                    if a != b:
                        self.parent[a] = b
                        changed = True

    def report(self):
        classes = collections.defaultdict(list)
        for name in {name for row in self.graph.rows for name in (row[0], row[2])}:
            classes[self.find(name)].append(name.encode())
        lines = sorted(sorted(members) for members in classes.values() if len(members) > 1)
        return b"".join(b" ".join(members) + b"\n" for members in lines)


def near_lengths(graph, keys):
    """How long the near lists are that are not empty, by their definition: from each entity of a key's type one walk for
    each way along the key's edges that leads further from slot 0 at each edge, to its entity variables."""
    near = collections.defaultdict(set)
    for key in keys:
        both_ways = [(start, predicate, end, True) for start, predicate, end in key.edges] + [
            (end, predicate, start, False) for start, predicate, end in key.edges]
        legs = [leg for leg in both_ways if key.distance[leg[2]] == key.distance[leg[0]] + 1]
        legs.sort(key=lambda leg: key.distance[leg[0]])
        for name in graph.of_type.get(key.slots[0][1], ()):
            at = collections.defaultdict(set, {0: {name}})
            for begin, predicate, end, forward in legs:
                for m in at[begin]:
                    led = graph.out.get((m, predicate), ()) if forward else graph.into.get((predicate, m), ())
                    at[end].update(n for n in led if fits(graph, key.slots[end], n))
            for slot, (kind, _) in enumerate(key.slots):
                if kind == "entity":
                    near[name] |= at[slot]
    return [len(names) for names in near.values()]


def main():
    graph_path, keys_path = asked(__doc__)
    with open(graph_path, encoding="utf-8") as lines:
        graph = read_graph(lines)
    with open(keys_path, encoding="utf-8") as text:
        keys = read_keys(text.read())
    matcher = Matcher(graph, keys)
    matcher.chase()
    sys.stdout.buffer.write(matcher.report())


if __name__ == "__main__":
    main()
