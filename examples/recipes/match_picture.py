#!/usr/bin/env python3
"""Turns a small graph, its keys and its report into a picture in the language of Graphviz: the keys, the graph, and dashed lines
between the members of each class.

Usage: match_picture.py GRAPH KEYS REPORT | dot -Tsvg > picture.svg

The graph wants one space between the parts of a line, as serdi and `gkey merge` write. An entity stands in an oval with its types
below, a literal in a box.
"""

import sys

TYPE = "<http://www.w3.org/1999/02/22-rdf-syntax-ns#type>"


def quoted(text):
    return '"' + text.replace("\\", "\\\\").replace('"', '\\"').replace("\n", "\\n") + '"'


def short(term):
    """An IRI without its brackets and its beginning, as a name of a predicate or a type is read."""
    return term[1:-1].replace("#", "/").replace(":", "/").rsplit("/", 1)[-1] if term.startswith("<") else term


class Drawing:
    """The lines of a picture. Each part of it is a frame with nodes of its own."""

    def __init__(self):
        self.lines = ["digraph match {", "  rankdir=LR; nodesep=0.3; fontname=\"sans-serif\"; fontsize=12;",
                      "  node [fontname=\"sans-serif\", fontsize=11]; edge [fontname=\"sans-serif\", fontsize=10];"]

    def frame(self, name, title, nodes, arrows):
        self.lines += [f"  subgraph {quoted('cluster ' + name)} {{", f"    label={quoted(title)}; color=gray;"]
        for node, (text, shape) in nodes.items():
            self.lines.append(f"    {quoted(name + node)} [label={quoted(text)}, shape={shape}];")
        for start, text, end in arrows:
            self.lines.append(f"    {quoted(name + start)} -> {quoted(name + end)} [label={quoted(text)}];")
        self.lines.append("  }")

    def same(self, name, one, other):
        self.lines.append(f"  {quoted(name + one)} -> {quoted(name + other)} "
                          "[label=\"the same\", style=dashed, dir=none, color=red, fontcolor=red, constraint=false];")


def parts(line):
    subject, predicate, rest = line.split(" ", 2)
    return subject, predicate, rest.rsplit(" .", 1)[0]


def draw_graph(drawing, lines):
    triples = [parts(line) for line in lines if line and not line.startswith("#")]
    types = {}
    for subject, predicate, end in triples:
        if predicate == TYPE:
            types.setdefault(subject, []).append(short(end))
    nodes, arrows = {}, []
    for subject, predicate, end in triples:
        if predicate != TYPE:
            arrows.append((subject, short(predicate), end))
        for term in (subject, end) if predicate != TYPE else (subject,):
            below = "".join("\n" + kind for kind in types.get(term, []))
            nodes[term] = (term, "box") if term.startswith('"') else (short(term) + below, "ellipse")
    drawing.frame("graph", "the graph", nodes, arrows)


def draw_keys(drawing, lines):
    name, nodes, arrows = None, {}, []
    for line in lines:
        words = line.split(" ", 2)
        if words[0] == "key":
            name, nodes, arrows = words[1], {"?x": ("?x\n" + short(words[2]), "ellipse")}, []
        elif words[0] in ("entity", "any"):
            nodes[words[1]] = (words[1] + "\n" + short(words[2]), "ellipse")
        elif words[0] in ("value", "folded"):
            nodes[words[1]] = (words[1], "box")
        elif words[0] == "end":
            drawing.frame("key " + name, "key " + name, nodes, arrows)
        elif len(words) == 3 and name is not None and not line.startswith("#"):
            nodes.setdefault(words[2], (short(words[2]), "box" if words[2].startswith('"') else "ellipse"))
            arrows.append((words[0], short(words[1]), words[2]))


def main():
    graph, keys, report = ([line.rstrip("\n") for line in open(path, encoding="utf-8", newline="\n")] for path in sys.argv[1:4])
    drawing = Drawing()
    draw_keys(drawing, keys)
    draw_graph(drawing, graph)
    for members in (line.split() for line in report):
        for one, other in zip(members, members[1:]):
            drawing.same("graph", one, other)
    print("\n".join([*drawing.lines, "}"]))


main()
