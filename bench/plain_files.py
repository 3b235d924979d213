"""A plain reader of graph files and key files that says which line is refused first, and why. It is written from the description
of the formats alone, shares its terms with proof_checker.py, and nothing with the program.

`graph_of` and `keys_of` give what a file says in the form of proof_checker.py: a set of triples, and keys by name. They raise
`Refusal` where the file is refused. The limits of bytes and triples are not looked for.
"""

import re

from proof_checker import NAME, Key, Refused, after_blanks, iri, lines_of, term

WORD = re.compile("[^ \t]*")
SIGILS = {"entity": "?", "any": "_", "value": "$", "folded": "$"}
MOST_KEYS, MOST_NODES, MOST_EDGES = 64, 16, 32


class Refusal(Exception):
    """The number of the first refused line, from 1, and its fault."""

    def __init__(self, line, fault):
        super().__init__(line, fault)
        self.line, self.fault = line, fault


def said_by_lines(text, say):
    """Hands each line to `say`, which raises Refused where it is refused, and returns how many lines there are."""
    lines = lines_of(text)
    for place, line in enumerate(lines):
        try:
            try:
                say(line.decode())
            except UnicodeDecodeError:
                raise Refused("not UTF-8") from None
        except Refused as refused:
            raise Refusal(place + 1, str(refused)) from None
    return len(lines)


def is_over(line, at):
    return at == len(line) or line[at] == "#"


def begins(line, at, with_one_of):
    return at < len(line) and line[at] in with_one_of


def expected(line, at, with_one_of, fault):
    """The term that begins behind blanks with one of these characters, and the place after it."""
    at = after_blanks(line, at)
    if not begins(line, at, with_one_of):
        raise Refused(fault)
    return term(line, at)


# ---- graphs


def triple_of(line):
    """The triple of a line, or None."""
    if is_over(line, after_blanks(line, 0)):
        return None
    subject, at = expected(line, 0, "<_", "subject expected")
    predicate, at = expected(line, at, "<", "predicate expected")
    end, at = expected(line, at, '<_"', "object expected")
    at = after_blanks(line, at)
    if not begins(line, at, "."):
        raise Refused("dot expected")
    if not is_over(line, after_blanks(line, at + 1)):
        raise Refused("text after the dot")
    return subject, predicate, end


def graph_of(text):
    triples = set()
    said_by_lines(text, lambda line: triples.add(triple_of(line)))
    return triples - {None}


# ---- key files


def word(line, at):
    """The word behind blanks, which may be empty, and the place after it."""
    run = WORD.match(line, after_blanks(line, at))
    return run[0], run.end()


def iri_at(line, at):
    at = after_blanks(line, at)
    if not begins(line, at, "<"):
        raise Refused("bad IRI")
    name, end = iri(line, at)
    return ("iri", name), end


def close(line, at):
    if not is_over(line, after_blanks(line, at)):
        raise Refused("unknown statement")


class OpenKey:
    """A key that has begun. Variables are numbered as they are declared, and constants behind them at the end."""

    def __init__(self, name, kind):
        self.name, self.variables, self.constants, self.edges = name, {"?x": ("entity", kind)}, [], []

    def nodes(self):
        return len(self.variables) + len(self.constants)

    def declare(self, variable, slot):
        if variable in self.variables:
            raise Refused("variable declared twice")
        if self.nodes() >= MOST_NODES:
            raise Refused("too many nodes")
        self.variables[variable] = slot

    def link(self, start, predicate, end):
        if not isinstance(end, str) and end not in self.constants:
            if self.nodes() >= MOST_NODES:
                raise Refused("too many nodes")
            self.constants.append(end)
        if (start, predicate, end) not in self.edges:
            if len(self.edges) >= MOST_EDGES:
                raise Refused("too many triples in key")
            self.edges.append((start, predicate, end))

    def finished(self):
        if not self.edges:
            raise Refused("key without triples")
        nodes = [*self.variables, *self.constants]
        ends = {end for start, _, last in self.edges for end in (start, last)}
        if not set(self.variables) <= ends:
            raise Refused("variable not used")
        reached, found = {"?x"}, True
        while found:
            found = {end for start, _, last in self.edges for end in (start, last)
                     if (start in reached) != (last in reached)} - reached
            reached |= found
        if reached != set(nodes):
            raise Refused("not connected")
        slots = [*self.variables.values(), *(("fixed", constant) for constant in self.constants)]
        return Key(slots, [(nodes.index(start), predicate, nodes.index(end)) for start, predicate, end in self.edges])


class KeyReader:
    """A key file as far as it was read."""

    def __init__(self):
        self.keys, self.open = {}, None

    def name(self, line, at):
        text, at = word(line, at)
        if not NAME.fullmatch(text):
            raise Refused("bad name")
        return text, at

    def begin(self, line, at):
        if len(self.keys) >= MOST_KEYS:
            raise Refused("too many keys")
        name, at = self.name(line, at)
        kind, at = iri_at(line, at)
        close(line, at)
        if name in self.keys:
            raise Refused("name used twice")
        self.open = OpenKey(name, kind)

    def declare(self, keyword, line, at):
        variable, at = word(line, at)
        if variable[:1] != SIGILS[keyword] or not NAME.fullmatch(variable[1:]):
            raise Refused("bad name")
        kind, at = iri_at(line, at) if keyword in ("entity", "any") else (None, at)
        close(line, at)
        self.open.declare(variable, (keyword, kind))

    def declared(self, line, at):
        variable, at = word(line, at)
        if not NAME.fullmatch(variable[1:]):
            raise Refused("bad name")
        if variable not in self.open.variables:
            raise Refused("variable not declared")
        return variable, at

    def link(self, line, at):
        if line[at] not in "?_":
            raise Refused("subject must be an entity variable or wildcard")
        start, at = self.declared(line, at)
        predicate, at = iri_at(line, at)
        at = after_blanks(line, at)
        if begins(line, at, "?_$"):
            end, at = self.declared(line, at)
        else:
            end, at = expected(line, at, '<"', "unknown statement")
        close(line, at)
        self.open.link(start, predicate, end)

    def end(self, line, at):
        close(line, at)
        self.keys[self.open.name] = self.open.finished()
        self.open = None

    def read(self, line):
        at = after_blanks(line, 0)
        if is_over(line, at):
            return
        keyword, behind = word(line, at)
        is_triple = line[at] in '?_$<"'
        if not is_triple and keyword not in ("key", "end", *SIGILS):
            raise Refused("unknown statement")
        if (self.open is None) != (keyword == "key" and not is_triple):
            raise Refused("statement out of place")
        if is_triple:
            self.link(line, at)
        elif keyword == "key":
            self.begin(line, behind)
        elif keyword == "end":
            self.end(line, behind)
        else:
            self.declare(keyword, line, behind)


def keys_of(text):
    reader = KeyReader()
    count = said_by_lines(text, reader.read)
    if reader.open:
        raise Refusal(count, "file ends inside a key")
    return reader.keys
