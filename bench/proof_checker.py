#!/usr/bin/env python3
"""A plain checker of proof files. It is written from the description of the formats alone, and shares nothing with the program.

Usage: bench/proof_checker.py GRAPH KEYS PROOF

It prints what `gkey check` prints: `accepted N`, `rejected STEP: REASON`, or, to the error stream, `proof:LINE: FAULT`. The
statuses are 0, 1 and 2. Graph and key file must be ones that the program accepts: their faults are not looked for.

It makes nothing, and needs Python alone.
"""

import re
import sys
from typing import NamedTuple, Optional

from asking import asked

TYPE = ("iri", "http://www.w3.org/1999/02/22-rdf-syntax-ns#type")
XSD_STRING = "http://www.w3.org/2001/XMLSchema#string"
LETTERS = ("A-Za-z\u00C0-\u00D6\u00D8-\u00F6\u00F8-\u02FF\u0370-\u037D\u037F-\u1FFF\u200C-\u200D\u2070-\u218F\u2C00-\u2FEF"
           "\u3001-\uD7FF\uF900-\uFDCF\uFDF0-\uFFFD\U00010000-\U000EFFFF_:0-9")
LABEL = re.compile(f"_:[{LETTERS}]([{LETTERS}\u00B7\u0300-\u036F\u203F\u2040.-]*)")
TAG_PART = re.compile(r"[A-Za-z]+")
SUBTAG = re.compile(r"[A-Za-z0-9]+")
SCHEME = re.compile(r"[A-Za-z][A-Za-z0-9+.-]*:")
NAME = re.compile(r"[a-z0-9_]{1,32}")
DIGITS = re.compile(r"0|[1-9][0-9]{0,9}")
ESCAPES = {"t": "\t", "b": "\b", "n": "\n", "r": "\r", "f": "\f", '"': '"', "'": "'", "\\": "\\"}


class Refused(Exception):
    """A line that may not stand there, by the text of its fault."""


class Rejected(Exception):
    """A step that does not hold, by the text of its reason."""


class Key(NamedTuple):
    slots: list  # each a kind, and a type or a constant
    edges: list  # each a slot, a predicate and a slot


class Step(NamedTuple):
    key: str
    left: list
    right: list
    supports: list  # each a slot and a list of numbers of steps


def lines_of(text):
    """The lines of a file: they end at LF, at CR LF and at CR; what is left at the end is one where it is not empty."""
    pieces = re.split(b"\r\n|\r|\n", text)
    return pieces[:-1] if pieces[-1] == b"" else pieces


def character(line, at, short):
    """The character of the escape whose backslash stands at a place, and the place after it."""
    kind = line[at + 1:at + 2]
    if kind in ("u", "U"):
        digits = line[at + 2:at + (6 if kind == "u" else 10)]
        if len(digits) == (4 if kind == "u" else 8) and re.fullmatch("[0-9A-Fa-f]+", digits):
            number = int(digits, 16)
            if number < 0x110000 and not 0xD800 <= number < 0xE000:
                return chr(number), at + 2 + len(digits)
    elif short and kind in ESCAPES and kind:
        return ESCAPES[kind], at + 2
    raise Refused("bad escape")


def iri(line, at):
    """The text of the IRI whose `<` stands at a place, and the place after its `>`."""
    text, at = "", at + 1
    while at < len(line):
        c = line[at]
        if c == ">":
            if not SCHEME.match(text):
                raise Refused("relative IRI")
            return text, at + 1
        if c == "\\":
            c, at = character(line, at, False)
        elif c <= " " or c in '<"{}|^`':
            break
        else:
            at += 1
        text += c
    raise Refused("bad IRI")


def string(line, at):
    text, at = "", at + 1
    while at < len(line):
        c = line[at]
        if c == '"':
            return text, at + 1
        if c == "\\":
            c, at = character(line, at, True)
        else:
            at += 1
        text += c
    raise Refused("string not closed")


def after_blanks(line, at):
    while at < len(line) and line[at] in " \t":
        at += 1
    return at


def tag(line, at):
    """The tag whose `@` stands at a place, in lower case, and the place after it."""
    part = TAG_PART.match(line, at + 1)
    if not part:
        raise Refused("bad language tag")
    end = part.end()
    while line[end:end + 1] == "-":
        part = SUBTAG.match(line, end + 1)
        if not part:
            raise Refused("bad language tag")
        end = part.end()
    return line[at + 1:end].lower(), end


def term(line, at):
    """The term that begins at a place with `<`, `_` or a quotation mark, and the place after it."""
    if line[at] == "<":
        text, end = iri(line, at)
        return ("iri", text), end
    if line[at] == "_":
        label = LABEL.match(line, at)
        if not label:
            raise Refused("bad blank node label")
        text = label[0].rstrip(".")
        return ("blank", text[2:]), at + len(text)
    form, end = string(line, at)
    suffix = after_blanks(line, end)
    if line.startswith("^^", suffix):
        start = after_blanks(line, suffix + 2)
        if line[start:start + 1] != "<":
            raise Refused("bad IRI")
        datatype, end = iri(line, start)
        return ("literal", form, None if datatype == XSD_STRING else datatype, None), end
    if line[suffix:suffix + 1] == "@":
        name, end = tag(line, suffix)
        return ("literal", form, None, name), end
    return ("literal", form, None, None), end


def is_literal(name):
    return name[0] == "literal"


def folded(name):
    """What a literal is compared by at a folded variable: Unicode's default case folding of its form."""
    return (name[0], name[1].casefold(), *name[2:]) if is_literal(name) else name


# ---- graphs and key files, which are accepted


def read_graph(text):
    triples = set()
    for line in (piece.decode() for piece in lines_of(text)):
        at = after_blanks(line, 0)
        if at < len(line) and line[at] != "#":
            subject, at = term(line, at)
            predicate, at = term(line, after_blanks(line, at))
            end, at = term(line, after_blanks(line, at))
            triples.add((subject, predicate, end))
    return triples


def token(line, at):
    """A word, or a term in angle brackets or quotation marks, and the place after it."""
    at = after_blanks(line, at)
    if line[at] in '<"':
        return term(line, at)
    end = re.compile(r"[^ \t]+").match(line, at).end()
    return line[at:end], end


def read_keys(text):
    keys, numbers = {}, {}
    for line in (piece.decode() for piece in lines_of(text)):
        at = after_blanks(line, 0)
        if at == len(line) or line[at] == "#":
            continue
        first, at = token(line, at)
        if first == "key":
            name, at = token(line, at)
            kind, _ = token(line, at)
            key, numbers = Key([("entity", kind)], []), {"?x": 0}
            keys[name] = key
        elif first in ("entity", "any", "value", "folded"):
            name, at = token(line, at)
            numbers[name] = len(key.slots)
            key.slots.append((first, token(line, at)[0] if first in ("entity", "any") else None))
        elif first != "end":
            predicate, at = token(line, at)
            end, _ = token(line, at)
            if end not in numbers and not isinstance(end, str):
                numbers[end] = len(key.slots)
                key.slots.append(("fixed", end))
            edge = (numbers[first], predicate, numbers[end])
            if edge not in key.edges:
                key.edges.append(edge)
    return keys


# ---- proof files


def number(word, low):
    if not DIGITS.fullmatch(word) or not low <= int(word) < 1 << 32:
        raise Refused("bad line")
    return int(word)


def words_of(line):
    return [word for word in re.split("[ \t]+", line) if word]


def terms_from(line, at):
    """The terms from a place to the end of the line, one at least."""
    found = []
    at = after_blanks(line, at)
    while at < len(line):
        if line[at] not in '<_"':
            raise Refused("bad line")
        name, at = term(line, at)
        found.append(name)
        at = after_blanks(line, at)
    if not found:
        raise Refused("bad line")
    return found


class ProofReader:
    """A proof file as far as it was read. The stage names the line that may come next."""

    def __init__(self):
        self.stage, self.version, self.terms, self.left_to_list = "header", 1, [], 0
        self.steps, self.step = [], None

    def header(self, line):
        words = words_of(line)
        if words not in (["gkey-proof", "1"], ["gkey-proof", "2"]):
            raise Refused("bad header")
        self.version = int(words[1])
        self.stage = "between" if self.version == 1 else "counting"

    def counting(self, line):
        words = words_of(line)
        if len(words) != 2 or words[0] != "terms":
            raise Refused("bad line")
        self.left_to_list = number(words[1], 0)
        self.stage = "listing" if self.left_to_list else "between"

    def listing(self, line):
        at = after_blanks(line, 0)
        if at == len(line) or line[at] not in '<_"':
            raise Refused("bad line")
        name, end = term(line, at)
        if after_blanks(line, end) < len(line):
            raise Refused("bad line")
        self.terms.append(name)
        self.left_to_list -= 1
        if not self.left_to_list:
            self.stage = "between"

    def between(self, line):
        words = words_of(line)
        if len(words) == 2 and words[0] == "step" and NAME.fullmatch(words[1]):
            self.step = Step(words[1], [], [], [])
            self.stage = "left"
        elif len(words) == 2 and words[0] == "end":
            if number(words[1], 0) != len(self.steps):
                raise Refused("count differs")
            self.stage = "over"
        else:
            raise Refused("bad line")

    def side(self, line, word):
        words = words_of(line)
        if not words or words[0] != word:
            raise Refused("bad line")
        if self.version == 1:
            return terms_from(line, after_blanks(line, 0) + len(word))
        if len(words) == 1:
            raise Refused("bad line")
        found = []
        for numeral in words[1:]:
            place = number(numeral, 1)
            if place > len(self.terms):
                raise Refused("term number out of range")
            found.append(self.terms[place - 1])
        return found

    def left(self, line):
        self.step.left.extend(self.side(line, "left"))
        self.stage = "right"

    def right(self, line):
        self.step.right.extend(self.side(line, "right"))
        self.stage = "after_right"

    def after_right(self, line):
        words = words_of(line)
        if words == ["done"]:
            self.steps.append(self.step)
            self.stage = "between"
        elif len(words) > 1 and words[0] == "by":
            slot = number(words[1], 0)
            if slot > 15:
                raise Refused("bad line")
            self.step.supports.append((slot, [number(word, 1) for word in words[2:]]))
        else:
            raise Refused("bad line")

    def over(self, line):
        if words_of(line):
            raise Refused("text after the end")

    def read(self, line):
        try:
            text = line.decode()
        except UnicodeDecodeError:
            raise Refused("not UTF-8") from None
        getattr(self, self.stage)(text)


def read_proof(text):
    """The steps, or the first refused line, from 1, and its fault."""
    reader, lines = ProofReader(), lines_of(text)
    for place, line in enumerate(lines):
        try:
            reader.read(line)
        except Refused as refused:
            return None, (place + 1, str(refused))
    if reader.stage == "header":
        return None, (1, "bad header")
    if reader.stage != "over":
        return None, (len(lines), "proof ends early")
    return reader.steps, None


# ---- the checker


class Checker:
    def __init__(self, triples, keys):
        self.triples, self.keys = triples, keys
        self.ends = {name for subject, _, end in triples for name in (subject, end)}

    def fits(self, slot, name):
        kind, wanted = slot
        if kind in ("entity", "any"):
            return not is_literal(name) and (name, TYPE, wanted) in self.triples
        return kind == "fixed" or is_literal(name)

    def look_at(self, key, step, earlier):
        """Asks one reason after another, the least first."""
        sides = (step.left, step.right)
        supported = [place for place, slot in enumerate(key.slots) if slot[0] == "entity" and place > 0]
        if any(len(side) != len(key.slots) for side in sides) or [slot for slot, _ in step.supports] != supported:
            raise Rejected("wrong shape")
        if any(name not in self.ends for side in sides for name in side):
            raise Rejected("term not in the graph")
        if any(len(set(side)) != len(side) for side in sides):
            raise Rejected("term twice")
        if any(not self.fits(slot, name) for side in sides for slot, name in zip(key.slots, side)):
            raise Rejected("wrong kind or type")
        if any((side[start], predicate, side[end]) not in self.triples for side in sides for start, predicate, end in key.edges):
            raise Rejected("triple missing")
        if any(slot[0] == "fixed" and name != slot[1] for side in sides for slot, name in zip(key.slots, side)):
            raise Rejected("constant differs")
        for (kind, _), a, b in zip(key.slots, *sides):
            if (kind == "value" and a != b) or (kind == "folded" and folded(a) != folded(b)):
                raise Rejected("value differs")
        if any(not 1 <= place <= len(earlier) for _, places in step.supports for place in places):
            raise Rejected("support not earlier")
        if any(self.led(step.left[slot], places, earlier) != step.right[slot] for slot, places in step.supports):
            raise Rejected("support does not lead there")

    @staticmethod
    def led(name, places, earlier) -> Optional[tuple]:
        for place in places:
            a, b = earlier[place - 1]
            if name == a:
                name = b
            elif name == b:
                name = a
            else:
                return None
        return name

    def verdict(self, steps):
        earlier = []
        for step in steps:
            try:
                if step.key not in self.keys:
                    raise Rejected("unknown key")
                self.look_at(self.keys[step.key], step, earlier)
            except Rejected as rejected:
                return f"rejected {len(earlier) + 1}: {rejected}"
            earlier.append((step.left[0], step.right[0]))
        return f"accepted {len(steps)}"


def judged(graph, keys, proof):
    """What `gkey check` leaves: its status, its output and its error text."""
    steps, refusal = read_proof(proof)
    if refusal:
        return 2, b"", b"proof:%d: %s\n" % (refusal[0], refusal[1].encode())
    said = Checker(read_graph(graph), read_keys(keys)).verdict(steps)
    return int(said.startswith("rejected")), said.encode() + b"\n", b""


def main():
    files = [open(name, "rb").read() for name in asked(__doc__)]
    status, output, error = judged(*files)
    sys.stdout.buffer.write(output)
    sys.stderr.buffer.write(error)
    sys.exit(status)


if __name__ == "__main__":
    main()
