"""Canonical lines, as `gkey merge` writes them, and key files that `gkey` accepts (docs/FORMATS.md).

All texts of terms are canonical, but that U+0000 and the tab are spelled as escapes: not every engine takes the one in a text, and the
other parts the columns of a file of rows. Either spelling names the same term.
"""

import re
from typing import NamedTuple, Optional

TYPE = "<http://www.w3.org/1999/02/22-rdf-syntax-ns#type>"
XSD_STRING = "<http://www.w3.org/2001/XMLSchema#string>"

# A byte that is no UTF-8 is read as one of the surrogates, which nothing here allows.
BASE = ("A-Za-z\u00C0-\u00D6\u00D8-\u00F6\u00F8-\u02FF\u0370-\u037D\u037F-\u1FFF\u200C-\u200D\u2070-\u218F\u2C00-\u2FEF\u3001-\uD7FF"
        "\uF900-\uFDCF\uFDF0-\uFFFD\U00010000-\U000EFFFF")
INNER = BASE + "_:0-9\\-\u00B7\u0300-\u036F\u203F-\u2040"
IN_IRI = r'[^\x00-\x20<>"{}|^`\\\ud800-\udfff]*'
IRI = rf"<[A-Za-z][A-Za-z0-9+.-]*:{IN_IRI}(?:\\u00(?:[01][0-9A-F]|2[02]|3[CE]|5[CE]|60|7[B-D]){IN_IRI})*>"
BLANK = f"_:[{BASE}_:0-9](?:[{INNER}.]*[{INNER}])?"
IN_STRING = r'[^"\\\n\r\ud800-\udfff]*'
LITERAL = rf'"{IN_STRING}(?:\\["\\nr]{IN_STRING})*"(?:\^\^(?!{XSD_STRING}){IRI}|@[a-z]+(?:-[a-z0-9]+)*)?'
LINE = re.compile(rf"({IRI}|{BLANK}) ({IRI}) ({IRI}|{BLANK}|{LITERAL}) \.\n")

TOKEN = re.compile(r'[ \t]*(?:(#.*)|(<[^>]*>)|"((?:[^"\\]|\\.)*)"(?:[ \t]*\^\^[ \t]*(<[^>]*>)|[ \t]*@([A-Za-z]+(?:-[A-Za-z0-9]+)*))?'
                   r'|([?_$]?[a-z0-9_]+))')
ESCAPE = re.compile(r'\\(?:u([0-9A-Fa-f]{4})|U([0-9A-Fa-f]{8})|([tbnrf"\'\\]))')
LETTERS = dict(zip("tbnrf\"'\\", "\t\b\n\r\f\"'\\"))

# What the program folds and Python's own table does not: characters that are younger than Unicode 14, which Python 3.11 has. Each
# stands for the character before it, or for the one that is named. `bench/engines.py` asks the program about every character.
NEXT = (0x1C8A, 0xA7CD, 0xA7CF, 0xA7DB, 0x1DF41, 0x1DF49, 0x1DF4B, 0x1DF4E, 0x1DF52, 0x1DF69, 0x1DF6B, 0x1DF6D, 0x1DF6F, *range(0x1DF73, 0x1DF80, 2))
YOUNG = {0xA7CB: 0x264, 0xA7D2: 0xA7D3, 0xA7D4: 0xA7D5, 0xA7DC: 0x19B, 0xA7DD: 0x277, 0xA7E2: 0x27C, 0xAB6C: 0xAB4B, 0xAB6D: 0xAB4C,
         0x1DF95: "ss", **{c: c - 1 for c in NEXT}, **{c: c - 0x20 for c in range(0x10D70, 0x10D86)},
         **{c: c - 0x1B for c in range(0x16EBB, 0x16ED4)}}


class Refused(Exception):
    """An input that is refused: one line that names it."""


class Slot(NamedTuple):
    kind: str             # entity, any, value, folded or fixed
    term: Optional[str]   # the type or the constant


class Key(NamedTuple):
    name: str
    slots: list           # of Slot; the first is ?x
    edges: list           # (slot, predicate, slot)


def is_literal(term):
    return term[0] == '"'


def escaped(term):
    return term.replace("\0", "\\u0000").replace("\t", "\\t") if "\0" in term or "\t" in term else term


def folded(literal):
    """The text that literals have in common which are equal but for case: the form is folded, a datatype or a tag is not."""
    end = literal.rindex('"')
    form = literal[:end].casefold()
    return (form if form.isascii() else form.translate(YOUNG)) + literal[end:]


def triples_of(path):
    """Subject, predicate and object of each line of a file, with the number of the line."""
    try:
        with open(path, encoding="utf-8", errors="surrogateescape", newline="\n") as lines:
            for number, line in enumerate(lines, 1):
                found = LINE.fullmatch(line)
                if not found:
                    raise Refused(f"{path}:{number}: not a canonical line, as `gkey merge` writes it")
                subject, predicate, end = found.groups()
                yield number, subject, predicate, escaped(end)
    except OSError as error:
        raise Refused(f"{path}: {error.strerror}") from None


# ---- key files


def read(text):
    """What a text with escapes says."""
    return ESCAPE.sub(lambda m: LETTERS[m[3]] if m[3] else chr(int(m[1] or m[2], 16)), text)


def iri(token):
    return "<" + re.sub('[\0-\x20<>"{}|^`\\\\]', lambda m: f"\\u{ord(m[0]):04X}", read(token[1:-1])) + ">"


def literal(form, datatype, tag):
    text = '"' + re.sub('["\\\\\n\r]', lambda m: {"\n": "\\n", "\r": "\\r"}.get(m[0], "\\" + m[0]), read(form)) + '"'
    if datatype and iri(datatype) != XSD_STRING:
        text += "^^" + iri(datatype)
    return escaped(text + ("@" + tag.lower() if tag else ""))


def words_of(line):
    """The tokens of a line, with its terms in canonical spelling."""
    words, at = [], 0
    while line[at:].strip(" \t"):
        token = TOKEN.match(line, at)
        at = token.end()
        if token[1]:
            break
        words.append(iri(token[2]) if token[2] else token[6] if token[6] else literal(token[3], token[4], token[5]))
    return words


def keys_of(text):
    """The keys of a file that the program accepts."""
    keys, names, edges = [], {}, []
    for words in filter(None, map(words_of, re.split("\r\n|\r|\n", text))):
        if words[0] == "key":
            keys.append(Key(words[1], [Slot("entity", words[2])], []))
            names, edges = {"?x": 0}, []
        elif words[0] in ("entity", "any", "value", "folded"):
            names[words[1]] = len(names)
            keys[-1].slots.append(Slot(words[0], words[2] if len(words) > 2 else None))
        elif words[0] != "end":
            edges.append(words)
        else:
            for start, predicate, end in edges:
                if end not in names:
                    names[end] = len(names)
                    keys[-1].slots.append(Slot("fixed", end))
                edge = (names[start], predicate, names[end])
                if edge not in keys[-1].edges:
                    keys[-1].edges.append(edge)
    return keys
