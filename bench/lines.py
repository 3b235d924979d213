#!/usr/bin/env python3
"""Compares which lines `gkey match` accepts with a regular expression of the grammar, on lines that were changed at random.

Usage: bench/lines.py [RUNS [SEED [FOLDER]]]. It ends with status 0 where every line is judged the same.
The lines are those of the graphs in examples/, or of the .nt files in FOLDER (as those of the W3C's test suite), each with up
to three changes: bytes put in, taken out, replaced or repeated. The expression is that of RDF 1.1 N-Triples, section 7, with
an IRI that begins with a scheme and escapes that name characters; it shares nothing with the program.

It makes a graph of one line at a time, needs nothing but the program, and prints the lines that are judged otherwise, and how
many were accepted.
"""

import pathlib
import random
import re
import subprocess
import sys
import tempfile

import graphs
from asking import asked
from timing import PROGRAM, TOP, built

BASE = ("A-Za-z\u00C0-\u00D6\u00D8-\u00F6\u00F8-\u02FF\u0370-\u037D\u037F-\u1FFF\u200C-\u200D\u2070-\u218F\u2C00-\u2FEF\u3001-\uD7FF"
        "\uF900-\uFDCF\uFDF0-\uFFFD\U00010000-\U000EFFFF")
FIRST = BASE + "_:0-9"
INNER = BASE + "_:\\-0-9\u00B7\u0300-\u036F\u203F-\u2040"
ESCAPE = r"(?:\\u[0-9A-Fa-f]{4}|\\U[0-9A-Fa-f]{8})"
IRI = r'<(?:[^\x00-\x20<>"{}|^`\\]|' + ESCAPE + ")*>"
LABEL = f"_:[{FIRST}](?:[{INNER}.]*[{INNER}])?"
LETTER = r"""\\[tbnrf"'\\]"""
STRING = r'"(?:[^"\\\n\r]|' + LETTER + "|" + ESCAPE + ')*"'
LITERAL = STRING + r"(?:[ \t]*\^\^[ \t]*" + IRI + r"|[ \t]*@[a-zA-Z]+(?:-[a-zA-Z0-9]+)*)?"
LINE = re.compile(rf"[ \t]*(?:({IRI}|{LABEL})[ \t]*({IRI})[ \t]*({IRI}|{LABEL}|{LITERAL})[ \t]*\.[ \t]*)?(?:#[^\n\r]*)?\Z")
PIECES = [piece.encode() for piece in
          ('"', "\\", "<", ">", "@", "^^", ".", "..", " ", "\t", "#", "_:", "-", ":", "{", "^", "a.", "\u00e9", "\\u00e9", "\\U0001F600",
           "\\uD800", "\\n", "en", "EN-us", "urn:a", "\x00")] + [b"\xff", b"\xe2\x80\xbf"]


def characters(text):
    """The text with its escapes decoded, or none where one names no character."""
    def decoded(match):
        code = int(match.group()[2:], 16)
        if code > 0x10FFFF or 0xD800 <= code <= 0xDFFF:
            raise ValueError(code)
        return chr(code)
    try:
        return re.sub(ESCAPE, decoded, text)
    except ValueError:
        return None


def is_term(text):
    """Whether a term of the right form has good escapes and absolute IRIs."""
    if text.startswith('"'):
        string = re.match(STRING, text).group()
        if characters(re.sub(LETTER, "", string)) is None:
            return False
        text = text[len(string):].lstrip(" \t^")
    if not text.startswith("<"):
        return True
    name = characters(text[1:-1])
    return name is not None and re.match(r"[A-Za-z][A-Za-z0-9+.\-]*:", name) is not None


def is_line(line):
    try:
        match = LINE.match(line.decode("utf-8"))
    except UnicodeDecodeError:
        return False
    return match is not None and (match.group(1) is None or all(map(is_term, match.groups())))


def changed(choose, line):
    line = bytearray(line)
    for _ in range(choose.randrange(4)):
        kind, at, other = choose.randrange(4), choose.randrange(len(line) + 1), choose.randrange(len(line) + 1)
        if kind == 0:
            line[at:at] = choose.choice(PIECES)
        elif kind == 1:
            del line[at:at + 1]
        elif kind == 2:
            line[at:at + 1] = bytes([choose.randrange(256)])
        else:
            line[at:at] = line[min(at, other):max(at, other)]
    return bytes(line).replace(b"\n", b" ").replace(b"\r", b" ")


def main():
    words = asked(__doc__)
    built()
    runs = int(words[0]) if words else 2000
    seed = int(words[1]) if len(words) > 1 else 1
    home = pathlib.Path(words[2]) if len(words) > 2 else TOP / "examples"
    lines = [line for path in sorted(home.rglob("*.nt")) for line in path.read_bytes().splitlines() if line]
    choose, accepted, different = random.Random(seed), 0, 0
    with tempfile.TemporaryDirectory() as folder:
        graph, keys = pathlib.Path(folder) / "graph.nt", pathlib.Path(folder) / "keys.gk"
        keys.write_text(graphs.NO_KEY)
        for _ in range(runs):
            line = changed(choose, choose.choice(lines))
            graph.write_bytes(line + b"\n")
            status = subprocess.run([PROGRAM, "match", graph, keys], capture_output=True, check=False).returncode
            accepted += status == 0
            if status != (0 if is_line(line) else 2):
                different += 1
                print(f"status {status}: {line}")
    print(f"{runs} lines, {accepted} accepted, {different} judged otherwise")
    sys.exit(1 if different else 0)


if __name__ == "__main__":
    main()
