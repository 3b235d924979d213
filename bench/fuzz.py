#!/usr/bin/env python3
"""Runs the program on random graphs, key files, proofs and words that were broken at random, beside a plain reader, matcher and
checker, which must say the same: status, output, error text.

Usage: bench/fuzz.py [CASES [SEED [COMMAND ..]]]   (2,000 cases, seed 1 and all commands that the program knows, if left out)

A case is a small graph and key file as compare.py makes them, a proof of it in either version, changed in some cases as
proofs.py does, and a command. In three cases of four one of its files is then broken up to three times, or one of the words.
What is to be said comes from the formats as docs/FORMATS.md has them: the readers of plain_files.py, the matcher of plain.py
and the checker of proof_checker.py, which share nothing with the program. Of a proof that the program writes, the checker must
accept it and it must join what the matcher joins.

It makes its cases in a temporary folder, needs nothing but the program, and prints the cases that differ, and counts of what
was broken and what was said. The status is 1 where one differs.
"""

import collections
import pathlib
import random
import subprocess
import sys
import tempfile
from typing import NamedTuple

import compare
import plain
import plain_files
import proof_checker
import proofs
from asking import asked
from lines import PIECES
from refused_memory import known
from timing import PROGRAM, built

SECONDS = 60
MOST_WORKERS = 64
MOST_PAIRS = 100_000
MUST_BE_READ = 3
FILES = ("graph", "keys", "proof")
# the files of a command in the order in which they are read, and how many words more it takes
COMMANDS = {"match": (("graph", "keys"), 0), "prove": (("graph", "keys"), 0), "merge": (("graph", "keys"), 0),
            "why": (("graph", "keys"), 2), "check": (FILES, 0), "convert": (("proof",), 0), "demo": ((), 1)}
WITH_WORKERS = ("match", "prove", "merge", "why")
LARGE = "--large"
NO_UTF8 = [b"\xff", b"\xc3", b"\xed\xa0\x80", b"\xf4\x90\x80\x80", b"\xc0\xaf", b"\xe2\x82"]
COUNTS = [b"0", b"1", b"2", b"3", b"7", b"64", b"65", b"04", b"+4", b"-1", b"", b"x", b"4 ", b"100001", b"18446744073709551617"]
NO_FILES = [b"none", b"", b".", b"\xff", b"g/k", b"n" * 300, b"--workers"]


class Said(NamedTuple):
    status: int
    output: bytes
    error: bytes


class Asked(NamedTuple):
    command: str
    files: list   # the names, in order
    more: list    # the further words


# ---- what is to be said


def number_of(word, most):
    """The number from 1 to a limit that a word spells without sign and leading zero, or None."""
    digits = word.decode("latin-1")
    if not (digits.isascii() and digits.isdigit()) or digits[0] == "0" or len(digits) > 9 or int(digits) > most:
        return None
    return int(digits)


def asked_by(words, commands):
    """What the words ask for, or None. With `--large` it is the same, and files as small as these have the same answers."""
    command = words[0].decode("latin-1") if words else ""
    if command == LARGE and LARGE in commands:
        return asked_by(words[1:], [each for each in commands if each not in (LARGE, "demo")])
    if command not in commands or command not in COMMANDS:
        return None
    files, more = COMMANDS[command]
    rest = words[1:]
    if command in WITH_WORKERS and len(rest) == len(files) + more + 2 and rest[0] == b"--workers":
        if number_of(rest[1], MOST_WORKERS) is None:
            return None
        rest = rest[2:]
    if len(rest) != len(files) + more or (command == "demo" and number_of(rest[0], MOST_PAIRS) is None):
        return None
    return Asked(command, rest[:len(files)], rest[len(files):])


def canonical(name):
    """A term of the checker, in canonical spelling."""
    if name[0] == "literal":
        datatype = plain_iri(name[2]) if name[2] is not None else None
        return compare.Term("literal", name[1], None, name[3]).canonical() + (f"^^{datatype}" if datatype else "")
    return plain_iri(name[1]) if name[0] == "iri" else f"_:{name[1]}"


def plain_iri(text):
    return "<" + "".join(f"\\u{ord(c):04X}" if c <= " " or c in '<>"{}|^`\\' else c for c in text) + ">"


class Matcher(plain.Matcher):
    """The plain matcher with folded values."""

    def __init__(self, triples, keys):
        names = {canonical(name): name for triple in triples for name in triple}
        self.folded = {text: proof_checker.folded(name) for text, name in names.items()}
        super().__init__(plain_graph(triples), [plain_key(key) for key in keys.values()])
        self.marks = [({mark for name in self.graph.of_type.get(key.slots[0][1], ()) for mark in self.of_entity(key, name)},
                       [kind == "entity" for kind, _ in key.slots[1:] if kind in ("entity", "value", "folded")])
                      for key in (plain_key(key) for key in keys.values())]

    def of_entity(self, key, name):
        for at in self.valuations(key, {0: name}):
            if all((name, predicate, name) in self.graph.rows for start, predicate, end in key.edges if start == end == 0):
                yield (name,) + tuple(self.folded[at[slot]] if kind == "folded" else at[slot]
                                      for slot, (kind, _) in enumerate(key.slots) if slot and kind in ("entity", "value", "folded"))

    def merged(self):
        """The graph in which each entity stands as the first of its class."""
        ends = {name for start, _, end in self.graph.rows for name in (start, end)}
        first = {}
        for name in sorted(ends, key=str.encode):
            first.setdefault(self.find(name), name)
        lines = {f"{first[self.find(start)]} {predicate} {first[self.find(end)]} .\n".encode() for start, predicate, end in self.graph.rows}
        return b"".join(sorted(lines))


def plain_graph(triples):
    rows, out, into, of_type = set(), collections.defaultdict(list), collections.defaultdict(list), collections.defaultdict(list)
    for row in sorted(tuple(map(canonical, triple)) for triple in triples):
        rows.add(row)
        out[row[0], row[1]].append(row[2])
        into[row[1], row[2]].append(row[0])
        if row[1] == plain.TYPE:
            of_type[row[2]].append(row[0])
    return plain.Graph(rows, out, into, of_type)


def plain_key(key):
    made = plain.Key(canonical(key.slots[0][1]))
    made.slots += [(kind, term and canonical(term)) for kind, term in key.slots[1:]]
    made.edges = [(start, canonical(predicate), end) for start, predicate, end in key.edges]
    made.finish()
    return made


def version_2(steps):
    """A proof as it is written."""
    numbers = {}
    for step in steps:
        for name in (*step.left, *step.right):
            numbers.setdefault(canonical(name), len(numbers) + 1)
    lines = ["gkey-proof 2", f"terms {len(numbers)}", *numbers]
    for step in steps:
        sides = [" ".join([word, *(str(numbers[canonical(name)]) for name in side)])
                 for word, side in (("left", step.left), ("right", step.right))]
        lines += [f"step {step.key}", *sides, *(" ".join(map(str, ("by", slot, *ways))) for slot, ways in step.supports), "done"]
    return "".join(line + "\n" for line in [*lines, f"end {len(steps)}"]).encode()


def refused(file, line, fault):
    return Said(2, b"", f"{file}:{line}: {fault}\n".encode())


class Wanted:
    """What is to be said of a command over files by name."""

    def __init__(self, asked, held):
        self.asked, self.held = asked, held

    def said(self):
        """The answer, or a function that judges the output of a run with status 0."""
        read = {}
        for file, name in zip(COMMANDS[self.asked.command][0], self.asked.files):
            text = self.held.get(name)
            if text is None:
                return Said(MUST_BE_READ, b"", f"{file}: read failed\n".encode())
            try:
                read[file] = {"graph": plain_files.graph_of, "keys": plain_files.keys_of, "proof": self.steps_of}[file](text)
            except plain_files.Refusal as refusal:
                return refused(file, refusal.line, refusal.fault)
        return getattr(self, self.asked.command)(**read)

    @staticmethod
    def steps_of(text):
        steps, refusal = proof_checker.read_proof(text)
        if refusal:
            raise plain_files.Refusal(*refusal)
        return steps

    @staticmethod
    def chased(graph, keys):
        matcher = Matcher(graph, keys)
        matcher.chase()
        return matcher

    def match(self, graph, keys):
        return Said(0, self.chased(graph, keys).report(), b"")

    def merge(self, graph, keys):
        return Said(0, self.chased(graph, keys).merged(), b"")

    def prove(self, graph, keys):
        report = self.chased(graph, keys).report()

        def proves(output):
            return self.is_accepted(graph, keys, output) and proofs.joined(output) == proofs.of_report(report)
        return proves

    def why(self, graph, keys):
        ends = {name for start, _, end in graph for name in (start, end) if name[0] != "literal"}
        pair = [self.entity_of(word, ends) for word in self.asked.more]
        for which, name in zip(("first", "second"), pair):
            if name is None:
                return Said(2, b"", f"{which}: no such entity\n".encode())
        matcher, (a, b) = self.chased(graph, keys), pair
        if matcher.find(canonical(a)) != matcher.find(canonical(b)):
            return Said(1, b"not the same\n", b"")

        def proves(output):
            return self.is_accepted(graph, keys, output) and (a == b or any({a, b} <= members for members in proofs.joined(output)))
        return proves

    @staticmethod
    def entity_of(word, ends):
        try:
            text = word.decode()
            name, at = proof_checker.term(text, 0) if text[:1] in ("<", "_") else (None, 0)
        except (UnicodeDecodeError, proof_checker.Refused):
            return None
        return name if name in ends and at == len(text) else None

    @staticmethod
    def is_accepted(graph, keys, proof):
        steps, _ = proof_checker.read_proof(proof)
        return steps is not None and proof == version_2(steps) and proof_checker.Checker(graph, keys).verdict(steps).startswith("accepted")

    def check(self, graph, keys, proof):
        verdict = proof_checker.Checker(graph, keys).verdict(proof)
        return Said(int(verdict.startswith("rejected")), verdict.encode() + b"\n", b"")

    def convert(self, proof):
        return Said(0, version_2(proof), b"")

    def demo(self):
        count = int(self.asked.more[0])
        return Said(0, f"triples {6 * count} pairs {count} classes {count} members {2 * count}\n".encode(), b"")


# ---- what is broken


def byte_changed(text, rng):
    at = rng.randrange(len(text) + 1)
    return text[:at] + bytes([rng.randrange(256)]) + text[at + 1:]


def bit_changed(text, rng):
    at = rng.randrange(len(text)) if text else 0
    return text[:at] + bytes(byte ^ (1 << rng.randrange(8)) for byte in text[at:at + 1]) + text[at + 1:]


def put_in(pieces):
    def broken(text, rng):
        at = rng.choice([0, len(text), rng.randrange(len(text) + 1), rng.randrange(len(text) + 1)])
        return text[:at] + rng.choice(pieces) + text[at:]
    return broken


def lines_changed(change):
    def broken(text, rng):
        lines = text.splitlines(keepends=True) or [b""]
        change(lines, rng.randrange(len(lines)), rng.randrange(len(lines)))
        return b"".join(lines)
    return broken


def drop_line(lines, place, _):
    del lines[place]


def double_line(lines, place, other):
    lines.insert(other, lines[place])


def exchange_lines(lines, place, other):
    lines[place], lines[other] = lines[other], lines[place]


def truncated(text, rng):
    return text[:rng.randrange(len(text) + 1)]


def other_line_ends(text, rng):
    end = rng.choice([b"\r\n", b"\r", b"\n\n", b"\n\r", b"\r\r\n"])
    return text.replace(b"\n", end) if rng.randrange(2) else text.replace(b"\n", end, rng.randrange(1, 4))


def byte_order_mark(text, rng):
    return b"\xef\xbb\xbf" + text


def long_token(text, rng):
    """Some run of letters, made long."""
    at = rng.randrange(len(text) + 1)
    return text[:at] + text[max(at - 1, 0):at] * rng.choice([300, 5000, 70_000]) + text[at:]


def token_removed(text, rng):
    words = text.split(b" ")
    del words[rng.randrange(len(words))]
    return b" ".join(words)


BREAKS = {
    "a byte changed": byte_changed,
    "a bit changed": bit_changed,
    "a piece put in": put_in(PIECES),
    "no UTF-8 put in": put_in(NO_UTF8),
    "NUL put in": put_in([b"\0"]),
    "a line dropped": lines_changed(drop_line),
    "a line doubled": lines_changed(double_line),
    "lines exchanged": lines_changed(exchange_lines),
    "cut off": truncated,
    "other line ends": other_line_ends,
    "a byte order mark": byte_order_mark,
    "a long token": long_token,
    "a token removed": token_removed,
}


def broken(text, rng, counts):
    for _ in range(rng.choice([1, 1, 2, 3])):
        kind = rng.choice(list(BREAKS))
        counts[kind] += 1
        text = BREAKS[kind](text, rng)
    return text


def broken_words(words, rng, counts):
    counts["words changed"] += 1
    words = list(words)
    place, kind = rng.randrange(len(words)), rng.randrange(6)
    if kind == 0:
        del words[place]
    elif kind == 1:
        words.insert(place, rng.choice(words + COUNTS + NO_FILES))
    elif kind == 2:
        words[place] = rng.choice(NO_FILES + COUNTS)
    elif kind == 3:
        words[1:1] = [b"--workers", rng.choice(COUNTS)]
    else:
        words[place] = bit_changed(words[place], rng)
    return [word.replace(b"\0", b"") for word in words]


# ---- cases


class Case(NamedTuple):
    words: list
    held: dict   # files by name


def pair_words(rows, rng):
    """Two words for entities, of which most are some."""
    names = [term for start, _, end in rows for term in (start, end)] or [compare.RDF_TYPE]
    words = [compare.spelled(rng.choice(names), rng).encode() for _ in range(2)]
    return [rng.choice([b"<urn:none>", b"x", word + b" ", b"\xff"]) if rng.randrange(8) == 0 else word for word in words]


def random_case(rng, commands, counts):
    rows, keys = compare.random_case(rng)
    held = {b"g": compare.graph_text(rows, rng).encode(), b"k": compare.keys_text(keys, rng).encode()}
    command = rng.choice(commands)
    if "proof" in COMMANDS[command][0]:
        rows, held = with_steps(rows, held, rng)
        names = {name.canonical().encode() for start, _, end in rows for name in (start, end)} | {b"<urn:none>"}
        held[b"p"] = random_proof(proofs.Proved(*held.values(), sorted(names)), rng, counts)
    words = [command.encode(), *({"graph": b"g", "keys": b"k", "proof": b"p"}[file] for file in COMMANDS[command][0])]
    words += {"why": pair_words(rows, rng), "demo": [rng.choice(COUNTS[1:6])]}.get(command, [])
    if LARGE in known() and rng.randrange(4) == 0:
        words.insert(0, LARGE.encode())
    what = rng.randrange(8)
    if what < 5 and COMMANDS[command][0]:
        name = rng.choice([word for word in words if word in held])
        held[name] = broken(held[name], rng, counts)
    elif what == 5:
        words = broken_words(words, rng, counts)
    else:
        counts["nothing broken"] += 1
    return Case(words, held)


def with_steps(rows, held, rng):
    """A graph, its file and that of its keys, and the proof that the program makes of them: of a few graphs the first whose
    proof has steps, or the last."""
    proof = proof_of(held)
    for _ in range(6):
        if b"\nstep " not in proof:
            rows, keys = compare.random_case(rng)
            held = {b"g": compare.graph_text(rows, rng).encode(), b"k": compare.keys_text(keys, rng).encode()}
            proof = proof_of(held)
    return rows, {**held, b"p": proof}


def proof_of(held):
    with tempfile.TemporaryDirectory() as folder:
        for name, text in held.items():
            (pathlib.Path(folder) / name.decode()).write_bytes(text)
        return said_by([b"prove", b"g", b"k"], folder).output


def random_proof(case, rng, counts):
    """The proof, or one with changed steps or lines, in version 1 or 2."""
    if b"\nstep " in case.proof and rng.randrange(2):
        counts["steps of a proof changed"] += 1
        return proofs.changed(case, rng)
    return rng.choice([case.proof, proofs.version_1(case.proof)])


def said_by(words, folder):
    try:
        run = subprocess.run([str(PROGRAM).encode(), *words], cwd=folder, capture_output=True, timeout=SECONDS)
    except subprocess.TimeoutExpired:
        return Said(None, b"", b"")
    return Said(run.returncode, run.stdout, run.stderr)


def tried(case, commands, usage, folder):
    """What the program says, and whether it is what is to be said."""
    for name, text in case.held.items():
        (pathlib.Path(folder) / name.decode()).write_bytes(text)
    said, asked = said_by(case.words, folder), asked_by(case.words, commands)
    wanted = Wanted(asked, case.held).said() if asked else Said(64, b"", usage)
    if callable(wanted):
        return said, said.status == 0 and not said.error and wanted(said.output), "a proof that is accepted"
    return said, said == wanted, wanted


def kind_of(said):
    """What was said, without numbers and texts of cases."""
    if said.status == 0:
        return "0 with an output" if said.output else "0 without an output"
    if said.error:
        file, _, fault = said.error.decode(errors="replace").split("\n")[0].rpartition(": ")
        return f"{said.status} {file.split(':')[0]}: {fault}" if file else f"{said.status} {fault}"
    return f"{said.status} " + said.output.decode(errors="replace").split("\n")[0].split(": ")[-1]


def main():
    words = asked(__doc__)
    cases = int(words[0]) if words else 2000
    seed = int(words[1]) if len(words) > 1 else 1
    built()
    usage = subprocess.run([PROGRAM], capture_output=True).stderr
    commands = words[2:] or [command for command in known() if command in COMMANDS]
    rng, counts, said, different = random.Random(seed), collections.Counter(), collections.Counter(), 0
    with tempfile.TemporaryDirectory() as folder:
        for number in range(cases):
            case = random_case(rng, commands, counts)
            run, is_right, wanted = tried(case, known(), usage, folder)
            said[kind_of(run)] += 1
            if not is_right:
                different += 1
                print(f"case {number} differs: {case.words}\n{case.held}\nwanted {wanted}\ngot {run}\n", flush=True)
    print(f"seed {seed}: {cases} cases, {different} differ")
    for title, counter in (("broken", counts), ("said", said)):
        print(title)
        for text, count in counter.most_common():
            print(f"{count:>8} {text}")
    sys.exit(different != 0)


if __name__ == "__main__":
    main()
