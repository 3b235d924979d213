#!/usr/bin/env python3
"""Compares `gkey prove`, `gkey check` and `gkey convert` with a plain checker of proofs on random small graphs and key files,
and `gkey check` on proofs that were changed at random.

Usage: bench/proofs.py [GRAPHS [CHANGED [SEED]]]. It ends with status 0 where both say the same of every proof: accepted, the
same line and fault, or the same step and reason.

It makes its cases in a temporary folder, needs nothing but the program, and prints how many agree, or the first that differs.
"""

import collections
import pathlib
import random
import subprocess
import sys
import tempfile
from typing import NamedTuple

import compare
import proof_checker
from asking import asked
from timing import PROGRAM, built


class Proved(NamedTuple):
    graph: bytes
    keys: bytes
    proof: bytes
    names: list  # the canonical spelling of each end of the graph's triples, and of an entity that is none


class Files(NamedTuple):
    graph: pathlib.Path
    keys: pathlib.Path
    proof: pathlib.Path


def run(*words):
    done = subprocess.run([PROGRAM, *words], capture_output=True)
    return done.returncode, done.stdout, done.stderr


def joined(proof):
    """The classes of two or more terms that the steps of a proof join."""
    steps, _ = proof_checker.read_proof(proof)
    parent = {}

    def find(name):
        while parent.setdefault(name, name) != name:
            name = parent[name]
        return name

    for step in steps:
        parent[find(step.left[0])] = find(step.right[0])
    classes = collections.defaultdict(set)
    for name in list(parent):
        classes[find(name)].add(name)
    return {frozenset(members) for members in classes.values() if len(members) > 1}


def of_report(report):
    """The classes that a report prints."""
    classes = set()
    for line in report.decode().splitlines():
        members, at = [], 0
        while at < len(line):
            name, at = proof_checker.term(line, at)
            members.append(name)
            at = proof_checker.after_blanks(line, at)
        classes.add(frozenset(members))
    return classes


def version_1(proof):
    """The same proof in version 1."""
    lines = proof.decode().split("\n")
    first_step = 2 + int(lines[1].split(" ")[1])
    terms, spelled = lines[2:first_step], ["gkey-proof 1"]
    for line in lines[first_step:]:
        word, *numbers = line.split(" ")
        spelled.append(" ".join([word] + [terms[int(n) - 1] for n in numbers]) if word in ("left", "right") else line)
    return "\n".join(spelled).encode()


def another_number(digits, rng):
    near = b"%d" % max(int(digits) + rng.choice([-1, 1, 1, 2]), 0)
    return rng.choice([near, near, near, b"0", b"0" + digits, b"16", b"4294967295", b"4294967296", b"+1"])


def changed_word(word, lines, rng):
    """A number near it, another word of the proof, or the word with a byte taken out or put in."""
    if word.isdigit() and len(word) < 12:
        return another_number(word, rng)
    if rng.randrange(2):
        return rng.choice(rng.choice(lines).split(b" "))
    at = rng.randrange(len(word) + 1)
    return word[:at] + rng.choice([b"", b"a", b"\\", b">", b'"', b"@", b"\xc3"]) + word[at + rng.randrange(2):]


def with_changed_steps(case, rng):
    """The proof, which is in version 2, with one or two numbers of its steps changed: of terms, of which further ones are listed,
    or of steps."""
    lines = case.proof.split(b"\n")
    count, steps = int(lines[1].split(b" ")[1]), sum(line.startswith(b"step ") for line in lines)
    more = rng.sample(case.names, min(3, len(case.names)))
    lines[1:2 + count] = [b"terms %d" % (count + len(more)), *lines[2:2 + count], *more]
    sides = [place for place, line in enumerate(lines) if line.startswith((b"left ", b"right "))]
    supports = [place for place, line in enumerate(lines) if line.startswith(b"by ")]
    for _ in range(rng.choice([1, 1, 2])):
        place = rng.choice(rng.choice([sides, supports or sides]))
        words = lines[place].split(b" ")
        if place in sides:
            words[rng.randrange(1, len(words))] = b"%d" % rng.randrange(1, count + len(more) + 1)
        elif rng.randrange(6) == 0:
            words[1] = another_number(words[1], rng)
        else:
            at = rng.randrange(2, len(words) + 1)
            words[at:at + rng.randrange(2)] = [b"%d" % rng.randrange(1, steps + 2)] * rng.randrange(3)
        lines[place] = b" ".join(words)
    return b"\n".join(lines)


def with_changed_lines(proof, rng):
    """The proof with one to three of its lines taken out, put in twice, exchanged, or changed in a word."""
    lines = proof.split(b"\n")
    for _ in range(rng.choice([1, 1, 1, 2, 3])):
        place, other, kind = rng.randrange(len(lines)), rng.randrange(len(lines)), rng.randrange(10)
        if kind == 0 and len(lines) > 1:
            del lines[place]
        elif kind == 1:
            lines.insert(place, lines[other])
        elif kind == 2:
            lines[place], lines[other] = lines[other], lines[place]
        elif kind == 3:
            lines[place] += rng.choice([b" ", b"\t", b"\r", b" 1", b" \xff", b" <urn:e1>", b' "x"', b"#"])
        elif kind == 4:
            lines[place] = b" " + lines[place].replace(b" ", rng.choice([b"  ", b"\t", b""]), 1)
        else:
            words = lines[place].split(b" ")
            at = rng.randrange(len(words))
            words[at] = changed_word(words[at], lines, rng)
            lines[place] = b" ".join(words)
    return rng.choice([b"\n", b"\n", b"\n", b"\r\n", b"\r"]).join(lines)


def must_be(what, case, wanted, got):
    if wanted != got:
        sys.exit(f"{what} differs:\n{case.graph!r}\n{case.keys!r}\n{case.proof!r}\nwanted {wanted}\ngot {got}")


def changed(case, rng):
    """The proof with some change, in version 1 or 2."""
    if rng.randrange(2):
        text = with_changed_steps(case, rng)
        return text if rng.randrange(2) or proof_checker.read_proof(text)[1] else version_1(text)
    return with_changed_lines(rng.choice([case.proof, version_1(case.proof)]), rng)


def checked(case, files):
    """What both judges say of a proof, which must be the same."""
    for file, text in zip(files, case[:3]):
        file.write_bytes(text)
    said = proof_checker.judged(*case[:3])
    must_be("check", case, said, run("check", *files))
    return said


def prove(rng, files):
    """A random graph and key file, and the proof that the program makes of them, which must join what its report joins."""
    rows, keys = compare.random_case(rng)
    files.graph.write_bytes(compare.graph_text(rows, rng).encode())
    files.keys.write_bytes(compare.keys_text(keys, rng).encode())
    status, proof, error = run("prove", files.graph, files.keys)
    names = {name.canonical().encode() for start, _, end in rows for name in (start, end)} | {b"<urn:none>"}
    case = Proved(files.graph.read_bytes(), files.keys.read_bytes(), proof, sorted(names))
    must_be("prove", case, (0, b""), (status, error))
    must_be("the proof", case, of_report(run("match", files.graph, files.keys)[1]), joined(proof))
    return case


def accept(case, files):
    """Both versions of a proof that the program made must be accepted, and converted to what it wrote."""
    for text in (case.proof, version_1(case.proof)):
        form = case._replace(proof=text)
        must_be("the verdict", form, 0, checked(form, files)[0])
        must_be("convert", form, (0, case.proof, b""), run("convert", files.proof))


def main():
    words = asked(__doc__)
    graphs = int(words[0]) if words else 1000
    changes = int(words[1]) if len(words) > 1 else 1000
    rng = random.Random(int(words[2]) if len(words) > 2 else 1)
    built()
    with_steps, said = [], collections.Counter()
    with tempfile.TemporaryDirectory() as folder:
        files = Files(*(pathlib.Path(folder) / name for name in ("graph.nt", "keys.gk", "proof.gkp")))
        for _ in range(graphs):
            case = prove(rng, files)
            accept(case, files)
            if b"\nstep " in case.proof:
                with_steps.append(case)
        for _ in range(changes if with_steps else 0):
            case = rng.choice(with_steps)
            status, output, error = checked(case._replace(proof=changed(case, rng)), files)
            said["accepted" if status == 0 else (output + error).decode().strip().split(": ")[-1]] += 1
    print(f"{graphs} proofs agree, {len(with_steps)} of them with steps; {said.total()} changed ones agree:")
    for text, count in said.most_common():
        print(f"{count:>8} {text}")


if __name__ == "__main__":
    main()
