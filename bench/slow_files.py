#!/usr/bin/env python3
"""Times the program on files that are chosen to be slow or large, and on searches that grow fast with the size of a key.

Usage: bench/slow_files.py [NAME ..]   (all, if no name is given)

For each run it prints the processor time, the greatest part of memory in use, the status, and how the output or the error text
begins. A run that takes more than SECONDS of the processor's time is ended, which is told as `stopped`; it has 8 GB of address
space. Of small runs the memory told is no less than Python's own, some 20 MB. All of it takes some ten minutes, 5 GB of memory
and 2 GB of the disk.
"""

import itertools
import os
import pathlib
import subprocess
import tempfile
from typing import NamedTuple

from asking import asked
from graphs import NO_KEY, TYPE
from timing import PROGRAM, Run, built

SECONDS = 120
MOST_KILOBYTES = 8 << 20
MOST_BYTES = 1 << 29
MOST_TRIPLES = 1 << 22
ONE_VALUE = "key k <urn:T>\nvalue $v\n?x <urn:p> $v\nend\n"
FOLDED_VALUE = ONE_VALUE.replace("value", "folded")
TWO_VALUES = "key k <urn:T>\nvalue $v\nvalue $w\n?x <urn:p> $v\n?x <urn:q> $w\nend\n"
PIECE = 1 << 20


class End(NamedTuple):
    run: Run
    status: int
    said: str


def of_length(out, begin, middle, end, length):
    """A line of so many bytes in all, of which the middle one is repeated."""
    out.write(begin)
    left = length - len(begin) - len(end)
    for _ in range(left // PIECE):
        out.write(middle * PIECE)
    out.write(middle * (left % PIECE) + end)


def typed(out, name, kind="T"):
    out.write(f"<urn:{name}> {TYPE} <urn:{kind}> .\n")


# ---- large files


def comment(out):
    of_length(out, "#", "x", "\n", MOST_BYTES)


def no_subject(out):
    of_length(out, "x", "x", "\n", MOST_BYTES)


def one_byte_more(out):
    of_length(out, "#", "x", "\n", MOST_BYTES + 1)


def literal(out):
    of_length(out, '<urn:a> <urn:p> "', "x", '" .\n', 500 * 10 ** 6)


def literal_of_escapes(out):
    """Every second byte ends an escape, so the literal is half as long as its spelling."""
    out.write('<urn:a> <urn:p> "')
    for _ in range(500 * 10 ** 6 // PIECE // 2):
        out.write('\\"' * PIECE)
    out.write('" .\n')


def two_literals(out):
    """Two entities with one literal of 250 MB, which ends in a letter that folding makes longer."""
    for name in "ab":
        typed(out, name)
        of_length(out, f'<urn:{name}> <urn:p> "', "x", '\u00df" .\n', 250 * 10 ** 6)


def subjects(out):
    for n in range(MOST_TRIPLES):
        typed(out, n)


def objects(out):
    typed(out, "s")
    for n in range(MOST_TRIPLES - 1):
        out.write(f'<urn:s> <urn:p> "{n}" .\n')


def twins(out):
    """Two subjects with the same two million objects."""
    for name in "ab":
        typed(out, name)
        for n in range(MOST_TRIPLES // 2 - 1):
            out.write(f'<urn:{name}> <urn:p> "{n}" .\n')


def one_triple_more(out):
    for n in range(MOST_TRIPLES + 1):
        out.write(f"<urn:{n}> <urn:p> <urn:o> .\n")


# ---- large classes and many pairs


def linked_class(out):
    """A class of 10^5 members, of which each shares a value with the next one alone."""
    for n in range(10 ** 5):
        typed(out, n)
        out.write(f'<urn:{n}> <urn:p> "{n}" .\n<urn:{n}> <urn:p> "{n + 1}" .\n')


def star(out, count):
    """Entities that share a value, and each has another one for itself."""
    for n in range(count):
        typed(out, n)
        out.write(f'<urn:{n}> <urn:p> "one" .\n<urn:{n}> <urn:q> "{n}" .\n')


def long_ways(out):
    """A class of 2,000 members, of which each shares a value with the next one alone, and as many pairs that lead from its one
    end to its other."""
    for n in range(2000):
        typed(out, n)
        out.write(f'<urn:{n}> <urn:p> "{n}" .\n<urn:{n}> <urn:p> "{n + 1}" .\n')
        for side, end in (("a", 0), ("b", 1999)):
            typed(out, f"{side}:{n}", "U")
            out.write(f'<urn:{side}:{n}> <urn:name> "{n}" .\n<urn:{side}:{n}> <urn:to> <urn:{end}> .\n')


LONG_WAYS_KEYS = ONE_VALUE + "key to <urn:U>\nvalue $n\nentity ?y <urn:T>\n?x <urn:name> $n\n?x <urn:to> ?y\nend\n"


# ---- large keys


def steps_and_chords():
    """The edges of a path through 14 wildcards from ?x, and of chords that pass one of them by."""
    nodes = ["?x"] + [f"_w{n}" for n in range(14)]
    return list(zip(nodes, nodes[1:])), list(zip(nodes, nodes[2:]))


def many_keys():
    """64 keys of 16 nodes and 32 edges, of which each lacks one edge far from ?x in the graph."""
    steps, chords = steps_and_chords()
    text = ""
    for n in range(64):
        text += f"key k{n} <urn:T>\nvalue $v\n" + "".join(f"any _w{n} <urn:T>\n" for n in range(14))
        text += "?x <urn:p> $v\n" + "".join(f"{a} <urn:step> {b}\n" for a, b in steps)
        text += "".join(f"{a} <urn:chord> {b}\n" for a, b in chords)
        text += "".join(f"_w{13 - m} <urn:back> _w{13 - m - 1}\n" for m in range(3)) + f"_w13 <urn:lacks{n}> _w12\nend\n"
    return text


def nearly_fitting(out):
    """200 entities that share a value by twos; at each begins a path of 14 with all that the keys ask for but one edge."""
    steps, chords = steps_and_chords()
    for n in range(200):
        place = {"?x": f"{n}:x", **{f"_w{m}": f"{n}:{m}" for m in range(14)}}
        for name in place.values():
            typed(out, name)
        out.write(f'<urn:{n}:x> <urn:p> "{n // 2}" .\n')
        for predicate, edges in (("step", steps), ("chord", chords)):
            for a, b in edges:
                out.write(f"<urn:{place[a]}> <urn:{predicate}> <urn:{place[b]}> .\n")
        for m in range(3):
            out.write(f"<urn:{n}:{13 - m}> <urn:back> <urn:{n}:{12 - m}> .\n")


def ring_key(count, kind="any"):
    """A key with a value and a ring of so many nodes, of which ?x leads to one."""
    sigil = {"any": "_", "entity": "?"}[kind]
    nodes = [f"{sigil}w{n}" for n in range(count)]
    text = "key ring <urn:T>\nvalue $v\n" + "".join(f"{kind} {node} <urn:U>\n" for node in nodes)
    text += f"?x <urn:p> $v\n?x <urn:knows> {nodes[0]}\n"
    return text + "".join(f"{a} <urn:knows> {b}\n" for a, b in zip(nodes, nodes[1:] + nodes[:1])) + "end\n"


def long_ring(out):
    """A ring of 2^18 nodes, and as many entities, two of one value, that lead into it."""
    count = 1 << 18
    for n in range(count):
        typed(out, f"x{n}")
        typed(out, n, "U")
        out.write(f'<urn:x{n}> <urn:p> "{n // 2}" .\n<urn:x{n}> <urn:knows> <urn:{n}> .\n')
        out.write(f"<urn:{n}> <urn:knows> <urn:{(n + 1) % count}> .\n")


def clique(out, count):
    """Two entities of one value that know so many people, who all know each other."""
    for name in "ab":
        typed(out, name)
        out.write(f'<urn:{name}> <urn:p> "one" .\n')
        for n in range(count):
            out.write(f"<urn:{name}> <urn:knows> <urn:{n}> .\n")
    for n in range(count):
        typed(out, n, "U")
    for a, b in itertools.permutations(range(count), 2):
        out.write(f"<urn:{a}> <urn:knows> <urn:{b}> .\n")


def key_of_most_bytes():
    """A key file of 2^20 bytes, with the longest literal that fits."""
    begin, end = 'key k <urn:T>\n?x <urn:p> "', '"\nend\n'
    return begin + "x" * ((1 << 20) - len(begin) - len(end)) + end


# ---- large proofs


def repeated(out, begin, middle, end):
    """A proof of 2^29 bytes at most, of which the middle is repeated."""
    out.write(begin)
    left = (MOST_BYTES - len(begin) - len(end)) // len(middle)
    for _ in range(left // PIECE):
        out.write(middle * PIECE)
    out.write(middle * (left % PIECE) + end)


def one_way(out):
    """One step whose way has 2^28 numbers."""
    repeated(out, "gkey-proof 2\nterms 1\n<a:>\nstep k\nleft 1\nright 1\nby 1", " 1", "\ndone\nend 1\n")


def one_side(out):
    repeated(out, "gkey-proof 2\nterms 1\n<a:>\nstep k\nleft", " 1", "\nright 1\ndone\nend 1\n")


def one_side_of_terms(out):
    repeated(out, "gkey-proof 1\nstep k\nleft ", "<a:>", "\nright <a:>\ndone\nend 1\n")


def many_terms(out):
    """As many terms as fit behind their number, which has nine digits."""
    begin, end = "gkey-proof 2\nterms 100000000\n", "end 0\n"
    count = (MOST_BYTES - len(begin) - len(end)) // len("<a:>\n")
    repeated(out, begin.replace("100000000", str(count)), "<a:>\n", end)


def many_steps(out):
    """As many steps as fit, and a wrong count of them behind them."""
    repeated(out, "gkey-proof 2\nterms 1\n<a:>\n", "step k\nleft 1\nright 1\ndone\n", "end 0\n")


class Case(NamedTuple):
    name: str
    make: object      # writes the graph
    keys: str
    commands: tuple = ("match",)
    proof: object = None   # writes the proof, where `prove` does not


CASES = [
    Case("a comment of 2^29 bytes", comment, NO_KEY),
    Case("a line of 2^29 bytes without a subject", no_subject, NO_KEY),
    Case("a file of 2^29 + 1 bytes", one_byte_more, NO_KEY),
    Case("a literal of 500 MB", literal, ONE_VALUE),
    Case("a literal of 250 million escapes", literal_of_escapes, ONE_VALUE),
    Case("two literals of 250 MB", two_literals, ONE_VALUE, ("match", "prove", "check", "convert")),
    Case("two folded literals of 250 MB", two_literals, FOLDED_VALUE),
    Case("2^22 subjects", subjects, ONE_VALUE),
    Case("a subject with 2^22 - 1 objects", objects, ONE_VALUE),
    Case("two subjects with 2^21 - 1 objects", twins, ONE_VALUE, ("match", "prove", "check")),
    Case("2^22 + 1 triples", one_triple_more, NO_KEY),
    Case("a key file of 2^20 bytes", lambda out: star(out, 10), key_of_most_bytes()),
    Case("a class of 10^5, one linked to the next", linked_class, ONE_VALUE, ("match", "prove", "check")),
    Case("2,000 ways through a class of 2,000", long_ways, LONG_WAYS_KEYS, ("match", "prove", "check")),
    Case("2^13 that share a value and are the same", lambda out: star(out, 1 << 13), ONE_VALUE, ("match", "prove", "check")),
    Case("2^13 that share a value and lack another", lambda out: star(out, 1 << 13), TWO_VALUES),
    Case("11,585 that share a value", lambda out: star(out, 11_585), ONE_VALUE),
    Case("11,586 that share a value", lambda out: star(out, 11_586), ONE_VALUE),
    *(Case(f"a proof of 2^29 bytes: {name}", lambda out: star(out, 2), ONE_VALUE, ("convert", "check"), make)
      for name, make in (("one way", one_way), ("one side", one_side), ("one side of terms", one_side_of_terms),
                         ("terms", many_terms), ("steps", many_steps))),
    Case("64 keys of 16 nodes that nearly fit", nearly_fitting, many_keys()),
    Case("a ring of 2^18 and a key with one of 14", long_ring, ring_key(14)),
    *(Case(f"{n} who all know each other, {n + 1} asked for", lambda out, n=n: clique(out, n), ring_key(n + 1)) for n in range(4, 11)),
    *(Case(f"{n} who all know each other, {n + 1} asked for as entities", lambda out, n=n: clique(out, n), ring_key(n + 1, "entity"))
      for n in range(7, 12)),
]


def measured(words, out):
    """One run, with its output in a file and its error text beside it."""
    with out.open("wb") as output, out.with_suffix(".err").open("w+b") as error:
        child = subprocess.Popen(["sh", "-c", f'ulimit -t {SECONDS}; ulimit -v {MOST_KILOBYTES}; exec "$@"', "sh", PROGRAM, *words], stdout=output, stderr=error)
        _, status, usage = os.wait4(child.pid, 0)
        child.returncode = os.waitstatus_to_exitcode(status)
        error.seek(0)
        said = error.read(60)
    with out.open("rb") as output:
        said = (said or output.read(60)).decode(errors="replace").split("\n")[0]
    return End(Run(usage.ru_utime + usage.ru_stime, usage.ru_maxrss / 1024), child.returncode, said)


def tried(case, folder):
    graph, keys, proof = (folder / name for name in ("graph.nt", "keys.gk", "proof.gkp"))
    keys.write_text(case.keys)
    for make, path in ((case.make, graph), (case.proof, proof)):
        if make:
            with path.open("w", encoding="utf-8") as out:
                make(out)
    for command in case.commands:
        words = {"check": [command, graph, keys, proof], "convert": [command, proof]}.get(command, [command, graph, keys])
        end = measured(words, proof if command == "prove" else folder / "output")
        status = "stopped" if end.status in (-9, -24) else end.status
        size = (proof if command == "prove" else folder / "output").stat().st_size
        print(f"{case.name:>55} {command:>8} {end.run.seconds:>8.2f} {end.run.megabytes:>7.0f} {status:>7} {size:>10}  {end.said}", flush=True)
        if end.status != 0 and command == "prove":
            break


def main():
    words = asked(__doc__)
    built()
    print(f"{'graph and keys':>55} {'command':>8} {'seconds':>8} {'MB':>7} {'status':>7} {'bytes':>10}  says")
    for case in CASES:
        if not words or any(word in case.name for word in words):
            with tempfile.TemporaryDirectory() as folder:
                tried(case, pathlib.Path(folder))


if __name__ == "__main__":
    main()
