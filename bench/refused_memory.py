#!/usr/bin/env python3
"""Runs each command of the program with every call for memory refused in turn, with all calls from some one on refused, with every
start of a thread refused in turn, and, on a larger graph, with more and more address space.

Usage: bench/refused_memory.py [COMMAND ..]   (all that the program knows, if none is given)

Each run must end within the time with what the command writes when nothing is refused, or with status 5 and no output; `prove`
may also write another proof, if a plain checker accepts it and it joins the same. Any other end is told, and makes the status
1. The calls for memory are those that the process makes of the C library, which an allocator loaded before it counts and
refuses (programs/refusing_memory.c, compiled here by `cc`). Where the words are not yet read, status 5 comes without a text.

It makes graphs and the allocator in a temporary folder, needs `cc`, and prints for each command how its runs ended.
"""

import collections
import functools
import os
import pathlib
import resource
import subprocess
import sys
import tempfile
from typing import NamedTuple

import graphs
import proof_checker
import proofs
from asking import asked
from timing import PROGRAM, TOP, built

SECONDS = 60
NO_MEMORY, USAGE = 5, 64
# how many runs one after the other with nothing refused end a row: workers may make a few calls more or less
UNREFUSED = 3
MEGABYTE = 1 << 20
# of address space from one run to the next
STEP = MEGABYTE // 16
REFUSALS = [("call for memory", "REFUSE_CALL"), ("calls for memory from", "REFUSE_FROM"), ("start of a thread", "REFUSE_THREAD")]
ALBUMS = [TOP / "examples/albums" / name for name in ("graph.nt", "keys.gk")]
MUSIC = [TOP / "examples/music" / name for name in ("graph.nt", "keys.gk")]
# two of the names of the music that are the same
SAME = ["<http://a.example.org/help>", "<http://b.example.org/album/1>"]
CHAIN = 2000


class End(NamedTuple):
    status: int      # the number of the signal, negative, where one ended it
    output: bytes
    error: bytes
    calls: int       # for memory
    threads: int     # that were to be started


@functools.cache
def known():
    """The names of the commands in the program's usage."""
    usage = subprocess.run([PROGRAM], capture_output=True).stderr.decode()
    return [line.split()[1] for line in usage.splitlines() if line.startswith("  gkey ")]


def proof_of(files, at):
    at.write_bytes(subprocess.run([PROGRAM, "prove", *files], capture_output=True, check=True).stdout)
    return at


def on_examples(folder):
    proof = proof_of(MUSIC, folder / "music.gkp")
    return [
        ["match", *ALBUMS],
        ["--large", "match", *ALBUMS],
        ["match", "--workers", "1", *MUSIC],
        ["match", "--workers", "64", *MUSIC],
        ["prove", *ALBUMS],
        ["prove", *MUSIC],
        ["check", *MUSIC, proof],
        ["convert", proof],
        ["demo", "100"],
        ["grow", *graphs.parted(folder, MUSIC[0], parts=2), MUSIC[1]],
        ["merge", *MUSIC],
        ["why", *MUSIC, *SAME],
        ["--help"],
        ["--version"],
    ]


def on_a_chain(folder):
    """Commands that take some megabytes."""
    files = graphs.written(folder, "chain", CHAIN)
    proof = proof_of(files, folder / "chain.gkp")
    return [
        ["match", *files],
        ["prove", *files],
        ["check", *files, proof],
        ["convert", proof],
        ["demo", str(CHAIN)],
        ["grow", *graphs.parted(folder, files[0]), files[1]],
        ["merge", *files],
        ["why", *files, f"<urn:a:{CHAIN - 1}>", f"<urn:b:{CHAIN - 1}>"],
    ]


def end_of(words, environment=None, limit=None):
    """How a run ends; None where it does not within the time."""
    try:
        run = subprocess.run([PROGRAM, *words], capture_output=True, env=environment, preexec_fn=limit, timeout=SECONDS)
    except subprocess.TimeoutExpired:
        return None
    return End(run.returncode, run.stdout, run.stderr, 0, 0)


class Refuser:
    """The allocator, compiled to the folder, and the file in which it counts."""

    def __init__(self, folder):
        self.library, self.counts = folder / "refusing_memory.so", folder / "counts"
        source = TOP / "bench/programs/refusing_memory.c"
        subprocess.run(["cc", "-O2", "-fPIC", "-shared", "-o", self.library, source], check=True)

    def end(self, words, **refused):
        self.counts.write_bytes(bytes(16))
        environment = {**os.environ, "LD_PRELOAD": str(self.library), "REFUSE_COUNTS": str(self.counts),
                       **{name: str(number) for name, number in refused.items()}}
        end, counts = end_of(words, environment), self.counts.read_bytes()
        calls, threads = (int.from_bytes(number, sys.byteorder) for number in (counts[:8], counts[8:]))
        return end and end._replace(calls=calls, threads=threads)

    def in_turn(self, words, name):
        """The ends of runs with one number after another refused, until some runs in a row had nothing refused."""
        unrefused, number = 0, 1
        while unrefused < UNREFUSED:
            end = self.end(words, **{name: number})
            made = number if end is None else end.threads if name == "REFUSE_THREAD" else end.calls
            unrefused = unrefused + 1 if made < number else 0
            if not unrefused:
                yield number, end
            number += 1


def limited(words, size):
    """How a run ends with so many bytes of address space."""
    return end_of(words, limit=lambda: resource.setrlimit(resource.RLIMIT_AS, (size, size)))


def starts(size):
    """Whether the program comes to read its words with so many bytes of address space, twice in two runs: where things lie
    in it is drawn by the system."""
    return all(limited([], size).status == USAGE for _ in range(2))


def with_more_space(words, whole):
    """The ends of runs with more and more address space, from the least in which the program starts, until some in a row lack
    nothing."""
    size, enough = MEGABYTE, 0
    while not starts(size):
        size += STEP
    while enough < 16:
        end = limited(words, size)
        enough = enough + 1 if kind_of(end, words, whole) == "right bytes" else 0
        yield size, end
        size += STEP


def is_other_proof(end, words, whole):
    """Whether a run of `prove` wrote another proof that a plain checker accepts and that joins the same."""
    if words[0] != "prove" or end.status != 0 or end.error:
        return False
    texts = [file.read_bytes() for file in words[-2:]]
    return proof_checker.judged(*texts, end.output)[0] == 0 and proofs.joined(end.output) == proofs.joined(whole.output)


def kind_of(end, words, whole):
    """How a run ended, in words; what may not be begins with WRONG."""
    if end is None:
        return "WRONG: not within the time"
    if end[:3] == whole[:3]:
        return "right bytes"
    if end.status == NO_MEMORY and not end.output and end.error in (b"out of memory\n", b""):
        return "status 5" if end.error else "status 5, no text"
    if is_other_proof(end, words, whole):
        return "another right proof"
    return f"WRONG: status {end.status}, {len(end.output)} bytes, {end.error[:60]!r}"


def told(words, what, ends, whole):
    """Prints how many runs ended how, and returns how many runs there were, and how many that may not end so."""
    shown = " ".join(getattr(word, "name", word) for word in words)
    said, wrong = collections.Counter(), 0
    for number, end in ends:
        kind = kind_of(end, words, whole)
        said[kind] += 1
        if kind.startswith("WRONG"):
            wrong += 1
            print(f"{shown}: {what} {number}: {kind}")
    if said:
        print(f"{shown}: {what}: {said.total()} runs: " + ", ".join(f"{count} {kind}" for kind, count in sorted(said.items())), flush=True)
    return said.total(), wrong


def main():
    commands = asked(__doc__) or known()
    built()
    rows = []
    with tempfile.TemporaryDirectory() as name:
        folder = pathlib.Path(name)
        refuser, examples = Refuser(folder), on_examples(folder)
        if strange := set(commands) - {words[0] for words in examples}:
            sys.exit("no run of " + ", ".join(sorted(strange)))
        for words in (words for words in examples if words[0] in commands):
            whole = refuser.end(words)
            rows += [told(words, what, refuser.in_turn(words, variable), whole) for what, variable in REFUSALS]
        for words in (words for words in on_a_chain(folder) if words[0] in commands):
            whole = end_of(words)
            rows.append(told(words, "bytes of address space", with_more_space(words, whole), whole))
    runs, wrong = (sum(numbers) for numbers in zip(*rows))
    print(f"{runs} runs, {wrong} of them ended as they may not")
    sys.exit(wrong != 0)


if __name__ == "__main__":
    main()
