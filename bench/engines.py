#!/usr/bin/env python3
"""Sifts graphs with scale/sift.py on sqlite and on PostgreSQL, and looks whether `gkey` finds on what is left what it finds on the whole.

Usage: bench/engines.py [random [CASES [SEED]] | faults [CASES] | made [SIZE] | sizes [SIZE ..] | letters]
(with no words: random 1000, faults 200, made 10000, sizes 1000000 and letters)

random: small graphs and keys of all kinds of slots, as compare.py makes them. faults: the same with three faults planted in the SQL.
made: the examples, and graphs of each kind of graphs.py. Of each, the report of the sifted graph has to be that of the whole, byte for
byte, and `gkey check` has to accept the proof of the sifted graph over the whole. The sifted graph of a random case has to be the one
that a plain sift over whole valuations makes, too: to keep more, as where different nodes may be one name, changes no report.
sizes: catalogues in which one thing in twelve has a second description, timed beside `match` on the whole where `gkey` takes that.
letters: whether the loader takes for alike what the program does, of every character.

It needs Debian's packages postgresql and python3-psycopg2; it starts a server of its own on a socket in a temporary folder, as the user
postgres where root runs it, and stops it. It prints a line for each comparison, and ends with status 1 where something differs.
"""

import contextlib
import itertools
import os
import pathlib
import pwd
import random
import re
import shutil
import subprocess
import sys
import tempfile
import threading
import time

import compare
import graphs
from asking import asked
from timing import PROGRAM, TOP, built

sys.path.insert(0, str(TOP / "scale"))
import key_files
import sift
import sift_sql

DEBIAN = pathlib.Path("/usr/bin/python3")
PARTS = 4
# names of SQL's own and characters that engines take for theirs
STRANGE = {"urn:p0": "urn:p'0", "1": "\0\t\\1"}


def missing():
    """What has to be there for PostgreSQL and is not."""
    found = sorted(pathlib.Path("/usr/lib/postgresql").glob("*/bin/initdb"))
    try:
        import psycopg2  # noqa: F401
        has_module = True
    except ImportError:
        has_module = False
    return [*([] if found else ["postgresql"]), *([] if has_module else ["python3-psycopg2, for /usr/bin/python3"])]


class Server:
    """A server of its own, in a temporary folder."""

    def __init__(self):
        self.tools = sorted(pathlib.Path("/usr/lib/postgresql").glob("*/bin"))[-1]
        self.user = pwd.getpwnam("postgres") if os.getuid() == 0 else None
        self.folder = tempfile.mkdtemp(prefix="gkey-engines-")
        if self.user:
            os.chown(self.folder, self.user.pw_uid, self.user.pw_gid)
        self.tool("initdb", "-U", "gkey", "-A", "trust", "-E", "UTF8", "--locale=C", "-N", "-D", f"{self.folder}/data")
        self.tool("pg_ctl", "start", "-w", "-D", f"{self.folder}/data", "-l", f"{self.folder}/log", "-o",
                  f"-k {self.folder} -c listen_addresses='' -c fsync=off -c shared_buffers=512MB -c max_wal_size=4GB")
        self.place = f"host={self.folder} user=gkey dbname=postgres"

    def tool(self, name, *words):
        as_user = {"user": self.user.pw_uid, "group": self.user.pw_gid, "extra_groups": []} if self.user else {}
        subprocess.run([self.tools / name, *words], check=True, stdout=subprocess.DEVNULL, cwd="/", **as_user)

    def stop(self):
        self.tool("pg_ctl", "stop", "-w", "-m", "immediate", "-D", f"{self.folder}/data")
        shutil.rmtree(self.folder)

    def megabytes(self):
        """What the server's processes hold in memory now, and this script's own: shared pages are counted once."""
        first = int(pathlib.Path(self.folder, "data", "postmaster.pid").read_text().split()[0])
        total = 0
        for process in pathlib.Path("/proc").glob("[0-9]*"):
            with contextlib.suppress(OSError, ValueError, IndexError):
                above = int(re.sub(r".*\) ", "", (process / "stat").read_text(), flags=re.S).split()[1])
                if first in (int(process.name), above) or os.getpid() in (int(process.name), above):
                    total += int(re.search(r"^Pss: *(\d+)", (process / "smaps_rollup").read_text(), re.M)[1])
        return total / 1024


def gkey(*words):
    return subprocess.run([PROGRAM, *words], capture_output=True)


def sifted(engine, plan, parts, out, statements=None):
    """Writes the sifted graph, and says how many triples it has."""
    count = 0
    with out.open("w", encoding="utf-8", newline="\n") as lines:
        for count, row in enumerate(sift.sift(engine, plan, parts, statements), 1):
            lines.write("%s %s %s .\n" % row)
    return count


def differences(whole, part, keys, folder):
    """What `gkey` says of the sifted graph that it does not say of the whole."""
    wanted, got = gkey("match", whole, keys), gkey("match", part, keys)
    if (wanted.returncode, got.returncode) != (0, 0):
        return [f"match: {wanted.stderr!r} and {got.stderr!r}"]
    proof = folder / "proof"
    proof.write_bytes(gkey("prove", part, keys).stdout)
    found = ["report"] * (wanted.stdout != got.stdout)
    return found + ["proof"] * (not gkey("check", whole, keys, proof).stdout.startswith(b"accepted"))


# ---- random cases


def strange(rows, keys):
    """The case with some names that are strange to engines."""
    def of(term):
        return term and term._replace(text=STRANGE.get(term.text, term.text))
    return ([tuple(map(of, row)) for row in rows], [key._replace(
        slots=[slot._replace(term=of(slot.term)) for slot in key.slots],
        edges=[(start, of(predicate), end) for start, predicate, end in key.edges]) for key in keys])


def plainly_sifted(rows, keys):
    """The lines that have to be kept, from whole valuations."""
    matcher, kept = compare.Matcher(rows, keys), set()
    for key, valuations in zip(keys, matcher.valuations):
        at = {}
        values = [tuple(term if slot.kind == "value" else term.folded() for slot, term in zip(key.slots, valuation)
                        if slot.kind in ("value", "folded")) for valuation in valuations]
        for value, valuation in zip(values, valuations):
            at.setdefault(value, set()).add(valuation[0])
        for value, valuation in zip(values, valuations):
            if len(at[value]) > 1:
                kept |= {(valuation[start], predicate, valuation[end]) for start, predicate, end in key.edges}
                kept |= {(term, compare.RDF_TYPE, slot.term) for slot, term in zip(key.slots, valuation) if slot.kind in ("entity", "any")}
    return {" ".join(key_files.escaped(term.canonical()) for term in row) + " .\n" for row in kept}


class Cases:
    """Random cases in a folder: the whole graph, its keys, its canonical parts and the lines that are to be kept."""

    def __init__(self, folder, seed):
        self.folder, self.rng = folder, random.Random(seed)
        self.graph, self.keys, self.empty, self.out = (folder / name for name in ("graph.nt", "keys.gk", "empty.gk", "sifted.nt"))
        self.empty.write_text("")

    def next(self):
        rows, keys = compare.random_case(self.rng)
        if self.rng.randrange(2):
            rows, keys = strange(rows, keys)
        self.graph.write_bytes(compare.graph_text(rows, self.rng).encode())
        self.keys.write_bytes(compare.keys_text(keys, self.rng).encode())
        self.wanted = plainly_sifted(rows, keys)
        self.parts = [self.folder / "part.0", self.folder / "part.1"]
        merged = gkey("merge", self.graph, self.empty)
        lines = merged.stdout.split(b"\n")[:-1]
        cut = self.rng.randrange(len(lines) + 1)
        for part, held in zip(self.parts, (lines[:cut + 1], lines[cut:])):    # a line stands in both
            part.write_bytes(b"".join(line + b"\n" for line in held))
        self.plan = sift.Plan(key_files.keys_of(self.keys.read_bytes().decode()))

    def seen(self, engine, statements=None):
        sifted(engine, self.plan, self.parts, self.out, statements)
        found = differences(self.graph, self.out, self.keys, self.folder)
        with self.out.open(encoding="utf-8", newline="\n") as lines:
            return found + ["rows"] * (set(lines) != self.wanted)


def random_cases(engines, folder, count, seed=1):
    wrong = 0
    for name, engine in engines.items():
        cases, with_classes, start = Cases(folder, seed), 0, time.monotonic()
        for number in range(count):
            cases.next()
            found = cases.seen(engine)
            with_classes += len(cases.wanted) > 0
            wrong += bool(found)
            if found:
                print(f"{name}: case {number} of seed {seed} differs: {', '.join(found)}", flush=True)
        print(f"{name}: {count} random graphs, {with_classes} of them with something to keep, "
              f"{time.monotonic() - start:.0f} s; {wrong} differ", flush=True)
    return wrong


def without_distinctness(plan, statements):
    return [(name, re.sub(r" AND [a-z0-9.]+ <> [a-z0-9.]+", "", text)) for name, text in statements]


def without_wildcards(plan, statements):
    """Without the rows in which a wildcard stands."""
    slots = {f"key {key.name}": [slot for slot, (kind, _) in enumerate(key.slots) if kind == "any"] for key in plan.keys}
    return [(name, text) for name, text in statements if not (
        text.startswith("INSERT INTO gkey_kept") and any(re.search(rf"\bn{slot}\b", text) for slot in slots[name]))]


def without_groups_of_two(plan, statements):
    return [(name, text.replace("HAVING MIN(n0) < MAX(n0)", "HAVING COUNT(DISTINCT n0) > 2")) for name, text in statements]


FAULTS = {"no distinctness": without_distinctness, "no rows of wildcards": without_wildcards, "no groups of two": without_groups_of_two}


def planted(engines, folder, count):
    unseen = 0
    for name, engine in engines.items():
        for fault, plant in FAULTS.items():
            cases, seen = Cases(folder, 2), {"report": 0, "proof": 0, "rows": 0}
            for _ in range(count):
                cases.next()
                for found in cases.seen(engine, plant(cases.plan, list(cases.plan.statements()))):
                    seen[found] += 1
            unseen += seen["rows"] == 0
            print(f"{name}: {fault}: of {count} random graphs {seen['report']} have another report, "
                  f"{seen['rows']} other rows than the plain sift", flush=True)
    return unseen


# ---- the examples and made graphs


def parted(graph, folder, parts=PARTS):
    """The parts of a graph in canonical lines, and the seconds that took."""
    empty = folder / "empty.gk"
    empty.write_text("")
    start = time.monotonic()
    for old in folder.glob("part.*"):
        old.unlink()
    subprocess.run(["split", "-n", f"l/{parts}", graph, folder / "part.raw."], check=True)
    made = []
    for raw in sorted(folder.glob("part.raw.*")):
        made.append(folder / raw.name.replace("raw.", ""))
        with made[-1].open("wb") as out:
            subprocess.run([PROGRAM, "merge", raw, empty], check=True, stdout=out)
        raw.unlink()
    return made, time.monotonic() - start


def examples(folder):
    for keys in sorted((TOP / "examples").glob("*/*.gk")):
        graph = keys.with_name("graph.nt")
        if not graph.exists():
            sources = [keys.with_suffix(".ttl")] if keys.with_suffix(".ttl").exists() else sorted(keys.parent.glob("*.ttl"))
            if shutil.which("serdi") is None:
                print(f"{keys.parent.name}/{keys.stem}: left out, since serdi is missing")
                continue
            graph = folder / "example.nt"
            graph.write_bytes(b"".join(subprocess.run(
                ["serdi", "-i", "turtle", "-o", "ntriples", "-p", source.stem, source], check=True, stdout=subprocess.PIPE).stdout
                for source in sources))
        yield f"{keys.parent.name}/{keys.stem}", graph, keys


def made_graphs(engines, folder, size):
    wrong = 0
    made = ((f"{kind} {size}", *graphs.written(folder, kind, size)) for kind in graphs.KINDS if kind != "sparse")
    for case, graph, keys in itertools.chain(examples(folder), made):    # each is written over the one before
        parts, _ = parted(graph, folder, 1 if graph.stat().st_size < 10 ** 5 else PARTS)
        plan = sift.plan_of(keys)
        for name, engine in engines.items():
            start = time.monotonic()
            kept = sifted(engine, plan, parts, folder / "sifted.nt")
            seconds, found = time.monotonic() - start, differences(graph, folder / "sifted.nt", keys, folder)
            wrong += bool(found)
            classes = gkey("match", graph, keys).stdout.count(b"\n")
            print(f"{name}: {case}: {kept} of {graphs.line_count(graph)} triples, {classes} classes, {seconds:.1f} s: "
                  f"{', '.join(found) or 'the same'}", flush=True)
    return wrong


# ---- sizes


class Sparing:
    """What is written to it goes on, but that only one thing in twelve has values that a thing of the other source has."""

    def __init__(self, out):
        self.out = out

    def write(self, line):
        source, kind, number = line.split(">")[0].split("/")[-3:]
        if int(number) % 12 and line.endswith('" .\n'):
            line = f'{line[:-4]} of {source} {number}" .\n'
        self.out.write(line)


def sparse(out, triples, seed=1):
    graphs.catalogue(Sparing(out), triples, seed)


graphs.KINDS["sparse"] = (sparse, graphs.CATALOGUE_KEYS)


class Peak:
    """The most megabytes that were held while it was open."""

    def __init__(self, server):
        self.server, self.most, self.ended = server, 0, threading.Event()
        self.watch = threading.Thread(target=self.look)

    def look(self):
        while not self.ended.wait(0.5):
            self.most = max(self.most, self.server.megabytes())

    def __enter__(self):
        self.watch.start()
        return self

    def __exit__(self, *_):
        self.ended.set()
        self.watch.join()


def by_clock(words, out):
    """Seconds by the clock, megabytes and the text on standard error of a run whose output goes to a file."""
    start = time.monotonic()
    with out.open("wb") as sink, tempfile.TemporaryFile() as errors:
        child = subprocess.Popen([PROGRAM, *words], stdout=sink, stderr=errors)
        _, status, usage = os.wait4(child.pid, 0)
        errors.seek(0)
        return time.monotonic() - start, usage.ru_maxrss / 1024, errors.read().decode().strip() if status else ""


def sizes(engine, server, folder, size):
    """Whether the reports are the same; of a whole that is refused nothing can be said."""
    large = ["--large"] if b"--large" in gkey("--help").stdout else []
    graph, keys = graphs.written(folder, "sparse", size)
    count, (parts, canonical) = graphs.line_count(graph), parted(graph, folder, 8)
    with Peak(server) as peak:
        start = time.monotonic()
        kept = sifted(engine, sift.plan_of(keys), parts, folder / "sifted.nt")
        seconds = time.monotonic() - start
    part, whole = (by_clock([*large, "match", path, keys], folder / out) for path, out in ((folder / "sifted.nt", "part"), (graph, "whole")))
    told = [f"match {run[0]:.1f} s, {run[1]:.0f} MB{': ' * bool(run[2])}{run[2]}" for run in (part, whole)]
    print(f"postgresql: sparse catalogue of {count} triples: canonical lines {canonical:.0f} s, sift {seconds:.0f} s and {peak.most:.0f} MB, "
          f"{kept} triples kept, {told[0]}; the whole: {told[1]}", flush=True)
    if part[2] or whole[2]:
        return bool(part[2])
    found = differences(graph, folder / "sifted.nt", keys, folder)
    print(f"postgresql: sparse catalogue of {count} triples: {', '.join(found) or 'the same'}", flush=True)
    return bool(found)


def letters(folder):
    """Characters that the program takes for alike and the loader does not, or the other way about."""
    characters = [chr(code) for code in range(0x110000) if not 0xD800 <= code < 0xE000]
    graph, keys, alike = folder / "letters.nt", folder / "letters.gk", {}
    keys.write_text("key letter <urn:T>\nfolded $n\n?x <urn:n> $n\nend\n")
    with graph.open("w", encoding="utf-8", newline="\n") as out:
        for character in characters:
            text, name = compare.Term("literal", character).canonical(), f"<urn:{ord(character):06X}>"
            out.write(f"{name} {key_files.TYPE} <urn:T> .\n{name} <urn:n> {text} .\n")
            alike.setdefault(key_files.folded(text), []).append(name)
    wanted = "".join(" ".join(names) + "\n" for names in sorted(names for names in alike.values() if len(names) > 1))
    got = gkey("match", graph, keys).stdout.decode()
    print(f"letters: of {len(characters)} characters {len(got.split())} are alike to another: {'the same' if got == wanted else 'DIFFERENT'}", flush=True)
    return got != wanted


def main():
    words = asked(__doc__)
    lacking = missing()
    if lacking and DEBIAN.exists() and pathlib.Path(sys.executable).resolve() != DEBIAN.resolve():
        os.execv(DEBIAN, [str(DEBIAN), *sys.argv])
    built()
    os.environ["GKEY"] = str(PROGRAM)
    sift.say = lambda text: None
    if lacking:
        print("PostgreSQL is left out; packages of Debian that are missing here:", ", ".join(lacking))
    server = None if lacking else Server()
    engines, numbers = {"sqlite": sift.Sqlite(":memory:", 1)}, [int(word) for word in words[1:]]
    try:
        if server:
            engines["postgresql"] = sift.Postgresql(server.place, PARTS)
        wrong = bool(lacking)
        with tempfile.TemporaryDirectory(prefix="gkey-engines-") as name:
            folder, asks = pathlib.Path(name), words[:1]
            if asks in ([], ["random"]):
                wrong |= random_cases(engines, folder, *(numbers or [1000])) > 0
            if asks in ([], ["faults"]):
                wrong |= planted(engines, folder, *(numbers or [200])) > 0
            if asks in ([], ["made"]):
                wrong |= made_graphs(engines, folder, *(numbers or [10 ** 4])) > 0
            if asks in ([], ["letters"]):
                wrong |= letters(folder)
            if asks in ([], ["sizes"]) and server:
                for size in numbers or [10 ** 6]:
                    wrong |= sizes(engines["postgresql"], server, folder, size)
    finally:
        for engine in engines.values():
            engine.close()
        if server:
            server.stop()
    sys.exit(wrong)


if __name__ == "__main__":
    main()
