#!/usr/bin/python3
"""Sifts a graph that is too large for one machine's memory on an engine that has it: of its triples those are left that keys may look
at to make two entities the same. `gkey` finds on these what it would find on the whole graph.

  scale/sift.py sqlite FILE KEYS PART..        by sqlite, in a file that is made for it (:memory: for none)
  scale/sift.py postgresql DSN KEYS PART..     by PostgreSQL; DSN as 'host=/tmp/server dbname=large'
  scale/sift.py --text KEYS                    prints the SQL, for any engine
  scale/sift.py --rows KEYS PART..             prints the rows of gkey_row, which the SQL begins with, parted by tabs

PART: a part of the graph in canonical lines, as `gkey merge PART EMPTYKEYS` writes them. The sifted graph goes to standard output as
N-Triples. What is done is told on standard error. All tables have a name with gkey_ in front, and are dropped at the end.
"""

import argparse
import contextlib
import multiprocessing
import os
import pathlib
import signal
import sqlite3
import subprocess
import sys
import time

import key_files
from key_files import Refused
from sift_sql import LITERAL, NODE, SIFTED, Plan, made_by

TOP = pathlib.Path(__file__).resolve().parent.parent
MANY = 50_000          # rows that go to an engine at once
TELL = 1_000_000       # lines after which the loader tells how far it is
START = time.monotonic()


def say(text):
    print(f"{time.monotonic() - START:9.1f} s  {text}", file=sys.stderr, flush=True)


def one_line(error):
    return " ".join(str(error).split())


# ---- what goes in


def plan_of(path):
    """The keys of a file, if `gkey` accepts it."""
    program = os.environ.get("GKEY") or TOP / "bin" / "gkey"
    asked = subprocess.run([program, "match", os.devnull, path], stdout=subprocess.DEVNULL, stderr=subprocess.PIPE, text=True)
    if asked.returncode != 0:
        raise Refused((asked.stderr.strip() or f"gkey: status {asked.returncode}").split("\n")[-1] + f" ({path})")
    with open(path, encoding="utf-8", newline="") as text:
        return Plan(key_files.keys_of(text.read()))


def rows_of(plan, part, tell=lambda lines: None):
    """The rows of a part: for each relation that a triple is of, its number, subject, object and folded text."""
    number = 0
    for number, subject, predicate, end in key_files.triples_of(part):
        if number % TELL == 0:
            tell(number)
        ends = plan.ends.get(predicate, {})
        for relation in filter(None, (ends.get(end), ends.get(LITERAL if key_files.is_literal(end) else NODE))):
            yield relation, subject, end, key_files.folded(end) if relation in plan.folding and key_files.is_literal(end) else ""
    tell(number)


def batches(rows):
    batch = []
    for row in rows:
        batch.append(row)
        if len(batch) == MANY:
            yield batch
            batch = []
    yield batch


class Told:
    """Tells the lines of a part, and counts its rows."""

    def __init__(self, part):
        self.part, self.lines = part, 0

    def __call__(self, lines):
        self.lines = lines
        say(f"{self.part}: {lines:,} lines")


# ---- engines


class Sqlite:
    fault = sqlite3.Error

    def __init__(self, place, _workers):
        self.place, self.is_new = place, not os.path.exists(place) or os.path.getsize(place) == 0
        try:
            self.base = sqlite3.connect(place, isolation_level=None)
        except sqlite3.Error as error:
            raise Refused(f"{place}: {one_line(error)}") from None
        self.run("PRAGMA cache_size = -500000")
        if self.is_new:    # nobody else's tables can be lost
            self.run("PRAGMA journal_mode = OFF")
            self.run("PRAGMA synchronous = OFF")

    def run(self, text):
        return self.base.execute(text).rowcount

    def load(self, plan, parts):
        lines = rows = 0
        for part in parts:
            told = Told(part)
            self.run("BEGIN")
            try:
                for batch in batches(rows_of(plan, part, told)):
                    self.base.executemany("INSERT INTO gkey_row VALUES (?, ?, ?, ?)", batch)
                    rows += len(batch)
            finally:
                self.run("COMMIT")
            lines += told.lines
        return lines, rows

    def look(self, table):
        self.run(f"ANALYZE {table}")

    def count(self, table):
        return self.base.execute(f"SELECT COUNT(*) FROM {table}").fetchone()[0]

    def rows(self, text):
        return self.base.execute(text)

    def close(self):
        self.base.close()
        if self.is_new and os.path.exists(self.place):
            os.remove(self.place)


def leave_signals():
    """A process that loads ends with the one that began it, and says nothing of it."""
    signal.signal(signal.SIGTERM, signal.SIG_DFL)
    signal.signal(signal.SIGINT, signal.SIG_IGN)


def copied(job):
    """One part's rows, by a process and a connection of its own."""
    import psycopg2
    place, plan, part = job
    told, rows = Told(part), 0
    try:
        base = psycopg2.connect(place)
        base.set_client_encoding("UTF8")
        for batch in batches(rows_of(plan, part, told)):
            base.cursor().copy_expert("COPY gkey_row FROM STDIN", Text("".join(
                f"{relation}\t{subject}\t{end}\t{fold}\n" for relation, subject, end, fold in batch).replace("\\", "\\\\")))
            rows += len(batch)
        base.commit()
        base.close()
    except psycopg2.Error as error:
        raise Refused(f"postgresql: {one_line(error)}") from None
    return told.lines, rows


class Text:
    """A text as a file for COPY."""

    def __init__(self, text):
        self.bytes, self.at = text.encode(), 0

    def read(self, size):
        self.at += size
        return self.bytes[self.at - size:self.at]


class Postgresql:
    LOCK = 0x676B6579

    def __init__(self, place, workers):
        try:
            import psycopg2
        except ImportError:
            raise Refused("psycopg2 is missing: Debian's package python3-psycopg2, for /usr/bin/python3") from None
        self.place, self.workers, self.fault = place, workers, psycopg2.Error
        try:
            self.base = psycopg2.connect(place)
        except psycopg2.Error as error:
            raise Refused(f"postgresql: {one_line(error)}") from None
        self.base.autocommit = True
        self.base.set_client_encoding("UTF8")
        self.at = self.base.cursor()
        if self.one("SHOW server_encoding") != "UTF8":
            raise Refused("postgresql: the encoding of the database has to be UTF8")
        if not self.one(f"SELECT pg_try_advisory_lock({self.LOCK})"):
            raise Refused("postgresql: another run has the tables gkey_ of this database")
        for setting in ("work_mem = '256MB'", "jit = off", "client_min_messages = warning", "synchronous_commit = off",
                        f"max_parallel_workers_per_gather = {workers - 1}", "parallel_tuple_cost = 0", "parallel_setup_cost = 0"):
            self.run(f"SET {setting}")

    def one(self, text):
        self.at.execute(text)
        return self.at.fetchone()[0]

    def run(self, text):
        """Tables of no log, and texts that are compared by bytes."""
        self.at.execute(text.replace("CREATE TABLE", "CREATE UNLOGGED TABLE").replace(" TEXT", ' TEXT COLLATE "C"')
                        if text.startswith("CREATE TABLE") else text)
        return self.at.rowcount

    def load(self, plan, parts):
        jobs = [(self.place, plan, part) for part in parts]
        with multiprocessing.Pool(max(1, min(len(parts), self.workers)), leave_signals) as pool:
            counts = list(pool.imap_unordered(copied, jobs) if len(parts) > 1 else map(copied, jobs))
        return tuple(map(sum, zip(*counts)))

    def look(self, table):
        self.run(f"ANALYZE {table}")

    def count(self, table):
        return self.one(f"SELECT COUNT(*) FROM {table}")

    def rows(self, text):
        self.base.autocommit = False
        try:
            rows = self.base.cursor("gkey_rows")
            rows.itersize = MANY
            rows.execute(text)
            yield from rows
        finally:
            self.base.rollback()
            self.base.autocommit = True

    def close(self):
        self.base.close()


ENGINES = {"sqlite": Sqlite, "postgresql": Postgresql}


# ---- from parts to the sifted graph


def drop(engine, statements):
    for table in filter(None, (made_by(text) for _, text in statements)):
        engine.run(f"DROP TABLE IF EXISTS {table}")


def sift(engine, plan, parts, statements=None):
    """The sifted triples, in canonical order. `statements` are those of the plan, if none are given."""
    statements = list(plan.statements()) if statements is None else statements
    drop(engine, statements)
    try:
        for _, text in statements[:3]:
            engine.run(text)
        lines, rows = engine.load(plan, parts)
        say(f"{lines:,} lines loaded, {rows:,} rows that keys may look at")
        engine.look("gkey_row")
        for name, text in statements[3:]:
            engine.run(text)
            if made_by(text):
                engine.look(made_by(text))
            if text.startswith("CREATE TABLE gkey_shared_"):
                say(f"{name}, step {int(made_by(text)[-1]) + 1}: {engine.count(made_by(text)):,} valuations share their values")
        say(f"{engine.count('gkey_sifted'):,} of {lines:,} triples are kept")
        yield from engine.rows(SIFTED)
    finally:
        with contextlib.suppress(engine.fault):    # what went wrong before is what is told
            drop(engine, statements)


class Out:
    """Standard output, or a file that has its name once it is whole."""

    def __init__(self, name):
        self.name, self.beside = name, name and f"{name}.{os.getpid()}.part"
        self.file = open(self.beside or 1, "x" if name else "w", encoding="utf-8", newline="\n", closefd=bool(name))

    def finish(self):
        self.file.flush()
        if self.name:
            os.fsync(self.file.fileno())
            self.file.close()
            os.replace(self.beside, self.name)

    def give_up(self):
        with contextlib.suppress(OSError):
            self.file.close()
        if self.name and os.path.exists(self.beside):
            os.remove(self.beside)


def write(out, words, workers):
    if len(words) < 4 or words[0] not in ENGINES:
        raise Refused("words: sqlite FILE KEYS PART.. or postgresql DSN KEYS PART.. (--help tells more)")
    plan = plan_of(words[2])
    with contextlib.closing(ENGINES[words[0]](words[1], workers)) as engine:
        try:
            out.file.writelines(f"{subject} {predicate} {end} .\n" for subject, predicate, end in sift(engine, plan, words[3:]))
        except engine.fault as error:
            raise Refused(f"{words[0]}: {one_line(error)}") from None


def write_text(out, keys):
    plan = plan_of(keys)
    for ends in plan.ends.values():
        for end, number in ends.items():
            predicate = next(text for text, held in plan.ends.items() if held is ends)
            out.file.write(f"-- gkey_row, r = {number}: predicate {predicate}, object {end}{', folded' * (number in plan.folding)}\n")
    out.file.writelines(f"{text};\n" for _, text in plan.statements())
    out.file.write(f"{SIFTED};\n")
    out.file.writelines(f"DROP TABLE {table};\n" for table in ("gkey_kept", "gkey_predicate", "gkey_sifted"))


def main():
    parser = argparse.ArgumentParser(description=__doc__, usage=argparse.SUPPRESS, formatter_class=argparse.RawDescriptionHelpFormatter)
    parser.add_argument("words", nargs="*", help=argparse.SUPPRESS)
    parser.add_argument("--out", metavar="FILE", help="writes the graph to FILE, which is there only once it is whole")
    parser.add_argument("--workers", type=int, default=4, help="processes that load, and that the engine may take (4)")
    parser.add_argument("--text", action="store_true", help=argparse.SUPPRESS)
    parser.add_argument("--rows", action="store_true", help=argparse.SUPPRESS)
    options = parser.parse_intermixed_args()
    if sys.version_info < (3, 11):
        sys.exit("sift: Python 3.11 or later is needed, whose table of case folding is young enough")
    signal.signal(signal.SIGTERM, lambda *_: sys.exit("sift: stopped"))
    out = None
    try:
        out = Out(options.out)
        if options.text and len(options.words) == 1:
            write_text(out, options.words[0])
        elif options.rows and len(options.words) > 1:
            plan = plan_of(options.words[0])
            for part in options.words[1:]:
                out.file.writelines("\t".join(map(str, row)) + "\n" for row in rows_of(plan, part))
        else:
            write(out, options.words, max(1, options.workers))
        out.finish()
    except Refused as error:
        sys.exit(f"sift: {error}")
    except OSError as error:
        sys.exit(f"sift: {error.filename or options.out or 'standard output'}: {error.strerror}")
    except KeyboardInterrupt:
        sys.exit("sift: stopped")
    finally:
        if out:
            out.give_up()


if __name__ == "__main__":
    main()
