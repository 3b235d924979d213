#!/usr/bin/env python3
"""Compares the manual page with the program: its commands with the usage, its version and limits with what the program says,
its statuses and error texts with those of small runs, and its examples by running them. `man` and `mandoc -T lint` must find
no fault. The completions must name the same commands.

Usage: bench/manual.py

It ends with status 0 where nothing differs. Status 6, which comes where the system does not hand over the words, is not run.
It needs Debian's packages man-db, mandoc and serdi; where one is missing, it names it and ends with status 1.

It makes small files in a temporary folder, and prints each difference.
"""

import gzip
import pathlib
import re
import resource
import shutil
import subprocess
import sys
import tempfile

from asking import asked, need
from timing import PROGRAM, TOP, built

PAGE = TOP / "docs" / "gkey.1"
ALBUMS = [str(TOP / "examples/albums" / name) for name in ("graph.nt", "keys.gk")]
NOT_RUN = {"6"}
# the commands that not every system has, each with Debian's package of it
PACKAGES = {"man": "man-db", "mandoc": "mandoc", "serdi": "serdi"}
# where each file of completions/ names the commands
COMPLETIONS = {"gkey.bash": r'-W "(match [^"]* --[^"]*)"', "_gkey": r"^    '(\S+?):", "gkey.fish": r"__fish_use_subcommand -[al] (\S+)"}
# of address space, in which the program starts and has no room for its files
LITTLE = 12 << 20


def section(name):
    """The lines of the page between this heading and the next."""
    text = PAGE.read_text(encoding="utf-8")
    found = re.search(rf"^\.S[hs] {name}\n(.*?)(?=^\.S[hs] |\Z)", text, re.M | re.S)
    return found[1].splitlines()


def synopsis():
    """The calls of the synopsis, written as the usage has them."""
    calls = []
    for line in section("SYNOPSIS"):
        if line == ".Nm":
            calls.append("gkey")
            continue
        text = re.sub(r"^\.Op (.*)$", r"[\1]", line)
        text = re.sub(r"^\.(Cm|Ar|Fl) ", lambda kind: {"Cm": "", "Ar": "=", "Fl": "-"}[kind[1]], text)
        text = re.sub(r"Fl (\S+) Ar (\S+)", lambda words: f"-{words[1]} {words[2].upper()}", text)
        calls[-1] += " " + (text[1:].upper() if text.startswith("=") else text)
    return calls


def described():
    """The calls that the description explains, without options."""
    for line in section("DESCRIPTION"):
        found = re.match(r"\.It (?:Cm (\S+) Ar (.*)|Fl (-help|-version|-large)(?: Ar (.*))?)$", line)
        if found:
            yield " ".join(["gkey", *([found[1], found[2].upper()] if found[1] else [f"-{found[3]}", *([found[4].upper()] if found[4] else [])])])


def ran(*words, out=subprocess.PIPE, limit=None):
    """The status, the output and the error text of a run."""
    def limited():
        if limit is not None:
            resource.setrlimit(resource.RLIMIT_AS, (limit, limit))

    done = subprocess.run([PROGRAM, *words], stdout=out, stderr=subprocess.PIPE, preexec_fn=limited, text=True)
    return str(done.returncode), done.stdout, done.stderr


def completed():
    """Each file of completions/ with the commands that it names."""
    for name, where in COMPLETIONS.items():
        found = re.findall(where, (TOP / "completions" / name).read_text(encoding="utf-8"), re.M)
        yield name, {word.lstrip("-") for word in " ".join(found).split()}


def runs(folder):
    """Runs of each status: its number, what they are to say, which the page has too, and what came."""
    proof, changed, broken = folder / "proof", folder / "changed", folder / "broken.nt"
    proof.write_text(ran("prove", *ALBUMS)[1])
    changed.write_text(proof.read_text().replace("album_year", "other"))
    lines = pathlib.Path(ALBUMS[0]).read_text().splitlines()
    broken.write_text("\n".join([*lines[:2], '<urn:al1> <urn:name> "Anthology 2"@ .', *lines[3:]]) + "\n")
    many, key = folder / "many.nt", folder / "many.gk"
    with many.open("w") as out:
        for n in range(11_586):
            out.write(f'<urn:e{n}> <http://www.w3.org/1999/02/22-rdf-syntax-ns#type> <urn:T> .\n<urn:e{n}> <urn:p> "one" .\n')
    key.write_text("key k <urn:T>\nvalue $v\n?x <urn:p> $v\nend\n")
    yield "0", "accepted", ran("check", *ALBUMS, proof)
    yield "1", "rejected", ran("check", *ALBUMS, changed)
    yield "1", "not the same", ran("why", *ALBUMS, "<urn:al1>", "<urn:Album>")
    yield "2", "graph:3: bad language tag", ran("match", broken, ALBUMS[1])
    yield "2", "first: no such entity", ran("why", *ALBUMS, "<urn:name>", "<urn:al1>")
    yield "2", "pairs: more than 67108864", ran("match", many, key)
    yield "3", "graph: read failed", ran("match", folder / "none", ALBUMS[1])
    with open("/dev/full", "w") as full:
        yield "4", "output: write failed", ran("match", *ALBUMS, out=full)
    yield "5", "out of memory", ran("match", many, key, limit=LITTLE)
    yield "64", "", ran("match")  # the usage is compared by itself


def examples():
    """The commands of the section of examples."""
    text = "\n".join(section("EXAMPLES"))
    for line, block in re.findall(r"^\.Dl ([^\n]*)$|^\.Bd [^\n]*\n(.*?)\n\.Ed$", text, re.M | re.S):
        yield (line or block).replace("\\e", "\\")


def run_examples(folder):
    """What goes wrong in the commands of the examples, in a folder with files of their names."""
    for name in ("town.ttl", "college.ttl", "keys.gk"):
        shutil.copy(TOP / "examples/libraries" / name, folder / name)
    triples = subprocess.run(["serdi", folder / "town.ttl"], stdout=subprocess.PIPE, check=True).stdout
    (folder / "graph.nt.gz").write_bytes(gzip.compress(triples))
    (folder / "examples").symlink_to(TOP / "examples")
    shutil.copy(PROGRAM, folder / "gkey")
    script = "set -e -o pipefail; PATH=.:$PATH\n" + "\n".join(examples())
    done = subprocess.run(["bash", "-c", script], cwd=folder, capture_output=True, text=True)
    return [] if done.returncode == 0 and not done.stderr else [f"the examples end with status {done.returncode}: {done.stderr}"]


def faults_of_form():
    """What `man` and `mandoc` say of the page. Whether they know other pages is of this machine, and not of the page."""
    lint = subprocess.run(["mandoc", "-T", "lint", PAGE], stdout=subprocess.PIPE, stderr=subprocess.STDOUT, text=True).stdout
    yield from (line for line in lint.splitlines() if "mandoc.db" not in line)
    yield from subprocess.run(["man", "--warnings", "-l", PAGE], capture_output=True, text=True).stderr.splitlines()


def differences(folder):
    text = PAGE.read_text(encoding="utf-8")
    usage = [line.strip() for line in ran()[2].splitlines()[1:]]
    for call in sorted(set(usage) ^ set(synopsis())):
        yield f"only in the {'usage' if call in usage else 'synopsis'}: {call}"
    if sorted(usage) == sorted(synopsis()) and usage != synopsis():
        yield "the synopsis has the commands in another order"
    explained = list(described())
    if explained != [call.replace(" [--workers N]", "") for call in usage]:
        yield f"the description explains other commands, or in another order: {explained}"
    commands = {call.split()[1].lstrip("-") for call in usage}
    for name, words in completed():
        if words != commands:
            yield f"completions/{name} names other commands: {sorted(words ^ commands)}"
    version = re.search(r"Fl -version\nPrint\n\.Ql (.*) \.", text)[1]
    if ran("--version") != ("0", version + "\n", ""):
        yield f"--version does not print {version}"
    help_text = ran("--help")[1]
    limits = "\n".join(section("Limits")).split("\n.El")[0]
    for number in sorted(set(re.findall(r"(?<![\^0-9])[0-9]{2,}", limits))):
        if not re.search(rf"(?<![0-9]){number}(?![0-9])", help_text):
            yield f"--help does not have the limit {number}"
    listed = {line.split()[1] for line in section("EXIT STATUS") if line.startswith(".It ")}
    tried = set(NOT_RUN)
    for status, said, (ended, output, error) in runs(folder):
        tried.add(status)
        if ended != status or said not in (output or "") + error:
            yield f"status {ended} and {(output or '') + error!r}, not {status} and {said!r}"
        if f"Ql {said}" not in text:
            yield f"the page has not the text {said!r}"
    for status in sorted(listed ^ tried):
        yield f"status {status} is not both in the page and among the runs"
    yield from run_examples(folder)
    yield from faults_of_form()


def main():
    asked(__doc__)
    need(PACKAGES)
    built()
    with tempfile.TemporaryDirectory() as name:
        found = list(differences(pathlib.Path(name)))
    for each in found:
        print(each)
    print(f"{len(found)} differences")
    sys.exit(len(found) > 0)


if __name__ == "__main__":
    main()
