#!/usr/bin/env python3
"""Runs the commands that GUIDE, SIZES and README show, and compares what they print with what is shown there. Of every page
it looks whether its links lead to files and headings of the repository.

Usage: bench/guide.py [PAGE ..]   (README.md, docs/GUIDE.md and docs/SIZES.md, if none is given)

The page scale/README.md needs Debian's packages postgresql and python3-psycopg2, too.

Blocks between lines of ``` are of three sorts. One that has a line with `$ ` in front is a session: each such line is a
command, with the lines that follow a `\\` at its end, and what stands below it is what it prints, on either stream. A block
whose first word is `key` is a key file, and any other block whose lines end in ` .` is a graph: the program must accept these.
A block of none of these sorts is told as such, and makes the status 1.

All commands of a page run one after another in one shell, in a folder of its own, which has docs/, examples/, bench/, bin/
and scale/ of this repository, the program, and no sources, so that bin/gkey finds nothing to build. The commands in NOT_RUN are left out.
It needs Debian's packages serdi, raptor2-utils, graphviz and pv; where one is missing, it names it and ends with status 1.

It prints what differs, and for each page how many commands are as shown.
"""

import difflib
import os
import pathlib
import re
import shutil
import subprocess
import sys
import tempfile

from asking import asked, need
from timing import PROGRAM, TOP, built

PAGES = ("README.md", "docs/GUIDE.md", "docs/SIZES.md")
NOT_RUN = {".ci/run": "proves everything, which takes long", "man -l docs/gkey.1": "shows a page on a screen",
           "cd crates/gkey && rt try -- match $PWD/../../examples/albums/graph.nt $PWD/../../examples/albums/keys.gk":
           "compiles the sources, which takes two minutes"}
# the commands of the pages that not every system has, each with Debian's package of it
PACKAGES = {"serdi": "serdi", "rapper": "raptor2-utils", "dot": "graphviz", "pv": "pv"}
MARK = "==== bench/guide.py ===="
SECONDS = 600


def blocks_of(text):
    """The number of the first line of each block, and its lines."""
    lines, first = text.split("\n"), None
    for number, line in enumerate(lines, 1):
        if line.startswith("```"):
            if first is not None:
                yield first, lines[first - 1:number - 1]
            first = number + 1 if first is None else None


def session_of(first, lines):
    """The commands of a session, each with its line and the lines that it is to print."""
    steps, at = [], 0
    while at < len(lines):
        line = lines[at]
        at += 1
        if line.startswith("$ "):
            command = [line[2:]]
            while command[-1].endswith("\\") and at < len(lines):
                command.append(lines[at])
                at += 1
            steps.append((first + at - len(command), "\n".join(command), []))
        elif steps:
            steps[-1][2].append(line)
        else:
            raise ValueError(f"line {first + at - 1}: no command stands above")
    return steps


def copied(folder):
    """A copy of the repository without its sources, in which bin/gkey runs the program."""
    for name in ("docs", "examples", "bench", "bin", "scale"):
        shutil.copytree(TOP / name, folder / name, ignore=shutil.ignore_patterns("__pycache__"))
    for name in ("README.md", "crates.txt"):
        shutil.copy2(TOP / name, folder / name)
    home = folder / "crates" / "gkey" / "out"
    home.mkdir(parents=True)
    shutil.copy(PROGRAM, home / "gkey")
    return folder


def run(folder, commands):
    """What each command prints on both streams, all of them in one shell."""
    script = "".join(f"{command}\nprintf '\\n%s\\n' '{MARK}'\n" for command in commands)
    done = subprocess.run(["bash", "-c", script], cwd=folder, stdout=subprocess.PIPE, stderr=subprocess.STDOUT, timeout=SECONDS,
                          env=dict(os.environ, LC_ALL="C.UTF-8"))
    return done.stdout.decode(errors="replace").split(f"\n{MARK}\n")[:-1]


def accepted(folder, sort, lines):
    """What the program says of a block that is a key file or a graph; nothing, where it accepts it."""
    block, empty = folder / "block", folder / "empty"
    block.write_text("\n".join(lines) + "\n", encoding="utf-8")
    empty.write_text("")
    graph, keys = (empty, block) if sort == "keys" else (block, empty)
    return subprocess.run([PROGRAM, "match", graph, keys], capture_output=True, text=True).stderr


def sort_of(lines):
    spoken = [line for line in lines if line.strip() and not line.startswith("#")]
    if any(line.startswith("$ ") for line in lines):
        return "session"
    if spoken and spoken[0].startswith("key "):
        return "keys"
    if spoken and all(re.search(r" \.( *#.*)?$", line) for line in spoken):
        return "graph"
    return None


def judged(page, folder):
    """The number of commands and blocks that are as shown, and of those that are not."""
    steps, right, wrong = [], 0, 0
    for first, lines in blocks_of((TOP / page).read_text(encoding="utf-8")):
        sort = sort_of(lines)
        if sort == "session":
            steps += session_of(first, lines)
            continue
        fault = "no command, key file or graph\n" if sort is None else accepted(folder, sort, lines)
        right, wrong = right + (not fault), wrong + bool(fault)
        if fault:
            print(f"{page}:{first}: {fault}", end="")
    for line, command, _ in steps:
        if command in NOT_RUN:
            print(f"{page}:{line}: not run: {command} ({NOT_RUN[command]})")
    steps = [step for step in steps if step[1] not in NOT_RUN]
    printed = run(folder, [command for _, command, _ in steps])
    for (line, command, wanted), got in zip(steps, printed):
        shown, got = "\n".join(wanted).rstrip("\n"), got.rstrip("\n")
        right, wrong = right + (got == shown), wrong + (got != shown)
        if got != shown:
            print(f"{page}:{line}: prints something else: {command}")
            print("\n".join(difflib.unified_diff(shown.split("\n"), got.split("\n"), "shown", "printed", lineterm="")))
    if len(printed) < len(steps):
        wrong += 1
        print(f"{page}:{steps[len(printed)][0]}: the shell ended here")
    return right, wrong


def heading_names(text):
    """The names by which links call the headings of a page."""
    headings = re.findall(r"^#+ (.*)$", re.sub(r"^```.*?^```$", "", text, flags=re.M | re.S), re.M)
    return {re.sub(r"[^\w\- ]", "", heading.lower()).replace(" ", "-") for heading in headings}


def lost_links():
    """The links of all pages that lead to no file or heading of the repository."""
    pages = [TOP / "README.md", *(path for part in ("docs", "bench", "examples", "scale") for path in sorted((TOP / part).rglob("*.md")))]
    for page in pages:
        for link in re.findall(r"\]\(([^)\s]+)\)", page.read_text(encoding="utf-8")):
            name, _, heading = link.partition("#")
            target = page.parent / name if name else page
            is_there = "://" in link or target.exists()
            if is_there and heading and "://" not in link:
                is_there = heading in heading_names(target.read_text(encoding="utf-8"))
            if not is_there:
                yield f"{page.relative_to(TOP)}: leads nowhere: {link}"


def main():
    words = asked(__doc__)
    need(PACKAGES)
    built()
    lost = list(lost_links())
    print("".join(each + "\n" for each in lost), end="")
    failed = len(lost) > 0
    for page in words or [page for page in PAGES if (TOP / page).exists()]:
        with tempfile.TemporaryDirectory() as name:
            right, wrong = judged(page, copied(pathlib.Path(name)))
        print(f"{page}: {right} as shown, {wrong} not")
        failed = failed or wrong > 0
    sys.exit(failed)


if __name__ == "__main__":
    main()
