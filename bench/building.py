"""Builds the measuring programs of bench/programs over copies of the crates that they need."""

import shutil
import subprocess
import sys

from timing import TOP


def crate_lines():
    """The lines of crates.txt by crate."""
    lines = {}
    for text in (TOP / "crates.txt").read_text(encoding="utf-8").splitlines():
        if ":" in text and not text.startswith("#"):
            lines[text.split(":")[0].split()[0]] = text
    return lines


def build(folder, name, dependencies):
    """Builds a program in the folder, and returns its path.

    The crates are copied with out/, so that a tree that has been checked is not proved again. The sources of programs end
    in .txt, since they belong to no crate of this repository.
    """
    lines, kept, wanted = crate_lines(), {}, list(dependencies)
    while wanted:
        crate = wanted.pop()
        if crate in lines and crate not in kept:
            kept[crate] = lines[crate]
            wanted += lines[crate].split(":")[1].split()
    for crate in kept:
        shutil.copytree(TOP / "crates" / crate, folder / "crates" / crate, ignore=shutil.ignore_patterns("must-fail"))
    home = folder / "crates" / name
    shutil.copytree(TOP / "bench" / "programs" / name, home)
    (home / "src").mkdir(exist_ok=True)
    (home / "main.rt.txt").rename(home / "src" / "main.rt")
    for path in home.rglob("*.txt"):
        path.rename(path.with_suffix(""))
    (folder / "crates.txt").write_text("\n".join([*kept.values(), f"{name}: {' '.join(dependencies)}"]) + "\n", encoding="utf-8")
    made = subprocess.run(["rt", "run", "--", "0"], cwd=home,
                          stdout=subprocess.PIPE, stderr=subprocess.STDOUT, text=True)
    program = home / "out" / name
    if not program.exists():
        sys.exit("the program was not built:\n" + made.stdout)
    return program
