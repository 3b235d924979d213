#!/usr/bin/env python3
"""Tries what bin/gkey, .ci/run, bin/release, bin/install and bin/package make of the program in release/, in copies of the repository,
with a stand-in for the kit that proves nothing.

Usage: bench/shipped.py. It ends with status 0 where all goes as it should. The program that it ships is the one of `bin/gkey`. It needs
Debian's packages man-db and dpkg, and root, to be somebody who may not write in a copy.

It makes copies of the repository in a temporary folder, and prints a line for each trial.
"""

import os
import pathlib
import re
import shutil
import subprocess
import sys
import tempfile

from asking import asked
from timing import PROGRAM, TOP

MATCH = ["match", "examples/albums/graph.nt", "examples/albums/keys.gk"]
REPORT = "<urn:al1> <urn:al2>\n"
# rt run takes two crates one after another, and the built program from the folder of the kit; rt ci also ends as a file there says
RT = """#!/bin/sh
kit=${0%/*}
case $1 in
    version) cat "$kit/identity" ;;
    run) for it in gk_base gkey; do echo "rt: chose --jobs 2 for $it" >&2; done; sleep 0.2; mkdir -p out; cp "$kit/program" out/gkey ;;
    ci)
        rm -rf crates/gkey/out; mkdir crates/gkey/out; cp "$kit/program" crates/gkey/out/gkey
        echo "rt: ok"; cat "$kit/ends"; grep -q ' 0 failed' "$kit/ends" ;;
esac
"""

# env -i finds the kit that is here
KIT = subprocess.run(["rt", "version"], stdout=subprocess.PIPE, text=True).stdout if shutil.which("rt") else "a kit\n"


def bytes_changed(path, at):
    text = bytearray(path.read_bytes())
    text[at] ^= 1
    path.write_bytes(text)


class Trial:
    """A copy of the repository with a program in release/, and a kit."""

    def __init__(self, room, name):
        self.top, self.kit = room / name / "a copy", room / name / "kit"
        shutil.copytree(TOP, self.top, ignore=shutil.ignore_patterns(".git", "out", "__pycache__"), symlinks=True)
        shutil.rmtree(self.top / "release", ignore_errors=True)
        self.kit.mkdir()
        (self.kit / "rt").write_text(RT)
        (self.kit / "rt").chmod(0o755)
        (self.kit / "identity").write_text(KIT)
        (self.kit / "ends").write_text("3 passed, 0 failed\n")
        shutil.copy(PROGRAM, self.kit / "program")
        (self.top / "release").mkdir()
        self.ship(PROGRAM)

    def ship(self, program):
        shutil.copy(program, self.top / "release" / "gkey")
        self.name_it()

    def name_it(self):
        made_from = self.run("bin/made-from", "release/gkey", has_kit=True).stdout
        (self.top / "release" / "MADE-FROM").write_text(made_from)

    def path(self, has_kit=False, first=None):
        places = [first, self.kit if has_kit else None, pathlib.Path(sys.executable).resolve().parent, "/usr/bin", "/bin"]
        return ":".join(str(place) for place in places if place)

    def run(self, *words, has_kit=False, first=None, before=(), **env):
        env = {"PATH": self.path(has_kit, first), "LC_ALL": "C.UTF-8", **env}
        return subprocess.run([*before, *words], cwd=self.top, env=env, capture_output=True, text=True, errors="replace")

    def match(self, **how):
        return self.run("bin/gkey", *MATCH, **how)


def timed(call):
    """What the call gives, and the processor time that its programs took."""
    before = os.times()
    given = call()
    after = os.times()
    return given, after.children_user + after.children_system - before.children_user - before.children_system


def reports(run, *told):
    """Whether a run prints the report, and tells these things and nothing else on standard error."""
    said = run.stderr if told else run.stderr or None
    return run.returncode == 0 and run.stdout == REPORT and all(text in (said or "") for text in told) and (told or said is None)


def refuses(run, *told):
    return run.returncode == 70 and run.stdout == "" and all(text in run.stderr for text in told)


def plain(room):
    trial = Trial(room, "plain")
    first, *later = [timed(trial.match) for _ in range(20)]
    yield "a first report in a second of processor time, without a kit", reports(first[0]) and first[1] < 1
    print(f"of processor time the first call took {first[1] * 1000:.0f} ms, and later ones {min(took for _, took in later) * 1000:.0f} ms at least")
    yield "with a kit of the same name", reports(trial.match(has_kit=True))
    yield "env -i", reports(trial.run("env", "-i", "bin/gkey", *MATCH))
    (room / "link").symlink_to(trial.top / "bin" / "gkey")
    yield "a symlink from elsewhere", reports(trial.run(room / "link", *MATCH))
    yield "called by name in bin/", trial.run("sh", "-c", "cd bin && sh gkey --version").stdout == "gkey 0.1.0\n"
    version = trial.run("bin/gkey", "--version")
    yield "--version tells which", version.stdout == "gkey 0.1.0\n" and version.stderr == f"gkey: this is {trial.top}/release/gkey\n"


def at_once(room):
    trial = Trial(room, "at once")
    env = {"PATH": trial.path(has_kit=True)}
    for name in ("two first calls at once", "two first builds at once"):
        calls = [subprocess.Popen(["bin/gkey", *MATCH], cwd=trial.top, env=env, stdout=subprocess.PIPE, stderr=subprocess.DEVNULL,
                                  text=True) for _ in range(2)]
        yield name, all(call.communicate()[0] == REPORT and call.returncode == 0 for call in calls)
        shutil.rmtree(trial.top / "release", ignore_errors=True)


def read_only(room):
    trial = Trial(room, "read only")
    home = room / "home"
    home.mkdir()
    os.chown(home, 65534, 65534)
    room.chmod(0o755)
    nobody = ["setpriv", "--reuid=65534", "--regid=65534", "--clear-groups"]
    yield "a checkout that may not be written", reports(trial.match(before=nobody, HOME=str(home)))
    yield "what was chosen is kept in the cache", (home / ".cache" / "gkey" / "chosen").is_file()
    yield "and taken from there", reports(trial.match(before=nobody, HOME=str(home)))
    yield "nor a cache", reports(trial.match(before=nobody)) and not (trial.top / "crates" / "gkey" / "out").exists()
    (trial.top / "HANDLES").write_text("Handles allowed: none.\n")
    yield "nor built there", refuses(trial.match(before=nobody, has_kit=True), "other sources", "cannot be written here")


def changed(room):
    trial = Trial(room, "changed")
    trial.match()
    bytes_changed(trial.top / "release" / "gkey", 5000)
    yield "a byte of the program changed", refuses(trial.match(), "is not the one that release/MADE-FROM names", "no rt on the path")
    yield "and built", reports(trial.match(has_kit=True), "is not the one that release/MADE-FROM names", "built and proved in")
    yield "once", reports(trial.match(has_kit=True))
    trial.ship(PROGRAM)
    with open(trial.top / "crates" / "gkey" / "src" / "main.rt", "a") as source:
        source.write("// changed\n")
    yield "a source changed", reports(trial.match(has_kit=True), "is made from other sources than these", "crates proved")
    yield "built once", reports(trial.match(has_kit=True))
    yield "and run without the kit", reports(trial.match())
    os.utime(trial.top / "crates.txt")
    yield "and built again where a source is newer", reports(trial.match(has_kit=True), "built and proved in")
    trial.name_it()
    (trial.kit / "identity").write_text("another kit\n")
    os.utime(trial.kit / "rt")
    (trial.top / "crates" / "gkey" / "out" / "gkey").unlink()
    yield "another kit", reports(trial.match(has_kit=True), "is made by another kit than the one here")


def elsewhere(room):
    trial = Trial(room, "elsewhere")
    arm = room / "arm"
    arm.mkdir()
    (arm / "uname").write_text("#!/bin/sh\necho Linux aarch64\n")
    (arm / "uname").chmod(0o755)
    yield "another processor", reports(trial.match(has_kit=True, first=arm), "is for Linux on x86-64, and this is Linux aarch64")
    newest = max(re.findall(rb"GLIBC_2\.(\d+)\0", PROGRAM.read_bytes()), key=int)
    (room / "later").write_bytes(PROGRAM.read_bytes().replace(b"GLIBC_2.%s\0" % newest, b"GLIBC_2.99\0"))
    (room / "later").chmod(0o755)
    trial.ship(room / "later")
    (trial.top / "crates" / "gkey" / "out" / "gkey").unlink()
    yield "an older C library", reports(trial.match(has_kit=True), "does not run here", "GLIBC_2.99")


def compared(room):
    trial = Trial(room, "compared")
    release = trial.top / "release"

    def gate(status, told, ends="3 passed, 0 failed"):
        run = trial.run(".ci/run", has_kit=True)
        return run.returncode == status and told in run.stdout and run.stdout.splitlines()[-1] == ends

    yield ".ci/run finds the program that it built", gate(0, "byte for byte the program")
    bytes_changed(release / "gkey", 5000)
    yield "a byte of the program changed, for .ci/run", gate(1, "is not the program that release/MADE-FROM names", "3 passed, 1 failed")
    trial.name_it()
    yield "another program under this checksum", gate(1, "is not the program that was built", "3 passed, 1 failed")
    trial.ship(PROGRAM)
    for at, told in ((10, "other sources or by another kit"), (75, "other sources or by another kit"), (-5, "is not the program that")):
        bytes_changed(release / "MADE-FROM", at)
        yield f"byte {at} of MADE-FROM changed", gate(1 if at < 0 else 0, told, f"3 passed, {int(at < 0)} failed")
        trial.name_it()
    (trial.kit / "ends").write_text("2 passed, 1 failed\n")
    yield ".ci/run fails where rt ci does", gate(1, "rt: ok", "2 passed, 1 failed")
    yield "bin/release does not ship what failed", trial.run("bin/release", has_kit=True).returncode == 1
    (trial.kit / "ends").write_text("3 passed, 0 failed\n")
    shutil.rmtree(release)
    yield ".ci/run where nothing is shipped", gate(0, "no program is shipped")
    released = trial.run("bin/release", has_kit=True)
    yield "bin/release ships what .ci/run left", released.returncode == 0 and "passed" not in released.stdout and reports(trial.match())


def tree(folder):
    return sorted(str(path.relative_to(folder)) for path in folder.rglob("*"))


def installed(room):
    trial, prefix = Trial(room, "installed"), room / "a prefix"
    (prefix / "share" / "man").mkdir(parents=True)
    before = tree(prefix)
    for _ in range(2):
        yield "bin/install", trial.run("bin/install", prefix).returncode == 0
    yield "the installed program", reports(trial.run(prefix / "bin" / "gkey", *MATCH))
    page = trial.run("man", "gkey", MANPATH=str(prefix / "share" / "man"), MANPAGER="cat", MANWIDTH="80")
    yield "man gkey", "find the entities of a graph" in page.stdout
    complete = f". '{prefix}/share/bash-completion/completions/gkey'; COMP_WORDS=(gkey \"$@\"); COMP_CWORD=$#; _gkey; echo ${{COMPREPLY[*]}}"
    for words, found in ((["m"], "match merge"), (["match", "examples/albums/gr"], "examples/albums/graph.nt"), (["match", "--w"], "--workers"),
                         (["why", "--workers", "2", "g", "examples/albums/k"], "examples/albums/keys.gk"), (["demo", "e"], ""),
                         (["why", "g", "k", "examples/"], "")):
        yield f"completion of {words}", trial.run("bash", "-c", complete, "", *words).stdout == f"{found}\n"
    yield "bin/install --remove", trial.run("bin/install", "--remove", prefix).returncode == 0 and tree(prefix) == before
    packed, root = trial.run("bin/package", room), room / "root"
    yield "bin/package", packed.returncode == 0 and not packed.stderr
    package = next(room.glob("gkey_*_amd64.deb"))
    yield "it depends on the C library alone", re.fullmatch(r"libc6 \(>= 2\.\d+\)\n", trial.run("dpkg-deb", "-f", package, "Depends").stdout)
    subprocess.run(["dpkg-deb", "-x", package, root], check=True)
    yield "the packed program", reports(trial.run(root / "usr/bin/gkey", *MATCH))


def main():
    asked(__doc__)
    wrong = 0
    with tempfile.TemporaryDirectory() as folder:
        for part in (plain, at_once, read_only, changed, elsewhere, compared, installed):
            for name, is_right in part(pathlib.Path(folder)):
                wrong += not is_right
                print(f"{'right' if is_right else 'WRONG'}: {name}", flush=True)
    return 1 if wrong else 0


if __name__ == "__main__":
    sys.exit(main())
