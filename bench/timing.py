"""What the measuring scripts share: the program, the words that ask for cases, commands and their times.

The program is the one that bin/program names, or the one that the environment variable GKEY names, which is taken as it stands.
"""

import os
import pathlib
import subprocess
import sys
from typing import NamedTuple

from asking import asks_help

TOP = pathlib.Path(__file__).resolve().parent.parent
PROGRAM = pathlib.Path(os.environ.get("GKEY") or ("" if asks_help() else subprocess.run(
    [TOP / "bin" / "program"], stdout=subprocess.PIPE, text=True, check=True).stdout.strip())).resolve()


class Run(NamedTuple):
    seconds: float    # of processor time in user mode and in the system
    megabytes: float  # the greatest part of memory in use


def built():
    """Ends the script where the program does not run."""
    subprocess.run([PROGRAM, "match", TOP / "examples/albums/graph.nt", TOP / "examples/albums/keys.gk"],
                   check=True, stdout=subprocess.DEVNULL)


def programs(words):
    """The program, with the one behind it that `--before PROGRAM` names; and the words that are left."""
    if words[:1] == ["--before"]:
        return [PROGRAM, pathlib.Path(words[1]).resolve()], words[2:]
    return [PROGRAM], words


def planned(words, plan):
    """The cases that the words ask for, each with a kind and a size; the plan, where there are no words."""
    return [(kind, int(size)) for kind, size in zip(words[::2], words[1::2], strict=True)] if words else plan


def spread(words):
    """Whether the words begin with `--spread`, and the words that are left."""
    return (True, words[1:]) if words[:1] == ["--spread"] else (False, words)


def on_processors(processors, is_spread):
    """The words before a command that runs on these processors alone. Where it is spread, it runs in the system's real-time class:
    each thread that can run then has a processor at once where one is free. Kernels of some virtual machines put a thread that
    wakes beside one that runs, and give it a processor of its own only after some milliseconds (`sched_vcpu_pack` in
    /proc/cmdline)."""
    return [*(["chrt", "--rr", "1"] if is_spread else []), "taskset", "-c", processors]


def print_the_same(commands, case):
    """Ends the script where not all of the commands print the same bytes."""
    if len({subprocess.run(command, stdout=subprocess.PIPE, check=True).stdout for command in commands}) > 1:
        sys.exit(f"{case}: one prints something else than the others")


def print_load():
    print("load of the machine:", *(f"{load:.1f}" for load in os.getloadavg()), "with", os.cpu_count(), "processors")


def timed(command, out=os.devnull):
    """One run, whose output goes to the null device or to a file."""
    with open(out, "wb") as sink:
        child = subprocess.Popen(command, stdout=sink)
        _, status, usage = os.wait4(child.pid, 0)
    if status != 0:
        sys.exit(f"{command[0]}: status {os.waitstatus_to_exitcode(status)}")
    return Run(usage.ru_utime + usage.ru_stime, usage.ru_maxrss / 1024)


def best_of_three(command):
    return min(timed(command) for _ in range(3))


def best_in_turn(commands, rounds=5):
    """The best run of each command. They run in turn, so that a slow minute of the machine falls on all of them."""
    runs = [[timed(command) for command in commands] for _ in range(rounds)]
    return [min(of_one) for of_one in zip(*runs)]
