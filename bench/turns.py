#!/usr/bin/env python3
"""Times turns of many threads at the turn lock, at std's mutex of the kit, and at a plain ticket lock in Rust.

Usage: bench/turns.py [ROUNDS [COMMAND..]]

Turns have one step of arithmetic or take about a microsecond, on 1, 2, 4 and 8 threads. The locks run one after another, some
rounds (9 where none is given), and of each the median counts, since in the best round the threads may not have met. The load
of the machine stands at the end. A lock that serves in order waits for who is next even where that thread has no processor,
so other programs change its figures by orders of magnitude: the command is put before each run, as `chrt -f 5`, which keeps
other programs off the processors. It needs `rustc`.

It makes two programs in a temporary folder, needs the kit (`rt`) and `rustc`, and prints a table.
"""

import pathlib
import statistics
import subprocess
import tempfile

from asking import asked
from building import build
from timing import TOP, print_load

THREADS = [1, 2, 4, 8]
SHORT, LONG = 400_000, 100_000  # turns of all threads together


def nanoseconds(command):
    done = subprocess.run([str(word) for word in command], check=True, capture_output=True, text=True)
    return int(done.stdout.split()[-1])


def steps_of_a_microsecond(before, program):
    """How many steps of arithmetic one thread without a lock makes in a microsecond."""
    steps = 10 ** 7
    return round(steps * 1000 / min(nanoseconds([*before, program, "none", 1, 1, steps]) for _ in range(3)))


def main():
    words = asked(__doc__)
    rounds = int(words[0]) if words else 9
    before = words[1:]
    with tempfile.TemporaryDirectory() as name:
        folder = pathlib.Path(name)
        program = build(folder, "turn_times", ["turn_lock", "anyhow"])
        plain = folder / "ticket_lock"
        subprocess.run(["rustc", "-O", "--edition", "2024", "-o", plain, TOP / "bench/programs/ticket_lock/main.rs"], check=True)
        micro = steps_of_a_microsecond(before, program)
        print(f"a microsecond is {micro} steps; millions of turns a second")
        print("{:>10} {:>7} {:>9} {:>9} {:>9} {:>14}".format("turn", "threads", "turn lock", "mutex", "ticket", "of the better"))
        for turns, steps, text in (SHORT, 1, "one step"), (LONG, micro, "1 us"):
            for threads in THREADS:
                share = turns // threads
                commands = [[*before, *lock, threads, share, steps] for lock in ([program, "lock"], [program, "mutex"], [plain])]
                runs = [[nanoseconds(command) for command in commands] for _ in range(rounds)]
                rates = [share * threads * 1000 / statistics.median(of_one) for of_one in zip(*runs)]
                print("{:>10} {:>7} {:>9.2f} {:>9.2f} {:>9.2f} {:>14.2f}".format(text, threads, *rates, rates[0] / max(rates[1:])))
        print_load()


if __name__ == "__main__":
    main()
