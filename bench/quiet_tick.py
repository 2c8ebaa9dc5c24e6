#!/usr/bin/env python3
"""What a tick of a quiet group of 32 costs, one that `Group::tick` closes by itself.

    python3 bench/quiet_tick.py [ROUNDS]

Run from the repository's root once target/bin/ticking is built (`bash tools/build.sh ticking`); it closes every tick one by one, where `runfile` passes over quiet ones.
Quiet means that nothing is due: only the clock moves. The program is run on an order file that waits a short and on one that waits a
long time; the difference of their times over the difference of their ticks is the cost of a tick, the start of the program left out. The least of several
rounds is told, since what else the machine does only adds to it. The goal keeps a million such ticks within a fifth of a second.
"""

import pathlib
import resource
import subprocess
import sys

TOP = pathlib.Path(__file__).resolve().parent.parent
sys.path.insert(0, str(TOP / "tests"))

import schedules  # noqa: E402

TICKING = TOP / "target" / "bin" / "ticking"
SHORT, LONG = 9_999, 999_999      # the first round ends at 1,000,000
GROUPS = ["closed 32 halving 1 1000000 cap 64", "closed 32 two-phase 1 1000000 cap 64", "expanding 32 halving 1 1000000 cap 64"]
GOAL = 200


def seconds(data):
    before = resource.getrusage(resource.RUSAGE_CHILDREN)
    subprocess.run([TICKING], input=data, stdout=subprocess.DEVNULL, check=True)
    after = resource.getrusage(resource.RUSAGE_CHILDREN)
    return after.ru_utime + after.ru_stime - before.ru_utime - before.ru_stime


def nanoseconds_a_tick(start, rounds):
    files = [schedules.compose(f"{start}\n{tick} wait\n") for tick in (SHORT, LONG)]
    short, long = (min(seconds(data) for _ in range(rounds)) for data in files)
    return (long - short) / (LONG - SHORT) * 1e9


def main(words):
    rounds = int(words[0]) if words else 5
    for start in GROUPS:
        cost = nanoseconds_a_tick(start, rounds)
        print(f"{cost:6.0f} ns a tick, goal {GOAL}: {start}")


if __name__ == "__main__":
    main(sys.argv[1:])
