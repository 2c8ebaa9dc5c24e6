"""The time that a program takes on an order file, without that of starting it."""

import pathlib
import subprocess
import sys
import tempfile
import time

TOP = pathlib.Path(__file__).resolve().parent.parent
sys.path.insert(0, str(TOP / "tests"))

import schedules  # noqa: E402

RUNFILE = TOP / "target" / "bin" / "runfile"
BARE = schedules.compose("closed 1 halving 1 10 cap 64\n")
MOST_SECONDS = 0.4      # of one row of runs


def seconds(program, data, runs):
    with tempfile.TemporaryFile() as file:
        file.write(data)
        began = time.perf_counter()
        for _ in range(runs):
            file.seek(0)
            subprocess.run([program], stdin=file, stdout=subprocess.DEVNULL, check=True)
        return (time.perf_counter() - began) / runs


def cost(program, data, rounds):
    """The seconds of one run, without the start of the program; and what it prints."""
    began = time.perf_counter()
    printed = subprocess.run([program], input=data, capture_output=True, check=True).stdout
    first = time.perf_counter() - began
    if first > 5:
        return first, printed
    runs = max(1, min(200, int(MOST_SECONDS / first)))
    whole = min(seconds(program, data, runs) for _ in range(rounds))
    start = min(seconds(program, BARE, 200) for _ in range(rounds))
    return max(whole - start, 1e-6), printed
