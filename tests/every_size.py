#!/usr/bin/env python3
"""Holds the exported file to the model and to an XML reader at every size of the output.

From the repository's root, once tools/build.sh has built the programs:

    python3 tests/every_size.py [COUNT [SEED]]

Program everysize prints what runfile would print at each size from 275 bytes to three more than the
whole file needs. Each is compared with the model's at that size, byte for byte, and read by
check_graphml. Played are some of the examples and COUNT drawn files (8 unless said).
"""

import subprocess
import sys

import check_graphml
import model
import schedules
from run_programs import BIN, SECONDS, TOP, first_difference

EXAMPLES = ["bare-group", "two-parties-one-crashes", "dynamic-group-with-a-leaver", "expanding-group-with-joiners"]
LEAST = 275
LONGEST = 4000


def outputs(data):
    """Each size with what is printed at it."""
    done = subprocess.run([BIN / "everysize"], input=data, capture_output=True, timeout=SECONDS, check=True)
    at = 0
    while at < len(done.stdout):
        line_end = done.stdout.index(b"\n", at)
        size, length = map(int, done.stdout[at:line_end].split())
        at = line_end + 1 + length
        yield size, done.stdout[line_end + 1:at]


def check(data):
    """None, or what is wrong; and how many sizes were tried."""
    start, orders = model.read(data)
    group = model.open_group(start)
    fault = model.play(group, orders)
    wanted_sizes = range(LEAST, len(model.export(group.n, group.log).data) + 4)
    tried = 0
    for (size, got), wanted_size in zip(outputs(data), wanted_sizes):
        if size != wanted_size:
            return f"size {size} where {wanted_size} was to come", tried
        wanted = model.printed(group, fault, size)
        if got != wanted:
            return f"size {size}: {first_difference(got, wanted)}", tried
        try:
            check_graphml.check(got)
        except check_graphml.Fault as wrong:
            return f"size {size}: {wrong}", tried
        tried += 1
    if tried != len(wanted_sizes):
        return f"{tried} sizes of {len(wanted_sizes)}", tried
    return None, tried


def files(count, seed):
    for name in EXAMPLES:
        yield name, (TOP / "examples" / f"{name}.orders").read_bytes()
    drawn = 0
    for place, data in enumerate(schedules.drawn(seed, 40 * count)):
        printed = model.runfile(data)
        if drawn < count and printed.startswith(b"<?xml") and b"<edge" in printed and len(printed) < LONGEST:
            drawn += 1
            yield f"drawn-{seed}-{place}", data


def main(words):
    count, seed = [int(w) for w in words] + [8, 1][len(words):]
    sizes = 0
    failed = 0
    for name, data in files(count, seed):
        wrong, tried = check(data)
        sizes += tried
        if wrong:
            failed += 1
            print(f"{name}: {wrong}")
    print(f"every size: {sizes} files as the model says, in {failed} runs one is not")
    return failed > 0


if __name__ == "__main__":
    sys.exit(main(sys.argv[1:]))
