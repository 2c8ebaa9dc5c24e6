#!/usr/bin/env python3
"""What rounds with nobody on the roll cost, of which the root ends one every tick.

    python3 bench/idle_rounds.py [ROUNDS]

Run from the repository's root once target/bin/runfile is built. Both limits are 1, and the files wait until ever later ticks, with one order or as many as
a file holds. The cost goes by the orders and not by the clock. The least time of several rounds is told, without that of a file that has no orders.
"""

import pathlib
import sys

TOP = pathlib.Path(__file__).resolve().parent.parent
sys.path.insert(0, str(TOP / "tests"))

import model  # noqa: E402
import schedules  # noqa: E402
from timing import RUNFILE, cost  # noqa: E402

LAST = 3_999_999_999
MOST_ORDERS = (model.INPUT_BYTES - model.START_BYTES) // model.ORDER_BYTES
GOAL = 10


def waits(parties, tick, orders):
    """So many waits, evenly apart, the last of them until the tick."""
    lines = [f"{tick * (k + 1) // orders} wait" for k in range(orders)]
    return schedules.compose("\n".join([f"expanding {parties} halving 1 1 cap 64"] + lines))


def main(words):
    rounds = int(words[0]) if words else 5
    for parties in (1, 32):
        for tick, orders in ((100_000_000, 1), (LAST, 1), (LAST, MOST_ORDERS)):
            data = waits(parties, tick, orders)
            seconds, printed = cost(RUNFILE, data, rounds)
            same = "" if printed == model.runfile(data) else "  OUTPUTS DIFFER"
            group = "1 party" if parties == 1 else f"{parties} parties"
            print(f"{seconds * 1e3:9.3f} ms, goal {GOAL}: {group}, {orders} waits until {tick:,}{same}", flush=True)


if __name__ == "__main__":
    main(sys.argv[1:])
