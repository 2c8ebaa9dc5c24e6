#!/usr/bin/env python3
"""How long a standby waits before it takes over, in ticks.

    python3 tools/takeover.py                        the usual settings
    python3 tools/takeover.py PACE TMIN TMAX [CAP]   one setting; PACE is halving or two-phase

D is counted from the end of a party on the roll, D + tmin from the end of the root; the standby
takes over once the clock has passed that. Both are as tests/model.py has them.
"""

import pathlib
import sys

sys.path.insert(0, str(pathlib.Path(__file__).resolve().parent.parent / "tests"))

import model

PACES = {"halving": model.halving, "two-phase": model.two_phase}
USUAL = [
    ("halving", 1, 1, 64),
    ("halving", 1, 10, 64),
    ("halving", 5, 10, 64),
    ("halving", 1, 60, 64),
    ("halving", 10, 60, 64),
    ("halving", 1, 100, 64),
    ("halving", 10, 100, 64),
    ("halving", 10, 100, 2),
    ("halving", 50, 1000, 64),
    ("halving", 100, 10000, 64),
    ("two-phase", 1, 10, 4),
    ("two-phase", 5, 10, 10),
    ("two-phase", 75, 7200, 10),
    ("two-phase", 75, 7200, 64),
]


def row(pace, tmin, tmax, m):
    model.ask_limits(tmin, tmax)
    waits = model.cap(PACES[pace](tmin, tmax), m)
    closed, joinable = (model.Group(kind, 1, tmin, tmax, waits).patience
                        for kind in (model.CLOSED, model.EXPANDING))
    return [pace, tmin, tmax, m, len(waits), sum(waits),
            closed, closed + tmin, joinable, joinable + tmin]


def main():
    words = sys.argv[1:]
    settings = USUAL
    if words:
        pace, tmin, tmax, *m = words
        settings = [(pace, int(tmin), int(tmax), int(m[0]) if m else 64)]
    rows = [row(*setting) for setting in settings]
    print("| pace | tmin | tmax | cap | R | S | closed: D | D + tmin | can be joined: D | D + tmin |")
    print("|---|---|---|---|---|---|---|---|---|---|")
    for cells in rows:
        print("|", " | ".join(map(str, cells)), "|")


if __name__ == "__main__":
    try:
        main()
    except (KeyError, ValueError, model.Refused) as fault:
        sys.exit(f"not a setting ({fault!r})\n\n{__doc__}")
