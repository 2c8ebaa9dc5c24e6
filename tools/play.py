#!/usr/bin/env python3
"""Plays a text schedule: composes it, plays it, and checks the file that comes of it.

    python3 tools/play.py my.txt        # writes my.graphml beside it

Both programs have to be built (make build). What is refused is told with the line of the text in
which it stands. The status is 0 where the whole schedule was played, 1 where something in it was
refused, and 2 where nothing could be run.
"""

import pathlib
import re
import subprocess
import sys

TOP = pathlib.Path(__file__).resolve().parent.parent
BIN = TOP / "target" / "bin"
sys.path.insert(0, str(TOP / "tests"))

import check_graphml  # noqa: E402

QUESTION = re.compile(r"^\| (\d+) \| ([^|]*\?) \|", re.MULTILINE)
COMPLAINT = re.compile(r"refused line (\d+) ")
SET_UP = re.compile(r"refused byte 0 number (\d+)\n")


class Refused(Exception):
    """A message for the planner."""


def run(program, data, *options):
    done = subprocess.run([BIN / program, *options], input=data, capture_output=True, check=False)
    return done.returncode, done.stdout, done.stderr.decode(errors="replace")


def because(number):
    """The number of a refusal with its question, as docs/refusals.md has it."""
    questions = dict(QUESTION.findall((TOP / "docs" / "refusals.md").read_text()))
    question = questions.get(str(number))
    return f"refused by number {number}" + (f": {question} No." if question else "")


class Schedule:
    def __init__(self, path):
        self.path = path
        self.text = path.read_bytes()
        self.lines = self.text.decode(errors="replace").split("\n")

    def at(self, number):
        """A line, as messages name it."""
        line = self.lines[number - 1].strip() if number <= len(self.lines) else ""
        return f"{self.path}:{number}: " + (f"'{line}': " if line else "")

    def start_line(self):
        """The number of the first line with words."""
        return next(n for n, line in enumerate(self.lines, 1) if line.split("#")[0].strip())

    def order_line(self, place):
        """The number of the line in which the order at this place stands."""
        _, listing, _ = run("compose", self.text, "--map")
        return dict(map(int, line.split()) for line in listing.decode().splitlines())[place]

    def order_file(self):
        status, orders, complaint = run("compose", self.text)
        if status == 0:
            return orders
        found = COMPLAINT.search(complaint)
        raise Refused(self.at(int(found[1]) if found else 1) + complaint.strip())

    def graph_file(self):
        status, printed, complaint = run("runfile", self.order_file())
        if status == 0:
            return printed
        found = SET_UP.fullmatch(complaint)
        reason = because(int(found[1])) if found else complaint.strip()
        raise Refused(self.at(self.start_line()) + reason)


def play(path, out):
    """Writes the file, and answers the line that is printed of it."""
    schedule = Schedule(path)
    try:
        data = schedule.graph_file()
    except Refused as refused:
        raise Refused(f"{refused}\n{out} was not written") from None
    out.write_bytes(data)
    try:
        summary = check_graphml.check(data)
    except check_graphml.Fault as fault:
        raise Refused(f"{out}: not as it should be: {fault}") from None
    if summary.refused:
        place, number = summary.refused
        raise Refused(f"{schedule.at(schedule.order_line(place))}{because(number)}\n"
                      f"{out} has the run up to there")
    cut = ", cut at 65,536 bytes" if summary.cut else ""
    return (f"{out}: parties {summary.parties}, happenings {len(summary.happenings)}, "
            f"edges {len(summary.edges)}{cut}")


def main(words):
    if len(words) != 1:
        print("usage: make play SCHEDULE=my.txt", file=sys.stderr)
        return 2
    path = pathlib.Path(words[0])
    out = path.with_suffix(".graphml")
    missing = [name for name in ("compose", "runfile") if not (BIN / name).exists()]
    if missing:
        print(f"not built yet: {' and '.join(missing)}; make build does that", file=sys.stderr)
        return 2
    if out == path:
        print(f"{path} is a graph file and no schedule", file=sys.stderr)
        return 2
    try:
        print(play(path, out))
    except Refused as refused:
        print(refused, file=sys.stderr)
        return 1
    except OSError as error:
        print(error, file=sys.stderr)
        return 2
    return 0


if __name__ == "__main__":
    sys.exit(main(sys.argv[1:]))
