#!/usr/bin/env python3
"""Holds the programs to what docs/programs.md says of arguments, streams, exit status and messages.

From the repository's root, once tools/build.sh has built the programs:

    python3 tests/command_lines.py

- each program answers --help, and refuses other words, a terminal and what is no UTF-8, with its
  usage;
- compose --map tells the line of each order, of the examples and of drawn files;
- the walkthrough plays its own task only where it is asked to, and tells what it can't play;
- tools/play.py tells the line of the text in which something is refused.
"""

import os
import pathlib
import pty
import re
import subprocess
import sys
import tempfile

import check_graphml
import schedules
from run_programs import (BIN, COMPLAINTS, KIND_DUE, SECONDS, START, TOP,
                          composed_examples, readable, run_whole)

USAGES = {
    "compose": b"usage: compose [--map | --help] < SCHEDULE.txt > FILE.orders\n",
    "runfile": b"usage: runfile [--help] < FILE.orders > RUN.graphml\n",
    "walkthrough": b"usage: walkthrough [--demo | --help] < FILE.orders\n",
}
OPTIONS = {"compose": "--map", "runfile": None, "walkthrough": "--demo"}
EMPTY = b"refused byte 0 number 15\n"


def differs(done, status, stdout, stderr):
    """None, or what is wrong with how a program ended and what it wrote."""
    if (done.returncode, done.stdout, done.stderr) == (status, stdout, stderr):
        return None
    return (f"status {done.returncode} for {status}, {done.stdout[:200]!r} for {stdout[:200]!r}, "
            f"{done.stderr!r} for {stderr!r}")


# ---- arguments -----------------------------------------------------------

def refused_words(program):
    others = [option for option in OPTIONS.values() if option and option != OPTIONS[program]]
    yield from ([word] for word in ["", "-h", "--Help", "--help=", "file.txt", b"\xff"] + others)
    yield ["--help", "--help"]
    if OPTIONS[program]:
        yield [OPTIONS[program], OPTIONS[program]]


def argument_checks(program):
    usage = USAGES[program]
    for words in refused_words(program):
        yield f"{program} {words}", differs(run_whole(program, b"", *words), 2, b"", usage)
    done = run_whole(program, b"", "--help")
    told = done.stdout.startswith(usage) and len(done.stdout.splitlines()) > 1
    fault = differs(done, 0, done.stdout, b"") or (None if told else "no usage in its help")
    yield f"{program} --help", fault


def at_terminal(program, *words):
    """A run whose standard input is a terminal."""
    ours, theirs = pty.openpty()
    try:
        return subprocess.run([BIN / program, *words], stdin=theirs, capture_output=True,
                              timeout=SECONDS, check=False)
    finally:
        os.close(ours)
        os.close(theirs)


def terminal_checks():
    for program, usage in USAGES.items():
        yield f"{program} at a terminal", differs(at_terminal(program), 2, b"", usage)
    mapped = at_terminal("compose", "--map")
    yield "compose --map at a terminal", differs(mapped, 2, b"", USAGES["compose"])


# ---- compose --map -------------------------------------------------------

def check_map(text):
    done = run_whole("compose", text, "--map")
    numbered = enumerate(text.split(b"\n"), 1)
    orders = [number for number, line in numbered if line.split(b"#")[0].split()][1:]
    wanted = b"".join(b"%d %d\n" % placed for placed in enumerate(orders))
    return differs(done, 0, wanted, b"")


def map_checks():
    for name, text in composed_examples():
        if name not in COMPLAINTS:
            yield f"map of {name}", check_map(text)
    for place, data in enumerate(schedules.drawn(7, 60)):
        text = readable(data)
        if text is not None:
            yield f"map of drawn {place}", check_map(text)
            bare = text.replace(b"\n", b"\n\n # 1 wait\n\t\r\n")
            yield f"map of drawn {place} with bare lines", check_map(bare)
    wrong = b"open 2 halving 1 10 cap 64\n"
    told = (b"refused line 1 number 16: a word is not known here\n"
            b"met 'open' where %s is due\n" % KIND_DUE.encode())
    yield "map of a wrong text", differs(run_whole("compose", wrong, "--map"), 1, b"", told)


# ---- the walkthrough -----------------------------------------------------

def walkthrough_checks():
    task = (TOP / "crates" / "walkthrough" / "stdout").read_bytes()
    orders = (TOP / "examples" / "two-parties-one-crashes.orders").read_bytes()
    yield "walkthrough --demo", differs(run_whole("walkthrough", b"", "--demo"), 0, task, b"")
    beside = run_whole("walkthrough", orders[:20], "--demo")
    yield "walkthrough --demo with an input", differs(beside, 0, task, b"")
    yield "walkthrough at a terminal", differs(at_terminal("walkthrough", "--demo"), 0, task, b"")
    yield "walkthrough of the task", differs(run_whole("walkthrough", orders), 0, task, b"")
    yield "walkthrough of nothing", differs(run_whole("walkthrough"), 1, EMPTY, EMPTY)
    yield "walkthrough of a text", differs(run_whole("walkthrough", START), 1, EMPTY, EMPTY)
    plan = (TOP / "examples" / "refused-plan-of-33-parties.orders").read_bytes()
    told = b"refused byte 0 number 5\n"
    yield "walkthrough of a refused plan", differs(run_whole("walkthrough", plan), 1, told, told)


# ---- from a text to a file -----------------------------------------------

# A text, the status, and the messages on standard error. In these NAME is the text's file, OUT the
# graph's, and QUESTION a question that was answered no.
PLAYED = [
    (START + b"12 crash 1\n", 1, "NAME:2: '12 crash 1': refused by number 11: "
     "QUESTION No.\nOUT has the run up to there\n"),
    (b"# first\n" + START + b"\n1 wait\n\n2 crash 3 # no such party\n3 wait\n", 1,
     "NAME:6: '2 crash 3 # no such party': refused by number 6: "
     "QUESTION No.\nOUT has the run up to there\n"),
    (b"\n\nclosed 33 halving 1 10 cap 64\n", 1,
     "NAME:3: 'closed 33 halving 1 10 cap 64': refused by number 5: QUESTION No.\n"
     "OUT was not written\n"),
    (START + b"4 idle\n", 1,
     "NAME:2: '4 idle': refused line 2 number 16: a word is not known here\n"
     "met 'idle' where deliver, lose, crash, join, leave or wait is due\nOUT was not written\n"),
    (b"", 1, "NAME:1: refused line 1 number 15: no start\nOUT was not written\n"),
    (START + b"9 wait\n", 0, ""),
]


def play(path):
    return subprocess.run([sys.executable, TOP / "tools" / "play.py", path], capture_output=True,
                          timeout=SECONDS, check=False)


def check_played(folder, text, status, messages):
    path = pathlib.Path(folder) / "my.txt"
    out = path.with_suffix(".graphml")
    out.unlink(missing_ok=True)
    path.write_bytes(text)
    done = play(path)
    named = messages.replace("NAME", str(path)).replace("OUT", str(out))
    wanted = re.escape(named).replace("QUESTION", r"[A-Z][^\n]+\?")
    told = done.stderr.decode()
    if done.returncode != status or not re.fullmatch(wanted, told):
        return f"status {done.returncode} for {status}, {told!r} for {named!r}"
    if out.exists() != ("was not written" not in messages):
        return "the file is there" if out.exists() else "there is no file"
    return None


def check_example_played(folder, name):
    """The file that comes of an example's text is what runfile prints of its order file."""
    text = (TOP / "examples" / f"{name}.txt").read_bytes()
    fault = check_played(folder, text, 0, "")
    data = (pathlib.Path(folder) / "my.graphml").read_bytes()
    orders = (TOP / "examples" / f"{name}.orders").read_bytes()
    if fault is None and data != run_whole("runfile", orders).stdout:
        return "another file than runfile's"
    check_graphml.check(data)
    return fault


def play_checks():
    with tempfile.TemporaryDirectory() as folder:
        for text, status, messages in PLAYED:
            yield f"play {text[:60]!r}", check_played(folder, text, status, messages)
        for name in ("two-parties-one-crashes", "long-run-cut-file"):
            yield f"play {name}", check_example_played(folder, name)
        none = play(pathlib.Path(folder) / "none.txt")
        yield "play no file", None if none.returncode == 2 else f"its status is {none.returncode}"


def checks():
    for program in USAGES:
        yield from argument_checks(program)
    yield from terminal_checks()
    yield from map_checks()
    yield from walkthrough_checks()
    yield from play_checks()


def main():
    faults = [(name, fault) for name, fault in checks()]
    bad = [(name, fault) for name, fault in faults if fault]
    for name, fault in bad:
        print(f"{name}: {fault}")
    print(f"command lines: {len(faults) - len(bad)} runs as they are told, {len(bad)} not")
    return 1 if bad else 0


if __name__ == "__main__":
    sys.exit(main())
