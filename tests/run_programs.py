#!/usr/bin/env python3
"""Runs the built programs and holds what they print to the model and to an XML reader.

From the repository's root, once tools/build.sh has built the programs:

    python3 tests/run_programs.py [COUNT [SEED]]

- runfile plays every order file below examples/ and COUNT drawn files (400 unless said);
  each output is compared with the model's, byte for byte, and each exported file
  is read by check_graphml; where no file is made, its line stands on standard error too
  and the status is 1;
- it also plays two of the examples cut short at every byte, and with each byte damaged;
- each text below examples/ composes to the order file beside it;
- compose writes those bytes too, of each text without damaged records, and of the texts of
  drawn files; of a text that is wrong it writes none, and tells the line, the number, what is wrong there,
  the word that it met and what is due in its place;
- the walkthrough plays its own task, and the file it prints last is read too.
"""

import pathlib
import subprocess
import sys

import check_graphml
import model
import schedules

TOP = pathlib.Path(__file__).resolve().parent.parent
BIN = TOP / "target" / "bin"
KEEP = TOP / "target" / "failed-runs"
SECONDS = 60
SPOILT = ["two-parties-one-crashes", "dynamic-group-with-a-leaver"]

START = b"closed 2 halving 1 10 cap 64\n"

# A complaint's number and its words.
MISSING = (15, "a word is missing")
TOO_MANY = (15, "a word too many")
NO_START = (15, "no start")
UNKNOWN = (16, "a word is not known here")
NO_NUMBER = (16, "a number has a byte that is no digit")
TOO_LARGE = (16, "a number is too large")
NO_SLOT = (12, "more orders than there is room for")
EARLIER = (14, "the tick is before that of the order before")

KIND_DUE = "closed, expanding or dynamic"
ORDER_DUE = "deliver, lose, crash, join, leave or wait"
PACE_DUE = "halving or two-phase"
CAP_DUE = "the cap, a number up to 255,"
PARTIES_DUE = "the number of parties, up to 255,"
TMAX_DUE = "tmax, a number up to 4294967295,"
TICK_DUE = "a tick, a number up to 4294967295,"
END_DUE = "the end of the line"

# A text that is wrong, the line of the complaint, the complaint, and the word that was met with
# what is due in its place; an empty word is the line's end.
WRONG_TEXTS = [
    (b"", 1, NO_START, None),
    (b"# nothing but a comment", 2, NO_START, None),
    (b"\n \t\r\n\n", 4, NO_START, None),
    (b"open 2 halving 1 10 cap 64\n", 1, UNKNOWN, ("open", KIND_DUE)),
    (b"closed2 halving 1 10 cap 64\n", 1, UNKNOWN, ("closed2", KIND_DUE)),
    (b"Closed 2 halving 1 10 cap 64\n", 1, UNKNOWN, ("Closed", KIND_DUE)),
    (b"\nclosed 2 slow 1 10 cap 64\n", 2, UNKNOWN, ("slow", PACE_DUE)),
    (b"closed 2 halving 1 10 cap\n", 1, MISSING, ("", CAP_DUE)),
    (b"closed 2 halving # 1 10 cap 64\n", 1, MISSING, ("", "tmin, a number up to 4294967295,")),
    (b"closed 2 halving 1 10 64 cap\n", 1, UNKNOWN, ("64", "the word cap")),
    (b"closed 2 halving 1 10 cap 64 65\n", 1, TOO_MANY, ("65", END_DUE)),
    (b"closed 256 halving 1 10 cap 64\n", 1, TOO_LARGE, ("256", PARTIES_DUE)),
    (b"closed 2 halving 1 4294967296 cap 64\n", 1, TOO_LARGE, ("4294967296", TMAX_DUE)),
    (b"closed 2 halving -1 10 cap 64\n", 1, NO_NUMBER, ("-1", "tmin, a number up to 4294967295,")),
    (b"closed 2 halving 1 " + b"9" * 50 + b"x cap 64\n", 1, NO_NUMBER, ("9" * 40, TMAX_DUE)),
    (b"closed 2 halving 1 10 cap \xff\n", 1, NO_NUMBER, ("\xff", CAP_DUE)),
    (START + b"wait 4\n", 2, NO_NUMBER, ("wait", TICK_DUE)),
    (START + b"4\n", 2, MISSING, ("", ORDER_DUE)),
    (START + b"4 idle\n", 2, UNKNOWN, ("idle", ORDER_DUE)),
    (START + b"4 wait 0\n", 2, TOO_MANY, ("0", END_DUE)),
    (START + b"4 crash\n", 2, MISSING, ("", "a party, a number up to 255,")),
    (START + b"4 crash 1 1\n", 2, TOO_MANY, ("1", END_DUE)),
    (START + b"4 deliver 1\n", 2, MISSING, ("", "a leg, a number up to 255,")),
    (START + b"4 lose 1 256\n", 2, TOO_LARGE, ("256", "a leg, a number up to 255,")),
    (START + b"4294967296 wait\n", 2, TOO_LARGE, ("4294967296", TICK_DUE)),
    (START + b"\n4 wait\n# between\n3 wait\n4 idle\n", 5, EARLIER, None),
    (START + b"4 wait\n" * 7281, 7282, NO_SLOT, None),
]

# The examples that are wrong on purpose.
COMPLAINTS = {
    "refused-empty-file": (2, NO_START),
    "refused-falling-ticks": (4, EARLIER),
}

# Texts that say the same as others: blanks, ends of lines and leading zeros don't matter.
EVEN_TEXTS = [
    (b"\t closed  2\thalving 1 10 cap 64\r\n\r\n4 wait", START + b"4 wait\n"),
    (b"#\nclosed 002 halving 1 10 cap 064#64\n04 crash 1 # 2\n", START + b"4 crash 1\n"),
    (b"dynamic 255 two-phase 0 4294967295 cap 255\n4294967295 leave 255\n",) * 2,
]


def run_whole(program, data=b"", *words):
    return subprocess.run([BIN / program, *words], input=data, capture_output=True,
                          timeout=SECONDS, check=False)


def first_difference(got, wanted):
    at = next((i for i, (g, w) in enumerate(zip(got, wanted)) if g != w), min(len(got), len(wanted)))
    line = wanted[:at].count(b"\n") + 1
    return (f"{len(got)} bytes for {len(wanted)}, apart from byte {at} in line {line}: "
            f"{got[at:at + 40]!r} for {wanted[at:at + 40]!r}")


def check_runfile(data):
    """None, or what is wrong with runfile's output for this input."""
    wanted = model.runfile(data)
    done = run_whole("runfile", data)
    status, got, told = done.returncode, done.stdout, done.stderr
    if got != wanted:
        return first_difference(got, wanted)
    if got.startswith(b"<?xml"):
        if (status, told) != (0, b""):
            return f"exit status {status}, and it tells {told!r}"
        return check_file(got)
    if (status, told) != (1, wanted):
        return f"no file was made: exit status {status}, and it tells {told!r}"
    return None


def check_file(data):
    try:
        check_graphml.check(data)
    except check_graphml.Fault as fault:
        return str(fault)
    return None


def check_example(path):
    data = path.read_bytes()
    if schedules.compose(path.with_suffix(".txt").read_text()) != data:
        return "the text beside it composes to other bytes"
    return check_runfile(data)


def check_drawn(name, data):
    fault = check_runfile(data)
    if fault:
        KEEP.mkdir(parents=True, exist_ok=True)
        (KEEP / f"{name}.orders").write_bytes(data)
    return fault


def check_compose(text, wanted):
    """None, or what is wrong with the order file that compose makes of a text."""
    done = run_whole("compose", text)
    if done.stdout != wanted:
        return first_difference(done.stdout, wanted)
    if (done.returncode, done.stderr) != (0, b""):
        return f"exit status {done.returncode}, and it tells {done.stderr!r}"
    return None


def check_complaint(text, line, complaint, met=None):
    """None, or what is wrong with what compose tells of a wrong text."""
    number, words = complaint
    done = run_whole("compose", text)
    wanted = f"refused line {line} number {number}: {words}\n".encode()
    if met:
        word, due = met
        front = f"met '{word}'" if word else "the line ends"
        wanted += f"{front} where {due} is due\n".encode("latin-1")
    if (done.returncode, done.stdout, done.stderr) != (1, b"", wanted):
        return f"exit status {done.returncode}, {len(done.stdout)} bytes, {done.stderr!r} for {wanted!r}"
    return None


def composed_examples():
    """The examples whose text is a schedule and no list of damaged records."""
    for path in sorted((TOP / "examples").rglob("*.txt")):
        text = path.read_bytes()
        if b"bytes " not in text:
            yield path.stem, text


def compose_checks(drawn):
    for name, text in composed_examples():
        if name in COMPLAINTS:
            yield f"compose {name}", check_complaint(text, *COMPLAINTS[name])
        else:
            yield f"compose {name}", check_compose(text, schedules.compose(text.decode()))
    for place, (text, same) in enumerate(EVEN_TEXTS):
        yield f"compose even text {place}", check_compose(text, schedules.compose(same.decode()))
    for text, line, complaint, met in WRONG_TEXTS:
        yield f"compose {text[:60]!r}", check_complaint(text, line, complaint, met)
    yield "compose a text that is too long", check_too_long()
    for place, data in enumerate(drawn):
        text = readable(data)
        if text is not None:
            yield f"compose drawn {place}", check_compose(text, schedules.compose(text.decode()))


def check_too_long():
    done = run_whole("compose", START + b" " * (1_048_577 - len(START)))
    wanted = b"refused number 12: the text has more than 1,048,576 bytes\n"
    if (done.returncode, done.stdout, done.stderr) != (1, b"", wanted):
        return f"exit status {done.returncode}, it tells {done.stderr!r}"
    return check_compose(START + b" " * (1_048_576 - len(START)), schedules.compose(START.decode()))


def readable(data):
    """The text of an order file, if the file can be read."""
    try:
        return schedules.text_of(data).encode()
    except model.ReaderFault:
        return None


def check_walkthrough():
    done = run_whole("walkthrough", b"", "--demo")
    got = done.stdout
    if (done.returncode, done.stderr) != (0, b""):
        return f"exit status {done.returncode}, and it tells {done.stderr!r}"
    at = got.find(b"\n<?xml") + 1
    if at == 0:
        return "it prints no exported file"
    return check_file(got[at:])


def spoilt(data):
    """The file cut short at every byte, and with each byte turned over."""
    for at in range(len(data)):
        yield f"cut at {at}", data[:at]
        yield f"byte {at} damaged", data[:at] + bytes([data[at] ^ 0xFF]) + data[at + 1:]
        yield f"byte {at} one more", data[:at] + bytes([(data[at] + 1) % 256]) + data[at + 1:]


def checks(count, seed):
    """Name and fault, if any, of each check."""
    examples = sorted((TOP / "examples").rglob("*.orders"))
    yield "examples", None if examples else "there are none"
    for path in examples:
        yield f"examples/{path.name}", check_example(path)
    for name in SPOILT:
        whole = (TOP / "examples" / f"{name}.orders").read_bytes()
        for how, data in spoilt(whole):
            yield f"{name}, {how}", check_runfile(data)
    drawn = schedules.drawn(seed, count)
    yield from compose_checks(drawn)
    for place, data in enumerate(drawn):
        name = f"drawn-{seed}-{place}"
        yield name, check_drawn(name, data)
    yield "walkthrough", check_walkthrough()


def main(words):
    count, seed = (list(map(int, words)) + [400, 1][len(words):])[:2]
    good = bad = 0
    for name, fault in checks(count, seed):
        if fault:
            bad += 1
            print(f"{name}: {fault}")
        else:
            good += 1
    print(f"programs: {good} runs as the model says, {bad} not")
    return 1 if bad else 0


if __name__ == "__main__":
    sys.exit(main(sys.argv[1:]))
