#!/usr/bin/env python3
"""Plants bugs one at a time and tells what refuses each.

    python3 tests/planted/plant.py [LIST[/WORDS] ...]     # lists are tests/planted/*.bugs; all of them unless said

Of LIST/WORDS only the bugs are tried in whose names the words stand.

Run by hand from the repository's root, once `rt check` has proved it: each bug costs a check of its crate. A list is named by the
crate that its bugs are planted in, up to a dash, and has a block for each bug:

    == a name that says what is wrong
    file: src/cap.rt
    old: k < self.m
    new: k <= self.m

`old` stands once in the file. A block may have several pairs, and several files. The bug is planted in a copy of the crate;
nothing of the repository changes. The table goes to tests/planted/RESULTS.md: each bug with what refused it, which is the
proof of a function or of a lemma, names, the compiler, or nothing. Names means that the first error is a step of the code that a
proof file cites and that the bug took away: that says nothing of the contract. Where nothing refuses, a contract is too weak, and
the status is 1.
"""

import concurrent.futures
import os
import pathlib
import queue
import re
import shutil
import subprocess
import sys
import tempfile

HERE = pathlib.Path(__file__).resolve().parent
TOP = HERE.parent.parent
RESULTS = HERE / "RESULTS.md"
WORKERS = os.cpu_count() or 2


class Bug:
    def __init__(self, crate, name):
        self.crate, self.name = crate, name
        self.edits = []     # (file, old, new)

    def texts(self, folder):
        """Each file that the bug changes, as it is and with the bug in it."""
        texts = {}
        for file, old, new in self.edits:
            path = folder / file
            was, text = texts.setdefault(path, (path.read_text(),) * 2)
            if text.count(old) != 1:
                sys.exit(f"{self.crate}: {self.name}: stands {text.count(old)} times in {file}: {old}")
            texts[path] = was, text.replace(old, new)
        return texts


def read_list(path):
    bugs, file, old = [], None, None
    crate = path.stem.split("-")[0]
    for line in path.read_text().splitlines():
        word, _, rest = line.partition(" ")
        if word == "==":
            bugs.append(Bug(crate, rest))
        elif word == "file:":
            file = rest
        elif word == "old:":
            old = rest
        elif word == "new:":
            bugs[-1].edits.append((file, old, rest))
    return bugs


def check(work, crate):
    """The status and the words of a check that takes over what was proved before."""
    done = subprocess.run(["rt", "check"], cwd=work / "crates" / crate, capture_output=True, text=True, check=False)
    return done.returncode, done.stdout + done.stderr


def refuser(status, said, crate):
    if status == 0:
        return "nothing"
    if not re.search(r"^logic=not-proved", said, re.M):
        error = re.search(r"error(\[[\w-]+\])?[^\n]*", said)
        return "compiler: " + (error.group(0)[:90] if error else f"status {status}")
    functions = re.findall(rf"^fn {crate}::(\S+): (?:no proof|not proved)", said, re.M)
    lemmas = re.findall(r"/proofs/([\w/]+)\.antt:\d+:\d+: error: `([^`]+)`", said)
    first = [f"lemma {name} of {file}" for file, name in lemmas[:1]]
    error = re.search(r"^.*(?:error: |it is not proved|found no proof).*", said, re.M)
    cause = "names" if error and re.search(r"has no (?:field )?`", error.group(0)) else "proof"
    return f"{cause}: " + ", ".join(functions[:3] + [".."] * (len(functions) > 3) + first)


def copy(source, work):
    """The sources alone: a check begins with what was proved of the same text anywhere on this machine."""
    shutil.copy(source / "crates.txt", work)
    shutil.copytree(source / "crates", work / "crates", ignore=shutil.ignore_patterns("out"))


def try_bug(copies, bug):
    work = copies.get()
    texts = bug.texts(work / "crates" / bug.crate)
    try:
        for path, (_, text) in texts.items():
            path.write_text(text)
        return refuser(*check(work, bug.crate), bug.crate)
    finally:
        for path, (was, _) in texts.items():
            path.write_text(was)
        copies.put(work)


def row(bug, refused_by):
    edits = "; ".join(f"`{old.strip()}` → `{new.strip()}`" for _, old, new in bug.edits)
    return f"| {bug.crate} | {bug.name} | {edits.replace('|', chr(92) + '|')} | {refused_by} |"


def known_rows():
    """The rows of earlier runs, by crate and name."""
    rows = {}
    if RESULTS.exists():
        for line in RESULTS.read_text().splitlines():
            cells = line.split(" | ")
            if line.startswith("| ") and len(cells) >= 4 and not line.startswith("| crate"):
                rows[cells[0][2:], cells[1]] = line
    return rows


def main(words):
    chosen = [word.partition("/") for word in words] or [(path.stem, "", "") for path in sorted(HERE.glob("*.bugs"))]
    bugs = [bug for name, _, part in chosen for bug in read_list(HERE / f"{name}.bugs") if part in bug.name]
    rows = known_rows()
    survived = 0
    with tempfile.TemporaryDirectory(prefix="planted-") as folder, concurrent.futures.ThreadPoolExecutor(WORKERS) as pool:
        copies = queue.Queue()      # one for each worker, so that work on the repository can go on
        for worker in range(WORKERS):
            work = pathlib.Path(folder) / str(worker)
            work.mkdir()
            copy(TOP, work)
            copies.put(work)
        for bug, refused_by in zip(bugs, pool.map(lambda bug: try_bug(copies, bug), bugs)):
            print(f"{bug.crate}: {bug.name}: {refused_by}", flush=True)
            rows[bug.crate, bug.name] = row(bug, refused_by)
            survived += refused_by == "nothing"
    listed = [bug for path in sorted(HERE.glob("*.bugs")) for bug in read_list(path)]
    lines = [rows[bug.crate, bug.name] for bug in listed if (bug.crate, bug.name) in rows]
    head = ["# Planted bugs, and what refused each", "", "Written by `plant.py`; each row is one wrong edit, tried alone. *Proof* is a fact that no longer holds. *Names* is a step of",
            "the code that a proof file cites and that the edit took away; such a row says nothing of the contract.", "",
            "| crate | bug | edit | refused by |", "|---|---|---|---|"]
    RESULTS.write_text("\n".join(head + lines) + "\n")
    print(f"{len(bugs)} planted, {survived} refused by nothing")
    return 1 if survived else 0


if __name__ == "__main__":
    sys.exit(main(sys.argv[1:]))
