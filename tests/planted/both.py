#!/usr/bin/env python3
"""Turns a rule in the code and in its definition alike, one rule at a time, and tells what refuses it.

    python3 tests/planted/both.py [WORDS ...]     # the entries of both.list in whose names one of the words stands; all of them unless said
    python3 tests/planted/both.py --code [WORDS ...]     # also checks the code of the crates that an entry edits

An entry is a block as in the lists of plant.py, but a file is named from crates/ on, `⏎` in a text ends a line, and a line `law: WORDS` says which law
the change makes false, and by which run. Since the code still does what its definition says, only a statement above the definition can refuse the
change. The worked examples are such a statement: they are computed here from the changed definitions, in a copy without functions (bare.py), and each
example is told that no longer comes out. The table goes to BOTH.md; the status is 1 where nothing refuses a change, or where its definitions
no longer read.
"""

import pathlib
import re
import subprocess
import sys
import tempfile

import bare
import plant

HERE = pathlib.Path(__file__).resolve().parent
TOP = HERE.parent.parent
RESULTS = HERE / "BOTH.md"
TABLE = "handplayed/specs/Table.antt"
PROOF = "handplayed/proofs/worked/worked_examples_stand/Answers.antt"
EXAMPLE = re.compile(r"\bexample \(")
GIVEN = re.compile(r"\bexample \((.*?)\)(?: record| \((?:number|refused|record)|$)")


def lines_broken(text):
    return text.replace("⏎", "\n")


def read_list(path):
    entries, laws = plant.read_list(path), {}
    for line in path.read_text().splitlines():
        word, _, rest = line.partition(" ")
        if word == "==":
            name = rest
        elif word == "law:":
            laws[name] = rest
    for entry in entries:
        entry.edits = [(file, lines_broken(old), lines_broken(new)) for file, old, new in entry.edits]
        entry.law = laws.get(entry.name, "")
    return entries


def examples(table):
    """The lists of the table, each with the comment of each example, or the text of its first line."""
    lists = {}
    for block in re.split(r"(?m)^abbrev pub ", table):
        name = re.match(r"(\w+) : List Example\n", block)
        if not name or name[1] == "table":
            continue
        rows, comment = [], ""
        for line in block.splitlines():
            if line.strip().startswith("--"):
                comment = f"{comment} {line.strip()[3:]}".strip()
            elif EXAMPLE.search(line):
                rows.append(comment or f"`{re.search(GIVEN, line)[1]}`")
                comment = ""
        lists[name[1]] = rows
    return lists


def probes(table, proof):
    """A lemma for each example, in place of the one for all."""
    head, _, _ = proof.partition("pub returns")
    unfolding = re.search(r"(?m)^unfolding .*\n", proof)[0]
    lists = examples(table)
    names = ", ".join(lists)
    lines = [head.replace("use Rattle.std.proofs.Common.{refl}", "use Rattle.std.proofs.Common.{◌≡◌, map, take, drop, refl}"),
             f"use Rattle.handplayed.specs.Columns.{{outcome}}\nuse Rattle.handplayed.specs.Table.{{Example, {names}}}\n\n"]
    for name, rows in lists.items():
        for k in range(len(rows)):
            one = f"(take 1 (drop {k} {name}))"
            lines.append(f"{name}_{k + 1} : map (λ (e : Example). outcome e.given) {one} ≡ map (λ (e : Example). e.expected) {one}\n"
                         f"{unfolding}{name}_{k + 1} = refl\n\n")
    return "".join(lines) + proof[proof.index("pub returns"):]


def check(work, crate):
    done = subprocess.run(["rt", "check"], cwd=work / "crates" / crate, capture_output=True, text=True, check=False)
    return done.returncode, done.stdout + done.stderr


def failing(work, crates, entry):
    """The examples that no longer come out once the definitions are changed, or None with the first error where these no longer read."""
    edited = [file for file, _, _ in entry.edits if file.split("/")[0] in bare.CRATES]
    texts = {}
    try:
        for path, (_, text) in entry.texts(crates).items():
            file = str(path.relative_to(crates))
            to = bare.place(work, file)
            if to.exists():
                texts[to] = to.read_text()
                bare.put(work, file, text)
        status, said = check(work, "bare")
    finally:
        for path, text in texts.items():
            path.write_text(text)
    rows = [name for name in re.findall(r"(?m)^\S*/Answers\.antt:\d+:\d+: error: `([^`]+)`", said) if name != "returns"]
    others = [line for line in re.findall(r"^.*error.*$", said, re.M) if "/Answers.antt" not in line]
    if others or (status and not rows) or not edited:
        return None, (others + said.splitlines()[-3:])[0][:300]
    return rows, ""


def said_of(rows, lists):
    """So many examples of each list, and what the first of them says."""
    counts = {}
    for row in rows:
        name = row.rsplit("_", 1)[0]
        counts[name] = counts.get(name, 0) + 1
    name, k = rows[0].rsplit("_", 1)
    told = ", ".join(f"{n} of {name}" for name, n in counts.items())
    return f"{told}; first: {lists[name][int(k) - 1]}".replace("|", "\\|")


def code_refusers(work, crates, entry):
    """What a check of the edited crates refuses beside the laws: code that does not do what the changed definition says, or a script that no longer fits."""
    texts = entry.texts(work / "crates")
    names = dict.fromkeys(file.split("/")[0] for file, _, _ in entry.edits)
    try:
        for path, (_, text) in texts.items():
            path.write_text(text)
        return "; ".join(f"{name}: {plant.refuser(*check(work, name), name)}" for name in names)
    finally:
        for path, (was, _) in texts.items():
            path.write_text(was)


def main(words):
    with_code = "--code" in words
    words = [word for word in words if word != "--code"]
    crates = TOP / "crates"
    entries = [entry for entry in read_list(HERE / "both.list") if not words or any(word in entry.name for word in words)]
    lists = examples((crates / TABLE).read_text())
    rows, lost = plant_rows(), 0
    with tempfile.TemporaryDirectory(prefix="both-") as folder:
        work, whole = pathlib.Path(folder, "bare"), pathlib.Path(folder, "whole")
        bare.make(crates, work)
        bare.put(work, PROOF, probes((crates / TABLE).read_text(), (crates / PROOF).read_text()))
        if with_code:
            whole.mkdir()
            plant.copy(TOP, whole)
        for entry in entries:
            fails, error = failing(work, crates, entry)
            if fails is None:
                told = f"BAD: {error}"
            else:
                told = said_of(fails, lists) if fails else "none"
            if with_code:
                print(f"  code: {code_refusers(whole, crates, entry)}", flush=True)
            lost += fails is None or not fails and not entry.law
            print(f"{entry.name}: {told}", flush=True)
            rows[entry.name] = f"| {entry.name} | {files_of(entry)} | {told} | {entry.law} |"
    listed = [entry.name for entry in read_list(HERE / "both.list")]
    head = ["# Rules turned in code and definition alike, and what refuses each", "",
            "Written by `both.py`. The code still does what its definition says, so only a statement above the definition can refuse such a change. *Worked examples* are those of",
            "the one table (`handplayed/specs/Table.antt`) that no longer come out, computed from the changed definitions. *Law* names a law that the change makes false, and",
            "what shows it.", "", "| rule turned | in | worked examples that fail | law |", "|---|---|---|---|"]
    RESULTS.write_text("\n".join(head + [rows[name] for name in listed if name in rows]) + "\n")
    print(f"{len(entries)} turned, {lost} refused by nothing")
    return 1 if lost else 0


def files_of(entry):
    return ", ".join(f"`{file}`" for file in dict.fromkeys(file for file, _, _ in entry.edits))


def plant_rows():
    """The rows of earlier runs, by name."""
    if not RESULTS.exists():
        return {}
    return {line.split(" | ")[0][2:]: line for line in RESULTS.read_text().splitlines() if line.startswith("| ") and not line.startswith("| rule")}


if __name__ == "__main__":
    sys.exit(main(sys.argv[1:]))
