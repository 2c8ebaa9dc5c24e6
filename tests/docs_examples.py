#!/usr/bin/env python3
"""Runs the examples of the pages, compares what they print with what the pages say, follows the
links from page to page, and looks for each file that a page names.

    python3 tests/docs_examples.py [PAGE ..]            all pages unless some are named
    python3 tests/docs_examples.py --update [PAGE ..]   writes what is printed into the pages

In a fenced block marked `console` a line `$ COMMAND` is run, and the lines below it are what it
prints, errors too; a line `...` stands for any number of lines. A block marked with two words, as
`text my.txt`, is the file of that name, for the commands further down the page. Below a line
`<!-- printed by: COMMAND -->`, which readers don't see, stands what that command prints, up to the
next empty line. Each page has a folder of its own to run in, where the repository's files are seen
and none of them is changed. The programs have to be in target/bin (tools/build.sh).
"""

import difflib
import os
import pathlib
import re
import subprocess
import sys
import tempfile
from dataclasses import dataclass

TOP = pathlib.Path(__file__).resolve().parent.parent
BUILT = ["target", "out"]
PROGRAMS = ["compose", "runfile", "walkthrough"]
SECONDS = "120"
FENCE = "```"
PROMPT = "$ "
GAP = "..."
PRINTED_BY = re.compile(r"<!-- printed by: (.*) -->")
SOURCE = re.compile(r"`([\w./-]+\.(?:rt|antt|py|sh|bugs|list))`")
HISTORY = ["PORT.md", "DESIGN-PASS.md"]      # they name files that were there once
LINK = re.compile(r"\]\(([^):#]*)(?:#([^)]*))?\)")


@dataclass
class File:
    name: str
    text: str


@dataclass
class Command:
    text: str
    start: int          # its output in the page: the first line, and the one behind the last
    end: int


def pages():
    return [TOP / "README.md", TOP / "examples" / "README.md", *sorted((TOP / "docs").glob("*.md"))]


def commands_in(lines, first, end):
    starts = [n for n in range(first, end) if lines[n].startswith(PROMPT)]
    for start, following in zip(starts, starts[1:] + [end]):
        last = start
        while lines[last].endswith("\\"):
            last += 1
        yield Command("\n".join(lines[start:last + 1]).removeprefix(PROMPT), last + 1, following)


def steps(lines):
    """The files and the commands of a page, in its order."""
    opened = None
    for number, line in enumerate(lines):
        told = PRINTED_BY.fullmatch(line)
        if told:
            yield Command(told[1], number + 1, lines.index("", number))
        if not line.startswith(FENCE):
            continue
        if opened is None:
            opened = number
            continue
        words = lines[opened].strip("`").split()
        if len(words) == 2:
            yield File(words[1], "\n".join(lines[opened + 1:number]) + "\n")
        if words == ["console"]:
            yield from commands_in(lines, opened + 1, number)
        opened = None


def printed(command, folder):
    ran = subprocess.run(["timeout", SECONDS, "bash", "-c", command], cwd=folder, check=False,
                         stdin=subprocess.DEVNULL, stdout=subprocess.PIPE, stderr=subprocess.STDOUT)
    return ran.stdout.decode(errors="replace").splitlines()


def matches(wanted, got):
    """Whether the lines are those wanted, of which a gap stands for any number."""
    if GAP not in wanted:
        return wanted == got
    at = wanted.index(GAP)
    return wanted[:at] == got[:at] and any(
        matches(wanted[at + 1:], got[k:]) for k in range(at, len(got) + 1))


def make_folder(folder):
    for entry in TOP.iterdir():
        if not entry.name.startswith("."):
            os.symlink(entry, folder / entry.name)


def run_page(lines):
    """Each command of a page with what it prints."""
    with tempfile.TemporaryDirectory() as scratch:
        folder = pathlib.Path(scratch)
        make_folder(folder)
        for step in steps(lines):
            match step:
                case File(name, text):
                    (folder / name).write_text(text)
                case Command(text):
                    yield step, printed(text, folder)


def headings(page):
    """The names by which links lead to a page's headings."""
    lines = page.read_text().splitlines()
    titles = [line.lstrip("#").strip().lower() for line in lines if line.startswith("#")]
    return {re.sub(r"[^\w\- ]", "", title).replace(" ", "-") for title in titles}


def dead_links(page, lines):
    for number, line in enumerate(lines, 1):
        for file, heading in LINK.findall(line):
            there = page.parent / file if file else page
            if not there.exists() or heading and heading not in headings(there):
                yield f"{page.relative_to(TOP)}:{number}: no such page or heading: {file}#{heading}"


def files_there():
    """The repository's own files, by their whole paths."""
    for folder, below, names in os.walk(TOP):
        below[:] = [name for name in below if name not in BUILT and not name.startswith(".")]
        yield from (f"{folder}/{name}" for name in names)


def lost_files(page, lines):
    """The files that the page names, by their last folders, and that are not there."""
    if page.name in HISTORY:
        return
    there = list(files_there())
    for number, line in enumerate(lines, 1):
        for name in SOURCE.findall(line):
            if not any(path.endswith(f"/{name}") for path in there):
                yield f"{page.relative_to(TOP)}:{number}: no such file: {name}"


def check_page(page, update):
    """The number of commands run, and the lines that tell of those that print something else."""
    lines = page.read_text().splitlines()
    ran = list(run_page(lines))
    wrong = [(c, got) for c, got in ran if not matches(lines[c.start:c.end], got)]
    told = []
    for c, got in wrong:
        told.append(f"{page.relative_to(TOP)}:{c.start}: {c.text}")
        told += difflib.unified_diff(lines[c.start:c.end], got, "page", "printed", lineterm="")
    if update and wrong:
        for c, got in reversed(wrong):
            lines[c.start:c.end] = got
        page.write_text("\n".join(lines) + "\n")
    return len(ran), [*told, *dead_links(page, lines), *lost_files(page, lines)]


def main(words):
    missing = [name for name in PROGRAMS if not (TOP / "target" / "bin" / name).exists()]
    if missing:
        print(f"not built: {' '.join(missing)}; tools/build.sh builds them")
        return 1
    update = "--update" in words
    chosen = [TOP / word for word in words if word != "--update"] or pages()
    count, told = 0, []
    for page in chosen:
        ran, wrong = check_page(page, update)
        count += ran
        told += wrong
    for line in told:
        print(line)
    if told and not update:
        print("an example prints something else than its page, or a link or a file isn't there")
        return 1
    print(f"{count} commands of the pages print what the pages say")
    return 0


if __name__ == "__main__":
    sys.exit(main(sys.argv[1:]))
