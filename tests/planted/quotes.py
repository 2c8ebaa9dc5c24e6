#!/usr/bin/env python3
"""Does each wrong edit, of must-fail/ and of the lists here, still fit the code that it quotes?

    python3 tests/planted/quotes.py

Nothing is proved: a quoted text has to stand once in its file, with the entry's earlier edits made. Status 1
where one does not.
"""

import sys

import both
import plant


def edits_of(path):
    """A must-fail edit as an entry of a list."""
    bug, file, old = plant.Bug(path.parts[-3], path.stem), None, None
    for line in path.read_text().splitlines():
        word, _, rest = line.partition(" ")
        if word == "file:":
            file = rest
        elif word == "old:":
            old = rest
        elif word == "new:":
            bug.edits.append((file, old, rest))
    return bug


def entries():
    for path in sorted(plant.TOP.glob("crates/*/must-fail/*.edit")):
        yield edits_of(path), plant.TOP / "crates" / path.parts[-3]
    for path in sorted(plant.HERE.glob("*.bugs")):
        for bug in plant.read_list(path):
            yield bug, plant.TOP / "crates" / bug.crate
    for entry in both.read_list(plant.HERE / "both.list"):
        yield entry, plant.TOP / "crates"


def main():
    fitting = astray = 0
    for entry, folder in entries():
        try:
            entry.texts(folder)
            fitting += 1
        except (SystemExit, FileNotFoundError) as error:
            print(error)
            astray += 1
    print(f"{fitting} edits fit the code, {astray} do not")
    return 1 if astray else 0


if __name__ == "__main__":
    sys.exit(main())
