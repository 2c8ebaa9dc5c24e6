"""A copy of the crates with their types and definitions alone, as the modules of one crate: no function, so that the worked examples can be computed
from definitions that no code meets any longer."""

import pathlib
import re

# the crates whose definitions the worked examples read, and the crate of the examples
CRATES = ["pace", "slots", "protocol", "group", "runs", "text", "markup", "graphml", "orders", "player", "handplayed"]
# a file and a folder of specs/ with lemmas that ghost members cite
LEMMAS = ["laws"]
STRING = re.compile(r'b?"(?:[^"\\]|\\.)*"')
CODE = re.compile(r"(?:pub(?:\([a-z]+\))? )?(?:const )?fn |impl\b(?!.*\bModel\b)|#\[cfg\(test\)\]")


def items(text):
    """The items of a source file, each with the comments and attributes above it."""
    lines, depth, begun = [], 0, False
    for line in text.splitlines(keepends=True):
        lines.append(line)
        code = STRING.sub('""', line).split("//")[0].strip()
        if not begun and (not code or code.startswith("#")):
            continue
        begun = True
        depth += sum(code.count(c) for c in "([{") - sum(code.count(c) for c in ")]}")
        if depth == 0 and code.endswith((";", "}")) and not line.startswith(" "):
            yield "".join(lines)
            lines, begun = [], False
    yield "".join(lines)


def first_code(item):
    for line in item.splitlines():
        if line.strip() and not line.startswith(("//", "#")) or line.startswith("#[cfg(test)]"):
            return line
    return ""


def only_types(item):
    """A `use` line without the functions and modules that it names."""
    head, brace, names = item.strip().rstrip(";").partition("{")
    if not brace:
        return item if head.rsplit("::", 1)[-1][0].isupper() else ""
    kept = [name.strip() for name in names.rstrip("} \n").split(",") if name.strip()[:1].isupper()]
    return f"{head}{{{', '.join(kept)}}};\n" if kept else ""


def bare(text):
    """The types of a source file, and the modules that it names; the imports go where nothing is left that may need them."""
    kept, types = [], False
    for item in items(text):
        code = first_code(item)
        if CODE.match(code):
            continue
        use = re.match(r"(?:ghost |pub |pub\(crate\) )?use (?:Rattle\.)?(\w+)", code)
        if not use:
            types = types or not re.match(r"(?:pub )?mod ", code)
            kept.append(item)
        elif use[1] in CRATES + ["std", "arrayvec", "crate", "self", "super"] and not any(f".{lemmas}." in code for lemmas in LEMMAS):
            kept.append(item if code.startswith("ghost ") else only_types(item))
    left = "".join(item for item in kept if types or not re.match(r"(?:ghost |pub |pub\(crate\) )?use ", first_code(item)))
    return re.sub(r"(?m)^ *#\[(?:derive\(.*\)|default)\]\n", "", left)


def in_one(text, crate):
    """The names of a file of a crate, as they are where each crate is a module of one."""
    crates = "|".join(CRATES)
    text = re.sub(rf"\bRattle\.({crates})\.specs\.declared\.", r"Rattle.bare.specs.declared.\1.", text)
    text = re.sub(rf"\bRattle\.({crates})\.(specs|proofs)\.", r"Rattle.bare.\2.\1.", text)
    text = re.sub(r"\bcrate::", f"crate::{crate}::", text)
    return re.sub(rf"(?m)^((?:pub |pub\(crate\) )?use )({crates})::", r"\1crate::\2::", text).replace("#![tactic(auto)]\n", "")


def place(work, file):
    """Where a file goes that is named from crates/ on: a crate's root file is that of its module."""
    crate, folder, path = file.split("/", 2)
    at = work / "crates/bare" / folder
    return at / f"{crate}{pathlib.Path(path).suffix}" if path in ("lib.rt", "Lib.antt") else at / crate / path


def put(work, file, text):
    crate, path = file.split("/")[0], pathlib.Path(file)
    to = place(work, file)
    to.parent.mkdir(parents=True, exist_ok=True)
    if path.suffix == ".antt":
        text = re.sub(rf"(?m)^pub mod (?:{'|'.join(LEMMAS)})\n", "", text)
    elif crate != "handplayed":
        text = bare(text)
    to.write_text(in_one(text, crate))


def make(crates, work):
    """One crate, of which each crate is a module, with the table's fact."""
    for crate in CRATES:
        for path in [*(crates / crate / "specs").rglob("*.antt"), *(crates / crate / "src").rglob("*.rt")]:
            if path.suffix == ".antt" and any(part in LEMMAS for part in path.with_suffix("").parts):
                continue
            if crate != "handplayed" or path.suffix == ".antt" or path.name in ("lib.rt", "worked.rt"):
                put(work, str(path.relative_to(crates)), re.sub(r"#\[cfg\(test\)\]\nmod \w+;\n", "", path.read_text()))
    modules = "".join(f"pub mod {crate};\n" for crate in CRATES)
    (work / "crates/bare/src/lib.rt").write_text(f"#![tactic(auto)]\n\n{modules}")
    (work / "crates/bare/specs/Lib.antt").write_text(modules.replace(";", ""))
    (work / "crates.txt").write_text("bare: arrayvec\n")
