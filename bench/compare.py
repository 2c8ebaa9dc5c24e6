#!/usr/bin/env python3
"""What a run costs: `runfile`, a plain Rust program, and a Python model that writes its graph with networkx, on the same order files.

    python3 bench/compare.py [ROUNDS]

Run from the repository's root once target/bin/runfile is built. bench/plain.rs is compiled for release; it does what runfile does, closes every
tick one by one and is not proved. The two programs must print the same bytes. Each is run many times in a row and the least time of ROUNDS such
rows counts; the time of the same program on a file without orders is taken off, so that starting it doesn't count. The Python model passes over quiet
ticks as tests/model.py does, and networkx writes a flat graph: it knows no nested ones. A dense run is over within a fraction of what starting a program
takes, so for these the instructions are counted too (valgrind), which are the same in every run. The third table has those of the export, a byte of the file.
"""

import io
import pathlib
import re
import subprocess
import sys
import tempfile
import time

import networkx

TOP = pathlib.Path(__file__).resolve().parent.parent
sys.path.insert(0, str(TOP / "tests"))

import model  # noqa: E402
import schedules  # noqa: E402
from timing import BARE, RUNFILE, cost  # noqa: E402

PLAIN = TOP / "target" / "plain"


def dense(n, most=model.LOG_SLOTS):
    """A happening at nearly every tick: tmin = tmax = 1, each beat and reply delivered on its last tick, until the log is full or has so many records."""
    script = schedules.Script(model.CLOSED, n, model.HALVING, 1, 1)
    while len(script.group.log) < most and script.order(model.WAIT, tick=script.group.clock + 1):
        script.settle()
    return script.data


def sparse(n):
    """Rounds of a million ticks, in which every beat is delivered at once."""
    script = schedules.Script(model.CLOSED, n, model.HALVING, 1, 1_000_000)
    for _ in range(20):
        script.until(script.group.clock + 1_000_001)
    return script.data


def quiet(tick):
    return schedules.compose(f"expanding 32 halving 1 1000000 cap 64\n{tick} wait\n")


FILES = [("dense, 1 party", dense(1)), ("dense, 32 parties", dense(32)), ("sparse, 1 party", sparse(1)), ("sparse, 32 parties", sparse(32)),
         ("quiet until 3,999,999,999", quiet(3_999_999_999))]


def instructions(program, data):
    """How many instructions one run takes beyond the start of the program, which no other load changes."""
    counts = [subprocess.run(["valgrind", "--tool=callgrind", "--callgrind-out-file=/dev/null", program], input=file, capture_output=True, check=True)
              for file in (data, BARE)]
    whole, start = (int(re.search(rb"Collected : (\d+)", done.stderr).group(1)) for done in counts)
    return whole - start


def export_instructions(data):
    """The instructions of the export alone."""
    with tempfile.NamedTemporaryFile() as counts:
        subprocess.run(["valgrind", "--tool=callgrind", f"--callgrind-out-file={counts.name}", RUNFILE], input=data, capture_output=True, check=True)
        table = subprocess.run(["callgrind_annotate", "--inclusive=yes", counts.name], capture_output=True, text=True, check=True).stdout
    return int(re.search(r"([\d,]+) .*graphml::run::write_run", table).group(1).replace(",", ""))


def networkx_cost(data):
    began = time.perf_counter()
    start, orders = model.read(data)
    group = model.open_group(start)
    model.play(group, orders)
    graph = networkx.DiGraph()
    for place, happening in enumerate(group.log):
        graph.add_node(f"h{place}", tick=happening.tick, what=happening.word, owner=happening.owner)
    graph.add_edges_from((f"h{h.link}", f"h{place}") for place, h in enumerate(group.log) if h.word == "arrived")
    networkx.write_graphml(graph, io.BytesIO())
    return time.perf_counter() - began


def compare_instructions():
    print(f"\n{'instructions':28}{'runfile':>12}{'plain Rust':>12}{'runfile / plain':>18}")
    for name, data in FILES[:2]:
        ours, plain = instructions(RUNFILE, data), instructions(PLAIN, data)
        print(f"{name:28}{ours:12}{plain:12}{ours / plain:18.3f}", flush=True)


def compare_exports():
    """The export passes over the log once for each party: does that show beside writing the bytes?"""
    print(f"\n{'export of a whole file':28}{'bytes':>12}{'instructions':>14}{'a byte':>10}")
    for n in (1, 8, 32):
        data = dense(n, most=500)
        size, count = len(model.runfile(data)), export_instructions(data)
        print(f"{f'{n} parties':28}{size:12}{count:14}{count / size:10.1f}", flush=True)


def main(words):
    rounds = int(words[0]) if words else 5
    subprocess.run(["rustc", "-O", "--edition", "2024", "-o", PLAIN, TOP / "bench" / "plain.rs"], check=True)
    print(f"{'file':28}{'runfile':>12}{'plain Rust':>12}{'networkx':>12}{'runfile / plain':>18}")
    for name, data in FILES:
        ours, our_bytes = cost(RUNFILE, data, rounds)
        plain, plain_bytes = cost(PLAIN, data, rounds)
        python = networkx_cost(data)
        same = "" if our_bytes == plain_bytes else "  OUTPUTS DIFFER"
        print(f"{name:28}{ours * 1e3:9.3f} ms{plain * 1e3:9.1f} ms{python * 1e3:9.1f} ms{ours / plain:18.6f}{same}", flush=True)
    compare_instructions()
    compare_exports()


if __name__ == "__main__":
    main(sys.argv[1:])
