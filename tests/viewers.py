#!/usr/bin/env python3
"""Holds tools/run_to_networkx.py to the model, and shows what readers of GraphML make of a run.

    python3 tests/viewers.py            # the tool, on the examples and on drawn files
    python3 tests/viewers.py table      # what each installed reader shows of both kinds of file

The tool's run, its tables and its graph are compared with the model's log. What networkx and igraph
read from the flat file is compared too, where they are installed; Python's XML reader always is.
"""

import csv
import importlib.util
import pathlib
import shutil
import subprocess
import sys
import tempfile

import check_graphml
import model
import schedules

TOP = pathlib.Path(__file__).resolve().parent.parent
sys.path.insert(0, str(TOP / "tools"))

import run_to_networkx  # noqa: E402

ROOMS = [model.OUTPUT_BYTES, 3000, 700, 275]


def is_there(module):
    return importlib.util.find_spec(module) is not None


# ---- the tool against the model ------------------------------------------

def wanted_run(group, exported):
    """What an exported file holds of the model's log: happenings party by party, and then edges."""
    placed = [(place, h.tick, h.owner, h.word) for place, h in enumerate(group.log)]
    by_party = sorted(placed, key=lambda row: row[2])[:exported.happenings]
    arrivals = [(group.log[h.link], h.link, h, place) for place, h in enumerate(group.log)
                if h.word == "arrived"]
    beats = [(link, sent.tick, sent.owner, place, h.tick, h.owner)
             for sent, link, h, place in arrivals[:exported.edges]]
    return sorted(by_party), beats


def read_table(path):
    with open(path, newline="", encoding="ascii") as table:
        columns, *rows = csv.reader(table)
    return columns, rows


def as_words(rows):
    return [[str(value) for value in row] for row in rows]


def check_tables(folder, run, happenings, beats):
    run_to_networkx.write_tables(run, folder)
    wanted = run_to_networkx.HAPPENING_COLUMNS, as_words(happenings)
    if read_table(folder / "happenings.csv") != wanted:
        return "the table of happenings is another"
    if read_table(folder / "beats.csv") != (run_to_networkx.BEAT_COLUMNS, as_words(beats)):
        return "the table of beats is another"
    return None


def nodes_wanted(happenings):
    return {f"h{place}": {"tick": tick, "what": what, "party": party}
            for place, tick, party, what in happenings}


def edges_wanted(beats):
    return sorted((f"h{beat[0]}", f"h{beat[3]}") for beat in beats)


def check_graph(graph, happenings, beats):
    if dict(graph.nodes(data=True)) != nodes_wanted(happenings):
        return "networkx has other happenings"
    if sorted(graph.edges()) != edges_wanted(beats):
        return "networkx has other edges"
    return None


def check_flat(folder, run, happenings, beats):
    """The flat file, read by networkx and by igraph."""
    import networkx

    path = str(folder / "flat.graphml")
    run_to_networkx.write_flat(run, path)
    fault = check_graph(networkx.read_graphml(path), happenings, beats)
    if fault or not is_there("igraph") or not happenings:
        return fault
    import igraph

    graph = igraph.Graph.Read_GraphML(path)
    names = graph.vs["id"]
    nodes = {v["id"]: {"tick": v["tick"], "what": v["what"], "party": v["party"]} for v in graph.vs}
    edges = sorted((names[edge.source], names[edge.target]) for edge in graph.es)
    wanted = nodes_wanted(happenings), edges_wanted(beats)
    return None if (nodes, edges) == wanted else "igraph has another graph"


def check_run(folder, data, room):
    """None, or what is wrong; nothing is looked at where no file is made."""
    try:
        start, orders = model.read(data)
        group = model.open_group(start)
    except model.ReaderFault:
        return None
    fault = model.play(group, orders)
    run = run_to_networkx.read_run(model.printed(group, fault, room))
    exported = model.export(group.n, group.log, room)
    happenings, beats = wanted_run(group, exported)
    if run_to_networkx.happening_rows(run) != happenings or run_to_networkx.beat_rows(run) != beats:
        return "it reads another run"
    notices = exported.cut + (fault is not None)
    if ("cut" in run.notices, len(run.notices)) != (exported.cut, notices):
        return f"it reads the notices {run.notices}"
    wrong = check_tables(folder, run, happenings, beats)
    if wrong is None and is_there("networkx"):
        wrong = (check_graph(run_to_networkx.graph_of(run), happenings, beats)
                 or check_flat(folder, run, happenings, beats))
    return wrong


def inputs():
    for path in sorted((TOP / "examples").rglob("*.orders")):
        yield path.name, path.read_bytes()
    for place, data in enumerate(schedules.drawn(11, 40)):
        yield f"drawn {place}", data


def no_run_is_told():
    for data in (b"", b"refused byte 0 number 15\n", b"<graphml><node/></graphml>",
                 b'<node id="q0"></node>'):
        try:
            run_to_networkx.read_run(data)
        except run_to_networkx.NotARun:
            continue
        return f"it reads {data!r}"
    return None


def compare():
    good, bad = 0, []
    with tempfile.TemporaryDirectory() as folder:
        for name, data in inputs():
            for room in ROOMS:
                fault = check_run(pathlib.Path(folder), data, room)
                good += fault is None
                bad += [f"{name} in {room} bytes: {fault}"] if fault else []
    fault = no_run_is_told()
    bad += [fault] if fault else []
    for module in ("networkx", "igraph"):
        if not is_there(module):
            print(f"{module} is not installed here, so what it reads is not compared")
    print("\n".join(bad + [f"viewers: {good} runs read as the model has them, {len(bad)} not"]))
    return 1 if bad else 0


# ---- what readers show ---------------------------------------------------

def shown(nodes, with_tick, edges):
    return f"{nodes} nodes, {with_tick} with tick and word, {edges} edges"


def by_python(path):
    summary = check_graphml.check(pathlib.Path(path).read_bytes())
    happenings = len(summary.happenings)
    return shown(summary.parties + 1 + happenings, happenings, len(summary.edges))


def by_tool(path):
    run = run_to_networkx.read_run(pathlib.Path(path).read_bytes())
    return shown(run.parties + 1 + len(run.happenings), len(run.happenings), len(run.beats))


def by_networkx(path):
    import networkx

    graph = networkx.read_graphml(path)
    with_tick = sum({"tick", "what"} <= set(values) for _, values in graph.nodes(data=True))
    return shown(graph.number_of_nodes(), with_tick, graph.number_of_edges())


def by_igraph(path):
    import igraph

    graph = igraph.Graph.Read_GraphML(path)
    return shown(graph.vcount(), sum(vertex["what"] != "" for vertex in graph.vs), graph.ecount())


def by_xmllint(path):
    done = subprocess.run(["xmllint", "--noout", path], capture_output=True, check=False)
    return "well-formed" if done.returncode == 0 else done.stderr.decode()


READERS = [("Python's XML reader", None, by_python), ("tools/run_to_networkx.py", None, by_tool),
           ("networkx", "networkx", by_networkx), ("igraph", "igraph", by_igraph),
           ("xmllint", None, by_xmllint)]


def table():
    data = (TOP / "crates" / "runfile" / "stdout").read_bytes()
    with tempfile.TemporaryDirectory() as folder:
        nested, flat = f"{folder}/nested.graphml", f"{folder}/flat.graphml"
        pathlib.Path(nested).write_bytes(data)
        files = [("nested", nested)]
        if is_there("networkx"):
            run_to_networkx.write_flat(run_to_networkx.read_run(data), flat)
            files.append(("flat", flat))
        for name, module, show in READERS:
            for kind, path in files:
                if not (shutil.which("xmllint") if name == "xmllint" else not module or is_there(module)):
                    print(f"{name}, {kind}: not installed here")
                elif kind == "nested" or module or name == "xmllint":
                    print(f"{name}, {kind}: {show(path)}")
    return 0


if __name__ == "__main__":
    sys.exit(table() if sys.argv[1:] == ["table"] else compare())
