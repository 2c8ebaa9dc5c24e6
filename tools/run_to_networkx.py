#!/usr/bin/env python3
"""Loads an exported run with all that it tells: ticks, words, parties, and the beats that arrived.

The file nests a graph in each party's node, which many readers of GraphML pass over. This one needs
Python alone; networkx is wanted only for a graph.

    python3 tools/run_to_networkx.py RUN.graphml csv FOLDER          # happenings.csv and beats.csv
    python3 tools/run_to_networkx.py RUN.graphml flat FLAT.graphml   # one graph, without nesting

or, from a program with tools/ on its path:

    run = run_to_networkx.read_run(open("RUN.graphml", "rb").read())
    graph = run_to_networkx.graph_of(run)
"""

import csv
import pathlib
import sys
from dataclasses import dataclass, field
from xml.parsers import expat


@dataclass(frozen=True)
class Happening:
    place: int      # in the log; its node is h and this number
    tick: int
    party: int      # whose record it is; 0 is the root
    what: str


@dataclass(frozen=True)
class Beat:
    """A beat that arrived: the happening that sent it, and its arrival."""
    sent: Happening
    arrived: Happening


@dataclass
class Run:
    parties: int = 0
    happenings: list = field(default_factory=list)      # in the order of the log
    beats: list = field(default_factory=list)           # in the order of their arrivals
    notices: list = field(default_factory=list)         # "cut", "refused order 3 number 9"


class NotARun(Exception):
    """The file is no exported run."""


class Reader:
    """Follows the nesting: a node inside a party's node is a happening of that party."""

    def __init__(self):
        self.nodes, self.key, self.data = [], None, {}
        self.parties, self.happenings, self.edges, self.notices = [], {}, [], []

    def start(self, tag, attributes):
        if tag == "node":
            self.nodes.append(attributes["id"])
            self.data = {}
        elif tag == "data":
            self.key = attributes["key"]
            self.data[self.key] = ""
        elif tag == "edge":
            self.edges.append((attributes["source"], attributes["target"]))

    def text(self, text):
        if self.key is not None:
            self.data[self.key] += text

    def end(self, tag):
        if tag == "data":
            self.key = None
        elif tag == "node":
            self.close(self.nodes.pop())

    def close(self, name):
        if not self.nodes:
            self.parties.append(number(name, "p"))
            return
        owner = number(self.nodes[-1], "p")
        tick, what = int(self.data["t"]), self.data["k"]
        self.happenings[name] = Happening(number(name, "h"), tick, owner, what)

    def run(self):
        beats = [Beat(self.happenings[source], self.happenings[target])
                 for source, target in self.edges]
        happenings = sorted(self.happenings.values(), key=lambda happening: happening.place)
        return Run(len(self.parties) - 1, happenings, beats, self.notices)


def number(name, letter):
    if not name.startswith(letter):
        raise NotARun(f"a node {name}")
    return int(name.removeprefix(letter))


def read_run(data):
    """The run in the bytes of an exported file, a cut one too."""
    reader = Reader()
    parser = expat.ParserCreate()
    parser.StartElementHandler = reader.start
    parser.EndElementHandler = reader.end
    parser.CharacterDataHandler = reader.text
    parser.CommentHandler = lambda text: reader.notices.append(text.strip())
    try:
        parser.Parse(data, True)
        return reader.run()
    except (expat.ExpatError, KeyError, ValueError) as error:
        raise NotARun(str(error)) from None


def graph_of(run):
    """A networkx graph: nodes are happenings with tick, word and party, edges the beats."""
    import networkx

    graph = networkx.DiGraph()
    for happening in run.happenings:
        graph.add_node(f"h{happening.place}",
                       tick=happening.tick, what=happening.what, party=happening.party)
    graph.add_edges_from((f"h{beat.sent.place}", f"h{beat.arrived.place}") for beat in run.beats)
    return graph


HAPPENING_COLUMNS = ["place", "tick", "party", "what"]
BEAT_COLUMNS = ["sent_place", "sent_tick", "from_party",
                "arrived_place", "arrived_tick", "to_party"]


def happening_rows(run):
    return [(h.place, h.tick, h.party, h.what) for h in run.happenings]


def beat_rows(run):
    return [(beat.sent.place, beat.sent.tick, beat.sent.party,
             beat.arrived.place, beat.arrived.tick, beat.arrived.party) for beat in run.beats]


def write_table(path, columns, rows):
    with open(path, "w", newline="", encoding="ascii") as table:
        writer = csv.writer(table)
        writer.writerow(columns)
        writer.writerows(rows)


def write_tables(run, folder):
    folder = pathlib.Path(folder)
    folder.mkdir(parents=True, exist_ok=True)
    write_table(folder / "happenings.csv", HAPPENING_COLUMNS, happening_rows(run))
    write_table(folder / "beats.csv", BEAT_COLUMNS, beat_rows(run))


def write_flat(run, path):
    import networkx

    networkx.write_graphml(graph_of(run), path)


OUTPUTS = {"csv": write_tables, "flat": write_flat}


def main(words):
    if len(words) != 3 or words[1] not in OUTPUTS:
        print(__doc__, file=sys.stderr)
        return 2
    name, output, place = words
    try:
        run = read_run(pathlib.Path(name).read_bytes())
        OUTPUTS[output](run, place)
    except (OSError, NotARun) as error:
        print(f"{name}: {error}", file=sys.stderr)
        return 1
    except ImportError:
        print("networkx is not installed, which a graph needs; csv needs nothing", file=sys.stderr)
        return 1
    print(f"parties: {run.parties}, happenings: {len(run.happenings)}, "
          f"beats that arrived: {len(run.beats)}")
    for notice in run.notices:
        print(f"the file says: {notice}")
    return 0


if __name__ == "__main__":
    sys.exit(main(sys.argv[1:]))
