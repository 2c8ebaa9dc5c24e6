#!/usr/bin/env python3
"""Reads exported files with an XML reader of its own and checks their structure.

    python3 tests/check_graphml.py file.graphml ...
    target/bin/runfile < file.orders | python3 tests/check_graphml.py

Checked: the file is well-formed; ids are unique; both ends of each edge exist;
the run's graph holds the parties' nodes p0, p1, .. with one inner graph each and
then the edges; each happening has a tick and one of the ten words; an edge goes
from a sending to an arrival; nothing but the notices stands behind the root
element. Where no notice says that the file was cut, it also has every log place
once and one edge for each arrival, in log order.
"""

import re
import sys
from dataclasses import dataclass, field
from xml.parsers import expat

SPACE = "http://graphml.graphdrawing.org/xmlns"
WORDS = {"sent", "arrived", "lost", "enrolled", "struck",
         "crashed", "stopped", "left", "joining", "leaving"}
CUT = " cut "
REFUSED = re.compile(r" refused order (0|[1-9]\d*) number ([1-9]\d*) ")
NUMERAL = re.compile(r"0|[1-9]\d*")


class Fault(Exception):
    """What is wrong with the file."""


def expect(holds, message):
    if not holds:
        raise Fault(message)


@dataclass
class Element:
    tag: str
    attributes: dict
    children: list = field(default_factory=list)
    text: str = ""


@dataclass
class Summary:
    """What a file has, for the caller to compare."""
    parties: int = 0
    happenings: dict = field(default_factory=dict)      # place -> (tick, word)
    edges: list = field(default_factory=list)           # (source place, target place)
    cut: bool = False
    refused: tuple | None = None


# ---- from bytes to a tree ------------------------------------------------

class Reader:
    def __init__(self):
        self.root, self.open, self.notices = None, [], []

    def start(self, tag, attributes):
        element = Element(tag, attributes)
        if self.open:
            self.open[-1].children.append(element)
        else:
            self.root = element
        self.open.append(element)

    def end(self, _tag):
        self.open.pop()

    def text(self, text):
        self.open[-1].text += text

    def comment(self, text):
        expect(self.root is not None and not self.open, f"a comment inside the file: {text!r}")
        self.notices.append(text)

    def instruction(self, target, _text):
        raise Fault(f"a processing instruction: {target!r}")

    def doctype(self, *_):
        raise Fault("a document type")


def parse(data):
    reader = Reader()
    parser = expat.ParserCreate(namespace_separator=" ")
    parser.buffer_text = True
    parser.StartElementHandler = reader.start
    parser.EndElementHandler = reader.end
    parser.CharacterDataHandler = reader.text
    parser.CommentHandler = reader.comment
    parser.ProcessingInstructionHandler = reader.instruction
    parser.StartDoctypeDeclHandler = reader.doctype
    try:
        parser.Parse(data, True)
    except expat.ExpatError as error:
        raise Fault(f"not well-formed: {error}") from None
    return reader


# ---- from the tree to a summary ------------------------------------------

def is_element(element, tag, **attributes):
    return element.tag == f"{SPACE} {tag}" and element.attributes == attributes


def place_of(name, what):
    expect(name is not None and re.fullmatch(r"h(0|[1-9]\d*)", name), f"{what}: {name!r}")
    return int(name[1:])


def read_notices(notices, summary):
    rest = list(notices)
    if rest and rest[0] == CUT:
        summary.cut = True
        rest.pop(0)
    if rest and REFUSED.fullmatch(rest[0]):
        summary.refused = tuple(map(int, REFUSED.fullmatch(rest.pop(0)).groups()))
    expect(not rest, f"an unknown notice behind the file: {rest}")


def read_happening(node, ids, summary):
    place = place_of(node.attributes.get("id"), "a happening's id")
    expect(is_element(node, "node", id=f"h{place}"), f"h{place} is no plain node")
    keys = [child.attributes.get("key") for child in node.children]
    expect(keys == ["t", "k"] and all(is_element(c, "data", key=c.attributes["key"])
                                      and not c.children for c in node.children),
           f"h{place} has other data than its tick and its word")
    tick, word = (child.text for child in node.children)
    expect(NUMERAL.fullmatch(tick), f"h{place} has tick {tick!r}")
    expect(word in WORDS, f"h{place} has the unknown word {word!r}")
    add_id(ids, f"h{place}")
    summary.happenings[place] = (int(tick), word)
    return place


def add_id(ids, name):
    expect(name not in ids, f"id {name} stands twice")
    ids.add(name)


def read_party(node, i, ids, summary, may_be_bare):
    expect(is_element(node, "node", id=f"p{i}"), f"p{i} expected, not {node.tag} {node.attributes}")
    add_id(ids, f"p{i}")
    if not node.children and may_be_bare:
        return
    expect(len(node.children) == 1, f"p{i} has {len(node.children)} inner elements, not one graph")
    inner = node.children[0]
    expect(is_element(inner, "graph", id=f"p{i}:", edgedefault="directed"),
           f"p{i} has no inner graph p{i}:")
    add_id(ids, f"p{i}:")
    places = [read_happening(child, ids, summary) for child in inner.children]
    expect(places == sorted(places), f"the happenings of p{i} are not in log order")


def read_edge(edge, ids, summary):
    expect(edge.tag == f"{SPACE} edge" and not edge.children
           and set(edge.attributes) == {"source", "target"}, f"no edge: {edge.attributes}")
    ends = edge.attributes["source"], edge.attributes["target"]
    for end in ends:
        expect(end in ids, f"edge {ends[0]} to {ends[1]}: there is no {end}")
    source, target = (place_of(end, "an edge's end") for end in ends)
    expect(source < target, f"edge {ends[0]} to {ends[1]} goes back")
    expect(summary.happenings[source][1] == "sent", f"edge from {ends[0]}, which is no sending")
    expect(summary.happenings[target][1] == "arrived", f"edge to {ends[1]}, which is no arrival")
    summary.edges.append((source, target))


def read_tree(root, summary):
    expect(is_element(root, "graphml"), "the root element is not graphml")
    keys, graphs = root.children[:2], root.children[2:]
    expect(len(keys) == 2
           and is_element(keys[0], "key", **{"id": "t", "for": "node", "attr.name": "tick", "attr.type": "long"})
           and is_element(keys[1], "key", **{"id": "k", "for": "node", "attr.name": "what", "attr.type": "string"}),
           "the two keys are not the first elements")
    expect(len(graphs) == 1 and is_element(graphs[0], "graph", id="run", edgedefault="directed"),
           "graph run is not the one element behind the keys")
    ids = {"t", "k"}
    add_id(ids, "run")
    nodes = [e for e in graphs[0].children if e.tag == f"{SPACE} node"]
    edges = graphs[0].children[len(nodes):]
    expect(nodes == graphs[0].children[:len(nodes)], "a party's node stands behind an edge")
    for i, node in enumerate(nodes):
        read_party(node, i, ids, summary, may_be_bare=node is nodes[-1] and not edges)
    for edge in edges:
        read_edge(edge, ids, summary)
    summary.parties = len(nodes) - 1
    return nodes


def check_blank(element):
    """Only a datum has text; everywhere else there are line ends."""
    if element.tag == f"{SPACE} data":
        return
    expect(not element.text.strip(), f"text inside {element.tag}: {element.text.strip()!r}")
    for child in element.children:
        check_blank(child)


def check_whole(nodes, summary):
    expect(summary.parties >= 1, f"{len(nodes)} party nodes")
    expect(all(node.children for node in nodes), "a party without an inner graph in a whole file")
    places = sorted(summary.happenings)
    expect(places == list(range(len(places))), "a log place is missing from a whole file")
    check_log(summary)
    arrivals = [p for p in places if summary.happenings[p][1] == "arrived"]
    expect([target for _, target in summary.edges] == arrivals,
           "the edges are not one for each arrival, in log order")


def check_log(summary):
    ticks = [summary.happenings[p][0] for p in sorted(summary.happenings)]
    expect(ticks == sorted(ticks), "the ticks fall along the log")
    sources = [source for source, _ in summary.edges]
    targets = [target for _, target in summary.edges]
    expect(len(set(sources)) == len(sources), "two edges leave one sending")
    expect(targets == sorted(set(targets)), "the edges are not in log order")


def check(data, cut=None):
    """The summary of a good file. `cut`: what the export answered, where no notice tells it."""
    expect(data.startswith(b'<?xml version="1.0" encoding="UTF-8"?>\n'), "no XML declaration")
    expect(data.endswith(b"\n"), "the last line has no end")
    reader, summary = parse(data), Summary()
    read_notices(reader.notices, summary)
    check_blank(reader.root)
    nodes = read_tree(reader.root, summary)
    check_log(summary)
    if not (summary.cut if cut is None else cut):
        check_whole(nodes, summary)
    return summary


def main(names):
    files = [(name, open(name, "rb").read()) for name in names] or [("standard input", sys.stdin.buffer.read())]
    bad = 0
    for name, data in files:
        try:
            check(data)
        except Fault as fault:
            bad += 1
            print(f"{name}: {fault}")
    print(f"{len(files) - bad} files well-formed and well-nested, {bad} not")
    return 1 if bad else 0


if __name__ == "__main__":
    sys.exit(main(sys.argv[1:]))
