#!/usr/bin/env python3
"""A second, independent telling of the rules, in Python.

It shares no code with the product. The tests compare what program `runfile`
prints with what this model says, byte for byte. As a program it stands in for
`runfile`:

    python3 tests/model.py < file.orders
"""

import sys
from dataclasses import dataclass, field

INPUT_BYTES = 65_536
ORDER_SLOTS = 8_192
LOG_SLOTS = 2_048
OUTPUT_BYTES = 65_536

LAST_CLOCK = 4_000_000_000
LONGEST_LIMIT = 1_000_000
MOST_WAITS = 64
MOST_PARTIES = 32

CLOSED, EXPANDING, DYNAMIC = 1, 2, 3
HALVING, TWO_PHASE = 1, 2
DELIVER, LOSE, CRASH, JOIN, LEAVE, WAIT = 1, 2, 3, 4, 5, 6

# The word of kind K stands at place K - 1.
WORDS = ("sent", "arrived", "lost", "enrolled", "struck",
         "crashed", "stopped", "left", "joining", "leaving")

LIVE = ("joining", "in", "leaving")


class Refused(Exception):
    """A call's answer: the number of the first question answered no."""

    def __init__(self, number):
        super().__init__(number)
        self.number = number


class ReaderFault(Exception):
    """A record that can't be read, or a set-up the rules don't allow."""

    def __init__(self, byte, number):
        super().__init__(byte, number)
        self.byte = byte
        self.number = number


def ask(yes, number):
    if not yes:
        raise Refused(number)


# ---- paces ---------------------------------------------------------------

def ask_limits(tmin, tmax):
    ask(1 <= tmin <= tmax <= LONGEST_LIMIT, 1)


def halving(tmin, tmax):
    waits = []
    wait = tmax
    while wait >= tmin:
        waits.append(wait)
        wait //= 2
    return waits


def two_phase(tmin, tmax):
    return [tmax] + [tmin] * 63


def listed(tmin, tmax, waits):
    ask(1 <= len(waits) <= MOST_WAITS, 2)
    ask(waits[0] == tmax, 3)
    ask(all(tmin <= w <= tmax for w in waits), 4)
    return list(waits)


def cap(waits, m):
    ask(1 <= m <= MOST_WAITS, 2)
    return waits[:m]


# ---- the group -----------------------------------------------------------

@dataclass
class Happening:
    tick: int
    owner: int
    word: str
    link: int


@dataclass
class Beat:
    last_tick: int
    parting: bool
    sent_at: int                   # log place of its sending


@dataclass
class Party:
    state: str                     # outside, joining, in, leaving, crashed, stopped, left
    roll: str                      # on, off, struck
    heard: bool = True             # the root's note
    misses: int = 0                # the root's note
    last_heard: int = 0
    ended_at: int | None = None
    state_before: str | None = None
    legs: dict = field(default_factory=lambda: {1: None, 2: None, 3: None})


class Group:
    def __init__(self, kind, n, tmin, tmax, waits, log_slots=LOG_SLOTS):
        self.kind, self.n, self.tmin, self.tmax = kind, n, tmin, tmax
        self.waits = list(waits)
        self.patience = tmax + sum(waits) + (0 if kind == CLOSED else tmin)   # D
        self.log, self.log_slots = [], log_slots
        self.clock = 0
        self.root, self.root_ended_at = "running", None
        self.round_start, self.round_length = 0, tmax
        first = ("in", "on") if kind == CLOSED else ("outside", "off")
        self.parties = {i: Party(*first) for i in range(1, n + 1)}

    # -- small steps

    def note(self, owner, word, link=None):
        place = len(self.log)
        assert place < self.log_slots
        self.log.append(Happening(self.clock, owner, word, place if link is None else link))
        return place

    def send(self, i, leg, last_tick, parting=False):
        assert self.parties[i].legs[leg] is None, "a beat sent on a busy leg"
        place = self.note(0 if leg == 1 else i, "sent")
        self.parties[i].legs[leg] = Beat(last_tick, parting, place)

    def end(self, i, word):
        party = self.parties[i]
        party.state_before, party.state, party.ended_at = party.state, word, self.clock
        self.note(i, word)

    def end_root(self, word):
        self.root, self.root_ended_at = word, self.clock
        self.note(0, word)

    def on_roll(self):
        return [i for i in self.parties if self.parties[i].roll == "on"]

    # -- questions shared by the calls

    def ask_party(self, i, lowest=1):
        ask(lowest <= i <= self.n, 6)

    def ask_kind(self, *kinds):
        ask(self.kind in kinds, 7)

    def ask_slots(self, wanted):
        ask(self.log_slots - len(self.log) >= wanted, 12)

    def take(self, i, leg):
        """The questions of deliver and lose; then the beat, off its leg."""
        self.ask_party(i)
        ask(leg in (1, 2, 3) and self.parties[i].legs[leg] is not None, 9)
        self.ask_slots(2)
        beat = self.parties[i].legs[leg]
        self.parties[i].legs[leg] = None
        return beat

    # -- the six calls

    def deliver(self, i, leg):
        beat = self.take(i, leg)
        if leg == 1:
            self.note(i, "arrived", beat.sent_at)
            self.hear(i, beat)
        else:
            self.note(0, "arrived", beat.sent_at)
            self.root_hears(i, beat)

    def hear(self, i, beat):
        party = self.parties[i]
        if party.state not in LIVE:
            return
        party.last_heard = self.clock
        self.send(i, 2, beat.last_tick, parting=party.state == "leaving")
        if party.state == "joining":
            party.state = "in"

    def root_hears(self, i, beat):
        party = self.parties[i]
        if self.root != "running" or party.roll == "struck":
            return
        if beat.parting:
            party.roll = "struck"
            self.note(i, "struck")
            return
        party.heard = True
        if party.roll == "off":
            party.roll, party.misses = "on", 0
            self.note(i, "enrolled")

    def lose(self, i, leg):
        beat = self.take(i, leg)
        self.note(0 if leg == 1 else i, "lost", beat.sent_at)

    def crash(self, i):
        self.ask_party(i, lowest=0)
        if i == 0:
            ask(self.root == "running", 8)
        else:
            ask(self.parties[i].state in LIVE, 8)
        self.ask_slots(2)
        if i == 0:
            self.end_root("crashed")
        else:
            self.end(i, "crashed")

    def join(self, i):
        self.ask_party(i)
        self.ask_kind(EXPANDING, DYNAMIC)
        ask(self.parties[i].state == "outside", 8)
        self.ask_slots(2)
        self.parties[i].state = "joining"
        self.parties[i].last_heard = self.clock
        self.note(i, "joining")
        self.send(i, 3, self.clock + self.tmin)

    def leave(self, i):
        self.ask_party(i)
        self.ask_kind(DYNAMIC)
        ask(self.parties[i].state == "in", 8)
        self.ask_slots(2)
        self.parties[i].state = "leaving"
        self.note(i, "leaving")

    def tick(self):
        ask(self.clock < LAST_CLOCK, 10)
        ask(all(beat is None or beat.last_tick != self.clock
                for party in self.parties.values() for beat in party.legs.values()), 11)
        self.ask_slots(2 * self.n)
        if self.root == "running" and self.clock == self.round_start + self.round_length:
            self.end_round()
        for i in self.parties:
            self.run_timer(i)
        self.clock += 1

    def end_round(self):
        for i in self.on_roll():
            party = self.parties[i]
            party.misses = 0 if party.heard else party.misses + 1
        if any(self.parties[i].misses == len(self.waits) for i in self.on_roll()):
            self.end_root("stopped")
            return
        self.round_start = self.clock
        self.round_length = min((self.waits[self.parties[i].misses] for i in self.on_roll()),
                                default=self.tmax)
        for i in self.on_roll():
            self.send(i, 1, self.clock + self.tmin)
            self.parties[i].heard = False

    def run_timer(self, i):
        party = self.parties[i]
        if party.state not in LIVE:
            return
        silence = self.clock - party.last_heard
        if silence >= self.patience:
            self.end(i, "left" if party.state == "leaving" else "stopped")
        elif party.state == "joining" and silence > 0 and silence % self.tmin == 0:
            self.send(i, 3, self.clock + self.tmin)

    # -- many ticks at once

    def party_stirs(self):
        """The first clock from now on at which a party's beat is due, or its timer does something."""
        stirs = [LAST_CLOCK]
        for party in self.parties.values():
            stirs += [beat.last_tick for beat in party.legs.values() if beat]
            if party.state in LIVE:
                stirs.append(party.last_heard + self.patience)
            if party.state == "joining":
                stirs.append(self.clock + -(self.clock - party.last_heard) % self.tmin)
        return min(stirs)

    def next_stir(self):
        """The first clock from now on at which a tick may refuse or do more than count."""
        if self.root != "running":
            return self.party_stirs()
        return min(self.party_stirs(), self.round_start + self.round_length)

    def idle_rounds(self, tick):
        """How many rounds from the end of one on, up to `tick`, only move the start of the round."""
        at_end = self.root == "running" and self.clock == self.round_start + self.round_length
        if not at_end or self.on_roll():
            return 0
        return (min(tick, self.party_stirs()) - self.clock) // self.tmax

    def pass_over(self, rounds):
        self.clock += rounds * self.tmax
        self.round_start, self.round_length = self.clock - self.tmax, self.tmax

    def tick_until(self, tick):
        """Ticks one by one until the clock is `tick`, passing over ticks that only count and over idle rounds."""
        while self.clock < tick:
            stir = self.next_stir()
            room = self.log_slots - len(self.log) >= 2 * self.n
            if room and stir > self.clock:
                self.clock = min(stir, tick)
            elif room and (rounds := self.idle_rounds(tick)):
                self.pass_over(rounds)
            else:
                self.tick()


# ---- the file ------------------------------------------------------------

HEAD = (
    '<?xml version="1.0" encoding="UTF-8"?>\n'
    '<graphml xmlns="http://graphml.graphdrawing.org/xmlns">\n'
    '<key id="t" for="node" attr.name="tick" attr.type="long"/>\n'
    '<key id="k" for="node" attr.name="what" attr.type="string"/>\n'
    '<graph id="run" edgedefault="directed">\n'
)
FRAME_CLOSINGS = ["</graphml>\n", "</graph>\n"]          # the innermost last
FRAME_BYTES = 275


class Full(Exception):
    """An element doesn't fit."""


class Writer:
    """What is written and what is still to close, together never above the room."""

    def __init__(self, room):
        ask(room >= FRAME_BYTES, 17)
        self.room, self.text, self.closings = room, HEAD, list(FRAME_CLOSINGS)

    def begin(self, opening, closing=None):
        more = len(opening) + len(closing or "")
        if len(self.text) + sum(map(len, self.closings)) + more > self.room:
            raise Full
        self.text += opening
        if closing:
            self.closings.append(closing)

    def close(self):
        self.text += self.closings.pop()


@dataclass
class Exported:
    data: bytes
    cut: bool
    happenings: int
    edges: int


def export(n, log, room=OUTPUT_BYTES):
    out = Writer(room)
    answer = Exported(b"", False, 0, 0)
    try:
        write_run(out, n, log, answer)
    except Full:
        answer.cut = True
    while out.closings:
        out.close()
    answer.data = out.text.encode("ascii")
    return answer


def write_run(out, n, log, answer):
    for i in range(n + 1):
        out.begin(f'<node id="p{i}">\n', "</node>\n")
        out.begin(f'<graph id="p{i}:" edgedefault="directed">\n', "</graph>\n")
        for place, h in enumerate(log):
            if h.owner == i:
                out.begin(f'<node id="h{place}"><data key="t">{h.tick}</data>'
                          f'<data key="k">{h.word}</data></node>\n')
                answer.happenings += 1
        out.close()
        out.close()
    for place, h in enumerate(log):
        if h.word == "arrived":
            out.begin(f'<edge source="h{h.link}" target="h{place}"/>\n')
            answer.edges += 1


# ---- the order file ------------------------------------------------------

START_MARK, START_BYTES = b"HG", 14
ORDER_MARK, ORDER_BYTES = b"HO", 9


@dataclass
class Start:
    kind: int
    n: int
    tmin: int
    tmax: int
    pace: int
    m: int


@dataclass
class Order:
    kind: int
    party: int
    leg: int
    tick: int


def record(data, byte, mark, size):
    """The whole record behind its mark, or a fault at its byte place."""
    text = data[byte:byte + size]
    if len(text) < size or text[:2] != mark:
        raise ReaderFault(byte, 15)
    return text


def number(four_bytes):
    return int.from_bytes(four_bytes, "big")


def read_start(data):
    r = record(data, 0, START_MARK, START_BYTES)
    start = Start(r[2], r[3], number(r[4:8]), number(r[8:12]), r[12], r[13])
    if start.kind not in (CLOSED, EXPANDING, DYNAMIC) or start.pace not in (HALVING, TWO_PHASE):
        raise ReaderFault(0, 16)
    return start


def read_order(data, byte):
    r = record(data, byte, ORDER_MARK, ORDER_BYTES)
    order = Order(r[2], r[3], r[4], number(r[5:9]))
    if not DELIVER <= order.kind <= WAIT:
        raise ReaderFault(byte, 16)
    return order


def read(data, order_slots=ORDER_SLOTS):
    """The start and the orders of a file; the set-up is not yet asked about."""
    start, orders = read_start(data), []
    for byte in range(START_BYTES, len(data), ORDER_BYTES):
        order = read_order(data, byte)
        if len(orders) >= order_slots:
            raise ReaderFault(byte, 12)
        if orders and order.tick < orders[-1].tick:
            raise ReaderFault(byte, 14)
        orders.append(order)
    return start, orders


def open_group(start, log_slots=LOG_SLOTS):
    """Limits, cap and plan are put to their questions, with byte place 0."""
    try:
        ask_limits(start.tmin, start.tmax)
        ask(1 <= start.m <= MOST_WAITS, 2)
        ask(1 <= start.n <= MOST_PARTIES, 5)
    except Refused as refused:
        raise ReaderFault(0, refused.number) from None
    below = halving if start.pace == HALVING else two_phase
    waits = cap(below(start.tmin, start.tmax), start.m)
    return Group(start.kind, start.n, start.tmin, start.tmax, waits, log_slots)


def act(group, order):
    if order.kind == DELIVER:
        group.deliver(order.party, order.leg)
    elif order.kind == LOSE:
        group.lose(order.party, order.leg)
    elif order.kind == CRASH:
        group.crash(order.party)
    elif order.kind == JOIN:
        group.join(order.party)
    elif order.kind == LEAVE:
        group.leave(order.party)


def play(group, orders):
    """None, or the place of the refused order and the refusal's number."""
    for place, order in enumerate(orders):
        try:
            group.tick_until(order.tick)
            act(group, order)
        except Refused as refused:
            return place, refused.number
    return None


def runfile(data, output_bytes=OUTPUT_BYTES):
    """The bytes that program runfile prints for this standard input."""
    try:
        start, orders = read(data[:INPUT_BYTES])
        group = open_group(start)
    except ReaderFault as fault:
        return b"refused byte %d number %d\n" % (fault.byte, fault.number)
    return printed(group, play(group, orders), output_bytes)


def printed(group, fault, output_bytes=OUTPUT_BYTES):
    """The exported file of a group that was played, and the notices."""
    file = export(group.n, group.log, output_bytes)
    notices = b"<!-- cut -->\n" if file.cut else b""
    if fault is not None:
        notices += b"<!-- refused order %d number %d -->\n" % fault
    return file.data + notices


if __name__ == "__main__":
    sys.stdout.buffer.write(runfile(sys.stdin.buffer.read(INPUT_BYTES)))
