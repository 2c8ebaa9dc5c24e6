#!/usr/bin/env python3
"""Order files from text, and order files drawn at random.

A schedule is text, one record to a line; `#` begins a comment:

    closed 2 halving 1 10 cap 64     kind, parties, pace, tmin, tmax, cap
    11 deliver 1 1                   tick, order, party, leg
    12 crash 1                       tick, order, party
    40 wait                          tick, order
    bytes 48 4F 07                   bytes as they are, for damaged files

    python3 tests/schedules.py compose < file.txt > file.orders
    python3 tests/schedules.py list < file.orders
    python3 tests/schedules.py draw SEED COUNT FOLDER
"""

import pathlib
import random
import sys

import model

KINDS = {"closed": model.CLOSED, "expanding": model.EXPANDING, "dynamic": model.DYNAMIC}
PACES = {"halving": model.HALVING, "two-phase": model.TWO_PHASE}
ORDERS = {"deliver": model.DELIVER, "lose": model.LOSE, "crash": model.CRASH,
          "join": model.JOIN, "leave": model.LEAVE, "wait": model.WAIT}
ORDER_WORDS = {number: word for word, number in ORDERS.items()}
WITH_LEG = (model.DELIVER, model.LOSE)


# ---- bytes ---------------------------------------------------------------

def start_bytes(kind, n, pace, tmin, tmax, m):
    return (model.START_MARK + bytes([kind, n]) + tmin.to_bytes(4, "big")
            + tmax.to_bytes(4, "big") + bytes([pace, m]))


def order_bytes(kind, party, leg, tick):
    return model.ORDER_MARK + bytes([kind, party, leg]) + tick.to_bytes(4, "big")


# ---- text ----------------------------------------------------------------

def compose_line(words):
    if words[0] == "bytes":
        return bytes(int(word, 16) for word in words[1:])
    if words[0] in KINDS:
        kind, n, pace, tmin, tmax, cap, m = words
        assert cap == "cap", words
        return start_bytes(KINDS[kind], int(n), PACES[pace], int(tmin), int(tmax), int(m))
    tick, order, *rest = words
    party, leg = (list(map(int, rest)) + [0, 0])[:2]
    return order_bytes(ORDERS[order], party, leg, int(tick))


def compose(text):
    lines = (line.split("#")[0].split() for line in text.splitlines())
    return b"".join(compose_line(words) for words in lines if words)


def order_line(order):
    words = [str(order.tick), ORDER_WORDS[order.kind]]
    if order.kind != model.WAIT:
        words.append(str(order.party))
    if order.kind in WITH_LEG:
        words.append(str(order.leg))
    return " ".join(words)


def text_of(data):
    """The schedule of a file that can be read."""
    start, orders = model.read(data)
    kind = next(word for word, k in KINDS.items() if k == start.kind)
    pace = next(word for word, p in PACES.items() if p == start.pace)
    head = f"{kind} {start.n} {pace} {start.tmin} {start.tmax} cap {start.m}"
    return "\n".join([head] + [order_line(order) for order in orders]) + "\n"


# ---- a run under way -----------------------------------------------------

class Script:
    """Writes an order file while playing it, so that its writer sees each leg."""

    def __init__(self, kind, n, pace, tmin, tmax, m=64, log_slots=model.LOG_SLOTS):
        self.data = start_bytes(kind, n, pace, tmin, tmax, m)
        self.group = model.open_group(model.read_start(self.data), log_slots)
        self.refusal = None

    def order(self, kind, party=0, leg=0, tick=None):
        """Appends the order and plays it; false once an order was refused."""
        tick = self.group.clock if tick is None else tick
        self.data += order_bytes(kind, party, leg, tick)
        if self.refusal is None:
            self.refusal = model.play(self.group, [model.Order(kind, party, leg, tick)])
        return self.refusal is None

    def beats(self):
        return [(i, leg, beat) for i, party in self.group.parties.items()
                for leg, beat in party.legs.items() if beat]

    def settle(self, kind=model.DELIVER, due_only=False):
        """Delivers or loses each beat on a leg, replies too, in one tick."""
        while self.refusal is None:
            beats = [(i, leg) for i, leg, beat in self.beats()
                     if not due_only or beat.last_tick == self.group.clock]
            if not beats:
                return
            self.order(kind, *beats[0])

    def until(self, tick, late=False, kind=model.DELIVER):
        """Plays up to a tick; each beat is settled at once, or on its last tick."""
        while self.refusal is None and self.group.clock < tick:
            self.settle(kind, due_only=late)
            if self.refusal is None:
                self.pass_until(min(max(self.group.next_stir(), self.group.clock + 1), tick))
        self.settle(kind, due_only=late)

    def pass_until(self, tick):
        """Lets time pass; the next order's tick tells of it, or a wait where it is refused."""
        try:
            self.group.tick_until(tick)
        except model.Refused:
            self.order(model.WAIT, tick=self.group.clock + 1)


# ---- chance --------------------------------------------------------------

def draw_limits(rng):
    tmin = rng.choice([1, 1, 1, 2, 3, 5, rng.randint(1, 40)])
    tmax = rng.choice([tmin, tmin + 1, 2 * tmin, rng.randint(tmin, 4 * tmin + 12)])
    if rng.random() < 0.03:
        tmax = rng.randint(tmin, 20_000)
    return tmin, tmax


def draw_script(rng):
    kind = rng.choice([model.CLOSED, model.EXPANDING, model.DYNAMIC, model.DYNAMIC])
    n = rng.choice([1, 1, 2, 2, 3, 4, rng.randint(5, 32)])
    pace = rng.choice([model.HALVING, model.HALVING, model.TWO_PHASE])
    m = rng.choice([64, 64, rng.randint(1, 8), rng.randint(1, 64)])
    return Script(kind, n, pace, *draw_limits(rng), m)


def draw_run(rng):
    """A run that mostly gets far: orders are refused only where chance says so."""
    script = draw_script(rng)
    length = rng.choice([20, 60, 60, 150, 400, 1500])
    loss = rng.choice([0, 0, 0.05, 0.3, 1])
    haste = rng.choice([0.1, 0.5, 1])
    crash = rng.choice([0, 0, 0.01, 0.05])
    come_and_go = rng.choice([0.05, 0.2])
    slip = rng.choice([0, 0, 0, 0.01])
    for _ in range(length):
        if script.refusal is not None:
            break
        if rng.random() < slip:
            draw_slip(rng, script)
        elif rng.random() < crash:
            draw_crash(rng, script)
        elif rng.random() < come_and_go:
            draw_joiner_or_leaver(rng, script)
        else:
            draw_settling(rng, script, loss, haste)
    if script.refusal is None and rng.random() < 0.5:
        script.order(model.WAIT, tick=script.group.clock + rng.randint(0, 3))
    return script


def draw_settling(rng, script, loss, haste):
    """Settles a beat when one is due or in haste, otherwise lets time pass."""
    group = script.group
    due = [beat for beat in script.beats() if beat[2].last_tick == group.clock]
    if due or (script.beats() and rng.random() < haste):
        i, leg, _ = rng.choice(due or script.beats())
        script.order(model.LOSE if rng.random() < loss else model.DELIVER, i, leg)
        return
    to_next = min(max(1, group.next_stir() - group.clock), group.patience)
    script.pass_until(group.clock + rng.choice([1, 1, to_next]))


def draw_crash(rng, script):
    group = script.group
    live = [i for i, party in group.parties.items() if party.state in model.LIVE]
    if group.root == "running" and rng.random() < 0.3:
        live = [0]
    if live:
        script.order(model.CRASH, rng.choice(live))


def draw_joiner_or_leaver(rng, script):
    group = script.group
    i = rng.randint(1, group.n)
    state = group.parties[i].state
    if state == "outside":
        script.order(model.JOIN, i)
    elif state == "in" and group.kind == model.DYNAMIC and rng.random() < 0.3:
        script.order(model.LEAVE, i)


def draw_slip(rng, script):
    """An order that may well be refused."""
    kind = rng.randint(model.DELIVER, model.WAIT)
    tick = script.group.clock + rng.choice([0, 0, 1, 5, 60])
    script.order(kind, rng.randint(0, script.group.n + 1), rng.randint(0, 4), tick)


def draw_idler(rng, digits=10):
    """A run with nobody on the roll for most of the time: between waits of up to so many digits parties come and go."""
    n = rng.choice([1, 1, 2, 3, rng.randint(1, 32)])
    pace = rng.choice([model.HALVING, model.TWO_PHASE])
    cap = rng.choice([64, 1, 2, 3])
    script = Script(rng.choice([model.EXPANDING, model.DYNAMIC, model.DYNAMIC]), n, pace, *draw_limits(rng), cap)
    for _ in range(rng.randint(1, 8)):
        tick = script.group.clock + int(10 ** rng.uniform(0, digits))
        script.order(model.WAIT, tick=min(tick, 0xFFFF_FFFF))
        draw_visit(rng, script, rng.randint(1, n))
        if script.refusal is not None:
            break
    return script


def draw_visit(rng, script, i):
    """A party joins, and mostly it is heard and leaves again, or nobody hears it and it stops."""
    group = script.group
    heard = model.DELIVER if group.kind == model.DYNAMIC else model.LOSE
    kind = rng.choice([heard] * 7 + [model.DELIVER, model.LOSE])
    for call, state in ((model.JOIN, "outside"), (model.LEAVE, "in")):
        may = call == model.JOIN or group.kind == model.DYNAMIC
        if may and script.refusal is None and group.parties[i].state == state:
            script.order(call, i)
            stay = rng.choice([3 * group.tmax, group.patience, rng.randint(0, 2 * group.tmax)])
            script.until(group.clock + stay, late=rng.random() < 0.5, kind=kind)


def damage(rng, data):
    """The file cut short, with changed bytes, with records turned, or with bytes behind it."""
    data = bytearray(data)
    way = rng.randrange(6)
    if way == 0:
        del data[rng.randrange(len(data) + 1):]
    elif way == 1:
        data[rng.randrange(len(data))] = rng.randrange(256)
    elif way == 2:
        at = rng.choice([2, 3, 7, 11, 12, 13])
        if at < len(data):
            data[at] = rng.choice([0, 1, 2, 3, 4, 32, 33, 64, 65, 255])
    elif way == 3:
        data += bytes(rng.randrange(256) for _ in range(rng.randint(1, 12)))
    elif way == 4 and len(data) >= 14 + 9:
        at = 14 + 9 * rng.randrange((len(data) - 14) // 9)
        data[at + rng.randrange(9)] = rng.randrange(256)
    elif len(data) >= 14 + 18:
        data[-18:] = data[-9:] + data[-18:-9]
    return bytes(data)


def draw(rng):
    """One order file."""
    run = draw_idler(rng) if rng.random() < 0.2 else draw_run(rng)
    data = run.data
    while rng.random() < 0.25:
        data = damage(rng, data)
    return data


def drawn(seed, count):
    rng = random.Random(seed)
    return [draw(rng) for _ in range(count)]


# ---- program -------------------------------------------------------------

def main(words):
    if words == ["compose"]:
        sys.stdout.buffer.write(compose(sys.stdin.read()))
    elif words == ["list"]:
        sys.stdout.write(text_of(sys.stdin.buffer.read()))
    elif len(words) == 4 and words[0] == "draw":
        folder = pathlib.Path(words[3])
        folder.mkdir(parents=True, exist_ok=True)
        for place, data in enumerate(drawn(int(words[1]), int(words[2]))):
            (folder / f"{place:04}.orders").write_bytes(data)
    else:
        sys.exit(__doc__)


if __name__ == "__main__":
    main(sys.argv[1:])
