#!/usr/bin/env python3
"""Tests of the tests: the model on runs worked out by hand and on the promises, and the
reader of exported files on damaged ones.

    python3 tests/check_model.py
"""

import random
import sys

import check_graphml
import model
import schedules
from model import CLOSED, CRASH, DELIVER, DYNAMIC, EXPANDING, HALVING, JOIN, LOSE
from schedules import Script


def refusal(call, *arguments):
    try:
        call(*arguments)
    except model.Refused as refused:
        return refused.number
    return 0


def happenings(group, word):
    return [(h.tick, h.owner) for h in group.log if h.word == word]


# ---- by hand -------------------------------------------------------------

def test_paces():
    assert model.halving(1, 10) == [10, 5, 2, 1]
    assert model.halving(5, 10) == [10, 5]
    capped = model.cap(model.two_phase(75, 7200), 10)
    assert capped == [7200] + [75] * 9 and sum(capped) == 7875
    assert model.listed(4, 10, [10, 10, 4]) == [10, 10, 4]
    assert refusal(model.listed, 4, 10, [10, 3]) == 4
    assert refusal(model.listed, 4, 10, [9]) == 3
    assert refusal(model.listed, 4, 10, [10] * 65) == 2


def test_root_stops_28_ticks_after_its_party_crashed():
    run = Script(CLOSED, 1, HALVING, 1, 10)
    run.order(CRASH, 1)
    run.until(40)
    assert run.group.patience == 28
    assert happenings(run.group, "stopped") == [(28, 0)]


def test_party_stops_28_ticks_after_its_root_crashed():
    run = Script(CLOSED, 1, HALVING, 1, 10)
    run.order(CRASH, 0)
    run.until(40)
    assert happenings(run.group, "stopped") == [(28, 1)]


def test_due_beat_holds_the_clock():
    run = Script(CLOSED, 1, HALVING, 1, 1)
    run.until(2, late=True, kind=DELIVER)
    assert [(h.tick, h.word) for h in run.group.log][:1] == [(1, "sent")]
    late = model.Group(CLOSED, 1, 1, 1, [1])
    late.tick()
    late.tick()
    assert (late.clock, refusal(late.tick)) == (2, 11)
    late.deliver(1, 1)
    late.deliver(1, 2)
    assert refusal(late.tick) == 0
    run.until(50, late=True)
    assert happenings(run.group, "stopped") == []


def test_joiner_that_nobody_hears_stops_at_12():
    run = Script(EXPANDING, 1, HALVING, 2, 4)
    run.order(JOIN, 1)
    run.until(20, kind=LOSE)
    assert happenings(run.group, "sent") == [(t, 1) for t in (0, 2, 4, 6, 8, 10)]
    assert happenings(run.group, "stopped") == [(12, 1)]


def test_late_joining_beat_enrols_no_struck_party():
    group = model.Group(DYNAMIC, 1, 2, 2, [2])
    group.tick()
    group.join(1)
    group.deliver(1, 3)
    while group.clock < 4:
        group.tick()
    group.deliver(1, 1)
    group.deliver(1, 2)
    group.leave(1)
    group.tick()
    group.deliver(1, 1)
    group.deliver(1, 2)
    assert happenings(group, "struck") == [(5, 1)]
    group.deliver(1, 3)
    assert (group.log[-1].word, group.parties[1].roll) == ("arrived", "struck")


def test_rounds_last_tmax_while_nobody_is_on_the_roll():
    run = Script(EXPANDING, 1, HALVING, 2, 8)
    run.until(9)
    run.order(JOIN, 1)
    run.until(20)
    assert happenings(run.group, "enrolled") == [(9, 1)]
    assert [place for place in happenings(run.group, "sent") if place[1] == 0] == [(16, 0)]


def test_bare_group_is_419_bytes():
    data = bytes.fromhex("48470101000000010000000A0140")
    assert len(model.runfile(data)) == 419
    sizes = {room: model.export(1, [], room) for room in (419, 418, 347, 346, 275)}
    assert (len(sizes[419].data), sizes[419].cut) == (419, False)
    assert (len(sizes[346].data), sizes[346].cut) == (298, True)
    assert (len(sizes[275].data), sizes[275].cut) == (275, True)
    assert refusal(model.export, 1, [], 274) == 17


def test_first_fault_of_a_file():
    assert model.runfile(b"") == b"refused byte 0 number 15\n"
    bare = bytes.fromhex("48470101000000010000000A0140")
    assert model.runfile(bare + b"HO") == b"refused byte 14 number 15\n"
    assert model.runfile(bare + b"HO\x07\0\0\0\0\0\0") == b"refused byte 14 number 16\n"
    wait = b"HO\x06\0\0\0\0\0"
    assert model.runfile(bare + wait + b"\2" + wait + b"\1") == b"refused byte 23 number 14\n"
    assert model.runfile(bare[:3] + b"\0" + bare[4:]) == b"refused byte 0 number 5\n"
    assert model.runfile(bare[:13] + b"\0") == b"refused byte 0 number 2\n"
    assert model.runfile(bare[:3] + b"\0" + bare[4:7] + b"\0" + bare[8:13] + b"\0") \
        == b"refused byte 0 number 1\n"
    full = bare + wait.ljust(9, b"\0") * 8_000
    assert model.runfile(full) == b"refused byte 65534 number 15\n"


# ---- by chance -----------------------------------------------------------

def check_promises(group, undisturbed):
    bound = group.patience
    rolled = [group.parties[i] for i in group.on_roll()]
    for party in rolled:
        if party.ended_at is not None and group.clock > party.ended_at + bound:
            assert group.root != "running", "the root outlives a party on its roll"
    if group.root != "running" and group.clock > group.root_ended_at + bound + group.tmin:
        assert all(party.ended_at is not None for party in rolled), "a party outlives the root"
    for party in group.parties.values():
        if party.state == "stopped" and party.state_before == "in":
            assert group.root != "running" and group.root_ended_at <= party.ended_at, \
                "a party stopped before the root"
    if undisturbed:
        ends = [group.root] + [party.state for party in group.parties.values()]
        assert "stopped" not in ends, "somebody stopped without a loss or a crash"


def test_promises_on_drawn_runs():
    rng = random.Random(2)
    for _ in range(600):
        run = schedules.draw_run(rng)
        run.refusal = None
        for kind in (rng.choice([DELIVER, LOSE]), LOSE):
            undisturbed = not any(h.word in ("lost", "crashed") for h in run.group.log)
            check_promises(run.group, undisturbed)
            run.until(run.group.clock + rng.randint(1, 2 * run.group.patience), kind=kind)
            run.refusal = None
        undisturbed = not any(h.word in ("lost", "crashed") for h in run.group.log)
        check_promises(run.group, undisturbed)


class Watch:
    """Stands on a group's calls: who put each beat on a leg, and what each granted delivery was of."""

    def __init__(self, group):
        self.group, self.deliveries, self.struck = group, [], set()
        self.sent_by = {}       # (party, leg) -> the beat on it, and the places of the log that the call wrote
        for name in ("tick", "deliver", "lose", "crash", "join", "leave"):
            setattr(group, name, lambda *words, name=name, call=getattr(group, name): self.make(name, call, *words))

    def make(self, name, call, *words):
        group = self.group
        clock, places = group.clock, len(group.log)
        stood = {(i, leg): beat for i, party in group.parties.items() for leg, beat in party.legs.items()}
        call(*words)
        if name == "deliver":
            self.deliveries.append((clock, words, stood[words], self.sent_by[words], places))
        for i, party in group.parties.items():
            for leg, beat in party.legs.items():
                if beat is not stood[i, leg] and beat is not None:
                    assert stood[i, leg] is None or (i, leg) == words
                    self.sent_by[i, leg] = beat, range(places, len(group.log))
        self.struck |= {i for i, party in group.parties.items() if party.roll == "struck"}
        for i in self.struck:
            party = group.parties[i]
            assert party.roll == "struck", "a struck party is struck no more"
            assert party.legs[1] is None and party.legs[2] is None, "a beat is sent to a struck party"


def check_deliveries(watch):
    log = watch.group.log
    edges = [(h.link, place) for place, h in enumerate(log) if h.word == "arrived"]
    assert len(edges) == len(watch.deliveries), "not as many edges as granted deliveries"
    for (source, target), (clock, (i, leg), beat, (put, places), before) in zip(edges, watch.deliveries):
        assert 1 <= i <= watch.group.n and 1 <= leg <= 3
        assert target == before, "the arrival is not the first record of its call"
        assert (log[target].tick, log[target].owner) == (clock, i if leg == 1 else 0)
        assert (log[source].word, log[source].owner) == ("sent", 0 if leg == 1 else i)
        assert beat is put and beat.sent_at == source and source in places, "another beat was delivered"
    assert all(0 <= h.owner <= watch.group.n for h in log)
    for i in range(watch.group.n + 1):
        words = [h.word for h in log if h.owner == i]
        assert words.count("struck") == (i in watch.struck)


def check_sendings(group):
    settled = sorted(h.link for h in group.log if h.word in ("arrived", "lost"))
    under_way = sorted(beat.sent_at for party in group.parties.values() for beat in party.legs.values() if beat)
    assert sorted(settled + under_way) == [k for k, h in enumerate(group.log) if h.word == "sent"]
    assert all(h.tick <= group.log[h.link].tick + group.tmin for h in group.log)


def told(log, owner, party):
    """Makes of a party, or of the root as party 0, what the records of the log that it owns tell."""
    ends = ("crashed", "stopped", "left")
    for h in log:
        if h.owner != owner:
            continue
        if h.word in ends:
            party.state_before, party.state, party.ended_at = party.state, h.word, h.tick
        elif h.word == "joining":
            party.state, party.last_heard = "joining", h.tick
        elif h.word == "leaving":
            party.state = "leaving"
        elif h.word == "enrolled":
            party.roll = "on"
        elif h.word == "struck":
            party.roll = "struck"
        elif h.word == "arrived" and party.state in model.LIVE:
            party.last_heard = h.tick
            party.state = {"joining": "in"}.get(party.state, party.state)
    return party


def check_told(group):
    fresh = model.Group(group.kind, group.n, group.tmin, group.tmax, group.waits)
    for i, party in group.parties.items():
        read = told(group.log, i, fresh.parties[i])
        for field in ("state", "state_before", "ended_at", "last_heard", "roll"):
            assert getattr(read, field) == getattr(party, field), (i, field)
    root = told(group.log, 0, model.Party("running", "off"))
    assert (root.state, root.ended_at) == (group.root, group.root_ended_at)


def test_what_the_logs_of_drawn_runs_tell():
    rng = random.Random(5)
    deliveries = struck = 0
    for _ in range(400):
        start, orders = model.read(schedules.draw_run(rng).data)
        watch = Watch(model.open_group(start))
        model.play(watch.group, orders)
        check_deliveries(watch)
        check_sendings(watch.group)
        check_told(watch.group)
        deliveries, struck = deliveries + len(watch.deliveries), struck + len(watch.struck)
    assert deliveries > 10_000 and struck > 50, (deliveries, struck)


class Single(model.Group):
    """A group that passes over no tick."""

    def next_stir(self):
        return self.clock

    def idle_rounds(self, _tick):
        return 0


def check_passing(data):
    """Passing over ticks and rounds comes to what single ticks come to; answers how many passes over rounds there were."""
    start, orders = model.read(data)
    fast, slow = model.open_group(start), model.open_group(start)
    slow.__class__ = Single
    passes = []
    fast.pass_over = lambda rounds: passes.append(rounds) or model.Group.pass_over(fast, rounds)
    assert model.play(fast, orders) == model.play(slow, orders)
    del fast.pass_over
    assert vars(fast) == vars(slow)
    return len(passes)


def test_passing_over_quiet_ticks_changes_nothing():
    rng = random.Random(3)
    for _ in range(200):
        data = schedules.draw_run(rng).data
        _, orders = model.read(data)
        if not orders or orders[-1].tick <= 20_000:
            check_passing(data)


def test_passing_over_idle_rounds_changes_nothing():
    rng = random.Random(6)
    passes = sum(check_passing(schedules.draw_idler(rng, digits=3).data) for _ in range(300))
    assert passes > 300, passes


class Counting(model.Group):
    """A group that counts the turns in which it lets time pass: a tick, or as many as it passes over at once."""

    turns = 0

    def next_stir(self):
        self.turns += 1
        return super().next_stir()


def test_turns_go_by_orders_and_records_and_not_by_the_clock():
    rng = random.Random(7)
    at_end = 0
    for draw in [schedules.draw_idler] * 300 + [schedules.draw_run] * 100:
        start, orders = model.read(draw(rng).data)
        group = model.open_group(start)
        group.__class__ = Counting
        model.play(group, orders)
        assert group.turns <= 5 * (len(orders) + len(group.log) + 1)
        at_end += group.clock == model.LAST_CLOCK
    assert at_end > 20, at_end


def test_text_and_bytes_say_the_same():
    rng = random.Random(4)
    for _ in range(100):
        data = schedules.draw_run(rng).data
        again = schedules.compose(schedules.text_of(data))
        assert model.runfile(again) == model.runfile(data)


# ---- damaged files -------------------------------------------------------

def accepted(lines):
    try:
        check_graphml.check(b"".join(lines))
    except check_graphml.Fault:
        return False
    return True


def test_reader_refuses_a_file_with_one_line_wrong():
    run = Script(CLOSED, 2, HALVING, 1, 4)
    run.until(14)
    lines = model.export(2, run.group.log).data.splitlines(keepends=True)
    assert accepted(lines)
    for at, line in enumerate(lines):
        assert not accepted(lines[:at] + lines[at + 1:]), f"without line {at + 1}"
        assert not accepted(lines[:at] + [line] + lines[at:]), f"with line {at + 1} twice"
        turned = lines[:at] + lines[at:at + 2][::-1] + lines[at + 2:]
        assert at == len(lines) - 1 or not accepted(turned), f"with lines {at + 1}, {at + 2} turned"


def main():
    tests = [(name, test) for name, test in globals().items() if name.startswith("test_")]
    bad = 0
    for name, test in tests:
        try:
            test()
        except AssertionError as error:
            bad += 1
            line = error.__traceback__.tb_next.tb_lineno
            print(f"{name} fails at line {line}: {error}")
    print(f"{len(tests) - bad} tests of the model and the reader hold, {bad} don't")
    return 1 if bad else 0


if __name__ == "__main__":
    sys.exit(main())
