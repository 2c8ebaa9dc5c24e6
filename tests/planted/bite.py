#!/usr/bin/env python3
"""Changes one rule of the model at a time, and looks for a run that breaks a promise.

    python3 tests/planted/bite.py

protocol-definitions.bugs and both.list have the same changes as edits of the definitions, and RESULTS.md the laws whose proofs then fail. A proof that
fails doesn't tell that its law is wrong; a run does. The table goes to BROKEN.md: the promise that a run breaks, and how many drawn runs it took to find one.
"""

import pathlib
import random
import sys

HERE = pathlib.Path(__file__).resolve().parent
sys.path.insert(0, str(HERE.parent))

import check_model  # noqa: E402
import model  # noqa: E402
import schedules  # noqa: E402

MOST_RUNS = 3_000
RULES = model.Group


class PatienceOneTickShort(RULES):
    def __init__(self, *words):
        super().__init__(*words)
        self.patience -= 1


class NoTminInD(RULES):
    def __init__(self, kind, n, tmin, *words):
        super().__init__(kind, n, tmin, *words)
        self.patience -= 0 if kind == model.CLOSED else tmin


class HeardNotCleared(RULES):
    def end_round(self):
        heard = {i: self.parties[i].heard for i in self.on_roll()}
        super().end_round()
        for i, was in heard.items():
            self.parties[i].heard = was


class FreshLastTick(RULES):
    def hear(self, i, beat):
        super().hear(i, model.Beat(self.clock + self.tmin, beat.parting, beat.sent_at))


class StruckEnrolledAgain(RULES):
    def root_hears(self, i, beat):
        if self.parties[i].roll == "struck":
            self.parties[i].roll = "off"
        super().root_hears(i, beat)


class ArrivalLinkedToItself(RULES):
    def note(self, owner, word, link=None):
        return super().note(owner, word, None if word == "arrived" else link)


class NoQuestion11(RULES):
    def tick(self):
        legs = [(party.legs, leg, beat) for party in self.parties.values() for leg, beat in party.legs.items() if beat and beat.last_tick == self.clock]
        for places, leg, beat in legs:
            places[leg] = model.Beat(beat.last_tick - 1, beat.parting, beat.sent_at)
        super().tick()


class StopsOneRoundLate(RULES):
    def __init__(self, kind, n, tmin, tmax, waits, *words):
        super().__init__(kind, n, tmin, tmax, waits, *words)
        self.waits = list(waits) + [waits[-1]]


class ArrivalOwnedByItsSender(RULES):
    def note(self, owner, word, link=None):
        return super().note(self.log[link].owner if word == "arrived" else owner, word, link)


class LossOwnedByItsReceiver(RULES):
    def lose(self, i, leg):
        super().lose(i, leg)
        self.log[-1].owner = i if leg == 1 else 0


class HeardOneTickLate(RULES):
    def hear(self, i, beat):
        super().hear(i, beat)
        if self.parties[i].state in model.LIVE:
            self.parties[i].last_heard += 1


class NeverNotesThatItHeard(RULES):
    def hear(self, i, beat):
        was = self.parties[i].last_heard
        super().hear(i, beat)
        self.parties[i].last_heard = was


class PatienceOfTwiceTmax(RULES):
    def __init__(self, kind, n, tmin, tmax, *words):
        super().__init__(kind, n, tmin, tmax, *words)
        self.patience = 2 * tmax + (0 if kind == model.CLOSED else tmin)


class EndsOnlyPastItsPatience(RULES):
    def run_timer(self, i):
        self.patience += 1
        super().run_timer(i)
        self.patience -= 1


class EnrolledByAnEndedRoot(RULES):
    def root_hears(self, i, beat):
        was, self.root = self.root, "running"
        super().root_hears(i, beat)
        self.root = was


class OtherRounds(RULES):
    """A round's end, with the misses and the length left to the rule that is changed."""

    stops_at = 0

    def missed(self, party):
        return 0 if party.heard else party.misses + 1

    def length(self, waits):
        return min(waits, default=self.tmax)

    def end_round(self):
        for i in self.on_roll():
            self.parties[i].misses = self.missed(self.parties[i])
        if any(self.parties[i].misses >= len(self.waits) + self.stops_at for i in self.on_roll()):
            self.end_root("stopped")
            return
        self.round_start = self.clock
        self.round_length = self.length([self.waits[self.parties[i].misses] for i in self.on_roll()])
        for i in self.on_roll():
            self.send(i, 1, self.clock + self.tmin)
            self.parties[i].heard = False


class LongestWait(OtherRounds):
    def length(self, waits):
        return max(waits, default=self.tmax)


class HalfTheRoundBefore(OtherRounds):
    def length(self, waits):
        return max(1, self.round_length // 2) if any(wait < self.tmax for wait in waits) else self.tmax


class StopsOneMissEarly(OtherRounds):
    stops_at = -1


class MissesNotReset(OtherRounds):
    def missed(self, party):
        return party.misses + (not party.heard)


class JoiningBeatLastsOneTickMore(RULES):
    def send(self, i, leg, last_tick, parting=False):
        super().send(i, leg, last_tick + (leg == 3), parting)


class CallsEverySecondTmin(RULES):
    def run_timer(self, i):
        self.tmin *= 2
        super().run_timer(i)
        self.tmin //= 2
        if self.parties[i].legs[3]:
            self.parties[i].legs[3].last_tick = min(self.parties[i].legs[3].last_tick, self.clock + self.tmin)


class TimersBeforeTheRoot(RULES):
    def tick(self):
        model.ask(self.clock < model.LAST_CLOCK, 10)
        model.ask(all(beat is None or beat.last_tick != self.clock for party in self.parties.values() for beat in party.legs.values()), 11)
        self.ask_slots(2 * self.n)
        for i in self.parties:
            self.run_timer(i)
        if self.root == "running" and self.clock == self.round_start + self.round_length:
            self.end_round()
        self.clock += 1


CHANGES = [
    ("patience is one tick short", PatienceOneTickShort),
    ("D has no tmin where parties may join", NoTminInD),
    ("heard is not cleared at a send", HeardNotCleared),
    ("a reply has a fresh last tick", FreshLastTick),
    ("a struck party is enrolled again", StruckEnrolledAgain),
    ("an arrival is linked to its own place", ArrivalLinkedToItself),
    ("question 11 is dropped", NoQuestion11),
    ("the root stops one round late", StopsOneRoundLate),
    ("an arrival is owned by its sender", ArrivalOwnedByItsSender),
    ("a loss is owned by its receiver", LossOwnedByItsReceiver),
    ("a party is heard one tick late", HeardOneTickLate),
    ("a party that hears does not note when", NeverNotesThatItHeard),
    ("patience is twice tmax", PatienceOfTwiceTmax),
    ("a party ends only past its patience", EndsOnlyPastItsPatience),
    ("a root that has ended enrols", EnrolledByAnEndedRoot),
    ("a round lasts the longest wait", LongestWait),
    ("a round with a miss is half the one before", HalfTheRoundBefore),
    ("the root stops at one miss fewer", StopsOneMissEarly),
    ("misses are not reset when heard", MissesNotReset),
    ("a joining beat's last tick is one later", JoiningBeatLastsOneTickMore),
    ("joining beats go out every second tmin", CallsEverySecondTmin),
    ("timers run before the root", TimersBeforeTheRoot),
]


def check_links(group):
    for place, happening in enumerate(group.log):
        if happening.word in ("arrived", "lost"):
            sending = group.log[happening.link]
            assert happening.link < place and sending.word == "sent", f"what {happening.word} is linked to no sending"
            is_own = happening.owner == sending.owner
            assert is_own if happening.word == "lost" else (happening.owner == 0) != (sending.owner == 0), f"what {happening.word} is owned by the other end"


def check(group):
    check_links(group)
    check_model.check_promises(group, not any(h.word in ("lost", "crashed") for h in group.log))


def broken(seed):
    """What the run that this seed draws breaks, or None."""
    rng = random.Random(seed)
    try:
        run = schedules.draw_run(rng)
        for kind in (rng.choice([model.DELIVER, model.LOSE]), model.LOSE):
            run.refusal = None
            check(run.group)
            run.until(run.group.clock + rng.randint(1, 2 * run.group.patience), late=rng.random() < 0.5, kind=kind)
        check(run.group)
    except AssertionError as error:
        return str(error)
    return None


def first_broken(rules):
    model.Group = rules
    for seed in range(MOST_RUNS):
        words = broken(seed)
        if words:
            return f"{words} | {seed + 1}"
    return f"none found | {MOST_RUNS}"


def main():
    rows = [f"| {name} | {first_broken(rules)} |" for name, rules in CHANGES + [("none: the rules as they are", RULES)]]
    head = ["# Runs that break a promise once a rule is changed", "", "Written by `bite.py`.", "", "| change | what a run then breaks | runs drawn |", "|---|---|---|"]
    (HERE / "BROKEN.md").write_text("\n".join(head + rows) + "\n")
    print("\n".join(rows))


if __name__ == "__main__":
    main()
