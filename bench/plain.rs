//! The program `runfile` as a plain Rust program, written for the benchmark and not proved: it closes every tick one by one.
//!
//!     rustc -O -o target/plain bench/plain.rs && target/plain < FILE.orders

use std::io::{Read, Write};

const INPUT_BYTES: u64 = 65_536;
const OUTPUT_BYTES: usize = 65_536;
const ORDER_SLOTS: usize = 8_192;
const LOG_SLOTS: usize = 2_048;
const CLOCK_END: u32 = 4_000_000_000;
const WORDS: [&str; 10] = ["sent", "arrived", "lost", "enrolled", "struck", "crashed", "stopped", "left", "joining", "leaving"];
const HEAD: &str = concat!(
    "<?xml version=\"1.0\" encoding=\"UTF-8\"?>\n",
    "<graphml xmlns=\"http://graphml.graphdrawing.org/xmlns\">\n",
    "<key id=\"t\" for=\"node\" attr.name=\"tick\" attr.type=\"long\"/>\n",
    "<key id=\"k\" for=\"node\" attr.name=\"what\" attr.type=\"string\"/>\n",
    "<graph id=\"run\" edgedefault=\"directed\">\n"
);
const TAIL: &str = "</graph>\n</graphml>\n";

#[derive(Clone, Copy, PartialEq)]
enum Kind {
    Sent,
    Arrived,
    Lost,
    Enrolled,
    Struck,
    Crashed,
    Stopped,
    Left,
    Joining,
    Leaving,
}

#[derive(Clone, Copy)]
struct Happening {
    tick: u32,
    owner: u8,
    kind: Kind,
    link: usize,
}

#[derive(Clone, Copy, PartialEq)]
enum State {
    Outside,
    Joining,
    In,
    Leaving,
    Ended,
}

#[derive(Clone, Copy, PartialEq)]
enum Roll {
    Off,
    On,
    Struck,
}

#[derive(Clone, Copy)]
struct Beat {
    last: u32,
    parting: bool,
    place: usize,
}

#[derive(Clone, Copy)]
struct Party {
    state: State,
    since: u32,
    roll: Roll,
    heard: bool,
    misses: usize,
    legs: [Option<Beat>; 3],
}

#[derive(Clone, Copy)]
struct Order {
    kind: u8,
    party: u8,
    leg: u8,
    tick: u32,
}

/// A fault of the reader or of the set-up: the byte place and the number.
type Fault = (usize, u8);

struct Start {
    kind: u8,
    n: u8,
    tmin: u32,
    tmax: u32,
    pace: u8,
    cap: u8,
}

fn number(bytes: &[u8]) -> u32 {
    u32::from_be_bytes([bytes[0], bytes[1], bytes[2], bytes[3]])
}

fn read(input: &[u8]) -> Result<(Start, Vec<Order>), Fault> {
    if input.len() < 14 || input[..2] != [0x48, 0x47] {
        return Err((0, 15));
    }
    if !(1..=3).contains(&input[2]) || !(1..=2).contains(&input[12]) {
        return Err((0, 16));
    }
    let start = Start { kind: input[2], n: input[3], tmin: number(&input[4..]), tmax: number(&input[8..]), pace: input[12], cap: input[13] };
    let mut orders: Vec<Order> = Vec::new();
    let mut at = 14;
    while at < input.len() {
        let rest = &input[at..];
        if rest.len() < 9 || rest[..2] != [0x48, 0x4F] {
            return Err((at, 15));
        }
        if !(1..=6).contains(&rest[2]) {
            return Err((at, 16));
        }
        let order = Order { kind: rest[2], party: rest[3], leg: rest[4], tick: number(&rest[5..]) };
        if orders.len() == ORDER_SLOTS {
            return Err((at, 12));
        }
        if orders.last().is_some_and(|last| order.tick < last.tick) {
            return Err((at, 14));
        }
        orders.push(order);
        at += 9;
    }
    Ok((start, orders))
}

fn waits(start: &Start) -> Result<Vec<u32>, Fault> {
    if start.tmin < 1 || start.tmin > start.tmax || start.tmax > 1_000_000 {
        return Err((0, 1));
    }
    if start.cap < 1 || start.cap > 64 {
        return Err((0, 2));
    }
    if start.n < 1 || start.n > 32 {
        return Err((0, 5));
    }
    let mut waits = vec![start.tmax];
    while waits.len() < start.cap as usize {
        let next = if start.pace == 1 { waits[waits.len() - 1] / 2 } else { start.tmin };
        if next < start.tmin || start.pace == 2 && waits.len() == 64 {
            break;
        }
        waits.push(next);
    }
    Ok(waits)
}

struct Group {
    kind: u8,
    tmin: u32,
    waits: Vec<u32>,
    patience: u32,
    clock: u32,
    running: bool,
    start: u32,
    length: u32,
    parties: Vec<Party>,
    log: Vec<Happening>,
}

impl Group {
    fn open(start: &Start, waits: Vec<u32>) -> Group {
        let closed = start.kind == 1;
        let fresh = Party {
            state: if closed { State::In } else { State::Outside },
            since: 0,
            roll: if closed { Roll::On } else { Roll::Off },
            heard: true,
            misses: 0,
            legs: [None; 3],
        };
        let patience = start.tmax + waits.iter().sum::<u32>() + if closed { 0 } else { start.tmin };
        Group {
            kind: start.kind,
            tmin: start.tmin,
            length: start.tmax,
            waits,
            patience,
            clock: 0,
            running: true,
            start: 0,
            parties: vec![fresh; start.n as usize],
            log: Vec::with_capacity(LOG_SLOTS),
        }
    }

    fn tell(&mut self, owner: u8, kind: Kind) -> usize {
        let place = self.log.len();
        self.log.push(Happening { tick: self.clock, owner, kind, link: place });
        place
    }

    fn room(&self, slots: usize) -> Result<(), u8> {
        if self.log.len() + slots > LOG_SLOTS { Err(12) } else { Ok(()) }
    }

    fn index(&self, party: u8) -> Result<usize, u8> {
        if party == 0 || party as usize > self.parties.len() { Err(6) } else { Ok(party as usize - 1) }
    }

    fn tick(&mut self) -> Result<(), u8> {
        let clock = self.clock;
        if clock >= CLOCK_END {
            return Err(10);
        }
        if self.parties.iter().any(|p| p.legs.iter().flatten().any(|beat| beat.last == clock)) {
            return Err(11);
        }
        self.room(2 * self.parties.len())?;
        if self.running && clock == self.start + self.length {
            self.end_round();
        }
        for i in 0..self.parties.len() {
            self.time(i);
        }
        self.clock += 1;
        Ok(())
    }

    fn end_round(&mut self) {
        for party in self.parties.iter_mut().filter(|p| p.roll == Roll::On) {
            party.misses = if party.heard { 0 } else { party.misses + 1 };
        }
        let on_roll = || self.parties.iter().filter(|p| p.roll == Roll::On);
        if on_roll().any(|p| p.misses == self.waits.len()) {
            self.running = false;
            self.tell(0, Kind::Stopped);
            return;
        }
        self.length = on_roll().map(|p| self.waits[p.misses]).min().unwrap_or(self.waits[0]);
        self.start = self.clock;
        for i in 0..self.parties.len() {
            if self.parties[i].roll == Roll::On {
                let place = self.tell(0, Kind::Sent);
                self.parties[i].legs[0] = Some(Beat { last: self.clock + self.tmin, parting: false, place });
                self.parties[i].heard = false;
            }
        }
    }

    fn time(&mut self, i: usize) {
        let party = self.parties[i];
        if matches!(party.state, State::Outside | State::Ended) {
            return;
        }
        let silent = self.clock - party.since;
        if silent >= self.patience {
            self.parties[i].state = State::Ended;
            self.tell(i as u8 + 1, if party.state == State::Leaving { Kind::Left } else { Kind::Stopped });
        } else if party.state == State::Joining && silent > 0 && silent % self.tmin == 0 {
            self.send_entry(i);
        }
    }

    fn send_entry(&mut self, i: usize) {
        let place = self.tell(i as u8 + 1, Kind::Sent);
        self.parties[i].legs[2] = Some(Beat { last: self.clock + self.tmin, parting: false, place });
    }

    fn settle(&mut self, party: u8, leg: u8, kind: Kind) -> Result<(), u8> {
        let i = self.index(party)?;
        if !(1..=3).contains(&leg) {
            return Err(9);
        }
        let beat = self.parties[i].legs[leg as usize - 1].ok_or(9)?;
        self.room(2)?;
        self.parties[i].legs[leg as usize - 1] = None;
        let at_party = leg == 1;
        let owner = if at_party == (kind == Kind::Arrived) { party } else { 0 };
        self.log.push(Happening { tick: self.clock, owner, kind, link: beat.place });
        if kind == Kind::Arrived {
            if at_party { self.hear(i, beat) } else { self.answer(i, beat) }
        }
        Ok(())
    }

    fn hear(&mut self, i: usize, beat: Beat) {
        let state = self.parties[i].state;
        if matches!(state, State::Outside | State::Ended) {
            return;
        }
        let place = self.tell(i as u8 + 1, Kind::Sent);
        let party = &mut self.parties[i];
        party.since = self.clock;
        party.legs[1] = Some(Beat { last: beat.last, parting: state == State::Leaving, place });
        if state == State::Joining {
            party.state = State::In;
        }
    }

    fn answer(&mut self, i: usize, beat: Beat) {
        if !self.running || self.parties[i].roll == Roll::Struck {
            return;
        }
        if beat.parting {
            self.parties[i].roll = Roll::Struck;
            self.tell(i as u8 + 1, Kind::Struck);
            return;
        }
        self.parties[i].heard = true;
        if self.parties[i].roll == Roll::Off {
            self.parties[i].roll = Roll::On;
            self.parties[i].misses = 0;
            self.tell(i as u8 + 1, Kind::Enrolled);
        }
    }

    fn crash(&mut self, party: u8) -> Result<(), u8> {
        if party == 0 {
            if !self.running {
                return Err(8);
            }
            self.room(2)?;
            self.running = false;
        } else {
            let i = self.index(party)?;
            if matches!(self.parties[i].state, State::Outside | State::Ended) {
                return Err(8);
            }
            self.room(2)?;
            self.parties[i].state = State::Ended;
        }
        self.tell(party, Kind::Crashed);
        Ok(())
    }

    fn join(&mut self, party: u8) -> Result<(), u8> {
        let i = self.index(party)?;
        if self.kind == 1 {
            return Err(7);
        }
        if self.parties[i].state != State::Outside {
            return Err(8);
        }
        self.room(2)?;
        self.parties[i].state = State::Joining;
        self.parties[i].since = self.clock;
        self.tell(party, Kind::Joining);
        self.send_entry(i);
        Ok(())
    }

    fn leave(&mut self, party: u8) -> Result<(), u8> {
        let i = self.index(party)?;
        if self.kind != 3 {
            return Err(7);
        }
        if self.parties[i].state != State::In {
            return Err(8);
        }
        self.room(2)?;
        self.parties[i].state = State::Leaving;
        self.tell(party, Kind::Leaving);
        Ok(())
    }

    fn obey(&mut self, order: Order) -> Result<(), u8> {
        while self.clock < order.tick {
            self.tick()?;
        }
        match order.kind {
            1 => self.settle(order.party, order.leg, Kind::Arrived),
            2 => self.settle(order.party, order.leg, Kind::Lost),
            3 => self.crash(order.party),
            4 => self.join(order.party),
            5 => self.leave(order.party),
            _ => Ok(()),
        }
    }
}

/// The file as far as it fits: an element is begun only where it and the closings of all that is open fit.
struct Output {
    text: String,
    room: usize,
}

impl Output {
    fn begin(&mut self, opening: &str, closing: &str) -> bool {
        let size = opening.len() + closing.len();
        if size > self.room {
            return false;
        }
        self.room -= size;
        self.text.push_str(opening);
        true
    }

    fn party(&mut self, i: usize, log: &[Happening]) -> bool {
        if !self.begin(&format!("<node id=\"p{i}\">\n"), "</node>\n") {
            return false;
        }
        let graph = self.begin(&format!("<graph id=\"p{i}:\" edgedefault=\"directed\">\n"), "</graph>\n");
        let all = graph && self.happenings(i, log);
        if graph {
            self.text.push_str("</graph>\n");
        }
        self.text.push_str("</node>\n");
        all
    }

    fn happenings(&mut self, i: usize, log: &[Happening]) -> bool {
        log.iter().enumerate().filter(|(_, h)| h.owner as usize == i).all(|(k, h)| {
            let line = format!("<node id=\"h{k}\"><data key=\"t\">{}</data><data key=\"k\">{}</data></node>\n", h.tick, WORDS[h.kind as usize]);
            self.begin(&line, "")
        })
    }

    fn edges(&mut self, log: &[Happening]) -> bool {
        log.iter()
            .enumerate()
            .filter(|(_, h)| h.kind == Kind::Arrived)
            .all(|(k, h)| self.begin(&format!("<edge source=\"h{}\" target=\"h{k}\"/>\n", h.link), ""))
    }
}

fn export(log: &[Happening], n: u8) -> (String, bool) {
    let mut out = Output { text: String::with_capacity(OUTPUT_BYTES), room: OUTPUT_BYTES - HEAD.len() - TAIL.len() };
    out.text.push_str(HEAD);
    let whole = (0..=n as usize).all(|i| out.party(i, log)) && out.edges(log);
    out.text.push_str(TAIL);
    (out.text, whole)
}

fn run(input: &[u8]) -> Result<String, Fault> {
    let (start, orders) = read(input)?;
    let mut group = Group::open(&start, waits(&start)?);
    let stop = orders.iter().enumerate().find_map(|(place, order)| group.obey(*order).err().map(|number| (place, number)));
    let (mut text, whole) = export(&group.log, start.n);
    if !whole {
        text.push_str("<!-- cut -->\n");
    }
    if let Some((place, number)) = stop {
        text.push_str(&format!("<!-- refused order {place} number {number} -->\n"));
    }
    Ok(text)
}

fn main() -> std::io::Result<()> {
    let mut input = Vec::new();
    std::io::stdin().take(INPUT_BYTES).read_to_end(&mut input)?;
    let text = run(&input).unwrap_or_else(|(byte, number)| format!("refused byte {byte} number {number}\n"));
    std::io::stdout().write_all(text.as_bytes())
}
