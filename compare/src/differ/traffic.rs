//! 02, T-01: what came of messages on both ports, by how the port of their reply stood, and all else that befell the ports.

use super::pair::Lengths;
use super::ports::{answered, HEARD};
use crate::record::{Place, Receiver, Record, PLACES};
use crate::wheel::{Heard, Stepped};
use std::collections::BTreeMap;
use std::fmt;

const FEND: u8 = 0xC0;
const FESC: u8 = 0xDB;

const DIAGNOSTIC: u8 = 0x04;

/// A call with a byte, as the tally is told it.
pub struct Call<'a> {
    pub record: &'a Record,
    pub lengths: &'a Lengths,
    /// What the call before handed back: a caller may have made another record of it.
    pub handed: &'a Record,
    pub heard: Heard,
    pub stepped: &'a Stepped,
    /// The message buffer of the port, after the call.
    pub message: &'a [u8],
    /// The diagnostics before the call, if the byte is a FEND.
    pub diagnostics: &'a [u32],
}

/// What was met, and how often.
#[derive(Default)]
pub struct Traffic {
    met: BTreeMap<String, u64>,
    /// For each port: whether its run has bytes of the other between its own, and whether whole runs; and its last byte.
    between: [bool; 2],
    runs_between: [bool; 2],
    last: [u8; 2],
}

impl Traffic {
    fn met(&mut self, what: String) {
        *self.met.entry(what).or_default() += 1;
    }

    pub fn set_up(&mut self, strap: u8, answer: u8, lengths: &Lengths) {
        match answer {
            0 => self.met(format!("set-up, strap {strap}")),
            20 => self.met(format!("set-up: 20, {}", above(strap))),
            25 => self.short("set-up", lengths),
            _ => {}
        }
    }

    /// The one buffer that is too short, where it is one alone.
    fn short(&mut self, call: &str, lengths: &Lengths) {
        let ports = lengths.ports.iter().zip(["port 0", "port 1"]);
        let short: Vec<String> = ports
            .flat_map(|(lengths, port)| {
                let message = (lengths.message < 1_033).then(|| format!("message of {port}"));
                let reply = (lengths.reply < 2_068).then(|| format!("reply of {port}"));
                message.into_iter().chain(reply)
            })
            .collect();
        if let [one] = &short[..] {
            self.met(format!("{call}: 25, {one}"));
        }
    }

    pub fn byte(&mut self, call: &Call) {
        match call.stepped.answer {
            0..=19 => self.taken(call),
            20 => self.met(format!("a byte: 20, {}", above(call.record.strap))),
            25 => self.short("a byte", call.lengths),
            26 => self.past_counting(call),
            27 => self.no_port(call),
            _ => {}
        }
    }

    fn past_counting(&mut self, call: &Call) {
        let past = call.record.receivers.map(|receiver| receiver.count > 1_034);
        if call.heard.port > 1 {
            self.met(String::from("a byte: 26, on a port that there is not"));
        } else if past != [true, true] {
            let port = usize::from(past[1]);
            let own = port == usize::from(call.heard.port);
            let whose = if own { "its own" } else { "the other" };
            let thrown = call.record.receivers[port].place == Place::Thrown;
            let place = if thrown { ", thrown away" } else { "" };
            self.met(format!("a byte: 26, {whose} port's count{place}"));
        }
    }

    fn no_port(&mut self, call: &Call) {
        let port = match call.heard.port {
            2 => "port 2",
            255 => "port 255",
            _ => "another port",
        };
        self.met(format!("a byte: 27, {port}"));
        if !(260..=1_028).contains(&call.record.limit) {
            self.met(String::from("a byte: 27, with a limit that there is not"));
        }
    }

    /// A byte that was not refused.
    fn taken(&mut self, call: &Call) {
        let (port, byte) = (usize::from(call.heard.port), call.heard.byte);
        let receiver = call.record.receivers[port];
        for (port, now) in call.record.receivers.iter().enumerate() {
            if *now != call.handed.receivers[port] {
                self.met(format!("a lent receiver of port {port}, {:?}", now.place));
            }
        }
        if receiver.place == Place::Thrown {
            self.thrown(call.record, port, byte);
        }
        self.between[1 - port] = true;
        if byte == FEND {
            self.closed(call, port, receiver);
            self.runs_between[1 - port] = true;
            self.between[port] = false;
            self.runs_between[port] = false;
        }
        self.last[port] = byte;
    }

    /// A byte in a run that is thrown away.
    fn thrown(&mut self, record: &Record, port: usize, byte: u8) {
        let (count, full) = (record.receivers[port].count, usize::from(record.limit) + 6);
        let what = match (byte, self.last[port]) {
            (FEND, FESC) => "FEND after FESC",
            (FEND, _) => "FEND",
            (FESC, _) => "FESC",
            _ => "another byte",
        };
        self.met(format!("thrown away on port {port}: {what}"));
        if byte == FEND {
            let count = match count {
                0 => "none",
                _ if count > full => "more than the limit and 6",
                _ => "some",
            };
            self.met(format!("thrown away on port {port}, counted {count}: FEND"));
        }
    }

    /// A FEND that was not refused.
    fn closed(&mut self, call: &Call, port: usize, receiver: Receiver) {
        let answer = call.stepped.answer;
        match answer {
            5..=8 => self.dropped(call, port),
            9 => self.elsewhere(call, port),
            1..=4 | 10 => {
                let address = call.message[0];
                self.met(format!("address {address:#04x} on port {port}: heard"));
                if self.between[port] {
                    self.met(format!("heard on port {port} with bytes between"));
                }
                if self.runs_between[port] {
                    self.met(format!("heard on port {port} with FENDs between"));
                }
                self.replied(call, port, &call.message[3..receiver.count - 2]);
            }
            _ => {}
        }
    }

    fn dropped(&mut self, call: &Call, port: usize) {
        let answer = call.stepped.answer;
        let channel = usize::from(answer) + 2 + 7 * port;
        self.met(format!("answer {answer} on port {port}"));
        self.full(call, channel);
    }

    /// A count that moves, or does not, since it is at its highest value.
    fn full(&mut self, call: &Call, channel: usize) {
        if call.diagnostics[channel] == u32::MAX {
            self.met(format!("diagnostic {channel:#04x} at its highest"));
        }
    }

    /// A sound message that this port does not hear.
    fn elsewhere(&mut self, call: &Call, port: usize) {
        let (address, strap) = (call.message[0], call.record.strap);
        if HEARD[1 - port].iter().any(|own| own + strap == address) {
            self.met(format!("address {address:#04x} on port {port}: 9"));
            self.met(ended(call, port, "9"));
        } else if (0x40..0x78).contains(&address) && address & 0x0F < 8 {
            self.met(String::from("another strap's address: 9"));
        }
    }

    /// A command that was heard, and what came of its reply.
    fn replied(&mut self, call: &Call, port: usize, data: &[u8]) {
        let (control, to) = (call.message[2], answered(call.message[0]));
        let (code, lost) = (control & 0x1F, control & 0x80 != 0);
        let outcome = match call.stepped.answer {
            1 => "ACK",
            3 => "NACK",
            2 if lost => "a lost ACK",
            4 if lost => "a lost NACK",
            2 => "done without poll",
            4 => "refused without poll",
            _ => "10",
        };
        self.met(ended(call, port, outcome));
        if matches!(call.stepped.answer, 1 | 3) {
            self.left(call, port, code, data, to);
        } else if lost && call.stepped.answer != 10 {
            self.lost(call, code, to);
        }
    }

    fn left(&mut self, call: &Call, port: usize, code: u8, data: &[u8], to: usize) {
        if call.heard.sending[1 - to] != 0 {
            self.met(format!("a reply on port {to} while the other is sending"));
        }
        let (before, after) = (call.record.receivers[to], call.stepped.record.receivers[to]);
        let thrown = after.place == Place::Thrown && before.place != Place::Thrown;
        if port == to || !thrown {
            return;
        }
        let channel = 0x0C + 7 * to;
        self.full(call, channel);
        if before.count > usize::from(call.record.limit) + 6 {
            self.met(format!("thrown away on port {to} beyond the limit and 6"));
        }
        if code == DIAGNOSTIC && call.stepped.answer == 1 && data.contains(&(channel as u8)) {
            self.met(format!("{channel:#04x} shown by the reply that moves it"));
        }
    }

    fn lost(&mut self, call: &Call, code: u8, to: usize) {
        self.full(call, 0x0D + 7 * to);
        if call.heard.sending[to] > 1 {
            self.met(format!("a reply lost by another number for port {to}"));
        }
        if call.stepped.answer == 2 {
            self.met(format!("a lost ACK of command {code:#04x}"));
        }
        if call.stepped.cost > 1 {
            self.met(String::from("a lost CRC with a cost"));
        }
    }

    /// What a run never did.
    pub fn missed(&self) -> Vec<String> {
        let due = due().into_iter();
        due.filter(|what| !self.met.contains_key(what)).collect()
    }
}

/// What came of a message on a port, and how the port of its reply stood then.
fn ended(call: &Call, port: usize, outcome: &str) -> String {
    let to = answered(call.message[0]);
    if to == port {
        return format!("{outcome} for port {to}, its own");
    }
    let receiver = call.record.receivers[to];
    format!("{outcome} for port {to}, {}", stands(receiver))
}

fn stands(receiver: Receiver) -> &'static str {
    match (receiver.place, receiver.count) {
        (Place::Fresh, _) => STANDS[0],
        (Place::Run, 0) => STANDS[1],
        (Place::Run, _) => STANDS[2],
        (Place::Escape, _) => STANDS[3],
        (Place::Fault, _) => STANDS[4],
        (Place::Thrown, _) => STANDS[5],
    }
}

const STANDS: [&str; 6] = [
    "which is fresh",
    "which has just had its FEND",
    "which is in a run",
    "which has had a FESC",
    "which has had a fault",
    "which throws its run away",
];

const OUTCOMES: [&str; 8] = [
    "ACK",
    "NACK",
    "a lost ACK",
    "a lost NACK",
    "done without poll",
    "refused without poll",
    "10",
    "9",
];

fn above(strap: u8) -> &'static str {
    match strap {
        8 => "strap 8",
        _ => "a strap above 8",
    }
}

/// The commands that there are.
const CODES: [u8; 11] = [0, 1, 2, 3, 4, 6, 7, 8, 9, 10, 11];

/// What a run must meet.
fn due() -> Vec<String> {
    let mut due = outcomes();
    due.extend(addresses());
    due.extend(others().into_iter().flatten());
    due
}

/// What comes of messages, by the port of their reply and how it stands.
fn outcomes() -> Vec<String> {
    let mut due = Vec::new();
    for (port, outcome) in on_both(&OUTCOMES) {
        due.extend(STANDS.map(|stands| format!("{outcome} for port {port}, {stands}")));
        due.push(format!("{outcome} for port {port}, its own"));
    }
    due
}

/// Every address of every strap, on the port that hears it and on the other.
fn addresses() -> Vec<String> {
    let mut due = Vec::new();
    for (port, strap) in on_both(&[0, 1, 2, 3, 4, 5, 6, 7]) {
        for address in HEARD[port].map(|address| address + strap) {
            due.push(format!("address {address:#04x} on port {port}: heard"));
            due.push(format!("address {address:#04x} on port {}: 9", 1 - port));
        }
    }
    due
}

/// Each port with each of some things.
fn on_both<T: Copy>(things: &[T]) -> Vec<(usize, T)> {
    let of = |port| things.iter().map(move |&thing| (port, thing));
    of(0).chain(of(1)).collect()
}

/// The same as words, where each has a place for the port.
fn of_both(words: &[&str]) -> Vec<String> {
    let words = on_both(words).into_iter();
    words
        .map(|(port, words)| words.replace("PORT", &port.to_string()))
        .collect()
}

/// All else, in groups.
fn others() -> Vec<Vec<String>> {
    let straps = (0..8).map(|strap| format!("set-up, strap {strap}"));
    let lost = CODES.map(|code| format!("a lost ACK of command {code:#04x}"));
    let highest = on_both(&[0x07, 0x08, 0x09, 0x0A, 0x0C, 0x0D]).into_iter();
    let highest = highest.map(|(port, channel)| channel + 7 * port);
    let lent = on_both(&PLACES).into_iter();
    vec![
        straps.chain(REFUSED.map(String::from)).collect(),
        of_both(&SHORT),
        of_both(&THROWN),
        lent.map(|(port, place)| format!("a lent receiver of port {port}, {place:?}"))
            .collect(),
        of_both(&COUNTED),
        highest
            .map(|channel| format!("diagnostic {channel:#04x} at its highest"))
            .collect(),
        lost.into_iter().chain(of_both(&REPLIES)).collect(),
        SINGLE.map(String::from).to_vec(),
    ]
}

const REFUSED: [&str; 13] = [
    "set-up: 20, strap 8",
    "set-up: 20, a strap above 8",
    "a byte: 20, strap 8",
    "a byte: 20, a strap above 8",
    "a byte: 26, on a port that there is not",
    "a byte: 26, its own port's count",
    "a byte: 26, its own port's count, thrown away",
    "a byte: 26, the other port's count",
    "a byte: 26, the other port's count, thrown away",
    "a byte: 27, port 2",
    "a byte: 27, port 255",
    "a byte: 27, another port",
    "a byte: 27, with a limit that there is not",
];

const SHORT: [&str; 4] = [
    "set-up: 25, message of port PORT",
    "set-up: 25, reply of port PORT",
    "a byte: 25, message of port PORT",
    "a byte: 25, reply of port PORT",
];

const THROWN: [&str; 8] = [
    "thrown away on port PORT: FEND",
    "thrown away on port PORT: FEND after FESC",
    "thrown away on port PORT: FESC",
    "thrown away on port PORT: another byte",
    "thrown away on port PORT, counted none: FEND",
    "thrown away on port PORT, counted some: FEND",
    "thrown away on port PORT, counted more than the limit and 6: FEND",
    "thrown away on port PORT beyond the limit and 6",
];

const COUNTED: [&str; 4] = [
    "answer 5 on port PORT",
    "answer 6 on port PORT",
    "answer 7 on port PORT",
    "answer 8 on port PORT",
];

const REPLIES: [&str; 4] = [
    "a reply lost by another number for port PORT",
    "a reply on port PORT while the other is sending",
    "heard on port PORT with bytes between",
    "heard on port PORT with FENDs between",
];

const SINGLE: [&str; 4] = [
    "0x0c shown by the reply that moves it",
    "0x13 shown by the reply that moves it",
    "another strap's address: 9",
    "a lost CRC with a cost",
];

/// How often all that must be met was; of the addresses only the one that was met least.
impl fmt::Display for Traffic {
    fn fmt(&self, f: &mut fmt::Formatter) -> fmt::Result {
        let times = |what: &String| self.met.get(what).copied().unwrap_or(0);
        let stands = STANDS.join(", ");
        write!(f, "the two ports: what came of messages for the port that ")?;
        write!(f, "they came on, and for the other, {stands}:")?;
        for (port, outcome) in on_both(&OUTCOMES) {
            let own = times(&format!("{outcome} for port {port}, its own"));
            let by = STANDS.map(|stands| times(&format!("{outcome} for port {port}, {stands}")));
            write!(f, "\n    {outcome} for port {port}: {own}, {by:?}")?;
        }
        for group in others() {
            let told = group.iter().map(|what| format!("{what}: {}", times(what)));
            write!(f, "\n    {}", told.collect::<Vec<_>>().join("; "))?;
        }
        let least = addresses().into_iter().min_by_key(times);
        let least = least.unwrap_or_default();
        write!(f, "\n    of all addresses, {least}: {}", times(&least))
    }
}
