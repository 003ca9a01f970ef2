//! Many bytes in one call: the lines of both ports, cut into slices of every length, with callers who lend wrongly or alter what a
//! unit is in between. It is a stream with a unit of its own, so that those of single bytes are what they were.

use super::pair::Pair;
use super::play::{self, Played};
use super::{commands, frams, limits, ports};
use crate::record::{Mode, Place, Record};
use crate::wheel::{HeardMany, Many};
use crate::Seeded;
use std::collections::BTreeMap;
use std::fmt;

const FEND: u8 = 0xC0;

/// Line bytes of a session.
const BYTES: u64 = 8_192;

pub fn play(pair: &mut Pair, seeded: &mut Seeded) -> Played {
    play::set_up(pair, seeded)?;
    while pair.offset < BYTES {
        match seeded.below(8) {
            0 => wrongly_lent(pair, seeded)?,
            1 => altered(pair, seeded),
            _ => talk(pair, seeded)?,
        }
    }
    Ok(())
}

/// A line for each port, given slice by slice. What a call did not take is given again, or lost now and then.
fn talk(pair: &mut Pair, seeded: &mut Seeded) -> Played {
    let record = pair.record;
    let mut lines = [0, 1].map(|port| line(seeded, &record, port));
    while lines.iter().any(|line| !line.is_empty()) {
        let mut port = seeded.below(2);
        if lines[port].is_empty() && !seeded.one_in(8) {
            port = 1 - port;
        }
        let slice = slice(seeded, &lines[port]).to_vec();
        if seeded.one_in(4) {
            pair.sending = ports::sending(seeded);
        }
        let many = pair.many(port, &slice)?;
        let gone = if seeded.one_in(32) {
            slice.len()
        } else {
            many.taken
        };
        lines[port].drain(..gone);
    }
    Ok(())
}

/// Some runs, mostly short ones, with a FEND or several between them, and now and then open at the end.
fn line(seeded: &mut Seeded, record: &Record, port: usize) -> Vec<u8> {
    let mut line = Vec::new();
    for _ in 0..seeded.below(5) {
        line.extend(vec![FEND; seeded.below(4)]);
        line.extend(ports::run(seeded, record, port));
        line.extend(vec![FEND; seeded.pick(&[0, 1, 1, 1, 1, 2, 3])]);
    }
    line
}

/// Nothing, one byte, some, or all that there is.
fn slice<'a>(seeded: &mut Seeded, line: &'a [u8]) -> &'a [u8] {
    let length = match seeded.below(8) {
        0 => 0,
        1 => 1,
        2 | 3 => seeded.below(12),
        4 | 5 => seeded.below(80),
        6 => seeded.below(line.len() + 1),
        _ => line.len(),
    };
    &line[..length.min(line.len())]
}

/// Calls that are wrong in one way or in several, with no bytes, one or some.
fn wrongly_lent(pair: &mut Pair, seeded: &mut Seeded) -> Played {
    let (lengths, record) = (pair.lengths, pair.record);
    for _ in 0..seeded.pick(&[1, 1, 2, 3]) {
        play::spoil(pair, seeded, &lengths);
    }
    for _ in 0..1 + seeded.below(3) {
        let length = seeded.pick(&[0, 1, 2, 7, 40]);
        let bytes = commands::bytes(seeded, length);
        pair.many(seeded.below(2), &bytes)?;
    }
    play::right(pair, lengths, record);
    Ok(())
}

/// The caller hands in another mode, lock or limit, or a receiver that stands elsewhere.
fn altered(pair: &mut Pair, seeded: &mut Seeded) {
    match seeded.below(5) {
        0 => pair.record.limit = limits::any(seeded),
        1 => pair.record.mode = seeded.pick(&[Mode::Bootloader, Mode::Application]),
        2 => pair.record.locked = frams::locked(seeded),
        _ => {
            let port = seeded.below(2);
            ports::another_place(pair, seeded, port);
        }
    }
}

/// What was met, and how often.
#[derive(Default)]
pub struct Manys {
    bytes: u64,
    met: BTreeMap<String, u64>,
}

impl Manys {
    fn met(&mut self, what: impl Into<String>) {
        *self.met.entry(what.into()).or_default() += 1;
    }

    /// A call, with the record that was handed in.
    pub fn call(&mut self, record: &Record, heard: HeardMany, many: &Many) {
        let (length, taken, answer) = (heard.bytes.len(), many.taken, many.last.answer);
        self.bytes += taken as u64;
        if length > 0 {
            self.met(format!("answer {answer}"));
        }
        match (length, heard.port) {
            (0, 2..) => self.met(NOTHING[0]),
            (0, _) if record.strap > 7 => self.met(NOTHING[1]),
            _ => {}
        }
        if answer >= 20 {
            if length > 1 {
                self.met(LOST);
            }
            return;
        }
        let Some(before) = record.receivers.get(usize::from(heard.port)) else {
            return;
        };
        let after = many.last.record.receivers[usize::from(heard.port)];
        let passed = heard.bytes[..taken.saturating_sub(1)].contains(&FEND);
        let mut on = |met: bool, what: &str| {
            if met {
                self.met(what.replace("PORT", &heard.port.to_string()));
            }
        };
        on(length == 0, ON[0]);
        on(length == 1, ON[1]);
        on(length > 1 && answer == 0, ON[2]);
        on(length > taken, ON[3]);
        on(length > 1 && length == taken && answer != 0, ON[4]);
        on(passed, ON[5]);
        on(passed && answer != 0, ON[6]);
        on(passed && before.place == Place::Thrown, ON[7]);
        on(before.place == Place::Escape && taken > 1, ON[8]);
        on(after.place == Place::Escape && taken > 1, ON[9]);
        let open = before.place == Place::Run && before.count > 0;
        on(open && !passed && matches!(answer, 1..=4), ON[10]);
    }

    /// What a run never did.
    pub fn missed(&self) -> Vec<String> {
        let missed = due().into_iter();
        let missed = missed.filter(|what| !self.met.contains_key(what));
        missed.map(|what| format!("many bytes: {what}")).collect()
    }
}

const NOTHING: [&str; 2] = [
    "no bytes on a port that there is not",
    "no bytes to a strap that there is not",
];

const LOST: &str = "one of several bytes refused";

const ON: [&str; 11] = [
    "no bytes on port PORT",
    "one byte on port PORT",
    "several on port PORT, all of them 0",
    "stopped on port PORT before the last",
    "stopped on port PORT at the last",
    "past a FEND on port PORT",
    "past a FEND on port PORT, and stopped",
    "past the end of a run that is thrown away on port PORT",
    "from a FESC on on port PORT",
    "up to a FESC on port PORT",
    "the rest of a command on port PORT",
];

/// What a run must meet.
fn due() -> Vec<String> {
    let answers = (0..=10).chain(20..=27).chain([29]);
    let mut due: Vec<String> = answers.map(|answer| format!("answer {answer}")).collect();
    due.extend(NOTHING.into_iter().chain([LOST]).map(String::from));
    for port in ["0", "1"] {
        due.extend(ON.map(|what| what.replace("PORT", port)));
    }
    due
}

impl fmt::Display for Manys {
    fn fmt(&self, f: &mut fmt::Formatter) -> fmt::Result {
        write!(f, "many bytes in a call: {} in all", self.bytes)?;
        for what in due() {
            let times = self.met.get(&what).unwrap_or(&0);
            write!(f, "; {what}: {times}")?;
        }
        Ok(())
    }
}
