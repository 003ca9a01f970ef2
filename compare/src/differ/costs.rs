//! 02, T-13: what CRC commands cost, over ranges of every kind, and which of them the streams met.

use super::commands::{self, WINDOWS};
use super::lines;
use super::pair::{Pair, BOOTLOADER, LARGEST, USER};
use super::play::Played;
use crate::record::Record;
use crate::wheel::Stepped;
use crate::Seeded;
use std::collections::{BTreeMap, BTreeSet};
use std::fmt;

const FEND: u8 = 0xC0;
const CRC: u8 = 0x06;
const BLOCK: usize = 256;

/// The cost of all of the largest FRAM, and of all but its first and its last byte, which is the most that there is.
const ALL: u32 = 1_024;
const MOST: u32 = 1_532;

/// CRC commands over ranges of one FRAM or the other, and some as they come elsewhere, of which many are not done.
pub fn asked(pair: &mut Pair, seeded: &mut Seeded) -> Played {
    // Closes what is open.
    pair.byte(FEND)?;
    for _ in 0..2 + seeded.below(4) {
        let data = match seeded.below(4) {
            0 => commands::crc(seeded, &pair.record),
            _ => {
                let which = seeded.pick(&[BOOTLOADER, USER]);
                let (start, end) = range(seeded, *pair.recorded(which));
                data(which, start, end)
            }
        };
        send(pair, seeded, &data)?;
    }
    Ok(())
}

/// What costs most in an FRAM of the largest length, and all of it.
pub fn largest(pair: &mut Pair, seeded: &mut Seeded, which: usize) -> Played {
    pair.byte(FEND)?;
    send(pair, seeded, &data(which, 1, LARGEST - 1))?;
    send(pair, seeded, &data(which, 0, LARGEST))
}

fn send(pair: &mut Pair, seeded: &mut Seeded, data: &[u8]) -> Played {
    let message = lines::message_of(seeded, &pair.record, pair.port, CRC, data);
    pair.bytes(&lines::escaped(&message))?;
    pair.byte(FEND)?;
    Ok(())
}

/// A range of an FRAM that is so long: its first byte, and the one behind its last. Either is mostly at the edge of a block or
/// one off.
fn range(seeded: &mut Seeded, length: usize) -> (usize, usize) {
    if seeded.one_in(8) {
        return (seeded.below(2), length - seeded.below(2));
    }
    let blocks = length / BLOCK;
    let touched = seeded.pick(&[1, 2, 2, 3, 3, 4, 4, 5, blocks]).min(blocks);
    let first = seeded.below(blocks - touched + 1);
    let (inside, behind) = (seeded.below(BLOCK), 1 + seeded.below(BLOCK));
    let start = first * BLOCK + seeded.pick(&[0, 1, BLOCK - 1, inside]);
    let end = (first + touched - 1) * BLOCK + seeded.pick(&[1, BLOCK - 1, BLOCK, behind]);
    (start, end.max(start + 1))
}

/// The data of a CRC command over a range of an FRAM.
fn data(which: usize, start: usize, end: usize) -> Vec<u8> {
    let address = |at: usize| (WINDOWS[which] as u32 + at as u32).to_le_bytes();
    [address(start), address(end - 1)].concat()
}

/// What was met, and how often, and every cost that came.
#[derive(Default)]
pub struct Costs {
    met: BTreeMap<String, u64>,
    seen: BTreeSet<u32>,
}

impl Costs {
    /// A command that was answered.
    pub fn answered(&mut self, record: &Record, code: u8, data: &[u8], stepped: &Stepped) {
        if code != CRC {
            return;
        }
        match stepped.answer {
            1 | 2 => self.done(record, data, stepped),
            3 | 4 => self.met(format!("CRC, {}: {}", why(data), stepped.answer)),
            _ => {}
        }
    }

    fn done(&mut self, record: &Record, data: &[u8], stepped: &Stepped) {
        let (first, last) = ends(data);
        let which = usize::from(first >= WINDOWS[USER]);
        let (name, cost) = (NAMES[which], stepped.cost);
        let at = |address: i64| (address - WINDOWS[which]) as usize;
        self.met(format!("CRC in {name} {}", kind(at(first), at(last) + 1)));
        let locked = if record.locked == 0 { "un" } else { "" };
        self.met(format!("CRC in {name}, {locked}locked: {}", stepped.answer));
        self.met(format!("CRC in {name} that costs {cost}"));
        self.seen.insert(cost);
    }

    fn met(&mut self, what: String) {
        *self.met.entry(what).or_default() += 1;
    }

    /// What a run never did.
    pub fn missed(&self) -> Vec<String> {
        let due = due().into_iter();
        due.filter(|what| !self.met.contains_key(what)).collect()
    }
}

const NAMES: [&str; 2] = ["bootloader FRAM", "user FRAM"];

/// The first and the last address of a range.
fn ends(data: &[u8]) -> (i64, i64) {
    let word = |at: usize| u32::from_le_bytes([data[at], data[at + 1], data[at + 2], data[at + 3]]);
    (word(0).into(), word(4).into())
}

const REFUSALS: [&str; 3] = ["wrong length", "last before first", "over the border"];

/// Why a CRC command is refused.
fn why(data: &[u8]) -> &'static str {
    if data.len() != 8 {
        return REFUSALS[0];
    }
    let (first, last) = ends(data);
    REFUSALS[if last < first { 1 } else { 2 }]
}

/// How a range lies to the blocks.
fn kind(start: usize, end: usize) -> String {
    let covered = (end / BLOCK).saturating_sub(start.div_ceil(BLOCK));
    let blocks = match covered {
        0 if start / BLOCK == (end - 1) / BLOCK => "part of one block",
        0 => "part of each of two",
        1 => "one block covered",
        _ => "blocks covered",
    };
    format!("from {} to {}, {blocks}", place(start), place(end))
}

fn place(at: usize) -> &'static str {
    match at % BLOCK {
        0 => "an edge",
        1 => "one behind an edge",
        255 => "one before an edge",
        _ => "inside",
    }
}

/// Every kind of range. Five blocks have them all.
fn kinds() -> BTreeSet<String> {
    let places = (0..=5 * BLOCK).filter(|at| matches!(at % BLOCK, 0 | 1 | 100 | 200 | 255));
    let places: Vec<usize> = places.collect();
    let ranges = places.iter().flat_map(|start| {
        let ends = places.iter().filter(move |&end| start < end);
        ends.map(move |end| kind(*start, *end))
    });
    ranges.collect()
}

/// What a run must meet.
fn due() -> Vec<String> {
    let mut due = Vec::new();
    for name in NAMES {
        due.extend(kinds().iter().map(|kind| format!("CRC in {name} {kind}")));
        for way in ["unlocked: 1", "unlocked: 2", "locked: 1", "locked: 2"] {
            due.push(format!("CRC in {name}, {way}"));
        }
        due.extend([ALL, MOST].map(|cost| format!("CRC in {name} that costs {cost}")));
    }
    for answer in [3, 4] {
        due.extend(REFUSALS.map(|why| format!("CRC, {why}: {answer}")));
    }
    due
}

/// The costs, and what was met least, of all that must be.
impl fmt::Display for Costs {
    fn fmt(&self, f: &mut fmt::Formatter) -> fmt::Result {
        let (different, largest) = (self.seen.len(), self.seen.last().unwrap_or(&0));
        write!(
            f,
            "CRC commands: {different} costs, the largest {largest}; what was met least:"
        )?;
        let times = |what: &String| self.met.get(what).copied().unwrap_or(0);
        let mut due = due();
        due.sort_by_key(times);
        for what in due.iter().take(6) {
            write!(f, "\n    {what}: {}", times(what))?;
        }
        Ok(())
    }
}
