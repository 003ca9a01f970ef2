//! 02, T-06: the limits that callers hand in, right and wrong, and which of them the streams met.

use super::pair::Pair;
use super::play::{any_byte, Played};
use super::{commands, lines};
use crate::record::{Receiver, Record, PLACES};
use crate::Seeded;
use std::collections::BTreeMap;
use std::fmt;

const FEND: u8 = 0xC0;
const PING: u8 = 0x00;

/// The limits that a unit can have.
pub const LEAST: u16 = 260;
pub const MOST: u16 = 1_028;

/// A limit that a unit can have: often the highest, or one at the ends, or any.
pub fn any(seeded: &mut Seeded) -> u16 {
    match seeded.below(8) {
        0..=2 => MOST,
        3..=5 => seeded.pick(&[LEAST, LEAST + 1, MOST - 1]),
        _ => LEAST + seeded.below(769) as u16,
    }
}

/// A limit that no unit can have but a record can: mostly right beside those that there are.
pub fn none(seeded: &mut Seeded) -> u16 {
    match seeded.below(2) {
        0 => seeded.pick(&[LEAST - 1, MOST + 1]),
        _ => seeded.pick(&[0, 1, 255, 1_030, 1_284, 0x8404, 65_535]),
    }
}

/// The same for a set-up, where some are right in their low bits.
pub fn wide_none(seeded: &mut Seeded) -> u64 {
    match seeded.below(3) {
        0 => seeded.pick(&[
            1 << 16 | 1_028,
            1 << 16 | 260,
            1 << 32 | 300,
            1 << 63 | 1_028,
            u64::MAX,
        ]),
        _ => none(seeded).into(),
    }
}

/// A PING that is sound on a bus with the highest limit, with as much data as this limit allows, or more.
pub fn long_ping(seeded: &mut Seeded, record: &Record, port: usize) -> Vec<u8> {
    let more = match seeded.below(2) {
        0 => seeded.below(3),
        _ => seeded.below(usize::from(MOST - record.limit) + 1),
    };
    let length = (usize::from(record.limit) + more).min(MOST.into());
    let data = commands::bytes(seeded, length);
    lines::message_of(seeded, record, port, PING, &data)
}

/// The caller hands in another limit in the midst of a run that is about as long as one of the two allows. The unit believes the
/// one that it is handed, whatever the run was received under.
pub fn another(pair: &mut Pair, seeded: &mut Seeded) -> Played {
    pair.byte(FEND)?;
    let (now, next) = (any(seeded), any(seeded));
    pair.record.limit = now;
    let length = usize::from(seeded.pick(&[now, next])) - 1 + seeded.below(4);
    let data = commands::bytes(seeded, length);
    let ping = lines::message_of(seeded, &pair.record, pair.port, PING, &data);
    let line = lines::escaped(&ping);
    let at = match seeded.below(3) {
        0 => line.len(),
        1 => seeded.below(line.len()),
        _ => (usize::from(now.min(next)) + 2 + seeded.below(8)).min(line.len()),
    };
    pair.bytes(&line[..at])?;
    pair.record.limit = next;
    pair.bytes(&line[at..])?;
    pair.byte(FEND)?;
    Ok(())
}

/// A set-up and some bytes with a limit that no unit can have, and nothing else wrong but the count now and then.
pub fn wrong(pair: &mut Pair, seeded: &mut Seeded) -> Played {
    let record = pair.record;
    pair.set_up(record.strap, wide_none(seeded), record.locked)?;
    pair.record = Record {
        limit: none(seeded),
        ..record
    };
    pair.receiver().place = seeded.pick(&PLACES);
    if seeded.one_in(4) {
        pair.receiver().count = seeded.pick(&[7, 1_033, 1_034, 1_035, usize::MAX]);
    }
    for _ in 0..1 + seeded.below(3) {
        pair.byte(any_byte(seeded))?;
    }
    pair.record = record;
    Ok(())
}

#[derive(Default)]
pub struct Limits {
    /// Bytes under each limit that were not refused.
    bytes: BTreeMap<u16, u64>,
    /// Lent counts that no unit of the limit counts to, in each place: met by a FEND, and by another byte.
    beyond: [[u64; 2]; PLACES.len()],
}

/// The limits that must come.
const ENDS: [u16; 4] = [LEAST, LEAST + 1, MOST - 1, MOST];

impl Limits {
    /// A byte that was not refused, with the limit and the receiver that were handed in.
    pub fn byte(&mut self, limit: u16, receiver: Receiver, byte: u8) {
        *self.bytes.entry(limit).or_default() += 1;
        if receiver.count > usize::from(limit) + 6 {
            for (place, times) in PLACES.iter().zip(&mut self.beyond) {
                times[usize::from(byte != FEND)] += u64::from(*place == receiver.place);
            }
        }
    }

    /// What a run never did.
    pub fn missed(&self) -> Vec<String> {
        let ends = ENDS.iter().filter(|end| !self.bytes.contains_key(end));
        let mut missed: Vec<String> = ends.map(|end| format!("limit {end}")).collect();
        for (place, times) in PLACES.iter().zip(&self.beyond) {
            if times.contains(&0) {
                missed.push(format!("a count above the limit and 6, {place:?}"));
            }
        }
        missed
    }
}

impl fmt::Display for Limits {
    fn fmt(&self, f: &mut fmt::Formatter) -> fmt::Result {
        write!(f, "limits: {} of 769; bytes under", self.bytes.len())?;
        for end in ENDS {
            write!(f, " {end}: {},", self.bytes.get(&end).unwrap_or(&0))?;
        }
        write!(f, " and with a count above the limit and 6")?;
        for (place, [fends, others]) in PLACES.iter().zip(&self.beyond) {
            write!(f, ", {place:?}: FENDs {fends}, others {others}")?;
        }
        Ok(())
    }
}
