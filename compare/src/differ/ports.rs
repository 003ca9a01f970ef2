//! 02, T-01: both ports. Bytes of the two come between each other, and replies leave on either while runs are open there, or are
//! lost. `traffic` has which of it the streams met.

use super::pair::Pair;
use super::play::{any_byte, Played};
use super::{commands, limits, lines};
use crate::record::{Place, Receiver, Record, PLACES};
use crate::Seeded;
use std::collections::VecDeque;

const FEND: u8 = 0xC0;
const FESC: u8 = 0xDB;

const PING: u8 = 0x00;
const DIAGNOSTIC: u8 = 0x04;
const CRC: u8 = 0x06;

/// The addresses that each port hears where the strap is 0.
pub const HEARD: [[u8; 2]; 2] = [[0x40, 0x60], [0x50, 0x70]];

/// The port on which each of them is answered.
pub fn answered(address: u8) -> usize {
    match address & 0xF0 {
        0x40 | 0x50 => 1,
        _ => 0,
    }
}

/// A strap that a unit can have.
pub fn strap(seeded: &mut Seeded) -> u8 {
    seeded.below(8) as u8
}

/// One that none can have: any from 8 to 255, and the first a quarter of the time.
pub fn no_strap(seeded: &mut Seeded) -> u8 {
    8 + seeded.below(330).saturating_sub(82) as u8
}

/// The number of a port that there is not: any, and often the first or the last.
pub fn no_port(seeded: &mut Seeded) -> u8 {
    match seeded.below(4) {
        0 => seeded.pick(&[2, 0xFF]),
        _ => 2 + seeded.below(254) as u8,
    }
}

/// What a caller says of the ports: mostly that neither is sending, and that one is by any number but 0.
pub fn sending(seeded: &mut Seeded) -> [u8; 2] {
    let mut one = || match seeded.below(13) {
        0..=8 => 0,
        9 => 1,
        _ => 1 + seeded.below(255) as u8,
    };
    [one(), one()]
}

/// What comes on the other port between the bytes of one.
pub struct Aside {
    seeded: Seeded,
    /// What is still to come on each port.
    lines: [VecDeque<u8>; 2],
    /// Whether anything comes.
    pub woven: bool,
}

impl Aside {
    pub fn new(seed: u64) -> Aside {
        Aside {
            seeded: Seeded(seed),
            lines: [VecDeque::new(), VecDeque::new()],
            woven: false,
        }
    }

    /// Forgets what was to come on a port: from now on it is the one that is fed.
    pub fn leaves(&mut self, port: usize) {
        self.lines[port].clear();
    }

    /// The next byte on a port that comes before the other's, if any does.
    pub fn next(&mut self, record: &Record, port: usize) -> Option<u8> {
        let seeded = &mut self.seeded;
        if !self.woven || seeded.one_in(2) {
            return None;
        }
        if self.lines[port].is_empty() {
            if !is_right(record) {
                return None;
            }
            let run = run(seeded, record, port);
            self.lines[port].extend([&run[..], &[FEND]].concat());
            if record.receivers[port].place == Place::Fresh {
                self.lines[port].push_front(FEND);
            }
        }
        self.lines[port].pop_front()
    }

    /// Whether each port is sending, which changes now and then.
    pub fn sending(&mut self, now: [u8; 2]) -> [u8; 2] {
        if self.seeded.one_in(32) {
            sending(&mut self.seeded)
        } else {
            now
        }
    }
}

/// Whether a record has a meaning for those who make commands by it.
fn is_right(record: &Record) -> bool {
    let fits = |length| (256..=262_144).contains(&length);
    let frams_fit = fits(record.bootloader_len) && fits(record.fram_len);
    record.strap < 8 && frams_fit && (260..=1_028).contains(&record.limit)
}

/// A run that is short mostly: a command for this port, one for another, or torn or spoiled.
pub fn run(seeded: &mut Seeded, record: &Record, port: usize) -> Vec<u8> {
    match seeded.below(16) {
        0..=7 => {
            let (code, data) = short_command(seeded, record);
            lines::escaped(&lines::message_of(seeded, record, port, code, &data))
        }
        8 | 9 => {
            let address = seeded.pick(&HEARD[1 - port]).wrapping_add(record.strap);
            lines::escaped(&lines::message_to(seeded, address, PING, &[]))
        }
        10..=12 => lines::noise(seeded),
        13 => vec![0x41, FESC, 0x00, 0x42],
        14 => lines::spoiled(seeded, record, port),
        _ => lines::escaped(&lines::message(seeded, record, port)),
    }
}

/// Commands of a few bytes, some of which a unit refuses, and those that show what befell the ports.
fn short_command(seeded: &mut Seeded, record: &Record) -> (u8, Vec<u8>) {
    match seeded.below(8) {
        0 => (PING, Vec::new()),
        1 | 2 => (DIAGNOSTIC, (0x07..=0x14).collect()),
        3 => (CRC, commands::crc(seeded, record)),
        4 => (seeded.below(32) as u8, vec![0; seeded.below(6)]),
        _ => {
            let (code, mut data) = commands::command(seeded, record);
            data.truncate(24);
            (code, data)
        }
    }
}

/// One port stands somewhere in a run, or in none, when a command comes on the other, or on itself, and mostly asks for a reply on
/// it. Then the first goes on.
pub fn crossed(pair: &mut Pair, seeded: &mut Seeded) -> Played {
    pair.aside.woven = false;
    let port = seeded.below(2);
    stand(pair, seeded, port)?;
    if seeded.one_in(8) {
        altered_counts(pair, seeded);
    }
    for _ in 0..seeded.pick(&[1, 1, 1, 2, 3]) {
        command_beside(pair, seeded, 1 - port)?;
    }
    // What follows on the first port, to its FEND and behind it.
    if seeded.one_in(4) {
        another_place(pair, seeded, port);
    }
    for byte in rest(seeded) {
        pair.on(port, byte)?;
    }
    pair.on(port, FEND)?;
    if seeded.one_in(2) {
        let message = lines::message_of(seeded, &pair.record, port, PING, &[]);
        for byte in lines::escaped(&message) {
            pair.on(port, byte)?;
        }
        pair.on(port, FEND)?;
    }
    Ok(())
}

/// Brings a port's receiver to some place, by bytes mostly.
fn stand(pair: &mut Pair, seeded: &mut Seeded, port: usize) -> Played {
    pair.on(port, FEND)?;
    let message = lines::message(seeded, &pair.record, port);
    let mut line = lines::escaped(&message);
    match seeded.below(4) {
        0 => line.clear(),
        1 => {}
        _ => line.truncate(seeded.below(20)),
    }
    for byte in line {
        pair.on(port, byte)?;
    }
    match seeded.below(4) {
        0 => {
            pair.on(port, FESC)?;
        }
        1 => {
            pair.on(port, FESC)?;
            pair.on(port, seeded.pick(&[0x00, 0x41, FESC]))?;
        }
        2 => another_place(pair, seeded, port),
        _ => {}
    }
    Ok(())
}

/// The caller hands in another place, and a count that may be one that no unit counts to.
pub fn another_place(pair: &mut Pair, seeded: &mut Seeded, port: usize) {
    let full = usize::from(pair.record.limit) + 6;
    let now = pair.record.receivers[port].count;
    pair.record.receivers[port] = Receiver {
        place: seeded.pick(&PLACES),
        count: match seeded.below(7) {
            0 => 0,
            1 => full,
            2 => full + seeded.below(1_035 - full),
            3 => 1_034,
            4 => seeded.below(12),
            _ => now,
        },
    };
}

/// Some bytes on ports that there are not, with nothing else wrong but a count or the limit now and then.
pub fn misnamed(pair: &mut Pair, seeded: &mut Seeded) -> Played {
    let record = pair.record;
    match seeded.below(4) {
        0 => pair.record.receivers[seeded.below(2)].count = seeded.pick(&[1_035, usize::MAX]),
        1 => pair.record.limit = limits::none(seeded),
        _ => {}
    }
    for _ in 0..1 + seeded.below(32) {
        pair.misnamed = Some(no_port(seeded));
        pair.byte(any_byte(seeded))?;
    }
    (pair.record, pair.misnamed) = (record, None);
    Ok(())
}

/// A command on a port, mostly one that is answered on the other. What the caller says of the ports is for its FEND.
fn command_beside(pair: &mut Pair, seeded: &mut Seeded, port: usize) -> Played {
    let (code, data) = short_command(seeded, &pair.record);
    let crossing = HEARD[port].map(|address| (answered(address) != port, address));
    let address = match seeded.below(8) {
        0 => seeded.pick(&HEARD[port]),
        1 => seeded.pick(&HEARD[1 - port]),
        _ => crossing.iter().max().map_or(0, |(_, address)| *address),
    };
    let address = address.wrapping_add(pair.record.strap);
    let message = lines::message_to(seeded, address, code, &data);
    pair.on(port, FEND)?;
    for byte in lines::escaped(&message) {
        pair.on(port, byte)?;
    }
    pair.sending = sending(seeded);
    pair.on(port, FEND)?;
    Ok(())
}

/// Some bytes behind the place at which a run was cut off, with a FESC among them, and often one right before the FEND.
fn rest(seeded: &mut Seeded) -> Vec<u8> {
    let mut rest = vec![0x55; seeded.below(4)];
    if seeded.one_in(2) {
        rest.extend([FESC, seeded.pick(&[0xDC, 0xDD, 0x00, FESC])]);
    }
    if seeded.one_in(2) {
        rest.push(FESC);
    }
    rest
}

/// The counts of both ports near their highest value, where they stay.
pub fn altered_counts(pair: &mut Pair, seeded: &mut Seeded) {
    for channel in 0x07..=0x14 {
        let count = seeded.pick(&[0, 0xFFFF, 0x7FFF_FFFF, u32::MAX - 1, u32::MAX, u32::MAX]);
        pair.alter(|lent| lent.diagnostics[channel] = count);
    }
}
