//! 02, T-07: bootloader FRAM beside user FRAM, its lock and the border between the two, and which of it the streams met.

use super::commands::{self, FIRSTS, LASTS, LOCK, WINDOWS};
use super::lines;
use super::pair::{Chip, Pair, BOOTLOADER};
use super::play::Played;
use crate::record::{Mode, Record};
use crate::{plain, Seeded};
use std::collections::BTreeMap;
use std::fmt;

const FEND: u8 = 0xC0;

const INIT: u8 = 0x01;
const PEEK: u8 = 0x02;
const POKE: u8 = 0x03;
const DIAGNOSTIC: u8 = 0x04;
const CRC: u8 = 0x06;

/// The diagnostic that shows the lock in its lowest byte.
const STATUS: usize = 0x06;

/// What a caller says of the lock, at set-up and in a record: unlocked as often as not, and locked in any number.
pub fn locked(seeded: &mut Seeded) -> u8 {
    seeded.pick(&[0, 0, 0, 0, 0, 0, 1, 1, 1, 2, 0x80, 0xFF])
}

/// Commands to bootloader FRAM about the word that locks it. The caller alters sums and status in between, and says anew
/// whether it is locked.
pub fn about_the_lock(pair: &mut Pair, seeded: &mut Seeded) -> Played {
    // Closes what is open, which may leave the unit in either mode.
    pair.byte(FEND)?;
    pair.record.mode = seeded.pick(&[Mode::Bootloader, Mode::Bootloader, Mode::Application]);
    pair.record.locked = locked(seeded);
    for _ in 0..2 + seeded.below(5) {
        altered(pair, seeded);
        let (code, data) = one_about_the_lock(seeded, &pair.record);
        let message = lines::message_of(seeded, &pair.record, pair.port, code, &data);
        pair.bytes(&lines::escaped(&message))?;
        if seeded.one_in(6) {
            pair.record.locked = locked(seeded);
        }
        pair.byte(FEND)?;
    }
    Ok(())
}

fn one_about_the_lock(seeded: &mut Seeded, record: &Record) -> (u8, Vec<u8>) {
    match seeded.below(8) {
        0..=2 => {
            let start = seeded.below(record.bootloader_len);
            let count = (1 + seeded.below(12)).min(record.bootloader_len - start);
            let stored = commands::bytes(seeded, count);
            let address = WINDOWS[0] as u32 + start as u32;
            (POKE, [&address.to_le_bytes()[..], &stored].concat())
        }
        3 | 4 => (INIT, LOCK.to_vec()),
        5 => (INIT, commands::nearly(seeded, LOCK)),
        6 => (DIAGNOSTIC, vec![STATUS as u8]),
        _ => {
            let last = WINDOWS[0] as u32 + record.bootloader_len as u32 - 1;
            let ends = [WINDOWS[0] as u32, last];
            (CRC, ends.map(u32::to_le_bytes).concat())
        }
    }
}

/// The caller makes sums of bootloader FRAM wrong, or the status another, in any of its bytes.
pub fn altered(pair: &mut Pair, seeded: &mut Seeded) {
    let status = match seeded.below(4) {
        0 => seeded.number() as u32,
        1 => seeded.pick(&[0, 0x40, 0xCC, 0xCC40, 0x40CC, 0x4040_4040, u32::MAX]),
        2 => {
            pair.alter(|lent| {
                let sums = &mut lent.frams[BOOTLOADER].sums;
                sums.iter_mut().for_each(|sum| *sum ^= 0x0101);
            });
            return;
        }
        _ => return,
    };
    pair.alter(|lent| lent.diagnostics[STATUS] = status);
}

/// What was met, and how often.
#[derive(Default)]
pub struct Frams(BTreeMap<String, u64>);

impl Frams {
    fn met(&mut self, what: String) {
        *self.0.entry(what).or_default() += 1;
    }

    pub fn set_up(&mut self, locked: u8, answer: u8) {
        if answer == 0 {
            self.met(format!("set-up, {}", told(locked)));
        }
    }

    /// A byte whose record says in a number that no wheel hands back that it is locked.
    pub fn byte(&mut self, record: &Record, answer: u8) {
        if record.locked > 1 {
            let refused = if answer < 20 { "" } else { ", refused" };
            self.met(format!("a byte, {}{refused}", told(record.locked)));
        }
    }

    /// A command that was answered, and bootloader FRAM after it.
    pub fn answered(&mut self, record: &Record, code: u8, data: &[u8], answer: u8, chip: &Chip) {
        let locked = told(record.locked.min(1));
        if code == INIT && data == LOCK {
            self.met(format!("INIT 0xDEADBEEF, {locked}: {answer}"));
        }
        let Some((form, first, last)) = range(code, data) else {
            return;
        };
        let came = match answer {
            1 | 2 => "done",
            10 => "10",
            _ => "refused",
        };
        let (from, to) = (window(first), window(last));
        self.met(format!("{form} from {from} to {to}: {came}"));
        if code == CRC && FIRSTS.contains(&(first as u32)) && LASTS.contains(&(last as u32)) {
            self.met(format!("CRC from {first:#x} to {last:#x}"));
        }
        if code == POKE && from == BOOTLOADER_WINDOW && came == "done" {
            let block = (first - WINDOWS[0]) as usize / 256;
            let right = chip.sums[block] == plain::crc(&chip.bytes[block * 256..][..256]);
            let sum = if right { "right" } else { "wrong" };
            self.met(format!("POKE, {locked}, its sum {sum} afterwards"));
        }
    }

    /// What a run never did.
    pub fn missed(&self) -> Vec<String> {
        let due = due().into_iter();
        due.filter(|what| !self.0.contains_key(what)).collect()
    }
}

const BOOTLOADER_WINDOW: &str = "bootloader FRAM";

/// The window that an address lies in.
fn window(address: i64) -> &'static str {
    match WINDOWS.iter().filter(|&&first| first <= address).count() {
        0 => "before",
        1 => BOOTLOADER_WINDOW,
        2 => "user FRAM",
        _ => "behind",
    }
}

fn told(locked: u8) -> &'static str {
    match locked {
        0 => "unlocked",
        1 => "locked",
        _ => "locked by another number",
    }
}

/// The form of a command that has a range, and the range's first and last address.
fn range(code: u8, data: &[u8]) -> Option<(&'static str, i64, i64)> {
    let word = |at: usize| {
        let bytes = data.get(at..at + 4)?.try_into().ok()?;
        Some(i64::from(u32::from_le_bytes(bytes)))
    };
    let first = word(0)?;
    let (form, last) = match (code, &data[4..]) {
        (PEEK, [0]) => ("PEEK, short,", first + 255),
        (PEEK, &[count]) => ("PEEK, short,", first + i64::from(count) - 1),
        (PEEK, &[low, high]) => {
            let count = i64::from(u16::from_le_bytes([low, high]));
            ("PEEK, long,", first + count - 1)
        }
        (POKE, [_, ..]) => ("POKE", first + data.len() as i64 - 5),
        (CRC, [_, _, _, _]) => ("CRC", word(4)?),
        _ => return None,
    };
    Some((form, first, last))
}

/// What a run must meet.
fn due() -> Vec<String> {
    let mut due = Vec::new();
    for form in ["PEEK, short,", "PEEK, long,", "POKE", "CRC"] {
        for way in [
            "from before to bootloader FRAM: 10",
            "from bootloader FRAM to bootloader FRAM: done",
            "from bootloader FRAM to bootloader FRAM: 10",
            "from bootloader FRAM to user FRAM: refused",
            "from user FRAM to user FRAM: done",
            "from user FRAM to user FRAM: 10",
            "from user FRAM to behind: 10",
        ] {
            due.push(format!("{form} {way}"));
        }
    }
    for (first, last) in FIRSTS.into_iter().flat_map(|f| LASTS.map(|l| (f, l))) {
        due.push(format!("CRC from {first:#x} to {last:#x}"));
    }
    for way in ["unlocked: 1", "unlocked: 2", "unlocked: 3", "unlocked: 4"] {
        due.push(format!("INIT 0xDEADBEEF, {way}"));
        due.push(format!("INIT 0xDEADBEEF, {}", way.replace("un", "")));
    }
    due.extend(
        [
            "CRC from before to user FRAM: 10",
            "CRC from before to behind: 10",
            "CRC from bootloader FRAM to behind: 10",
            "POKE, unlocked, its sum right afterwards",
            "POKE, locked, its sum right afterwards",
            "POKE, locked, its sum wrong afterwards",
            "a byte, locked by another number",
            "a byte, locked by another number, refused",
            "set-up, unlocked",
            "set-up, locked",
            "set-up, locked by another number",
        ]
        .map(String::from),
    );
    due
}

/// What was met least, of all that must be.
impl fmt::Display for Frams {
    fn fmt(&self, f: &mut fmt::Formatter) -> fmt::Result {
        let times = |what: &String| self.0.get(what).copied().unwrap_or(0);
        let mut due = due();
        due.sort_by_key(times);
        write!(f, "the two FRAMs, what was met least:")?;
        for what in due.iter().take(6) {
            write!(f, "\n    {what}: {}", times(what))?;
        }
        Ok(())
    }
}
