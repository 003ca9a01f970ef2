//! 02, T-11: lists of files, judged and stored with no unit at hand, and then sent. The two wheels must agree, and each must
//! agree with itself: storing does as judging says, and WRITE FILE as both.

use super::pair::Pair;
use super::play::Played;
use super::{commands, limits, lines};
use crate::record::Mode;
use crate::Seeded;

const FEND: u8 = 0xC0;
const WRITE_FILE: u8 = 0x08;

/// The limits that a unit can have.
const LEAST: u64 = limits::LEAST as u64;
const MOST: u64 = limits::MOST as u64;

/// The length of EDAC memory.
const EDAC: usize = 1_536;

/// A list that is judged and stored, and altered in between now and then: it is stored as it then is.
pub fn asked(pair: &mut Pair, seeded: &mut Seeded) -> Played {
    let limit = limit(seeded, pair.record.limit);
    let mut list = list(seeded, limit);
    pair.judge_list(limit, &list)?;
    if seeded.one_in(3) {
        alter(seeded, &mut list);
    }
    let edac = match seeded.below(4) {
        0 => seeded.pick(&[0, 1, 1_024, 1_535, 1_537, 2_048]),
        _ => EDAC,
    };
    let answer = pair.store_list(limit, edac, &list)?;
    let due = match (edac, pair.judge_list(limit, &list)?) {
        (EDAC, true) => 0,
        (EDAC, false) => 4,
        _ => 21,
    };
    if answer != due {
        return Err(format!(
            "storing {list:x?}, limit {limit}: {answer}, not {due}"
        ));
    }
    Ok(())
}

/// A list that is judged and stored by the unit's limit, and sent with memory as it was before. The command must be done
/// exactly where the list is fit, and leave in memory what storing left. A list that no message can carry is an oversize run,
/// so not done either.
pub fn sent(pair: &mut Pair, seeded: &mut Seeded) -> Played {
    // Closes what is open, which may leave the unit in either mode. No command may come on the other port meanwhile.
    pair.aside.woven = false;
    pair.byte(FEND)?;
    pair.record.mode = Mode::Application;
    let limit = pair.record.limit.into();
    let list = list(seeded, limit);
    let fit = pair.judge_list(limit, &list)?;
    let held = pair.edac();
    pair.store_list(limit, EDAC, &list)?;
    let stored = pair.edac();
    pair.alter(|lent| lent.edac.copy_from_slice(&held));
    let message = lines::message_of(seeded, &pair.record, pair.port, WRITE_FILE, &list);
    pair.bytes(&lines::escaped(&message))?;
    let answer = pair.byte(FEND)?;
    pair.tally.sent.add(answer);
    if matches!(answer, 1 | 2) != fit {
        return Err(format!(
            "{list:x?} judged {fit}, answered {answer}, limit {limit}"
        ));
    }
    if pair.edac() != stored {
        return Err(format!("{list:x?} stored otherwise than sent"));
    }
    Ok(())
}

/// Mostly the unit's or the highest, and the ends of those that there are, from either side. Some are right in their low bits
/// only.
fn limit(seeded: &mut Seeded, own: u16) -> u64 {
    match seeded.below(8) {
        0 | 1 => own.into(),
        2 | 3 => MOST,
        4 => seeded.pick(&[259, LEAST, 1_029]),
        5 => seeded.pick(&[
            0,
            1,
            261,
            1_027,
            1_030,
            1 << 16 | 1_028,
            1 << 32 | 260,
            1 << 63 | 1_028,
            u64::MAX,
        ]),
        6 => LEAST + seeded.below(769) as u64,
        _ => seeded.number() >> seeded.below(64),
    }
}

/// A list as commands have it, of whole structures up to a length that matters, or of any bytes, and now and then torn.
fn list(seeded: &mut Seeded, limit: u64) -> Vec<u8> {
    let mut list = match seeded.below(8) {
        0 => {
            let length = seeded.pick(&[0, 1, 5, 6, 10, 11, 12, 300, 1_028, 1_029]);
            commands::bytes(seeded, length)
        }
        1 | 2 => {
            let length = length(seeded, limit);
            commands::whole_list(seeded, length)
        }
        _ => commands::write_file(seeded, limit.clamp(LEAST, MOST) as usize),
    };
    if seeded.one_in(8) {
        alter(seeded, &mut list);
    }
    list
}

/// As long as the limit, or one more or less; the same of the highest; or any.
fn length(seeded: &mut Seeded, limit: u64) -> usize {
    let about = match seeded.below(4) {
        0 | 1 => limit.min(1_100) as usize,
        2 => MOST as usize,
        _ => 1 + seeded.below(1_200),
    };
    (about + seeded.below(3)).saturating_sub(1)
}

/// A byte less, a byte more, or a byte that is another, often the first file's address, since file 0 is longer than any other.
fn alter(seeded: &mut Seeded, list: &mut Vec<u8>) {
    let byte = seeded.number() as u8;
    match seeded.below(4) {
        0 => drop(list.pop()),
        1 => list.push(byte),
        2 if list.len() > 1 => {
            let at = seeded.below(list.len());
            list[at] = byte;
        }
        _ => {
            if let Some(file) = list.first_mut() {
                *file = if *file == 0 { byte } else { 0 };
            }
        }
    }
}
