//! 01, One byte in, one answer out: the refusals 20 to 26, 27 (02, T-01) and 29 (02, T-06), lowest number first. They change
//! nothing at all. 22 and 23 are for either FRAM (02, T-07), 25 and 26 for either port. Lengths count elements, not bytes.

use super::line::LONGEST;
use super::{limit, ports};
use crate::record::{Receiver, Record};
use crate::wheel::{Fram, Lent, Port};

pub const EDAC_LEN: usize = 1_536;
const BLOCK: usize = 256;
const LARGEST_FRAM: usize = 262_144;
const DIAGNOSTICS: usize = 31;
const MESSAGE_LEN: usize = 1_033;
pub const REPLY_LEN: usize = 2_068;

/// Set-up has no 26, since there is no record yet, and no 27, since no byte came.
pub fn of_set_up(strap: u8, limit: u64, lent: &Lent) -> Option<u8> {
    let frams_fit = fits(&lent.bootloader) && fits(&lent.user);
    if let Some(number) = of_lent(strap, frams_fit, lent) {
        return Some(number);
    }
    of_limit(limit)
}

/// After set-up, an FRAM length other than the one set up is 22 too.
pub fn of_step(record: &Record, port: u8, lent: &Lent) -> Option<u8> {
    let as_set_up = lent.bootloader.bytes.len() == record.bootloader_len
        && lent.user.bytes.len() == record.fram_len;
    let frams_fit = fits(&lent.bootloader) && fits(&lent.user) && as_set_up;
    if let Some(number) = of_lent(record.strap, frams_fit, lent) {
        return Some(number);
    }
    // Both receivers are judged, whichever of them the byte is for.
    if record.receivers.iter().any(is_past_counting) {
        return Some(26);
    }
    if port > 1 {
        return Some(27);
    }
    of_limit(record.limit.into())
}

/// The count never passes the byte that makes a run too long on every bus, whatever the limit and the receiver's place.
fn is_past_counting(receiver: &Receiver) -> bool {
    receiver.count > LONGEST + 1
}

fn of_limit(limit: u64) -> Option<u8> {
    if limit::is_right(limit) {
        None
    } else {
        Some(29)
    }
}

fn of_lent(strap: u8, frams_fit: bool, lent: &Lent) -> Option<u8> {
    if strap > ports::MOST {
        return Some(20);
    }
    if lent.edac.len() != EDAC_LEN {
        return Some(21);
    }
    if !frams_fit {
        return Some(22);
    }
    if !has_its_sums(&lent.bootloader) || !has_its_sums(&lent.user) {
        return Some(23);
    }
    if lent.diagnostics.len() != DIAGNOSTICS {
        return Some(24);
    }
    if lent.ports.iter().any(is_short) {
        return Some(25);
    }
    None
}

/// Whether either buffer of a port is.
fn is_short(port: &Port) -> bool {
    port.message.len() < MESSAGE_LEN || port.reply.len() < REPLY_LEN
}

/// 01, The unit and its neighbours: 256 to 262,144 bytes, a multiple of 256.
fn fits(fram: &Fram) -> bool {
    let length = fram.bytes.len();
    (BLOCK..=LARGEST_FRAM).contains(&length) && length % BLOCK == 0
}

/// One for each block of what is lent.
fn has_its_sums(fram: &Fram) -> bool {
    fram.sums.len() == fram.bytes.len() / BLOCK
}
