//! 01, Commands (ICD 11): the eleven commands. Each judges its data's length first, then counts and the reply's size, then
//! the memory range, and changes nothing before all of that is settled. The limit is the most data bytes of a reply.

use super::fram::{self, Chip, Frams};
use super::{edac, list, lock};
use crate::record::{Mode, Record};

/// What commands read and write, beside the diagnostics.
pub struct Memory<'a> {
    pub edac: &'a mut [u8],
    pub frams: Frams<'a>,
}

/// Why a command is not done.
pub enum No {
    /// Answer 3 or 4.
    Refused,
    /// Answer 10: access to memory not fitted.
    NotFitted,
}

/// A command that is done: the reply's data, and what it cost.
pub struct Done {
    pub shown: Vec<u8>,
    pub cost: u32,
}

/// The reply's data of a command that costs nothing, where it is done.
type Shown = Result<Vec<u8>, No>;

const PING_TEXT: &[u8] = b"WHEEL UNIT NSP 01";

// What INIT takes beside no data at all: the start of the application, and 02's word for the lock.
const APPLICATION: u32 = 0x2005_0000;
const LOCK: u32 = 0xDEAD_BEEF;

pub fn carry_out(
    code: u8,
    data: &[u8],
    record: &mut Record,
    memory: Memory,
    diagnostics: &mut [u32],
) -> Result<Done, No> {
    let Memory { edac, frams } = memory;
    let limit = record.limit.into();
    // ICD 11.4: READ FILE and all below are for application mode only.
    if code >= 0x07 && record.mode == Mode::Bootloader {
        return Err(No::Refused);
    }
    let shown = match code {
        0x00 => Ok(PING_TEXT.to_vec()),
        0x01 => init(data, record, diagnostics),
        0x02 => peek(data, limit, frams),
        0x03 => poke(data, record.locked != 0, frams),
        0x04 => diagnostic(data, limit, diagnostics),
        0x06 => return crc(data, frams),
        0x07 => read_file(data, limit, edac),
        0x08 => write_file(data, limit, edac),
        0x09 => read_edac(data, limit, edac),
        0x0A => write_edac(data, edac),
        0x0B => gather(data, limit, edac),
        _ => Err(No::Refused),
    }?;
    Ok(Done { shown, cost: 0 })
}

/// Bootloader mode with no data. From the bootloader only: application mode by its one address, and the lock, which is for good
/// and is shown again where it was there already.
fn init(data: &[u8], record: &mut Record, diagnostics: &mut [u32]) -> Shown {
    if data.is_empty() {
        record.mode = Mode::Bootloader;
        return Ok(Vec::new());
    }
    if record.mode != Mode::Bootloader {
        return Err(No::Refused);
    }
    if data == APPLICATION.to_le_bytes() {
        record.mode = Mode::Application;
        return Ok(data.to_vec());
    }
    if data == LOCK.to_le_bytes() {
        record.locked = 1;
        lock::show(true, diagnostics);
        return Ok(data.to_vec());
    }
    Err(No::Refused)
}

fn peek(data: &[u8], limit: usize, frams: Frams) -> Shown {
    let count = match data.len() {
        5 => short_count(data[4]),
        6 => long_count(data[4], data[5])?,
        _ => return Err(No::Refused),
    };
    if 4 + count > limit {
        return Err(No::Refused);
    }
    let (_, fram, range) = fram::find(word(&data[..4]), count as u64, frams)?;
    Ok([&data[..4], &fram.bytes[range]].concat())
}

/// A locked chip is no error: the command is echoed, and nothing is stored (ICD 11.8).
fn poke(data: &[u8], locked: bool, frams: Frams) -> Shown {
    // Five bytes or more, up to the limit: the message has no others.
    if data.len() < 5 {
        return Err(No::Refused);
    }
    let (address, bytes) = data.split_at(4);
    let (chip, fram, range) = fram::find(word(address), bytes.len() as u64, frams)?;
    if chip == Chip::User || !locked {
        fram::store(range, bytes, fram);
    }
    Ok(data.to_vec())
}

fn diagnostic(data: &[u8], limit: usize, diagnostics: &[u32]) -> Shown {
    if data.is_empty() || 5 * data.len() > limit {
        return Err(No::Refused);
    }
    let mut shown = Vec::new();
    for &channel in data {
        let Some(value) = diagnostics.get(usize::from(channel)) else {
            return Err(No::Refused);
        };
        shown.push(channel);
        shown.extend(value.to_le_bytes());
    }
    Ok(shown)
}

/// The last address is included. One before the first is refused, even outside FRAM. No other command has a cost (02, T-13).
fn crc(data: &[u8], frams: Frams) -> Result<Done, No> {
    if data.len() != 8 {
        return Err(No::Refused);
    }
    let (first, last) = (word(&data[..4]), word(&data[4..]));
    if last < first {
        return Err(No::Refused);
    }
    let (_, fram, range) = fram::find(first, u64::from(last - first) + 1, frams)?;
    let cost = fram::cost(&range, &fram);
    let sum = fram::sum_of_range(range, fram);
    let shown = [data, &sum.to_le_bytes()].concat();
    Ok(Done { shown, cost })
}

fn read_file(data: &[u8], limit: usize, edac: &[u8]) -> Shown {
    if data.is_empty() {
        return Err(No::Refused);
    }
    let size: usize = data.iter().map(|&file| edac::structure_len(file)).sum();
    if size > limit {
        return Err(No::Refused);
    }
    Ok(data
        .iter()
        .flat_map(|&file| edac::file(file, edac))
        .collect())
}

/// The list is judged before anything is stored (02, T-11), and the reply shows memory after the whole command.
fn write_file(data: &[u8], limit: usize, edac: &mut [u8]) -> Shown {
    if !list::judge_list(limit as u64, data) {
        return Err(No::Refused);
    }
    // A list that is fit is stored: a wrong length of EDAC was refused with the byte.
    list::store_list(limit as u64, edac, data);
    let mut shown = Vec::new();
    for structure in list::structures(data) {
        shown.extend(edac::file(structure[0], edac));
    }
    Ok(shown)
}

fn read_edac(data: &[u8], limit: usize, edac: &[u8]) -> Shown {
    let count = match data.len() {
        3 => short_count(data[2]),
        4 => long_count(data[2], data[3])?,
        _ => return Err(No::Refused),
    };
    if 2 + count > limit {
        return Err(No::Refused);
    }
    let range = edac::range(half_word(&data[..2]), count)?;
    Ok([&data[..2], &edac[range]].concat())
}

/// The reply shows what memory holds afterwards, which need not be what was sent (02, T-02).
fn write_edac(data: &[u8], edac: &mut [u8]) -> Shown {
    if data.len() < 3 {
        return Err(No::Refused);
    }
    let (address, bytes) = data.split_at(2);
    let range = edac::range(half_word(address), bytes.len())?;
    edac::store(range.clone(), bytes, edac);
    Ok([address, &edac[range]].concat())
}

fn gather(data: &[u8], limit: usize, edac: &[u8]) -> Shown {
    if data.is_empty() || data.len() % 4 != 0 {
        return Err(No::Refused);
    }
    let mut shown = Vec::new();
    for asked in data.chunks(4) {
        let count = long_count(asked[2], asked[3])?;
        if shown.len() + 4 + count > limit {
            return Err(No::Refused);
        }
        let range = edac::range(half_word(asked), count)?;
        shown.extend(asked);
        shown.extend(&edac[range]);
    }
    Ok(shown)
}

/// A one-byte count, in which 0 is 256.
fn short_count(byte: u8) -> usize {
    if byte == 0 {
        256
    } else {
        usize::from(byte)
    }
}

/// A two-byte count, in which 0 is refused.
fn long_count(low: u8, high: u8) -> Result<usize, No> {
    match u16::from_le_bytes([low, high]) {
        0 => Err(No::Refused),
        count => Ok(usize::from(count)),
    }
}

fn word(bytes: &[u8]) -> u32 {
    u32::from_le_bytes([bytes[0], bytes[1], bytes[2], bytes[3]])
}

fn half_word(bytes: &[u8]) -> u16 {
    u16::from_le_bytes([bytes[0], bytes[1]])
}
