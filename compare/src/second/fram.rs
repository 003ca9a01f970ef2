//! 01, Commands, and 02, T-07 (ICD 12.2.3, 12.2.4): bootloader FRAM and user FRAM by address, and one kept sum for each block of
//! 256 bytes. The two are one kind of memory, and only their addresses and the lock tell them apart.

use super::command::No;
use super::crc;
use crate::wheel::Fram;
use crate::Part;
use std::ops::Range;

const BLOCK: usize = 256;

/// Which of the two.
#[derive(Clone, Copy, PartialEq)]
pub enum Chip {
    Bootloader,
    User,
}

/// The addresses that a chip may have, however much of it is fitted (ICD Table 15).
fn window(chip: Chip) -> Range<u64> {
    match chip {
        Chip::Bootloader => 0x2000_0000..0x2004_0000,
        Chip::User => 0x2004_0000..0x2008_0000,
    }
}

/// Both chips, as they are fitted.
pub struct Frams<'a> {
    pub bootloader: Fram<'a>,
    pub user: Fram<'a>,
}

/// Where `count` bytes from an address on stand: the chip and its memory, and where there. Nothing is done in part, and
/// addresses do not wrap. A range that starts among bootloader FRAM's addresses and ends among user FRAM's is refused, whatever
/// is fitted.
pub fn find(address: u32, count: u64, frams: Frams) -> Result<(Chip, Fram, Range<usize>), No> {
    let (start, end) = (u64::from(address), u64::from(address) + count);
    if window(Chip::Bootloader).contains(&start) && window(Chip::User).contains(&(end - 1)) {
        return Err(No::Refused);
    }
    let chips = [
        (Chip::Bootloader, frams.bootloader),
        (Chip::User, frams.user),
    ];
    for (chip, fram) in chips {
        let first = window(chip).start;
        if first <= start && end <= first + fram.bytes.len() as u64 {
            let range = (start - first) as usize..(end - first) as usize;
            return Ok((chip, fram, range));
        }
    }
    Err(No::NotFitted)
}

/// Set-up: every block's sum.
pub fn sum_every_block(fram: Fram) {
    for (block, sum) in fram.bytes.chunks(BLOCK).zip(fram.sums) {
        *sum = crc::sum(block);
    }
}

/// Stores bytes and sets the sum of every block that they touch, and no other sum.
pub fn store(range: Range<usize>, bytes: &[u8], fram: Fram) {
    let touched = range.start / BLOCK..=(range.end - 1) / BLOCK;
    fram.bytes[range].copy_from_slice(bytes);
    for block in touched {
        fram.sums[block] = crc::sum(&fram.bytes[block * BLOCK..(block + 1) * BLOCK]);
    }
}

/// The CRC of a range, joined block by block: one wholly covered enters by its kept sum, any other by its bytes.
pub fn sum_of_range(range: Range<usize>, fram: Fram) -> u16 {
    let mut whole = Part {
        sum: 0xFFFF,
        len: 0,
    };
    let mut at = range.start;
    while at < range.end {
        let block = at / BLOCK;
        let end = range.end.min((block + 1) * BLOCK);
        let sum = if end - at == BLOCK {
            fram.sums[block]
        } else {
            crc::sum(&fram.bytes[at..end])
        };
        let part = Part {
            sum,
            len: (end - at) as u32,
        };
        whole = crc::join(whole, part).expect("FRAM is shorter than the longest part");
        at = end;
    }
    whole.sum
}

/// What the CRC of a range costs (02, T-13): the bytes of the range that lie in blocks only partly covered, plus the blocks
/// wholly covered. Counted block by block, and in each byte by byte.
pub fn cost(range: &Range<usize>, fram: &Fram) -> u32 {
    let (mut bytes, mut blocks) = (0, 0);
    for block in 0..fram.bytes.len() / BLOCK {
        let its_bytes = block * BLOCK..(block + 1) * BLOCK;
        let in_range = its_bytes.filter(|at| range.contains(at)).count();
        if in_range == BLOCK {
            blocks += 1;
        } else {
            bytes += in_range;
        }
    }
    (bytes + blocks) as u32
}
