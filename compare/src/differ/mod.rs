//! Two wheels side by side over seeded streams of line bytes of both ports: after every byte the answer, the record, the length
//! sent, its port and the cost agree, and every lent buffer whole, with the cells beyond what was lent; a large FRAM only after
//! every FEND and every number but 0.
//!
//! A session is a unit's life from its seed alone: `play` chooses what happens, `commands` and `lines` make the bytes, `ports`
//! weaves those of the other port in and says which ports are sending, `limits` hands in limits, `frams` locks bootloader FRAM,
//! `costs` asks for the CRC of ranges of every kind, `lists` asks about lists of files and sends them, `pair` feeds both wheels
//! and holds them against each other, `tally`, `rows`, `limits`, `frams`, `costs`, `traffic` and `many` keep what was reached. In the
//! second part of a session `many` gives a unit many bytes in a call, and each such call is held against single bytes too.

mod commands;
mod costs;
mod frams;
mod limits;
mod lines;
mod lists;
mod many;
mod pair;
mod play;
mod ports;
mod rows;
mod tally;
mod traffic;

use crate::wheel::Wheel;
use crate::Seeded;
use pair::Pair;
pub use tally::Tally;

/// Where two wheels part, so that it can be had again: the session's seed and the line bytes fed before the call.
#[derive(Debug)]
pub struct Difference {
    pub seed: u64,
    pub offset: u64,
    pub what: String,
}

/// One session.
pub fn session(
    first: &dyn Wheel,
    second: &dyn Wheel,
    seed: u64,
    tally: &mut Tally,
) -> Result<(), Difference> {
    let mut seeded = Seeded(seed.wrapping_mul(0x2545_F491_4F6C_DD1D));
    let mut pair = Pair::new(first, second, seed, &mut seeded, tally);
    let played = play::play(&mut pair, &mut seeded);
    let offset = pair.offset;
    played.map_err(|what| Difference { seed, offset, what })?;
    // Many bytes in a call, on a unit of its own, whose FRAMs are small: each call is compared whole, twice.
    let mut seeded = Seeded(!seed.wrapping_mul(0x2545_F491_4F6C_DD1D));
    let mut pair = Pair::new(first, second, 0, &mut seeded, tally);
    let played = many::play(&mut pair, &mut seeded);
    let offset = offset + pair.offset;
    played.map_err(|what| Difference { seed, offset, what })
}

/// Sessions from a seed on until so many line bytes are fed.
pub fn sessions(
    first: &dyn Wheel,
    second: &dyn Wheel,
    seed: u64,
    bytes: u64,
    tally: &mut Tally,
) -> Result<(), Difference> {
    let mut next = seed;
    while tally.bytes < bytes {
        session(first, second, next, tally)?;
        next = next.wrapping_add(1);
    }
    Ok(())
}
