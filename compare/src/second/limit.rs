//! 02, T-06: a unit's limit, which is the most data bytes of a message on its bus, of a command and of a reply.

use super::closing::SHORTEST;
use std::ops::RangeInclusive;

/// The limits that a unit can have. Less than 260 would leave no room for a one-byte count of 0, which asks PEEK for 256 bytes.
const LIMITS: RangeInclusive<u64> = 260..=1_028;

pub fn is_right(limit: u64) -> bool {
    LIMITS.contains(&limit)
}

/// The most bytes of a message on that bus, destination to CRC.
pub fn longest(limit: u16) -> usize {
    SHORTEST + usize::from(limit)
}
