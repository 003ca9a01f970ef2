//! 01, The line (ICD 9.1): the receiver of a port, and packing.

use crate::record::{Place, Receiver};

pub const FEND: u8 = 0xC0;
pub const FESC: u8 = 0xDB;
pub const TFEND: u8 = 0xDC;
pub const TFESC: u8 = 0xDD;

/// The most bytes of a message on any bus, destination to CRC (ICD 10.2).
pub const LONGEST: usize = 1_033;

/// A run that a FEND has closed.
pub enum Run {
    /// It has a framing fault.
    Faulty,
    /// So many bytes were unpacked from it, or one more than a message may have where there were more.
    Whole(usize),
}

/// One byte, where a message has at most `longest`: the receiver after it, and the run that it closed.
pub fn take(
    receiver: Receiver,
    byte: u8,
    longest: usize,
    message: &mut [u8],
) -> (Receiver, Option<Run>) {
    let Receiver { place, count } = receiver;
    if byte == FEND {
        // Each FEND opens a run, and what follows is read without regard to the run before it.
        return (at(Place::Run, 0), closed(place, count));
    }
    let mut stored = |byte| at(Place::Run, store(byte, count, longest, message));
    let receiver = match (place, byte) {
        // Before the first FEND, and after a fault or in a run that is thrown away until the next, no byte means anything.
        (Place::Fresh | Place::Fault | Place::Thrown, _) => receiver,
        (Place::Run, FESC) => at(Place::Escape, count),
        (Place::Run, _) => stored(byte),
        (Place::Escape, TFEND) => stored(FEND),
        (Place::Escape, TFESC) => stored(FESC),
        // FESC and anything else is a framing fault, which the closing FEND will answer.
        (Place::Escape, _) => at(Place::Fault, count),
    };
    (receiver, None)
}

fn at(place: Place, count: usize) -> Receiver {
    Receiver { place, count }
}

/// What a FEND closes. The first one closes nothing, and so does the one at the end of a run that was thrown away, which was
/// counted then; one after FESC is a fault and still closes the run.
fn closed(place: Place, count: usize) -> Option<Run> {
    match place {
        Place::Fresh | Place::Thrown => None,
        Place::Run => Some(Run::Whole(count)),
        Place::Escape | Place::Fault => Some(Run::Faulty),
    }
}

/// Only as many bytes as a message may have are stored, however long the buffer is, and the count stops at the next one. A lent
/// count above that stays as it is (02, T-06).
pub fn store(byte: u8, count: usize, longest: usize, message: &mut [u8]) -> usize {
    if count < longest {
        message[count] = byte;
    }
    if count <= longest {
        count + 1
    } else {
        count
    }
}

/// A message with FEND at both ends, at the start of the reply buffer. Hands back its length.
pub fn pack(message: &[u8], reply: &mut [u8]) -> usize {
    let mut packed = vec![FEND];
    for &byte in message {
        match byte {
            FEND => packed.extend([FESC, TFEND]),
            FESC => packed.extend([FESC, TFESC]),
            _ => packed.push(byte),
        }
    }
    packed.push(FEND);
    reply[..packed.len()].copy_from_slice(&packed);
    packed.len()
}
