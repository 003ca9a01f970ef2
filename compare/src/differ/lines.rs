//! What goes over the line: messages sound and spoiled, as runs of line bytes, and noise.

use super::{commands, ports};
use crate::record::Record;
use crate::{plain, Seeded};

const FEND: u8 = 0xC0;
const FESC: u8 = 0xDB;

/// A sound message on a port for a unit with this record.
pub fn message(seeded: &mut Seeded, record: &Record, port: usize) -> Vec<u8> {
    let (code, data) = commands::command(seeded, record);
    message_of(seeded, record, port, code, &data)
}

/// A sound message with this code and data, to either address that the port hears.
pub fn message_of(
    seeded: &mut Seeded,
    record: &Record,
    port: usize,
    code: u8,
    data: &[u8],
) -> Vec<u8> {
    let address = seeded.pick(&ports::HEARD[port]).wrapping_add(record.strap);
    message_to(seeded, address, code, data)
}

/// A sound message to an address.
pub fn message_to(seeded: &mut Seeded, address: u8, code: u8, data: &[u8]) -> Vec<u8> {
    // Poll mostly set, since a reply shows what was done; B and the incoming ACK as it falls.
    let poll = if seeded.one_in(5) { 0x00 } else { 0x80 };
    let control = poll | seeded.pick(&[0x00, 0x20, 0x40, 0x60]) | code;
    let source = match seeded.below(4) {
        0 => seeded.pick(&[0x00, FEND, FESC, 0xDC, 0xDD, address]),
        1 => seeded.number() as u8,
        _ => 0x11,
    };
    let mut message = vec![address, source, control];
    message.extend(data);
    summed(message)
}

/// With its CRC, low byte first.
fn summed(mut message: Vec<u8>) -> Vec<u8> {
    let sum = plain::crc(&message);
    message.extend(sum.to_le_bytes());
    message
}

/// A message as the line carries it, without the FENDs.
pub fn escaped(message: &[u8]) -> Vec<u8> {
    let mut line = Vec::with_capacity(message.len() + 8);
    for &byte in message {
        match byte {
            FEND => line.extend([FESC, 0xDC]),
            FESC => line.extend([FESC, 0xDD]),
            _ => line.push(byte),
        }
    }
    line
}

/// A run of line bytes that is not a sound message for this unit on this port, though mostly nearly one.
pub fn spoiled(seeded: &mut Seeded, record: &Record, port: usize) -> Vec<u8> {
    let sound = message(seeded, record, port);
    match seeded.below(9) {
        0 => escaped(&one_bit_off(seeded, sound)),
        1 => escaped(&sum_reversed(sound)),
        2 => escaped(&for_another(seeded, sound)),
        3 => escaped(&cut(seeded, sound)),
        4 => escaped(&stretched(seeded, record, sound)),
        5 => torn(seeded, escaped(&sound)),
        6 => torn_when_too_long(seeded, record),
        7 => parted(seeded, escaped(&sound)),
        _ => noise(seeded),
    }
}

fn one_bit_off(seeded: &mut Seeded, mut message: Vec<u8>) -> Vec<u8> {
    let at = seeded.below(message.len());
    message[at] ^= 1 << seeded.below(8);
    message
}

fn sum_reversed(mut message: Vec<u8>) -> Vec<u8> {
    let last = message.len() - 1;
    message.swap(last - 1, last);
    message
}

/// Sound, or with a wrong CRC as well, which is what is to be blamed.
fn for_another(seeded: &mut Seeded, mut message: Vec<u8>) -> Vec<u8> {
    message[0] = match seeded.below(5) {
        0 => seeded.pick(&[0x00, FEND, FESC]),
        1 => message[0] ^ 1 << seeded.below(8),
        // Another strap's, and this unit's on the other port.
        2 => message[0] & 0xF0 | seeded.below(9) as u8,
        3 => message[0] ^ seeded.pick(&[0x10, 0x30]),
        _ => seeded.number() as u8,
    };
    if seeded.one_in(3) {
        return message;
    }
    message.truncate(message.len() - 2);
    summed(message)
}

/// Ended early: mostly to a runt or just not, and then often with a right CRC.
fn cut(seeded: &mut Seeded, mut message: Vec<u8>) -> Vec<u8> {
    let length = match seeded.below(3) {
        0 => seeded.below(message.len()),
        _ => seeded.below(7).min(message.len()),
    };
    message.truncate(length);
    if seeded.one_in(2) && length >= 2 {
        message.truncate(length - 2);
        return summed(message);
    }
    message
}

/// Longer than a message to this unit may be, or just as long, with a right CRC; or as long as on a bus with the highest limit.
fn stretched(seeded: &mut Seeded, record: &Record, mut message: Vec<u8>) -> Vec<u8> {
    let length = match seeded.below(4) {
        0 => seeded.pick(&[1_033, 1_034, 1_300]),
        _ => usize::from(record.limit) + seeded.pick(&[4, 5, 5, 6, 6, 7, 8]),
    };
    message.resize(length - 2, seeded.number() as u8);
    summed(message)
}

/// A FESC with something after it, anywhere in the run, or the FESC alone at its end.
fn torn(seeded: &mut Seeded, mut line: Vec<u8>) -> Vec<u8> {
    let at = match seeded.below(4) {
        0 => 0,
        1 => line.len(),
        _ => seeded.below(line.len() + 1),
    };
    let after = match seeded.below(3) {
        0 => vec![FESC],
        1 => vec![FESC, seeded.pick(&[FESC, 0xDC, 0xDD, 0x00])],
        _ => vec![FESC, seeded.number() as u8],
    };
    line.splice(at..at, after);
    line
}

/// A run past the longest message that goes on with escapes, right or wrong.
fn torn_when_too_long(seeded: &mut Seeded, record: &Record) -> Vec<u8> {
    let length = usize::from(record.limit) + 3 + seeded.below(6);
    let mut line = vec![seeded.number() as u8 & 0x3F; length];
    for _ in 0..seeded.below(3) {
        line.extend([FESC, seeded.pick(&[0xDC, 0xDD, 0xDC, 0xDD, 0x00])]);
        line.extend([0x01, 0x02]);
    }
    if seeded.one_in(4) {
        line.push(FESC);
    }
    line
}

/// FENDs inside a run, alone or two together.
fn parted(seeded: &mut Seeded, mut line: Vec<u8>) -> Vec<u8> {
    let at = seeded.below(line.len() + 1);
    let fends = vec![FEND; 1 + seeded.below(3)];
    line.splice(at..at, fends);
    line
}

pub fn noise(seeded: &mut Seeded) -> Vec<u8> {
    let length = 1 + seeded.below(40);
    commands::bytes(seeded, length)
}
