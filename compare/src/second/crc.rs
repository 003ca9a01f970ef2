//! 01, The message (ICD 10.8): the CRC bit by bit, and the joining of sums.

use crate::Part;

const START: u16 = 0xFFFF;
const POLYNOMIAL: u16 = 0x8408;

/// The sum of bytes: from the start value, each byte with its low bit first, without a final inversion.
pub fn sum(bytes: &[u8]) -> u16 {
    let mut crc = START;
    for &byte in bytes {
        crc = byte_step(crc, byte);
    }
    crc
}

fn byte_step(crc: u16, byte: u8) -> u16 {
    let mut crc = crc ^ u16::from(byte);
    for _ in 0..8 {
        crc = bit_step(crc);
    }
    crc
}

/// As a polynomial over bits whose highest power is bit 0, the value times x.
fn bit_step(value: u16) -> u16 {
    if value & 1 == 1 {
        (value >> 1) ^ POLYNOMIAL
    } else {
        value >> 1
    }
}

/// 01, Joining: the first sum without its start value is carried over the second's length and meets the second sum.
/// Every pair is joined but one whose total length is above 4,294,967,295.
pub fn join(first: Part, second: Part) -> Result<Part, u8> {
    let Some(len) = first.len.checked_add(second.len) else {
        return Err(36);
    };
    let carried = times(first.sum ^ START, gap(second.len));
    Ok(Part {
        sum: carried ^ second.sum,
        len,
    })
}

/// What a value is multiplied by when n zero bytes follow it: the power of one zero byte's factor, by halving n.
fn gap(n: u32) -> u16 {
    if n == 0 {
        return ONE;
    }
    let half = gap(n / 2);
    let even = times(half, half);
    if n % 2 == 0 {
        even
    } else {
        byte_step(even, 0)
    }
}

/// The polynomial 1.
const ONE: u16 = 0x8000;

/// The product of two polynomials, modulo that of the CRC.
fn times(a: u16, b: u16) -> u16 {
    let (mut product, mut power) = (0, b);
    for place in (0..16).rev() {
        if a >> place & 1 == 1 {
            product ^= power;
        }
        power = bit_step(power);
    }
    product
}
