//! The same things in plain Rust: bit by bit as the ICD's fragment has it, by a table, and joining by a matrix of bits.

use crate::Part;

const POLYNOMIAL: u16 = 0x8408;
const START: u16 = 0xffff;

/// The fragment of ICD 10.8.
pub fn bit_by_bit(start: u16, bytes: &[u8]) -> u16 {
    let mut crc = start;
    for &byte in bytes {
        let mut ch = byte;
        for _ in 0..8 {
            crc = (crc >> 1)
                ^ if (u16::from(ch) ^ crc) & 1 == 1 {
                    POLYNOMIAL
                } else {
                    0
                };
            ch >>= 1;
        }
    }
    crc
}

const fn table() -> [u16; 256] {
    let mut table = [0; 256];
    let mut i = 0;
    while i < 256 {
        let mut entry = i as u16;
        let mut bit = 0;
        while bit < 8 {
            entry = (entry >> 1) ^ if entry & 1 == 1 { POLYNOMIAL } else { 0 };
            bit += 1;
        }
        table[i] = entry;
        i += 1;
    }
    table
}

static TABLE: [u16; 256] = table();

/// By a table, as firmware usually has it: what the proved code is measured against.
#[inline(never)]
pub fn crc(bytes: &[u8]) -> u16 {
    bytes.iter().fold(START, |crc, &byte| {
        (crc >> 8) ^ TABLE[usize::from((crc ^ u16::from(byte)) & 0xff)]
    })
}

/// A linear map on 16 bits, by its value at each single bit.
#[derive(Clone, Copy)]
struct Matrix([u16; 16]);

impl Matrix {
    fn zero_byte() -> Matrix {
        Matrix(std::array::from_fn(|i| bit_by_bit(1 << i, &[0])))
    }

    fn applied(&self, value: u16) -> u16 {
        (0..16)
            .filter(|i| value >> i & 1 == 1)
            .fold(0, |sum, i| sum ^ self.0[i])
    }

    fn squared(&self) -> Matrix {
        Matrix(std::array::from_fn(|i| self.applied(self.0[i])))
    }
}

/// A value carried over n zero bytes, by squaring the map of one zero byte.
pub fn carried(value: u16, n: u32) -> u16 {
    let (mut value, mut map, mut left) = (value, Matrix::zero_byte(), n);
    while left > 0 {
        if left & 1 == 1 {
            value = map.applied(value);
        }
        map = map.squared();
        left >>= 1;
    }
    value
}

/// A value carried over n zero bytes, one after the other.
pub fn carried_one_by_one(value: u16, n: u32) -> u16 {
    (0..n).fold(value, |value, _| bit_by_bit(value, &[0]))
}

pub fn join(first: Part, second: Part) -> Result<Part, u8> {
    let len = first.len.checked_add(second.len).ok_or(36u8)?;
    Ok(Part {
        sum: carried(first.sum ^ START, second.len) ^ second.sum,
        len,
    })
}
