//! Sums: the proved code against plain Rust, bit by bit and by a table.
use compare::{plain, Seeded};
use wheel_unit::{crc, crc_from};

#[test]
fn vectors() {
    assert_eq!(crc(b""), 0xffff);
    assert_eq!(crc(b"123456789"), 0x6f91);
    assert_eq!(crc(&[0x41, 0x11, 0x80]), 0x6dd8);
}

#[test]
fn every_length_to_2000() {
    let mut seeded = Seeded(1);
    for length in 0..=2000 {
        for bytes in [seeded.bytes(length), vec![0; length], vec![0xff; length]] {
            let due = plain::bit_by_bit(0xffff, &bytes);
            assert_eq!(crc(&bytes), due, "length {length}");
            assert_eq!(plain::crc(&bytes), due, "length {length}");
        }
    }
}

#[test]
fn long_inputs() {
    let mut seeded = Seeded(2);
    for length in [4_095, 4_096, 65_535, 65_536, 65_537, 262_144, 1_000_003] {
        let bytes = seeded.bytes(length);
        assert_eq!(
            crc(&bytes),
            plain::bit_by_bit(0xffff, &bytes),
            "length {length}"
        );
    }
}

#[test]
fn going_on_from_every_start() {
    let mut seeded = Seeded(3);
    for start in 0..=0xffff {
        // Some are long enough to be summed by chunks, with and without bytes left behind the last.
        let most = if start % 16 == 0 { 600 } else { 20 };
        let length = seeded.number() as usize % most;
        let bytes = seeded.bytes(length);
        assert_eq!(
            crc_from(start, &bytes),
            plain::bit_by_bit(start, &bytes),
            "start {start:04x}"
        );
    }
}

#[test]
fn every_byte_after_every_high_byte() {
    for start in (0..=0xff00).step_by(256) {
        for byte in 0..=0xff {
            assert_eq!(crc_from(start, &[byte]), plain::bit_by_bit(start, &[byte]));
        }
    }
}

/// A sum is linear in the bits of the message, so these say which bit of each byte does what, at lengths on either side of
/// where it is summed by chunks, and of a chunk's end.
#[test]
fn every_bit_alone() {
    for length in [63, 64, 65, 127, 128, 129, 255, 256, 257, 1033] {
        let mut bytes = vec![0; length];
        for place in 0..length {
            for bit in 0..8 {
                bytes[place] = 1 << bit;
                assert_eq!(
                    crc(&bytes),
                    plain::crc(&bytes),
                    "bit {bit} of byte {place} of {length}"
                );
            }
            bytes[place] = 0;
        }
    }
}
