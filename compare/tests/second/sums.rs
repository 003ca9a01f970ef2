//! Kept sums and joining.
use crate::bench::*;
use compare::{plain, second, Part, Seeded};

fn crc_of(unit: &mut Bench, first: usize, last: usize) -> u16 {
    let data = span(FIRST + first as u32, FIRST + last as u32);
    let shown = unit.done(0x06, &data);
    assert_eq!(shown[..8], data);
    u16::from_le_bytes([shown[8], shown[9]])
}

#[test]
fn the_crc_command_is_the_crc_of_the_bytes() {
    let mut unit = Bench::open();
    let edges = [
        0, 1, 127, 254, 255, 256, 257, 511, 512, 513, 767, 768, 1_022, 1_023,
    ];
    for first in edges {
        for last in edges {
            if first <= last {
                let due = crc(&unit.fram[first..=last]);
                assert_eq!(crc_of(&mut unit, first, last), due, "{first} {last}");
            }
        }
    }
}

#[test]
fn a_block_wholly_covered_enters_by_its_kept_sum() {
    let mut unit = Bench::open();
    unit.sums[1] = 0x1234;
    // Even where it is the only one.
    assert_eq!(crc_of(&mut unit, 256, 511), 0x1234);
    assert_eq!(crc_of(&mut unit, 256, 510), crc(&unit.fram[256..511]));
    assert_eq!(crc_of(&mut unit, 257, 511), crc(&unit.fram[257..512]));
    let parts = [
        Part {
            sum: crc(&unit.fram[250..256]),
            len: 6,
        },
        Part {
            sum: 0x1234,
            len: 256,
        },
        Part {
            sum: crc(&unit.fram[512..515]),
            len: 3,
        },
    ];
    let first_two = plain::join(parts[0], parts[1]).unwrap();
    let due = plain::join(first_two, parts[2]).unwrap().sum;
    assert_eq!(crc_of(&mut unit, 250, 514), due);
    // A CRC command never mends a sum.
    assert_eq!(unit.sums[1], 0x1234);
}

#[test]
fn poke_sets_the_sums_of_the_blocks_it_touches_and_no_other() {
    for (start, length) in [
        (0, 1),
        (255, 1),
        (255, 2),
        (256, 256),
        (256, 257),
        (1, 767),
        (0, 1_024),
    ] {
        let mut unit = Bench::open();
        unit.sums.fill(0x1234);
        let data = at(FIRST + start as u32, &vec![0x77; length]);
        assert_eq!(unit.done(0x03, &data), data);
        for block in 0..4 {
            let touched = start < (block + 1) * 256 && start + length > block * 256;
            let due = if touched {
                crc(&unit.fram[block * 256..][..256])
            } else {
                0x1234
            };
            assert_eq!(unit.sums[block], due, "block {block} of {start}, {length}");
        }
        assert!(unit.fram[start..start + length]
            .iter()
            .all(|&byte| byte == 0x77));
    }
}

#[test]
fn a_poke_of_equal_bytes_still_sets_the_sums() {
    let mut unit = Bench::open();
    unit.sums[0] = 0x1234;
    unit.done(0x03, &at(FIRST, &[unit.fram[0]]));
    assert_eq!(unit.sums[0], crc(&unit.fram[..256]));
}

#[test]
fn joining_agrees_with_a_matrix_of_bits() {
    let mut seeded = Seeded(40);
    let any = |seeded: &mut Seeded, sizes: u64| Part {
        sum: seeded.number() as u16,
        len: seeded.number() as u32 >> (seeded.number() % sizes),
    };
    for turn in 0..100_000 {
        let sizes = if turn % 2 == 0 { 32 } else { 2 };
        let (a, b) = (any(&mut seeded, sizes), any(&mut seeded, sizes));
        assert_eq!(second::join(a, b), plain::join(a, b));
    }
}

#[test]
fn joining_about_the_longest_length() {
    let part = |len| Part { sum: 0x1234, len };
    assert_eq!(second::join(part(0xFFFF_FFFF), part(1)), Err(36));
    assert_eq!(second::join(part(1), part(0xFFFF_FFFF)), Err(36));
    assert!(second::join(part(0xFFFF_FFFE), part(1)).is_ok());
    assert!(second::join(part(0), part(0xFFFF_FFFF)).is_ok());
}

#[test]
fn no_bytes_are_neutral_and_a_zero_length_with_another_sum_is_not() {
    let none = Part {
        sum: 0xFFFF,
        len: 0,
    };
    let part = Part {
        sum: 0x1234,
        len: 77,
    };
    assert_eq!(second::join(none, part), Ok(part));
    assert_eq!(second::join(part, none), Ok(part));
    let odd = Part {
        sum: 0x0F0F,
        len: 0,
    };
    let due = Part {
        sum: 0x1234 ^ 0xFFFF ^ 0x0F0F,
        len: 77,
    };
    assert_eq!(second::join(part, odd), Ok(due));
}
