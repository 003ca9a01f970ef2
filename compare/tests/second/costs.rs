//! 02, T-13: what a CRC command costs. Whatever is tried here is tried on the second program and on the proved unit.
use crate::bench::*;
use crate::bootloader::open;
use compare::record::Mode;

const CRC: u8 = 0x06;
const POLL: u8 = 0x80;

/// The most that may be fitted of an FRAM.
const LARGEST: usize = 262_144;

/// The most that a CRC command can cost.
const MOST: u32 = 1_532;

/// Both FRAMs by their first address.
const FRAMS: [u32; 2] = [BOOTLOADER, FIRST];

/// Something to try on units of both programs with so much of each FRAM, unlocked, in bootloader mode and after a FEND.
fn on_both(fram_len: usize, tried: impl Fn(Bench)) {
    for program in PROGRAMS {
        tried(open(program, fram_len, fram_len));
    }
}

/// The data of a CRC command from one byte of an FRAM to another, the last included.
fn bytes(fram: u32, first: usize, last: usize) -> Vec<u8> {
    span(fram + first as u32, fram + last as u32)
}

/// What a CRC command costs, which must be done.
fn cost(unit: &mut Bench, data: &[u8]) -> u32 {
    let stepped = unit.ask(0x11, POLL | CRC, data);
    assert_eq!(stepped.answer, 1);
    stepped.cost
}

/// The same worked out: the length, less 255 for each block that is covered.
fn worked_out(first: usize, last: usize) -> u32 {
    let end = last + 1;
    let covered = (end / 256).saturating_sub(first.div_ceil(256));
    (end - first - 255 * covered) as u32
}

#[test]
fn by_hand() {
    on_both(LARGEST, |mut unit| {
        for (first, last, due) in [
            // One byte: the first of a block, one inside, the last of a block, and the last of all.
            (0, 0, 1),
            (100, 100, 1),
            (255, 255, 1),
            (262_143, 262_143, 1),
            // A block, and a byte less at either end.
            (0, 255, 1),
            (0, 254, 255),
            (1, 255, 255),
            (1, 254, 254),
            (256, 511, 1),
            (256, 510, 255),
            (257, 511, 255),
            (261_888, 262_143, 1),
            (261_889, 262_143, 255),
            // A byte more.
            (0, 256, 2),
            (255, 511, 2),
            (255, 512, 3),
            // Over an edge, with no block covered.
            (255, 256, 2),
            (254, 256, 3),
            (255, 257, 3),
            (100, 355, 256),
            (1, 510, 510),
            // Two blocks, and a byte less at either end.
            (0, 511, 2),
            (0, 510, 256),
            (1, 511, 256),
            // Three.
            (0, 767, 3),
            (1, 766, 511),
            (128, 639, 257),
            // All, and a byte less at either end.
            (0, 262_143, 1_024),
            (0, 262_142, 1_278),
            (1, 262_143, 1_278),
            (1, 262_142, MOST),
            (2, 262_142, MOST - 1),
            (1, 262_141, MOST - 1),
        ] {
            for fram in FRAMS {
                let data = bytes(fram, first, last);
                assert_eq!(cost(&mut unit, &data), due, "{first} {last}");
            }
        }
    });
}

#[test]
fn every_range_of_two_and_of_three_blocks() {
    for program in PROGRAMS {
        let mut unit = open(program, 512, 768);
        for (fram, length, due) in [(BOOTLOADER, 512, 510), (FIRST, 768, 511)] {
            let mut most = 0;
            for first in 0..length {
                for last in first..length {
                    let cost = cost(&mut unit, &bytes(fram, first, last));
                    assert_eq!(cost, worked_out(first, last), "{first} {last}");
                    most = most.max(cost);
                }
            }
            assert_eq!(most, due);
        }
    }
}

#[test]
fn no_range_costs_more_than_1532() {
    let blocks = [0, 1, 2, 511, 1_022, 1_023];
    let places = [0, 1, 2, 128, 254, 255];
    let ends: Vec<usize> = blocks
        .into_iter()
        .flat_map(|block| places.map(|at| 256 * block + at))
        .collect();
    on_both(LARGEST, |mut unit| {
        for fram in FRAMS {
            for &first in &ends {
                for &last in ends.iter().filter(|&&last| first <= last) {
                    let cost = cost(&mut unit, &bytes(fram, first, last));
                    assert_eq!(cost, worked_out(first, last), "{first} {last}");
                    // One range alone costs so much.
                    assert!(cost < MOST || (first, last) == (1, LARGEST - 2));
                }
            }
        }
    });
}

#[test]
fn all_but_the_first_and_the_last_byte_of_an_fram() {
    for program in PROGRAMS {
        for (blocks, due) in [(1, 254), (2, 510), (3, 511), (64, 572), (1_024, 1_532)] {
            let length = 256 * blocks;
            for (mut unit, fram) in [
                (open(program, length, 512), BOOTLOADER),
                (open(program, 512, length), FIRST),
            ] {
                let data = bytes(fram, 1, length - 2);
                assert_eq!(cost(&mut unit, &data), due, "{blocks}");
                let all = bytes(fram, 0, length - 1);
                assert_eq!(cost(&mut unit, &all), blocks as u32);
            }
        }
    }
}

#[test]
fn poll_mode_and_lock_make_no_difference() {
    on_both(1_024, |mut unit| {
        for mode in [Mode::Bootloader, Mode::Application] {
            for locked in [0, 1, 0xFF] {
                for fram in FRAMS {
                    for (first, last, due) in [(256, 511, 1), (255, 512, 3), (3, 900, 388)] {
                        let data = bytes(fram, first, last);
                        for (control, answer) in [(POLL | CRC, 1), (CRC, 2), (0x60 | CRC, 2)] {
                            (unit.record.mode, unit.record.locked) = (mode, locked);
                            let stepped = unit.ask(0x11, control, &data);
                            assert_eq!((stepped.answer, stepped.cost), (answer, due));
                        }
                    }
                }
            }
        }
    });
}

#[test]
fn what_memory_and_sums_hold_makes_no_difference() {
    on_both(1_024, |mut unit| {
        let data = bytes(FIRST, 200, 800);
        assert_eq!(cost(&mut unit, &data), 91);
        unit.sums.fill(0x1234);
        unit.fram.fill(0);
        assert_eq!(cost(&mut unit, &data), 91);
    });
}

#[test]
fn a_crc_command_that_is_not_done_costs_nothing() {
    on_both(1_024, |mut unit| {
        let mut tried = |data: &[u8], answers: [u8; 2]| {
            // After one that is done, which has a cost.
            assert_eq!(cost(&mut unit, &bytes(FIRST, 0, 100)), 101);
            for (control, answer) in [POLL | CRC, CRC].into_iter().zip(answers) {
                let stepped = unit.ask(0x11, control, data);
                assert_eq!((stepped.answer, stepped.cost), (answer, 0), "{data:x?}");
            }
        };
        for fram in FRAMS {
            let whole = bytes(fram, 0, 511);
            for data in [
                // The last address before the first.
                &bytes(fram, 1, 0)[..],
                &bytes(fram, 512, 255),
                // Data of another length.
                &[],
                &whole[..7],
                &[&whole[..], &[0]].concat(),
                &whole.repeat(2),
            ] {
                tried(data, [3, 4]);
            }
            for data in [
                // Not fitted, as a whole or in part.
                bytes(fram, 1_024, 1_024),
                bytes(fram, 1_023, 1_024),
                bytes(fram, 0, 1_024),
                bytes(fram, 256, 1_279),
            ] {
                tried(&data, [10, 10]);
            }
        }
        // Over the border.
        for (first, last) in [
            (BOOTLOADER, FIRST),
            (BOOTLOADER + 512, FIRST + 511),
            (FIRST - 1, FIRST),
        ] {
            tried(&span(first, last), [3, 4]);
        }
        for (first, last) in [
            (BOOTLOADER - 1, BOOTLOADER + 255),
            (FIRST + 262_143, FIRST + 262_144),
            (0, 0xFFFF_FFFF),
        ] {
            tried(&span(first, last), [10, 10]);
        }
    });
}

#[test]
fn no_other_command_costs_anything() {
    on_both(1_024, |mut unit| {
        unit.record.mode = Mode::Application;
        for (code, data) in [
            (0x00, vec![]),
            (0x00, bytes(FIRST, 0, 100)),
            (0x02, at(FIRST, &[0])),
            (0x02, at(BOOTLOADER + 1, &long(1_000))),
            (0x03, at(FIRST, &[7; 4])),
            (0x03, at(BOOTLOADER + 1, &[7; 1_000])),
            (0x04, vec![0x07]),
            (0x07, vec![0x28]),
            (0x08, vec![0x28, 1, 2, 3, 4]),
            (0x09, edac_at(0, &long(256))),
            (0x0A, edac_at(0x400, &[1; 300])),
            (0x0B, edac_at(0, &long(256))),
            (0x01, vec![]),
            (0x01, LOCK.to_vec()),
            (0x01, APPLICATION.to_vec()),
        ] {
            for (control, answer) in [(POLL | code, 1), (code, 2)] {
                if code == 0x01 && !data.is_empty() {
                    unit.record.mode = Mode::Bootloader;
                }
                let stepped = unit.ask(0x11, control, &data);
                assert_eq!((stepped.answer, stepped.cost), (answer, 0), "{code:#x}");
            }
        }
    });
}

#[test]
fn the_cost_is_that_of_its_own_byte() {
    on_both(1_024, |unit| {
        let crc = escaped(&message(ADDRESS, 0x11, POLL | CRC, &bytes(FIRST, 1, 1_022)));
        let after = |change: fn(&mut Bench), byte, answer| {
            let mut unit = unit.clone();
            assert_eq!(unit.close(&crc).cost, 512);
            change(&mut unit);
            let stepped = unit.step(byte);
            assert_eq!((stepped.answer, stepped.cost), (answer, 0));
        };
        after(|_| (), FEND, 0);
        after(|_| (), 0x41, 0);
        after(|unit| unit.receiver().count = 4, FEND, 6);
        // The message still stands in the buffer, one byte too long for its CRC.
        after(|unit| unit.receiver().count = 14, FEND, 8);
        after(|unit| unit.receiver().count = 1_034, FEND, 7);
        after(|unit| unit.record.strap = 2, FEND, 0);
        after(|unit| unit.record.strap = 8, FEND, 20);
        after(|unit| unit.edac.truncate(1_535), FEND, 21);
        after(|unit| unit.record.limit = 0, FEND, 29);
        // For another unit.
        let (mut unit, mut other) = (unit.clone(), crc.clone());
        unit.record.strap = 2;
        let stepped = unit.close(&other);
        assert_eq!((stepped.answer, stepped.cost), (9, 0));
        // With a bit off.
        other[4] ^= 1;
        let stepped = unit.close(&other);
        assert_eq!((stepped.answer, stepped.cost), (8, 0));
    });
}

#[test]
fn set_up_costs_nothing() {
    on_both(1_024, |mut unit| {
        // The bench looks at the cost of every set-up.
        assert_eq!(cost(&mut unit, &bytes(FIRST, 1, 1_022)), 512);
        assert_eq!(unit.set_up(STRAP), 0);
        assert_eq!(unit.set_up(8), 20);
    });
}
