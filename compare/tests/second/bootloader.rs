//! 02, T-07: bootloader FRAM, its lock, and the border to user FRAM. Whatever is tried here is tried on the second program and
//! on the proved unit.
use crate::bench::*;
use compare::record::{Mode, Record, FRESH, REFUSED};

const STATUS: usize = 0x06;

/// Numbers by which C says that it is locked.
const LOCKED: [u8; 5] = [1, 2, 0x40, 0x80, 0xFF];

/// Something to try on units of both programs, unlocked, in bootloader mode and after a FEND.
fn on_both(tried: impl Fn(Bench)) {
    for program in PROGRAMS {
        tried(open(program, 768, 1_024));
    }
}

/// A unit with so much of each FRAM.
pub fn open(program: Program, bootloader_len: usize, fram_len: usize) -> Bench {
    let mut unit = Bench::bare_with(program, bootloader_len, fram_len);
    assert_eq!(unit.set_up(STRAP), 0);
    assert_eq!(unit.feed(&[FEND]), [0]);
    unit
}

fn sums(fram: &[u8]) -> Vec<u16> {
    fram.chunks(256).map(crc).collect()
}

/// The unit as it was, but for what a command leaves in the buffers of the ports.
fn left(before: &Bench, after: &Bench) -> Bench {
    Bench {
        ports: after.ports.clone(),
        ..before.clone()
    }
}

#[test]
fn set_up_keeps_the_lock_and_shows_it() {
    for program in PROGRAMS {
        for status in [0, 0x1234_5678, 0x0000_40CC, u32::MAX] {
            for (locked, low) in [(0, 0x40)].into_iter().chain(LOCKED.map(|n| (n, 0xCC))) {
                let mut unit = Bench::bare_with(program, 512, 256);
                unit.diagnostics[STATUS] = status;
                let mut due = unit.clone();
                due.record = Record {
                    strap: STRAP,
                    mode: Mode::Bootloader,
                    bootloader_len: 512,
                    fram_len: 256,
                    locked: locked.min(1),
                    limit: 300,
                    receivers: [FRESH; 2],
                };
                due.bootloader_sums = sums(&due.bootloader);
                due.sums = sums(&due.fram);
                due.diagnostics[STATUS] = status & 0xFFFF_FF00 | low;
                assert_eq!(unit.set_up_as(STRAP, 300, locked), 0);
                assert_eq!(unit, due);
            }
        }
    }
}

#[test]
fn a_refused_set_up_shows_nothing() {
    for program in PROGRAMS {
        for locked in [0, 1, 0xFF] {
            let wrong = |strap, limit, change: fn(&mut Bench)| {
                let mut unit = Bench::bare_of(program, 512);
                change(&mut unit);
                let before = unit.clone();
                let answer = unit.set_up_as(strap, limit, locked);
                assert_eq!(unit.record, REFUSED);
                assert_eq!(unit, before);
                answer
            };
            assert_eq!(wrong(8, 1_028, |_| ()), 20);
            assert_eq!(wrong(STRAP, 1_028, |u| u.edac.truncate(1_535)), 21);
            assert_eq!(wrong(STRAP, 1_028, |u| u.bootloader.push(0)), 22);
            assert_eq!(wrong(STRAP, 1_028, |u| u.bootloader_sums.push(0)), 23);
            assert_eq!(wrong(STRAP, 1_028, |u| u.diagnostics.push(0)), 24);
            assert_eq!(
                wrong(STRAP, 1_028, |u| u.ports[1].reply.truncate(2_067)),
                25
            );
            assert_eq!(wrong(STRAP, 259, |_| ()), 29);
        }
    }
}

#[test]
fn a_later_set_up_is_told_anew() {
    on_both(|mut unit| {
        unit.done(0x01, &LOCK);
        assert_eq!(unit.set_up(STRAP), 0);
        assert_eq!(
            (unit.record.locked, unit.diagnostics[STATUS]),
            (0, 0x1111_0040)
        );
    });
}

#[test]
fn the_lock() {
    on_both(|unit| {
        for poll in [0x80, 0x00] {
            let mut unit = unit.clone();
            // The second time it is locked already, and the status is what the caller made of it.
            for status in [0x1234_5640, 0x00CC_CC40, 0xFFFF_FFFF, 0x4444_44CC] {
                unit.diagnostics[STATUS] = status;
                let before = unit.clone();
                let (answer, reply) = unit.send(poll | 0x01, &LOCK);
                if poll == 0x80 {
                    let reply = reply.expect("a reply");
                    assert_eq!((answer, reply.control), (1, 0xA1));
                    assert_eq!(reply.data, LOCK);
                } else {
                    assert_eq!((answer, reply), (2, None));
                }
                let mut due = left(&before, &unit);
                due.record.locked = 1;
                due.diagnostics[STATUS] = status & 0xFFFF_FF00 | 0xCC;
                assert_eq!(unit, due);
                assert_eq!(unit.record.mode, Mode::Bootloader);
            }
        }
    });
}

#[test]
fn in_application_mode_the_lock_is_refused() {
    on_both(|mut unit| {
        unit.record.mode = Mode::Application;
        unit.refuses(0x01, &LOCK);
        unit.record.locked = 1;
        unit.diagnostics[STATUS] = 0x40;
        unit.refuses(0x01, &LOCK);
    });
}

#[test]
fn nearly_the_lock_is_refused() {
    on_both(|mut unit| {
        for bit in 0..32 {
            let other: u32 = 0xDEAD_BEEF ^ 1 << bit;
            unit.refuses(0x01, &other.to_le_bytes());
        }
        for data in [
            &LOCK[..3],
            &LOCK[1..],
            &[0xEF, 0xBE, 0xAD, 0xDE, 0x00],
            &[0xDE, 0xAD, 0xBE, 0xEF],
            &[0xBE, 0xEF, 0xDE, 0xAD],
            &[LOCK, LOCK].concat(),
        ] {
            unit.refuses(0x01, data);
        }
    });
}

#[test]
fn the_lock_is_for_good() {
    on_both(|mut unit| {
        unit.done(0x01, &LOCK);
        let (held, kept) = (unit.bootloader.clone(), unit.bootloader_sums.clone());
        for data in [&[][..], &APPLICATION, &[], &LOCK, &APPLICATION] {
            unit.done(0x01, data);
            assert_eq!(unit.record.locked, 1);
            unit.done(0x03, &at(BOOTLOADER, &[9; 300]));
            assert_eq!((&unit.bootloader, &unit.bootloader_sums), (&held, &kept));
        }
        assert_eq!(unit.record.mode, Mode::Application);
    });
}

#[test]
fn no_other_command_writes_the_status() {
    on_both(|mut unit| {
        for locked in [0, 1] {
            unit.record.locked = locked;
            for status in [0x40, 0xCC, 0x5555_5555] {
                unit.diagnostics[STATUS] = status;
                unit.done(0x00, &[]);
                unit.done(0x01, &[]);
                unit.done(0x03, &at(BOOTLOADER, &[9]));
                assert_eq!(unit.send(0x81, &LOCK[..3]).0, 3);
                unit.done(0x01, &APPLICATION);
                unit.done(0x01, &[]);
                assert_eq!(
                    unit.done(0x04, &[6])[1..],
                    unit.diagnostics[STATUS].to_le_bytes()
                );
                assert_eq!(
                    (unit.diagnostics[STATUS], unit.record.locked),
                    (status, locked)
                );
            }
        }
    });
}

#[test]
fn the_record_decides_and_not_the_diagnostic() {
    on_both(|unit| {
        for (locked, status) in [(0, 0xCC), (0, u32::MAX), (1, 0x40), (1, 0)] {
            let mut unit = unit.clone();
            unit.record.locked = locked;
            unit.diagnostics[STATUS] = status;
            let before = unit.clone();
            let byte = !unit.bootloader[5];
            unit.done(0x03, &at(BOOTLOADER + 5, &[byte]));
            assert_eq!(unit.bootloader[5] == byte, locked == 0);
            assert_eq!(unit.record, before.record);
            assert_eq!(unit.diagnostics, before.diagnostics);
        }
    });
}

#[test]
fn every_number_but_0_is_locked() {
    on_both(|unit| {
        for locked in 0..=0xFF {
            let mut unit = unit.clone();
            let poke = message(ADDRESS, 0x11, 0x03, &at(BOOTLOADER, &[!unit.bootloader[0]]));
            unit.feed(&escaped(&poke));
            unit.record.locked = locked;
            let before = unit.clone();
            assert_eq!(unit.byte(FEND), (2, 0));
            assert_eq!(unit.record.locked, locked.min(1));
            assert_eq!(unit.bootloader != before.bootloader, locked == 0);
            // A byte that does nothing, and a refused one, hand the same back.
            unit.record.locked = locked;
            assert_eq!(unit.byte(0x41), (0, 0));
            assert_eq!(unit.record.locked, locked.min(1));
            unit.record.locked = locked;
            unit.edac.clear();
            assert_eq!(unit.byte(FEND), (21, 0));
            assert_eq!(unit.record.locked, locked.min(1));
        }
    });
}

#[test]
fn peek_and_crc_serve_both() {
    on_both(|unit| {
        for (locked, mode) in [(0, Mode::Bootloader), (1, Mode::Application)] {
            let mut unit = unit.clone();
            (unit.record.locked, unit.record.mode) = (locked, mode);
            for (first, fram) in [
                (BOOTLOADER, unit.bootloader.clone()),
                (FIRST, unit.fram.clone()),
            ] {
                let last = first + fram.len() as u32 - 1;
                assert_eq!(
                    unit.done(0x02, &at(first, &long(fram.len() as u16))),
                    at(first, &fram)
                );
                assert_eq!(unit.done(0x02, &at(first + 1, &[0])).len(), 260);
                assert_eq!(
                    unit.done(0x02, &at(last, &[1]))[4..],
                    fram[fram.len() - 1..]
                );
                unit.hardfaults(0x02, &at(last, &[2]));
                unit.hardfaults(0x02, &at(last + 1, &[1]));
                for (start, end) in [(0, last - first), (1, 255), (0, 255), (200, 767), (9, 9)] {
                    let data = span(first + start, first + end);
                    let due = crc(&fram[start as usize..=end as usize]);
                    assert_eq!(unit.done(0x06, &data)[8..], due.to_le_bytes());
                }
                unit.hardfaults(0x06, &span(first, last + 1));
            }
        }
    });
}

#[test]
fn crc_takes_the_kept_sums_of_its_own_fram() {
    on_both(|mut unit| {
        unit.bootloader_sums[1] = 0x1234;
        unit.sums[1] = 0x4321;
        let block = |first: u32| span(first + 256, first + 511);
        assert_eq!(unit.done(0x06, &block(BOOTLOADER))[8..], [0x34, 0x12]);
        assert_eq!(unit.done(0x06, &block(FIRST))[8..], [0x21, 0x43]);
        // A CRC command never mends a sum.
        assert_eq!((unit.bootloader_sums[1], unit.sums[1]), (0x1234, 0x4321));
    });
}

#[test]
fn an_unlocked_poke_stores_and_sets_the_sums_of_its_blocks() {
    on_both(|unit| {
        for (start, length) in [(0, 1), (255, 2), (256, 256), (1, 767), (767, 1)] {
            let mut unit = unit.clone();
            unit.bootloader_sums.fill(0x1234);
            unit.sums.fill(0x4321);
            let before = unit.clone();
            let data = at(BOOTLOADER + start as u32, &vec![0x77; length]);
            assert_eq!(unit.done(0x03, &data), data);
            let mut due = left(&before, &unit);
            due.bootloader[start..start + length].fill(0x77);
            for block in start / 256..=(start + length - 1) / 256 {
                due.bootloader_sums[block] = crc(&due.bootloader[block * 256..][..256]);
            }
            assert_eq!(unit, due);
        }
    });
}

#[test]
fn a_locked_poke_is_echoed_and_stores_nothing() {
    on_both(|mut unit| {
        unit.record.locked = 1;
        for mode in [Mode::Bootloader, Mode::Application] {
            unit.record.mode = mode;
            for kept in [unit.bootloader_sums.clone(), vec![0x1234; 3]] {
                unit.bootloader_sums = kept;
                let before = unit.clone();
                for bytes in [&[0x77][..], &[0x77; 300], &before.bootloader] {
                    let data = at(BOOTLOADER, bytes);
                    assert_eq!(unit.done(0x03, &data), data);
                    assert_eq!(unit.send(0x03, &data), (2, None));
                    unit.same_memory(&before);
                }
            }
        }
        // User FRAM has no lock.
        unit.done(0x03, &at(FIRST, &[0x77; 300]));
        assert_eq!(unit.fram[..300], [0x77; 300]);
        assert_eq!(unit.sums, sums(&unit.fram));
    });
}

#[test]
fn the_lock_is_judged_last() {
    on_both(|mut unit| {
        unit.record.locked = 1;
        unit.refuses(0x03, &at(BOOTLOADER, &[]));
        unit.refuses(0x03, &at(FIRST - 1, &[9, 9]));
        unit.hardfaults(0x03, &at(BOOTLOADER + 767, &[9, 9]));
        unit.hardfaults(0x03, &at(BOOTLOADER + 768, &[9]));
        unit.hardfaults(0x03, &at(FIRST - 1, &[9]));
        unit.hardfaults(0x03, &at(BOOTLOADER - 1, &[9, 9]));
    });
}

/// What a range comes to.
#[derive(Clone, Copy)]
enum Comes {
    Done,
    Refused,
    /// Answer 10.
    Outside,
    /// Done where each FRAM is the largest that there is, else 10.
    Fitted,
}

fn comes(unit: &mut Bench, code: u8, data: &[u8], comes: Comes) {
    let largest = unit.bootloader.len() == 262_144;
    match comes {
        Comes::Refused => unit.refuses(code, data),
        Comes::Done => drop(unit.done(code, data)),
        Comes::Fitted if largest => drop(unit.done(code, data)),
        _ => unit.hardfaults(code, data),
    }
}

/// The least of each FRAM, and the most.
fn on_the_ends(tried: impl Fn(Bench)) {
    for length in [256, 262_144] {
        for program in PROGRAMS {
            tried(open(program, length, length));
        }
    }
}

#[test]
fn the_border_of_crc() {
    use Comes::*;
    let lasts = [0x2003_FFFF, 0x2004_0000, 0x2007_FFFF, 0x2008_0000];
    on_the_ends(|mut unit| {
        for (first, due) in [
            (0x1FFF_FFFF, [Outside; 4]),
            (0x2000_0000, [Fitted, Refused, Refused, Outside]),
            (0x2003_FFFF, [Fitted, Refused, Refused, Outside]),
            // The last before the first.
            (0x2004_0000, [Refused, Done, Fitted, Outside]),
            (0x2007_FFFF, [Refused, Refused, Fitted, Outside]),
            (0x2008_0000, [Refused, Refused, Refused, Outside]),
        ] {
            for (last, due) in lasts.into_iter().zip(due) {
                comes(&mut unit, 0x06, &span(first, last), due);
            }
            let behind = span(first, u32::MAX);
            comes(&mut unit, 0x06, &behind, Outside);
        }
        comes(&mut unit, 0x06, &span(0, 0x2004_0000), Outside);
        comes(&mut unit, 0x06, &span(0x2001_2345, 0x2005_4321), Refused);
    });
}

#[test]
fn the_border_of_peek_and_poke() {
    use Comes::*;
    on_the_ends(|mut unit| {
        for (first, count, due) in [
            (0x1FFF_FFFF, 1, Outside),
            (0x1FFF_FFFF, 2, Outside),
            (0x2000_0000, 1, Done),
            (0x2003_FFFF, 1, Fitted),
            (0x2003_FFFF, 2, Refused),
            (0x2003_FF00, 256, Fitted),
            (0x2003_FF00, 257, Refused),
            (0x2003_FF01, 256, Refused),
            (0x2003_FC00, 1_024, Fitted),
            (0x2003_FC01, 1_024, Refused),
            (0x2004_0000, 1, Done),
            (0x2004_0000, 256, Done),
            (0x2007_FFFF, 1, Fitted),
            (0x2007_FFFF, 2, Outside),
            (0x2008_0000, 1, Outside),
        ] {
            comes(&mut unit, 0x02, &at(first, &long(count)), due);
            if count <= 256 {
                comes(&mut unit, 0x02, &at(first, &[count as u8]), due);
            }
            let bytes = vec![0x5A; count.into()];
            comes(&mut unit, 0x03, &at(first, &bytes), due);
        }
        // The reply's size comes before 10 and is refused like the border.
        comes(&mut unit, 0x02, &at(0x2003_FC00, &long(1_025)), Refused);
        comes(&mut unit, 0x02, &at(0x1FFF_FFFF, &long(1_025)), Refused);
    });
}

#[test]
fn lengths_of_bootloader_fram() {
    for program in PROGRAMS {
        for (length, due) in [
            (0, 22),
            (255, 22),
            (256, 0),
            (257, 22),
            (512, 0),
            (262_143, 22),
            (262_144, 0),
            (262_400, 22),
        ] {
            let mut unit = Bench::bare_with(program, length, 256);
            assert_eq!(unit.set_up(STRAP), due, "{length}");
            // A record and a slice that agree on a wrong length are refused too.
            let mut unit = open(program, 256, 256);
            unit.bootloader = vec![0; length];
            unit.bootloader_sums = vec![0; length / 256];
            unit.record.bootloader_len = length;
            assert_eq!(unit.byte(1).0, due, "{length}");
        }
    }
}

#[test]
fn another_right_length_than_the_one_set_up() {
    on_both(|unit| {
        for length in [256, 512, 1_024] {
            let mut unit = unit.clone();
            unit.bootloader.resize(length, 0);
            unit.bootloader_sums.resize(length / 256, 0);
            assert_eq!(unit.byte(1), (22, 0));
            unit.record.bootloader_len = length;
            assert_eq!(unit.byte(1), (0, 0));
        }
        // Each length stands for its own FRAM.
        let mut unit = unit.clone();
        (unit.record.bootloader_len, unit.record.fram_len) = (1_024, 768);
        assert_eq!(unit.byte(1), (22, 0));
    });
}

/// The first refusal of a byte and of a set-up, wrong in the same ways.
fn refused(program: Program, changes: &[fn(&mut Bench)]) -> u8 {
    let (mut unit, mut bare) = (open(program, 768, 1_024), Bench::bare_of(program, 1_024));
    for change in changes {
        change(&mut unit);
        change(&mut bare);
    }
    let before = (unit.clone(), bare.clone());
    let answers = (unit.byte(FEND).0, bare.set_up(STRAP));
    assert_eq!((&unit, &bare), (&before.0, &before.1));
    assert_eq!(answers.0, answers.1);
    answers.0
}

#[test]
fn lengths_of_either_before_sums_of_either() {
    let edac: fn(&mut Bench) = |unit| unit.edac.push(0);
    let lengths: [fn(&mut Bench); 4] = [
        |unit| unit.bootloader.truncate(767),
        |unit| unit.bootloader.clear(),
        |unit| unit.fram.push(0),
        |unit| unit.fram.clear(),
    ];
    let sums: [fn(&mut Bench); 4] = [
        |unit| unit.bootloader_sums.truncate(2),
        |unit| unit.bootloader_sums.resize(6, 0),
        |unit| unit.sums.push(0),
        |unit| unit.sums.clear(),
    ];
    let diagnostics: fn(&mut Bench) = |unit| unit.diagnostics.truncate(30);
    for program in PROGRAMS {
        for length in lengths {
            assert_eq!(refused(program, &[length]), 22);
            assert_eq!(refused(program, &[length, edac]), 21);
            for sum in sums {
                assert_eq!(refused(program, &[sum]), 23);
                assert_eq!(refused(program, &[sum, length]), 22);
                assert_eq!(refused(program, &[diagnostics, sum]), 23);
                assert_eq!(refused(program, &[diagnostics, sum, length]), 22);
            }
        }
    }
}
