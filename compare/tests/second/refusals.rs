//! The refusals 20 to 27 and 29: each alone, and each before all that come after it.
use crate::bench::*;
use compare::record::{Mode, FRESH, REFUSED};

/// Makes the call wrong in the way of a number.
fn spoil(unit: &mut Bench, number: u8) {
    match number {
        20 => unit.record.strap = 8,
        21 => unit.edac.push(0),
        22 => unit.fram.truncate(unit.fram.len() - 256),
        23 => unit.sums.push(0),
        24 => unit.diagnostics.push(0),
        25 => unit.ports[1].reply.truncate(2_067),
        26 => unit.record.receivers[1].count = 1_035,
        // The port is no part of the unit: its bytes are told another.
        27 => {}
        29 => unit.record.limit = 1_029,
        _ => panic!("{number}"),
    }
}

#[test]
fn each_alone_and_the_lowest_first() {
    let numbers = [20, 21, 22, 23, 24, 25, 26, 27, 29];
    for (at, lowest) in numbers.into_iter().enumerate() {
        let after = &numbers[at + 1..];
        for others in 0..1 << after.len() {
            let mut unit = Bench::open();
            let chosen = (after.iter().enumerate()).filter(|(bit, _)| others >> bit & 1 == 1);
            let wrong: Vec<u8> = [lowest]
                .into_iter()
                .chain(chosen.map(|(_, n)| *n))
                .collect();
            wrong.iter().for_each(|&number| spoil(&mut unit, number));
            let port = if wrong.contains(&27) { 2 } else { 0 };
            for byte in [FEND, 0xDB, 0x41] {
                let before = unit.clone();
                let stepped = unit.step_on(port, byte);
                assert_eq!((stepped.answer, stepped.sent), (lowest, 0), "{wrong:?}");
                assert_eq!(unit, before);
            }
        }
    }
}

#[test]
fn set_up_refuses_the_same_but_26_and_27() {
    for lowest in 20..=25 {
        for others in 0..1 << (25 - lowest) {
            let mut unit = Bench::bare(512);
            let strap = if lowest == 20 { 8 } else { STRAP };
            for number in lowest.max(21)..=25 {
                if number == lowest || others >> (number - lowest - 1) & 1 == 1 {
                    match number {
                        22 => unit.fram.push(0),
                        _ => spoil(&mut unit, number),
                    }
                }
            }
            unit.receiver().count = 9;
            let before = unit.clone();
            assert_eq!(unit.set_up(strap), lowest);
            assert_eq!(unit.record, REFUSED);
            unit.record = before.record;
            assert_eq!(unit, before);
            unit.record = REFUSED;
            assert_eq!(unit.byte(FEND), (20, 0));
        }
    }
}

#[test]
fn every_strap() {
    for strap in 0..=0xFF {
        let due = if strap > 7 { 20 } else { 0 };
        let mut unit = Bench::bare(256);
        assert_eq!(unit.set_up(strap), due);
        assert_eq!(unit.record.strap, strap.min(8));
        assert_eq!(unit.record.receivers, [FRESH; 2]);
        let mut unit = Bench::fresh();
        unit.record.strap = strap;
        assert_eq!(unit.byte(0x00).0, due);
    }
}

#[test]
fn lengths_about_each_edge() {
    let wrong = |change: fn(&mut Bench)| {
        let (mut bare, mut open) = (Bench::bare(1_024), Bench::open());
        change(&mut bare);
        change(&mut open);
        let answers = (bare.set_up(STRAP), open.byte(1).0);
        assert_eq!(answers.0, answers.1);
        answers.0
    };
    assert_eq!(wrong(|u| u.edac.truncate(1_535)), 21);
    assert_eq!(wrong(|u| u.edac.resize(1_537, 0)), 21);
    assert_eq!(wrong(|u| u.edac.clear()), 21);
    assert_eq!(wrong(|u| u.fram.truncate(1_023)), 22);
    assert_eq!(wrong(|u| u.fram.push(0)), 22);
    assert_eq!(wrong(|u| u.fram.clear()), 22);
    assert_eq!(wrong(|u| u.sums.truncate(3)), 23);
    assert_eq!(wrong(|u| u.sums.resize(5, 0)), 23);
    // Lengths count elements, not bytes.
    assert_eq!(wrong(|u| u.sums.resize(8, 0)), 23);
    assert_eq!(wrong(|u| u.diagnostics.truncate(30)), 24);
    assert_eq!(wrong(|u| u.diagnostics.resize(32, 0)), 24);
    assert_eq!(wrong(|u| u.diagnostics.resize(124, 0)), 24);
    assert_eq!(wrong(|u| u.ports[0].message.truncate(1_032)), 25);
    assert_eq!(wrong(|u| u.ports[0].reply.truncate(2_067)), 25);
    assert_eq!(wrong(|u| u.ports[1].message.truncate(1_032)), 25);
    assert_eq!(wrong(|u| u.ports[1].reply.truncate(2_067)), 25);
    assert_eq!(wrong(|u| u.ports[0].message.clear()), 25);
    assert_eq!(wrong(|u| u.ports[1].reply.clear()), 25);
    assert_eq!(wrong(|u| u.ports[0].message.resize(1_034, 0)), 0);
    assert_eq!(wrong(|u| u.ports[0].reply.resize(2_069, 0)), 0);
    assert_eq!(wrong(|u| u.ports[1].message.resize(3_000, 0)), 0);
    assert_eq!(wrong(|u| u.ports[1].reply.resize(5_000, 0)), 0);
}

#[test]
fn fram_lengths() {
    for (fram_len, due) in [
        (0, 22),
        (255, 22),
        (256, 0),
        (257, 22),
        (511, 22),
        (512, 0),
        (262_143, 22),
        (262_144, 0),
        (262_400, 22),
    ] {
        let mut unit = Bench::bare(fram_len);
        assert_eq!(unit.set_up(STRAP), due, "{fram_len}");
        // A record and a slice that agree on a wrong length are refused too.
        let mut unit = Bench::bare(fram_len);
        unit.record.strap = STRAP;
        unit.record.bootloader_len = unit.bootloader.len();
        unit.record.fram_len = fram_len;
        unit.record.limit = 1_028;
        assert_eq!(unit.byte(FEND).0, due, "{fram_len}");
    }
}

#[test]
fn another_right_length_than_the_one_set_up() {
    for fram_len in [256, 768, 1_280] {
        let mut unit = Bench::open();
        unit.fram.resize(fram_len, 0);
        unit.sums.resize(fram_len / 256, 0);
        assert_eq!(unit.byte(1), (22, 0));
        // The record is the caller's: where it agrees, the call is good.
        unit.record.fram_len = fram_len;
        assert_eq!(unit.byte(1), (0, 0));
    }
}

#[test]
fn sums_are_judged_against_the_lent_fram() {
    let mut unit = Bench::open();
    unit.record.fram_len = 512;
    assert_eq!(unit.byte(1).0, 22);
    unit.fram.truncate(512);
    assert_eq!(unit.byte(1).0, 23);
    unit.sums.truncate(2);
    assert_eq!(unit.byte(1).0, 0);
}

#[test]
fn a_count_above_1034_in_every_place() {
    for (place, port) in PLACES.into_iter().flat_map(|p| [(p, 0), (p, 1)]) {
        for mode in [Mode::Bootloader, Mode::Application] {
            for (count, due) in [(1_034, 0), (1_035, 26), (usize::MAX, 26)] {
                let mut unit = Bench::open();
                unit.record.receivers[port].place = place;
                unit.record.mode = mode;
                unit.record.receivers[port].count = count;
                let before = unit.clone();
                // The byte is for port 0.
                assert_eq!(unit.byte(0xDD), (due, 0));
                if due == 26 {
                    assert_eq!(unit, before);
                    assert_eq!(unit.byte(FEND), (26, 0));
                    assert_eq!(unit, before);
                }
            }
        }
    }
}
