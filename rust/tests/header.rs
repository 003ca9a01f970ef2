//! Every number that `include/wheel.h` defines is here under its name, and no other.

use std::collections::BTreeMap;
use wheel_unit::*;

/// Each name and number that the header defines.
fn defined() -> BTreeMap<String, u64> {
    let header = include_str!("../../include/wheel.h");
    let lines = header.lines().filter_map(|line| {
        let mut words = line.strip_prefix("#define WHEEL_")?.split_whitespace();
        let (name, number) = (words.next()?, words.next()?.trim_end_matches('u'));
        let number = match number.strip_prefix("0x") {
            Some(digits) => u64::from_str_radix(digits, 16),
            None => number.parse(),
        };
        Some((name.to_string(), number.expect("a number")))
    });
    lines.collect()
}

#[test]
fn every_number_of_the_header() {
    let mut header = defined();
    let mut same = |name: &str, number: u64| {
        assert_eq!(header.remove(name), Some(number), "{name}");
    };
    for (name, number) in [
        ("EDAC", EDAC),
        ("FRAM_LEAST", FRAM_LEAST),
        ("FRAM_MOST", FRAM_MOST),
        ("FRAM_BLOCK", FRAM_BLOCK),
        ("DIAGNOSTICS", DIAGNOSTICS),
        ("MESSAGE", MESSAGE),
        ("REPLY", REPLY),
        ("FRAMINGS", FRAMINGS),
        ("RUNTS", RUNTS),
        ("OVERSIZES", OVERSIZES),
        ("BAD_CRCS", BAD_CRCS),
        ("THROWN_AWAY", THROWN_AWAY),
        ("LOST", LOST),
        ("PORT_1_COUNTS", PORT_1_COUNTS),
        ("FRAM_STATUS", FRAM_STATUS),
    ] {
        same(name, number as u64);
    }
    for (name, number) in [
        ("STRAP_MOST", STRAP_MOST),
        ("0_ANSWERED_ON_1", ADDRESS_0_ANSWERED_ON_1),
        ("0_ANSWERED_ON_0", ADDRESS_0_ANSWERED_ON_0),
        ("1_ANSWERED_ON_1", ADDRESS_1_ANSWERED_ON_1),
        ("1_ANSWERED_ON_0", ADDRESS_1_ANSWERED_ON_0),
        ("SILENT", SILENT),
        ("SENDING", SENDING),
        ("UNLOCKED", UNLOCKED),
        ("LOCKED", LOCKED),
        ("STATUS_UNLOCKED", STATUS_UNLOCKED),
        ("STATUS_LOCKED", STATUS_LOCKED),
        ("BOOTLOADER", Mode::Bootloader as u8),
        ("APPLICATION", Mode::Application as u8),
        ("FRESH", Place::Fresh as u8),
        ("RUN", Place::Run as u8),
        ("ESCAPE", Place::Escape as u8),
        ("FAULT", Place::Fault as u8),
        ("THROWN", Place::Thrown as u8),
    ] {
        same(name, number.into());
    }
    same("LIMIT_LEAST", LIMIT_LEAST.into());
    same("LIMIT_MOST", LIMIT_MOST.into());
    same("CRC_START", CRC_START.into());
    same("BOOTLOADER_FRAM_FIRST", BOOTLOADER_FRAM_FIRST.into());
    same("USER_FRAM_FIRST", USER_FRAM_FIRST.into());
    same("INIT_LOCK", INIT_LOCK.into());
    same("COST_MOST", COST_MOST.into());
    // An answer says its name.
    for number in 0..=u8::MAX {
        let said = format!("{:?}", Answer(number));
        if let Some((name, _)) = said.split_once(' ') {
            same(name, number.into());
        }
    }
    assert!(header.is_empty(), "not here: {header:?}");
}

#[test]
fn modes_and_places_by_their_numbers() {
    for number in 0..=u8::MAX {
        let unit = Unit {
            mode: number,
            place0: number,
            place1: number.wrapping_add(1),
            ..Unit::default()
        };
        assert_eq!(Mode::of(number).is_some(), number < 2);
        assert_eq!(Place::of(number).is_some(), number < 5);
        assert_eq!(unit.mode() as u8, number.min(1));
        let read = |place| if place < 5 { place } else { 3 };
        let places = unit.places().map(|place| place as u8);
        assert_eq!(places, [number, unit.place1].map(read));
    }
}
