//! 02, T-02: read-only bytes keep their value under WRITE FILE and WRITE EDAC, every other byte is written, and both replies
//! show what memory holds afterwards.
use crate::bench::*;
use compare::second::read_only::ROWS;
use std::collections::BTreeSet;

const WRITE_FILE: u8 = 0x08;
const WRITE_EDAC: u8 = 0x0A;
const FLAGS_ACTIVE: usize = 0x5D7;

/// The read-only files, by the other column of Table 18.
const FILES: [(u8, &str); 38] = [
    (0x03, "VBUS"),
    (0x08, "VCC"),
    (0x10, "TEMP0"),
    (0x12, "TEMP2"),
    (0x13, "TEMP3"),
    (0x15, "SPEED"),
    (0x16, "MOMENTUM"),
    (0x1B, "HALL_DIGITAL"),
    (0x1D, "ADC_CALIBRATE"),
    (0x20, "SPEED_P_GAIN"),
    (0x21, "SPEED_I_GAIN"),
    (0x22, "SPEED_D_GAIN"),
    (0x40, "PREVIOUS_SPEED"),
    (0x42, "SPEED_LAST_ERROR"),
    (0x4B, "TORQUE_T0"),
    (0x4C, "TORQUE_T1"),
    (0x4D, "TORQUE_T2"),
    (0x4E, "TORQUE_T3"),
    (0x4F, "TORQUE_T4"),
    (0x5A, "SLEEP_DUTY"),
    (0x5B, "DCDC_FREQ"),
    (0x61, "RESPONSE_AMPLITUDE"),
    (0x62, "RESPONSE_PHASE"),
    (0x64, "KT_ESTIMATE"),
    (0x65, "R_ESTIMATE"),
    (0x67, "DRY_FRICTION_ESTIMATE"),
    (0x68, "WET_FRICTION_ESTIMATE"),
    (0x69, "AERO_FRICTION_ESTIMATE"),
    (0x6A, "RUNDOWN_TIME"),
    (0x80, "TEMP_R0"),
    (0x81, "TEMP_R2"),
    (0x82, "TEMP_R3"),
    (0x83, "ADC_RAW_VBUS"),
    (0x84, "ADC_RAW_VCC"),
    (0x85, "ADC_RAW_TEMP0"),
    (0x86, "ADC_RAW_TEMP2"),
    (0x87, "ADC_RAW_TEMP3"),
    (0x88, "ADC_RAW_CALIBRATE"),
];

/// Every byte that may not be written, by these files and the one byte that no file has.
pub fn kept() -> BTreeSet<usize> {
    let of_files = FILES
        .iter()
        .flat_map(|&(file, _)| (0..4).map(move |i| 4 * usize::from(file) + i));
    of_files.chain([FLAGS_ACTIVE]).collect()
}

/// What memory holds after bytes were sent to a place in it.
pub fn after(edac: &[u8], start: usize, bytes: &[u8]) -> Vec<u8> {
    let (kept, mut due) = (kept(), edac.to_vec());
    for (i, &byte) in bytes.iter().enumerate() {
        if !kept.contains(&(start + i)) {
            due[start + i] = byte;
        }
    }
    due
}

/// Bytes of which each is another than memory holds.
fn others(held: &[u8]) -> Vec<u8> {
    held.iter().map(|byte| !byte).collect()
}

/// Sends other bytes than memory holds from `start` to `last`, and gives the addresses at which memory changed.
fn written(unit: &mut Bench, start: usize, last: usize) -> Vec<usize> {
    let before = unit.edac.clone();
    let bytes = others(&before[start..=last]);
    let shown = unit.done(WRITE_EDAC, &edac_at(start as u16, &bytes));
    assert_eq!(shown, edac_at(start as u16, &unit.edac[start..=last]));
    let changed = (0..1_536).filter(|&at| unit.edac[at] != before[at]);
    changed.collect()
}

#[test]
fn the_rows_are_those_of_the_prose() {
    let mut due: Vec<(usize, usize, &str)> = FILES
        .iter()
        .map(|&(file, name)| (4 * usize::from(file), 4 * usize::from(file) + 3, name))
        .collect();
    due.push((FLAGS_ACTIVE, FLAGS_ACTIVE, "FLAGS_ACTIVE"));
    let rows = ROWS.map(|row| (row.first, row.last, row.name));
    assert_eq!(rows.to_vec(), due);
    // In address order, none over another.
    assert!(rows.windows(2).all(|two| two[0].1 < two[1].0));
    assert_eq!(rows.len(), 39);
    assert_eq!(kept().len(), 153);
}

#[test]
fn a_write_over_each_row_stores_its_two_neighbours_only() {
    let kept = kept();
    let mut neighbours = 0;
    for row in ROWS {
        let mut unit = Bench::application();
        let due: Vec<usize> = [row.first - 1, row.last + 1]
            .into_iter()
            .filter(|at| !kept.contains(at))
            .collect();
        neighbours += due.len();
        assert_eq!(written(&mut unit, row.first - 1, row.last + 1), due);
        assert_eq!(written(&mut unit, row.first, row.last), [], "{row:?}");
    }
    // The rows stand in 17 groups without a gap, from VBUS alone to TEMP_R0 with the eight behind it.
    assert_eq!(neighbours, 2 * 17);
}

#[test]
fn each_byte_alone() {
    let (mut unit, kept) = (Bench::application(), kept());
    for at in 0..1_536 {
        let due = if kept.contains(&at) { vec![] } else { vec![at] };
        assert_eq!(written(&mut unit, at, at), due, "{at:#05x}");
    }
}

#[test]
fn all_of_memory_but_153_bytes() {
    let mut unit = Bench::application();
    let before = unit.edac.clone();
    let first = written(&mut unit, 0, 1_025).len();
    let rest = written(&mut unit, 1_026, 1_535).len();
    assert_eq!(first + rest, 1_536 - 153);
    let same = (0..1_536).filter(|&at| unit.edac[at] == before[at]);
    assert!(same.eq(kept()));
}

#[test]
fn writes_that_begin_or_end_inside_a_row() {
    for row in ROWS {
        for at in row.first..=row.last {
            let mut unit = Bench::application();
            for (start, last) in [(row.first - 8, at), (at, row.last + 8)] {
                let due: Vec<usize> = (start..=last).filter(|at| !kept().contains(at)).collect();
                assert_eq!(written(&mut unit, start, last), due);
            }
        }
    }
}

#[test]
fn each_file_alone() {
    let mut unit = Bench::application();
    for file in 0..=255 {
        let start = 4 * usize::from(file);
        let value = others(&unit.edac[start..start + 4]);
        let mut due = after(&unit.edac, start, &value);
        let mut list = vec![file];
        if file == 0 {
            due[0x5C3] ^= 0xFF;
            list.push(due[0x5C3]);
        }
        list.extend(&value);
        let shown = unit.done(WRITE_FILE, &list);
        assert_eq!(unit.edac, due, "file {file:#04x}");
        assert_eq!(shown[0], file);
        assert_eq!(shown[shown.len() - 4..], unit.edac[start..start + 4]);
        let stays = FILES.iter().any(|&(read_only, _)| read_only == file);
        assert_eq!(shown == list, !stays, "file {file:#04x}");
        assert_eq!(shown, unit.done(0x07, &[file]));
    }
}

#[test]
fn a_list_of_files_of_both_kinds() {
    let mut unit = Bench::application();
    let mut due = unit.edac.clone();
    let held = |file: usize| unit.edac[4 * file..4 * file + 4].to_vec();
    // SPEED twice, among INERTIA twice, file 0, R_ESTIMATE and DV_ESTIMATE beside it.
    let list = [
        &[0x15, 1, 2, 3, 4][..],
        &[0x28, 5, 6, 7, 8],
        &[0x00, 3, 9, 10, 11, 12],
        &[0x65, 13, 14, 15, 16],
        &[0x66, 17, 18, 19, 20],
        &[0x15, 21, 22, 23, 24],
        &[0x28, 25, 26, 27, 28],
    ];
    let shown_due = [
        &[0x15],
        &held(0x15)[..],
        &[0x28, 25, 26, 27, 28],
        list[2],
        &[0x65],
        &held(0x65),
        list[4],
        &[0x15],
        &held(0x15),
        list[6],
    ]
    .concat();
    assert_eq!(unit.done(WRITE_FILE, &list.concat()), shown_due);
    due[0x0A0..0x0A4].copy_from_slice(&[25, 26, 27, 28]);
    due[..4].copy_from_slice(&[9, 10, 11, 12]);
    due[0x5C3] = 3;
    due[0x198..0x19C].copy_from_slice(&[17, 18, 19, 20]);
    assert_eq!(unit.edac, due);
}

#[test]
fn a_list_of_read_only_files_is_done_and_changes_nothing() {
    let mut unit = Bench::application();
    let before = unit.clone();
    let list = |value: &dyn Fn(usize) -> Vec<u8>| -> Vec<u8> {
        let structures = FILES
            .iter()
            .map(|&(file, _)| [vec![file], value(4 * usize::from(file))].concat());
        structures.collect::<Vec<_>>().concat()
    };
    let held = list(&|at| before.edac[at..at + 4].to_vec());
    let sent = list(&|at| others(&before.edac[at..at + 4]));
    assert_eq!(unit.done(WRITE_FILE, &sent), held);
    unit.same_memory(&before);
    assert_eq!(unit.send(WRITE_FILE, &sent), (2, None));
    unit.same_memory(&before);
}

#[test]
fn without_a_reply_as_well() {
    let mut unit = Bench::application();
    let bytes = others(&unit.edac[0x050..0x060]);
    let due = after(&unit.edac, 0x050, &bytes);
    assert_eq!(
        unit.send(WRITE_EDAC, &edac_at(0x050, &bytes)),
        (2, None),
        "SPEED and MOMENTUM with four bytes on either side"
    );
    assert_eq!(unit.edac, due);
}

#[test]
fn the_neighbours_of_flags_active() {
    let mut unit = Bench::application();
    assert_eq!(written(&mut unit, 0x5D6, 0x5D8), [0x5D6, 0x5D8]);
    assert_eq!(written(&mut unit, 0x5D6, 0x5D7), [0x5D6]);
    assert_eq!(written(&mut unit, 0x5D7, 0x5D8), [0x5D8]);
    assert_eq!(written(&mut unit, 0x5D7, 0x5D7), []);
    assert_eq!(written(&mut unit, 0x5D6, 0x5D6), [0x5D6]);
    assert_eq!(written(&mut unit, 0x5D8, 0x5D8), [0x5D8]);
}

#[test]
fn what_the_prose_does_not_call_read_only_is_written() {
    let not_called_read_only = [
        ("Command Value", 0x000, 0x003),
        ("PWM", 0x068, 0x06B),
        ("SINUSOID_PHASE", 0x0EC, 0x0EF),
        ("SINUSOID_FREQ", 0x0F0, 0x0F3),
        ("SINUSOID_OFFSET", 0x0F4, 0x0F7),
        ("DV_ESTIMATE", 0x198, 0x19B),
        ("MODE", 0x5C3, 0x5C3),
        ("HALL_SKIP", 0x5CF, 0x5CF),
        ("SPEED_TABLE_SIZE", 0x5D1, 0x5D1),
        ("USED_TABLE_SIZE", 0x5D2, 0x5D2),
        ("IDLE_INHIBIT", 0x5D6, 0x5D6),
        ("FLAG_TEMP_DELTA", 0x5DC, 0x5DC),
        ("HALT", 0x5E0, 0x5E0),
        ("RESTART_MASK", 0x5E2, 0x5E2),
        ("STARTUP_DELAY", 0x5E3, 0x5E3),
    ];
    // Two that are "technically" read/write, and the one whose last address is misprinted.
    let said = [
        ("SPEED_INTEGRATOR", 0x104, 0x107),
        ("ACCEL_TARGET", 0x10C, 0x10F),
        ("FAULT_OVERCURRENT", 0x1D4, 0x1D7),
    ];
    for (name, first, last) in not_called_read_only.into_iter().chain(said) {
        let mut unit = Bench::application();
        let due: Vec<usize> = (first..=last).collect();
        assert_eq!(written(&mut unit, first, last), due, "{name}");
        if first < 0x400 && first > 0 {
            let file = (first / 4) as u8;
            let value = others(&unit.edac[first..=last]);
            let list = [vec![file], value.clone()].concat();
            assert_eq!(unit.done(WRITE_FILE, &list), list, "{name}");
            assert_eq!(unit.edac[first..=last], value, "{name}");
        }
    }
}

#[test]
fn bytes_that_no_row_has_are_written() {
    // Beside rows, between them, and behind the last.
    let mut unit = Bench::application();
    for (first, last) in [
        (0x004, 0x00B),
        (0x010, 0x01F),
        (0x044, 0x047),
        (0x050, 0x053),
        (0x05C, 0x067),
        (0x070, 0x073),
        (0x078, 0x07F),
        (0x08C, 0x093),
        (0x18C, 0x18F),
        (0x1AC, 0x1BF),
        (0x1D8, 0x1FF),
        (0x224, 0x5C2),
        (0x5D3, 0x5D5),
        (0x5E4, 0x5FF),
    ] {
        let due: Vec<usize> = (first..=last).collect();
        assert_eq!(written(&mut unit, first, last), due, "{first:#05x}");
    }
}

#[test]
fn file_0_as_ever() {
    let mut unit = Bench::application();
    let list = [0, 0x12, 1, 2, 3, 4];
    assert_eq!(unit.done(WRITE_FILE, &list), list);
    assert_eq!(unit.edac[..4], [1, 2, 3, 4]);
    assert_eq!(unit.edac[0x5C3], 0x12);
    assert_eq!(unit.done(0x07, &[0]), list);
}

#[test]
fn every_way_of_reading_shows_the_kept_bytes() {
    let mut unit = Bench::application();
    let speed = unit.edac[0x054..0x058].to_vec();
    unit.done(WRITE_EDAC, &edac_at(0x054, &others(&speed)));
    unit.done(WRITE_FILE, &[&[0x15], &others(&speed)[..]].concat());
    assert_eq!(unit.done(0x07, &[0x15])[1..], speed);
    assert_eq!(unit.done(0x09, &edac_at(0x054, &[4]))[2..], speed);
    assert_eq!(unit.done(0x0B, &edac_at(0x054, &long(4)))[4..], speed);
}

#[test]
fn the_caller_may_change_what_commands_may_not() {
    // Only commands are kept off: the drive writes its telemetry into the memory that it lends.
    let mut unit = Bench::application();
    unit.edac[0x054..0x058].copy_from_slice(&[1, 2, 3, 4]);
    assert_eq!(
        unit.done(WRITE_FILE, &[0x15, 5, 6, 7, 8]),
        [0x15, 1, 2, 3, 4]
    );
    assert_eq!(
        unit.done(WRITE_EDAC, &edac_at(0x056, &[9])),
        edac_at(0x056, &[3])
    );
}

#[test]
fn refusals_are_those_of_before() {
    // A list that ends inside a structure, an empty one, and no byte at all, with and without read-only bytes.
    let mut unit = Bench::application();
    unit.refuses(WRITE_FILE, &[0x15, 1, 2, 3]);
    unit.refuses(WRITE_FILE, &[0x15, 1, 2, 3, 4, 0x16]);
    unit.refuses(WRITE_FILE, &[0x28, 1, 2, 3, 4, 0x15, 1, 2, 3]);
    unit.refuses(WRITE_FILE, &[]);
    unit.refuses(WRITE_EDAC, &edac_at(0x054, &[]));
    // A range that runs out of memory from a read-only byte on.
    unit.refuses(WRITE_EDAC, &edac_at(0x5D7, &[0; 42]));
    assert_eq!(unit.done(WRITE_EDAC, &edac_at(0x5D7, &[0; 41])).len(), 43);
    for (code, data) in [
        (WRITE_FILE, &[0x15, 1, 2, 3, 4][..]),
        (WRITE_EDAC, &[0x54, 0, 1]),
    ] {
        Bench::open().refuses(code, data);
    }
}
