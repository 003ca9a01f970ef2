//! The line: the receiver in every place, the tests at the close in order, and the counts.
use crate::bench::*;
use compare::record::{Mode, Place, Receiver};

/// The unit's place and count after some bytes from the start of a run.
fn after(bytes: &[u8]) -> (Place, usize) {
    let mut unit = Bench::open();
    unit.feed(bytes);
    unit.stands()
}

#[test]
fn nothing_means_anything_before_the_first_fend() {
    let mut unit = Bench::fresh();
    let before = unit.clone();
    for byte in (0..=0xFF).filter(|&byte| byte != FEND) {
        assert_eq!(unit.byte(byte), (0, 0));
        assert_eq!(unit, before);
    }
    // FESC and FEND there just opens a run.
    assert_eq!(unit.feed(&[0xDB, FEND]), [0, 0]);
    assert_eq!(unit.stands(), (Place::Run, 0));
    assert_eq!(unit.diagnostics, before.diagnostics);
}

#[test]
fn a_fresh_receiver_keeps_a_count_that_it_is_handed_until_the_fend() {
    let mut unit = Bench::fresh();
    unit.receiver().count = 700;
    assert_eq!(unit.byte(0x41), (0, 0));
    assert_eq!(unit.stands(), (Place::Fresh, 700));
    assert_eq!(unit.byte(FEND), (0, 0));
    assert_eq!(unit.stands(), (Place::Run, 0));
}

#[test]
fn escapes_and_the_count() {
    assert_eq!(after(&[0xDB]), (Place::Escape, 0));
    assert_eq!(after(&[0x01, 0xDB]), (Place::Escape, 1));
    assert_eq!(after(&[0x01, 0xDB, 0xDC]), (Place::Run, 2));
    assert_eq!(after(&[0x01, 0xDB, 0x00]), (Place::Fault, 1));
    assert_eq!(after(&[0xDB, 0xDB]), (Place::Fault, 0));
    // TFEND and TFESC outside an escape are ordinary bytes.
    assert_eq!(after(&[0xDC, 0xDD]), (Place::Run, 2));
    // After a fault nothing is interpreted.
    assert_eq!(after(&[0xDB, 0x00, 0xDB, 0xDC, 0x55]), (Place::Fault, 0));
}

#[test]
fn every_byte_after_fesc() {
    for byte in 0..=0xFF {
        let mut unit = Bench::open();
        let before = unit.clone();
        assert_eq!(unit.byte(0xDB), (0, 0));
        let (answer, _) = unit.byte(byte);
        match byte {
            0xC0 => assert_eq!((answer, unit.receiver().place), (5, Place::Run)),
            0xDC | 0xDD => assert_eq!((answer, unit.receiver().place), (0, Place::Run)),
            _ => assert_eq!((answer, unit.receiver().place), (0, Place::Fault)),
        }
        let moved = u32::from(byte == FEND);
        assert_eq!(unit.diagnostics[7], before.diagnostics[7] + moved);
    }
}

#[test]
fn framing_comes_before_all_but_empty() {
    for run in [
        &[0xDB][..],
        &[0xDB, 0x00],
        &[0xDB, 0xDB],
        &[0x01, 0xDB],
        &[0x01, 0x02, 0x03, 0x04, 0xDB, 0x01],
    ] {
        assert_eq!(Bench::open().run(run), (5, vec![]), "{run:x?}");
    }
    // Runt: no fault, but a message that is also for another address and has a wrong CRC.
    assert_eq!(Bench::open().run(&[1]).0, 6);
}

#[test]
fn a_fault_after_the_1034th_byte_is_framing() {
    let long = vec![0x55; 1_034];
    assert_eq!(Bench::open().run(&long).0, 7);
    assert_eq!(Bench::open().run(&[&long[..], &[0xDB, 0x00]].concat()).0, 5);
    assert_eq!(Bench::open().run(&[&long[..], &[0xDB]].concat()).0, 5);
    // A right escape there is judged and changes nothing.
    assert_eq!(Bench::open().run(&[&long[..], &[0xDB, 0xDC]].concat()).0, 7);
    // 1,033 bytes and a fault: the count stops at the fault.
    let mut unit = Bench::open();
    unit.feed(&[&long[..1_033], &[0xDB, 0x00, 0x55, 0x55]].concat());
    assert_eq!(unit.stands(), (Place::Fault, 1_033));
}

#[test]
fn only_1033_bytes_are_ever_stored() {
    let mut unit = Bench::open();
    unit.ports[0].message = vec![0xAA; 3_000];
    unit.feed(&vec![0x55; 2_000]);
    assert_eq!(unit.stands(), (Place::Run, 1_034));
    assert!(unit.ports[0].message[..1_033]
        .iter()
        .all(|&byte| byte == 0x55));
    assert!(unit.ports[0].message[1_033..]
        .iter()
        .all(|&byte| byte == 0xAA));
    let before = unit.ports[0].message.clone();
    assert_eq!(unit.run(&[]).0, 7);
    assert_eq!(unit.ports[0].message, before);
}

#[test]
fn bytes_after_a_fault_are_not_stored() {
    let mut unit = Bench::open();
    unit.feed(&[1, 2, 0xDB, 3, 4, 5]);
    assert_eq!(unit.ports[0].message[..3], [1, 2, 0xAA]);
}

#[test]
fn a_wrong_crc_before_another_address() {
    for (destination, right, due) in [
        (ADDRESS, true, 1),
        (ADDRESS, false, 8),
        (0x42, true, 9),
        (0x42, false, 8),
        (0x00, true, 9),
        (0xC0, true, 9),
        (0xDB, true, 9),
    ] {
        let mut line = message(destination, 0x11, 0x80, &[]);
        line[4] ^= u8::from(!right);
        let mut unit = Bench::open();
        let before = unit.clone();
        assert_eq!(unit.run(&escaped(&line)).0, due);
        assert_eq!(
            unit.diagnostics[0x0A],
            before.diagnostics[0x0A] + u32::from(due == 8)
        );
        if due != 1 {
            assert_eq!(unit.replies(), before.replies());
        }
    }
}

#[test]
fn every_bit_of_a_message_is_under_its_crc() {
    let sound = message(ADDRESS, 0x11, 0x80, &[0x33]);
    for bit in 0..8 * sound.len() {
        let mut line = sound.clone();
        line[bit / 8] ^= 1 << (bit % 8);
        assert_eq!(Bench::open().run(&escaped(&line)).0, 8);
    }
}

#[test]
fn counts_stay_at_their_highest_value() {
    for (run, answer) in [
        (vec![0xDB, 0x01], 5),
        (vec![0x01], 6),
        (vec![0x01; 1_034], 7),
        (vec![0x01; 5], 8),
    ] {
        let channel = answer as usize + 2;
        let mut unit = Bench::open();
        unit.diagnostics[channel] = 0xFFFF_FFFE;
        let mut due = unit.diagnostics.clone();
        due[channel] = 0xFFFF_FFFF;
        for _ in 0..2 {
            assert_eq!(unit.run(&run).0, answer);
            assert_eq!(unit.diagnostics, due);
        }
    }
}

#[test]
fn the_tests_read_the_buffer_as_it_is_lent_at_the_close() {
    // Another message is put into the buffer before the FEND: it is the one carried out.
    let mut unit = Bench::open();
    unit.feed(&message(ADDRESS, 0x11, 0x80, &[])[..5]);
    let other = message(ADDRESS, 0x22, 0xC0, &[]);
    unit.ports[0].message[..5].copy_from_slice(&other);
    let (answer, sent) = unit.run(&[]);
    assert_eq!(
        (answer, unpacked(&sent)[..3].to_vec()),
        (1, vec![0x22, ADDRESS, 0xE0])
    );
    // A byte altered there is a wrong CRC.
    let mut unit = Bench::open();
    unit.feed(&message(ADDRESS, 0x11, 0x80, &[])[..5]);
    unit.ports[0].message[1] ^= 1;
    assert_eq!(unit.run(&[]).0, 8);
}

#[test]
fn any_record_is_believed() {
    // The whole message stands in the buffer, and the record says that it was just received.
    let mut unit = Bench::fresh();
    let sound = message(ADDRESS, 0x11, 0x89, &edac_at(0, &[4]));
    unit.ports[0].message[..sound.len()].copy_from_slice(&sound);
    unit.record.mode = Mode::Application;
    *unit.receiver() = Receiver {
        place: Place::Run,
        count: sound.len(),
    };
    let (answer, sent) = unit.run(&[]);
    assert_eq!(answer, 1);
    assert_eq!(unpacked(&sent)[5..9], unit.edac[..4]);
    for (place, count, answer) in [
        (Place::Fresh, 8, 0),
        (Place::Run, 0, 0),
        (Place::Run, 1_034, 7),
        (Place::Run, 4, 6),
        (Place::Escape, 0, 5),
        (Place::Escape, 1_034, 5),
        (Place::Fault, 0, 5),
        (Place::Fault, 8, 5),
        (Place::Thrown, 0, 0),
        (Place::Thrown, 8, 0),
        (Place::Thrown, 1_034, 0),
    ] {
        let mut unit = Bench::fresh();
        unit.receiver().place = place;
        unit.receiver().count = count;
        assert_eq!(unit.run(&[]), (answer, vec![]), "{place:?} {count}");
        assert_eq!(unit.stands(), (Place::Run, 0));
    }
}

#[test]
fn one_fend_closes_a_run_and_opens_the_next() {
    let mut unit = Bench::open();
    let ping = message(ADDRESS, 0x11, 0x80, &[]);
    for _ in 0..3 {
        assert_eq!(unit.run(&ping).0, 1);
    }
    assert_eq!(unit.run(&[0xDB]).0, 5);
    assert_eq!(unit.run(&ping).0, 1);
    assert_eq!(unit.run(&vec![0; 1_500]).0, 7);
    assert_eq!(unit.run(&ping).0, 1);
}
