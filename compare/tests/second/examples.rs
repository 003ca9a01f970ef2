//! P1 to P12.
use crate::bench::*;
use compare::record::{Mode, Place, FRESH};
use compare::{second, Part};

#[test]
fn p1_to_p5_sums() {
    assert_eq!(second::sum(&[]), 0xFFFF);
    assert_eq!(second::sum(&[0xFF]), 0x00FF);
    assert_eq!(second::sum(&[0xFF, 0xFF]), 0x0000);
    assert_eq!(second::sum(&[0x00]), 0x0F87);
    assert_eq!(second::sum(&[0x41, 0x11, 0x80]), 0x6DD8);
    assert_eq!(second::sum(b"123456789"), 0x6F91);
}

#[test]
fn p6_ping_to_a_fresh_unit() {
    let mut unit = Bench::fresh();
    assert_eq!(
        unit.feed(&[0xC0, 0x41, 0x11, 0x80, 0xD8, 0x6D]),
        [0, 0, 0, 0, 0, 0]
    );
    // It comes on port 0, and by its address the reply leaves on port 1 (02, T-01).
    let before = unit.clone();
    let stepped = unit.close(&[]);
    assert_eq!((stepped.answer, stepped.port), (1, 1));
    assert_eq!(unit.ports[0], before.ports[0]);
    let reply = unpacked(&unit.ports[1].reply[..stepped.sent]);
    assert_eq!(reply[..3], [0x11, 0x41, 0xA0]);
    assert_eq!(&reply[3..20], b"WHEEL UNIT NSP 01");
    assert_eq!(reply[20..], crc(&reply[..20]).to_le_bytes());
}

#[test]
fn p7_unpacking() {
    let mut unit = Bench::open();
    unit.feed(&[0xDB, 0xDC, 0xDB, 0xDD]);
    assert_eq!(unit.ports[0].message[..2], [0xC0, 0xDB]);
    assert_eq!(unit.stands(), (Place::Run, 2));
    assert_eq!(unit.feed(&[0xDB, 0x00]), [0, 0]);
    assert_eq!(unit.stands(), (Place::Fault, 2));
    assert_eq!(unit.run(&[]), (5, vec![]));
}

#[test]
fn p8_joining() {
    let one = Part {
        sum: 0x00FF,
        len: 1,
    };
    assert_eq!(
        second::join(one, one),
        Ok(Part {
            sum: 0x0000,
            len: 2
        })
    );
}

#[test]
fn p9_empty_and_runt() {
    let mut unit = Bench::fresh();
    let before = unit.clone();
    assert_eq!(unit.feed(&[0xC0, 0xC0]), [0, 0]);
    assert_eq!(unit.diagnostics, before.diagnostics);
    let mut unit = Bench::fresh();
    assert_eq!(unit.feed(&[0xC0, 1, 2, 3, 4, 0xC0]), [0, 0, 0, 0, 0, 6]);
    assert_eq!(unit.diagnostics[0x08], before.diagnostics[0x08] + 1);
}

#[test]
fn p10_read_file_0() {
    let mut unit = Bench::application();
    unit.edac[..4].copy_from_slice(&[0x00, 0x00, 0x80, 0x3F]);
    unit.edac[0x5C3] = 0x03;
    assert_eq!(
        unit.done(0x07, &[0x00]),
        [0x00, 0x03, 0x00, 0x00, 0x80, 0x3F]
    );
}

#[test]
fn p11_write_file_shows_the_end() {
    let mut unit = Bench::application();
    let shown = unit.done(0x08, &[0x28, 1, 2, 3, 4, 0x28, 5, 6, 7, 8]);
    assert_eq!(shown, [0x28, 5, 6, 7, 8, 0x28, 5, 6, 7, 8]);
    assert_eq!(unit.edac[0x0A0..0x0A4], [5, 6, 7, 8]);
}

#[test]
fn p12_a_torn_list_stores_nothing() {
    Bench::application().refuses(0x08, &[0x28, 1, 2, 3, 4, 0x29, 5]);
}

#[test]
fn set_up_computes_all_sums_and_shows_the_lock_and_changes_nothing_else() {
    let mut unit = Bench::bare(1_024);
    let before = unit.clone();
    assert_eq!(unit.set_up(STRAP), 0);
    assert_eq!(unit.record.strap, STRAP);
    assert_eq!(unit.record.mode, Mode::Bootloader);
    assert_eq!(unit.record.fram_len, 1_024);
    assert_eq!(unit.record.receivers, [FRESH; 2]);
    let sums = |fram: &[u8]| fram.chunks(256).map(crc).collect();
    let due = Bench {
        record: unit.record,
        bootloader_sums: sums(&before.bootloader),
        sums: sums(&before.fram),
        // The status of bootloader FRAM (02, T-07).
        diagnostics: {
            let mut diagnostics = before.diagnostics.clone();
            diagnostics[0x06] = 0x1111_0040;
            diagnostics
        },
        ..before
    };
    assert_eq!(unit, due);
}
