//! The commands: what each does, shows and refuses.
use crate::bench::*;
use crate::read_only::after;
use compare::record::Mode;

#[test]
fn the_control_byte_of_replies() {
    // B and code are copied, final is set, an incoming ACK is ignored, and ACK says whether the command was done.
    for b in [0x00, 0x40] {
        for ack in [0x00, 0x20] {
            let mut unit = Bench::open();
            let (answer, reply) = unit.send(0x80 | b | ack, &[7]);
            assert_eq!((answer, reply.unwrap().control), (1, 0xA0 | b));
            let (answer, reply) = unit.send(0x80 | b | ack | 0x1F, &[7]);
            let reply = reply.unwrap();
            assert_eq!((answer, reply.control), (3, 0x80 | b | 0x1F));
            assert_eq!(reply.data, [7]);
            assert_eq!(unit.send(b | ack, &[7]), (2, None));
            assert_eq!(unit.send(b | ack | 0x1F, &[7]), (4, None));
        }
    }
}

#[test]
fn any_source_is_answered() {
    for source in 0..=0xFF {
        let mut unit = Bench::open();
        let (answer, sent) = unit.run(&escaped(&message(ADDRESS, source, 0x80, &[])));
        assert_eq!((answer, unpacked(&sent)[0]), (1, source));
    }
}

#[test]
fn unknown_codes_are_refused_in_both_modes() {
    for code in [0x05].into_iter().chain(0x0C..=0x1F) {
        for mut unit in [Bench::open(), Bench::application()] {
            unit.refuses(code, &[]);
            unit.refuses(code, &[1, 2, 3]);
            unit.refuses(code, &vec![0xC0; 1_028]);
        }
    }
}

#[test]
fn ping_takes_any_data() {
    for data in [vec![], vec![0xDB], vec![0xC0; 1_028]] {
        for mut unit in [Bench::open(), Bench::application()] {
            assert_eq!(unit.done(0x00, &data), b"WHEEL UNIT NSP 01");
        }
    }
}

#[test]
fn init() {
    let mut unit = Bench::open();
    let before = unit.clone();
    assert_eq!(unit.done(0x01, &[]), []);
    assert_eq!(unit.record.mode, Mode::Bootloader);
    assert_eq!(unit.done(0x01, &APPLICATION), APPLICATION);
    assert_eq!(unit.record.mode, Mode::Application);
    unit.refuses(0x01, &APPLICATION);
    assert_eq!(unit.done(0x01, &[]), []);
    assert_eq!(unit.record.mode, Mode::Bootloader);
    unit.same_memory(&before);
    for data in [
        &[0x00, 0x00, 0x05][..],
        &[0x00, 0x00, 0x05, 0x20, 0x00],
        &[0x00, 0x00, 0x04, 0x20],
        &[0x01, 0x00, 0x05, 0x20],
        &[0x20, 0x05, 0x00, 0x00],
    ] {
        unit.refuses(0x01, data);
    }
    assert_eq!(unit.send(0x01, &APPLICATION), (2, None));
    assert_eq!(unit.record.mode, Mode::Application);
    assert_eq!(unit.send(0x01, &[]), (2, None));
    assert_eq!(unit.record.mode, Mode::Bootloader);
}

#[test]
fn init_needs_no_fitted_memory_at_its_address() {
    let mut unit = Bench::bare(256);
    unit.set_up(STRAP);
    unit.feed(&[FEND]);
    assert_eq!(unit.done(0x01, &APPLICATION), APPLICATION);
}

#[test]
fn the_receiver_goes_on_after_init_and_answer_10() {
    // One FEND between them: no receiver is fresh again.
    let mut unit = Bench::open();
    unit.done(0x01, &APPLICATION);
    unit.done(0x00, &[]);
    unit.done(0x01, &[]);
    unit.done(0x00, &[]);
    unit.hardfaults(0x02, &at(0, &[1]));
    unit.done(0x00, &[]);
}

#[test]
fn commands_of_application_mode_are_refused_in_bootloader() {
    let good: [(u8, &[u8]); 5] = [
        (0x07, &[0]),
        (0x08, &[1, 2, 3, 4, 5]),
        (0x09, &[0, 0, 1]),
        (0x0A, &[0, 0, 1]),
        (0x0B, &[0, 0, 1, 0]),
    ];
    for (code, data) in good {
        Bench::open().refuses(code, data);
        Bench::application().done(code, data);
    }
}

#[test]
fn forms_are_told_apart_by_their_length() {
    let mut unit = Bench::application();
    for length in [0, 1, 4, 7, 8] {
        unit.refuses(0x02, &at(FIRST, &[1; 8])[..length]);
    }
    for length in [0, 1, 2, 5, 6] {
        unit.refuses(0x09, &[1; 8][..length]);
    }
    for length in [0, 1, 7, 9, 12] {
        unit.refuses(0x06, &[span(FIRST, FIRST), vec![0; 8]].concat()[..length]);
    }
    for length in [0, 1, 2, 3, 5, 6, 7] {
        unit.refuses(0x0B, &[1, 0, 1, 0, 1, 0, 1][..length]);
    }
    for length in 0..3 {
        unit.refuses(0x0A, &[1; 3][..length]);
    }
}

#[test]
fn a_short_count_of_0_is_256_and_a_long_one_is_refused() {
    let mut unit = Bench::application();
    let shown = unit.done(0x02, &at(FIRST + 3, &[0]));
    assert_eq!(shown, at(FIRST + 3, &unit.fram[3..259]));
    unit.refuses(0x02, &at(FIRST + 3, &[0, 0]));
    let shown = unit.done(0x09, &edac_at(3, &[0]));
    assert_eq!(shown, edac_at(3, &unit.edac[3..259]));
    unit.refuses(0x09, &edac_at(3, &[0, 0]));
    // Low byte 0 of a long count is no 0.
    assert_eq!(unit.done(0x02, &at(FIRST, &[0, 1])).len(), 260);
}

#[test]
fn diagnostic_shows_the_counts_before_its_own_message() {
    let mut unit = Bench::open();
    unit.run(&[1]);
    let shown = unit.done(0x04, &[0x08, 0x00, 0x08]);
    let value = 0x1111_0009u32.to_le_bytes();
    assert_eq!(
        shown,
        [
            &[0x08],
            &value[..],
            &[0x00, 0x00, 0x00, 0x11, 0x11],
            &[0x08],
            &value
        ]
        .concat()
    );
}

#[test]
fn set_up_and_init_clear_no_diagnostic() {
    let mut unit = Bench::open();
    let before = unit.diagnostics.clone();
    unit.done(0x01, &[]);
    assert_eq!(unit.set_up(STRAP), 0);
    assert_eq!(unit.diagnostics, before);
}

#[test]
fn write_file() {
    let mut unit = Bench::application();
    let mut due = unit.edac.clone();
    let list = [0, 0x0B, 1, 2, 3, 4, 255, 5, 6, 7, 8];
    assert_eq!(unit.done(0x08, &list), list);
    due[0x5C3] = 0x0B;
    due[..4].copy_from_slice(&[1, 2, 3, 4]);
    due[1_020..1_024].copy_from_slice(&[5, 6, 7, 8]);
    assert_eq!(unit.edac, due);
    // Done without a reply as well.
    assert_eq!(unit.send(0x08, &[1, 9, 9, 9, 9]), (2, None));
    due[4..8].fill(9);
    assert_eq!(unit.edac, due);
    for length in [0, 1, 5, 7, 10] {
        unit.refuses(0x08, &list[..length]);
    }
}

#[test]
fn write_file_fills_the_data_field() {
    let mut unit = Bench::application();
    let mut due = unit.edac.clone();
    let (mut list, mut shown_due) = (Vec::new(), Vec::new());
    for n in 1..=202 {
        let (value, start) = ([n, !n, n, n], 4 * usize::from(n));
        list.push(n);
        list.extend(value);
        // A read-only file shows what it keeps.
        due = after(&due, start, &value);
        shown_due.push(n);
        shown_due.extend(&due[start..start + 4]);
    }
    for mode in 1..=3 {
        list.extend([0, mode, mode, 0, 0, 0]);
    }
    assert_eq!(list.len(), 1_028);
    let shown = unit.done(0x08, &list);
    assert_eq!(shown[..1_010], shown_due);
    assert_eq!(shown[1_010..], [0, 3, 3, 0, 0, 0].repeat(3));
    due[0x5C3] = 3;
    due[..4].copy_from_slice(&[3, 0, 0, 0]);
    assert_eq!(unit.edac, due);
    list.truncate(1_027);
    unit.refuses(0x08, &list);
}

#[test]
fn write_edac_at_both_ends_of_memory() {
    // Every byte can be reached; those that are read-only keep their value and are shown as they are.
    let mut unit = Bench::application();
    for (start, length) in [(0, 1_026), (510, 1_026), (1_535, 1)] {
        let bytes = vec![start as u8 ^ 0xDB; length];
        let due = after(&unit.edac, usize::from(start), &bytes);
        let shown = unit.done(0x0A, &edac_at(start, &bytes));
        assert_eq!(shown, edac_at(start, &due[usize::from(start)..][..length]));
        assert_eq!(unit.edac, due);
    }
    unit.refuses(0x0A, &edac_at(511, &[0; 1_026]));
    unit.refuses(0x0A, &edac_at(1_536, &[0]));
    unit.refuses(0x0A, &edac_at(0xFFFF, &[0]));
}

#[test]
fn gather_repeats_address_and_count() {
    let mut unit = Bench::application();
    let asked = [edac_at(5, &long(2)), edac_at(1_534, &long(2))].concat();
    let due = [
        &asked[..4],
        &unit.edac[5..7],
        &asked[4..],
        &unit.edac[1_534..],
    ]
    .concat();
    assert_eq!(unit.done(0x0B, &asked), due);
    unit.refuses(0x0B, &[&asked[..4], &edac_at(1_535, &long(2))].concat());
}
