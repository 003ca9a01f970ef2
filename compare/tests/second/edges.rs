//! Both sides of each edge of 01's table, and the edges that the commands' own lines draw.
use crate::bench::*;

#[test]
fn files_read() {
    let mut unit = Bench::application();
    assert_eq!(unit.done(0x07, &[1; 205]).len(), 1_025);
    unit.refuses(0x07, &[1; 206]);
    assert_eq!(unit.done(0x07, &[0; 171]).len(), 1_026);
    unit.refuses(0x07, &[0; 172]);
}

#[test]
fn mixed_files_reach_the_whole_data_field() {
    let mut unit = Bench::application();
    let mixed = |zeros: usize, others: usize| [vec![0; zeros], vec![9; others]].concat();
    assert_eq!(unit.done(0x07, &mixed(2, 203)).len(), 1_027);
    assert_eq!(unit.done(0x07, &mixed(3, 202)).len(), 1_028);
    unit.refuses(0x07, &mixed(4, 201));
}

#[test]
fn read_edac() {
    let mut unit = Bench::application();
    let shown = unit.done(0x09, &edac_at(510, &long(1_026)));
    assert_eq!(shown, [&edac_at(510, &[]), &unit.edac[510..]].concat());
    unit.refuses(0x09, &edac_at(0, &long(1_027)));
    unit.refuses(0x09, &edac_at(511, &long(1_026)));
    assert_eq!(unit.done(0x09, &edac_at(1_535, &[1])).len(), 3);
    unit.refuses(0x09, &edac_at(1_535, &[2]));
    unit.refuses(0x09, &edac_at(1_536, &[1]));
    unit.refuses(0x09, &edac_at(0xFFFF, &[1]));
    assert_eq!(unit.done(0x09, &edac_at(1_280, &[0])).len(), 258);
    unit.refuses(0x09, &edac_at(1_281, &[0]));
}

#[test]
fn gather() {
    let mut unit = Bench::application();
    let asked = |address, count| edac_at(address, &long(count));
    let shown = unit.done(0x0B, &asked(512, 1_024));
    assert_eq!(shown, [&asked(512, 1_024), &unit.edac[512..]].concat());
    unit.refuses(0x0B, &asked(0, 1_025));
    unit.refuses(0x0B, &asked(513, 1_024));
    // Two ranges share the data field: 4 + 510 + 4 + 510.
    let two = |count| [asked(0, 510), asked(0, count)].concat();
    assert_eq!(unit.done(0x0B, &two(510)).len(), 1_028);
    unit.refuses(0x0B, &two(511));
    unit.refuses(0x0B, &[asked(0, 1), asked(0, 0)].concat());
}

#[test]
fn peek() {
    let mut unit = Bench::open();
    let shown = unit.done(0x02, &at(FIRST, &long(1_024)));
    assert_eq!(shown, [at(FIRST, &[]), unit.fram.clone()].concat());
    unit.refuses(0x02, &at(FIRST, &long(1_025)));
    unit.refuses(0x02, &at(0, &long(1_025)));
    unit.refuses(0x02, &at(0, &long(0)));
    unit.hardfaults(0x02, &at(0, &long(1_024)));
}

#[test]
fn messages_of_every_length_about_the_edges() {
    // PING takes any data, so its message can have any length.
    for (length, answer) in [
        (4, 6),
        (5, 1),
        (6, 1),
        (1_032, 1),
        (1_033, 1),
        (1_034, 7),
        (1_035, 7),
    ] {
        let mut unit = Bench::open();
        let before = unit.clone();
        let mut line = message(ADDRESS, 0x11, 0x80, &pattern(length.max(5) - 5));
        line.truncate(length);
        assert_eq!(unit.run(&escaped(&line)).0, answer, "{length} bytes");
        for channel in 0..31 {
            let moved = u32::from(answer == 6 && channel == 8 || answer == 7 && channel == 9);
            assert_eq!(
                unit.diagnostics[channel],
                before.diagnostics[channel] + moved
            );
        }
    }
}

#[test]
fn channels() {
    let mut unit = Bench::open();
    let shown = unit.done(0x04, &[0x1E; 205]);
    assert_eq!(shown.len(), 1_025);
    assert_eq!(shown[..5], [0x1E, 0x1E, 0x00, 0x11, 0x11]);
    unit.refuses(0x04, &[0x1E; 206]);
    unit.refuses(0x04, &[]);
    unit.refuses(0x04, &[0x00, 0x1F]);
    unit.refuses(0x04, &[0xFF]);
}

#[test]
fn poke_lengths() {
    let mut unit = Bench::open();
    let bytes = vec![0x5A; 1_024];
    assert_eq!(unit.done(0x03, &at(FIRST, &bytes)), at(FIRST, &bytes));
    assert_eq!(unit.fram, bytes);
    unit.refuses(0x03, &at(FIRST, &[]));
    unit.refuses(0x03, &[0, 0, 4]);
    unit.refuses(0x03, &[]);
}

#[test]
fn ends_of_the_fram() {
    // Before its first byte bootloader FRAM begins: `bootloader.rs` has that border.
    let mut unit = Bench::open();
    let last = FIRST + 1_023;
    assert_eq!(unit.done(0x02, &at(last, &[1])).len(), 5);
    unit.hardfaults(0x02, &at(last, &[2]));
    unit.hardfaults(0x02, &at(last + 1, &[1]));
    unit.hardfaults(0x02, &at(0xFFFF_FFFF, &[0]));
    unit.done(0x03, &at(last, &[9]));
    unit.hardfaults(0x03, &at(last, &[9, 9]));
    unit.done(0x06, &span(FIRST, last));
    unit.done(0x06, &span(last, last));
    unit.hardfaults(0x06, &span(FIRST, last + 1));
    unit.hardfaults(0x06, &span(0, FIRST));
    unit.hardfaults(0x06, &span(0, 0xFFFF_FFFF));
    unit.refuses(0x06, &span(FIRST + 1, FIRST));
    unit.refuses(0x06, &span(1, 0));
}

#[test]
fn the_largest_fram() {
    let mut unit = Bench::bare(262_144);
    assert_eq!(unit.set_up(STRAP), 0);
    unit.feed(&[FEND]);
    let last = FIRST + 262_143;
    let shown = unit.done(0x06, &span(FIRST, last));
    assert_eq!(shown[8..], crc(&unit.fram).to_le_bytes());
    assert_eq!(unit.done(0x02, &at(last, &[1]))[4], unit.fram[262_143]);
    unit.hardfaults(0x02, &at(last + 1, &[1]));
}

#[test]
fn packing_alone() {
    use compare::second::pack;
    let mut reply = vec![0xEE; 2_069];
    for (length, answer) in [(0, 35), (4, 35), (5, 0), (1_033, 0), (1_034, 35)] {
        for byte in [0x00, 0xC0, 0xDB] {
            reply.fill(0xEE);
            let message = vec![byte; length];
            let (number, sent) = pack(&message, &mut reply);
            assert_eq!(number, answer);
            if answer == 0 {
                assert_eq!(unpacked(&reply[..sent]), message);
            } else {
                assert_eq!(sent, 0);
            }
            assert!(reply[sent..].iter().all(|&b| b == 0xEE));
        }
    }
    // The buffer before the message, and nothing is written although the message would fit.
    let mut short = vec![0xEE; 2_067];
    assert_eq!(pack(&[0; 5], &mut short), (25, 0));
    assert_eq!(pack(&[0; 4], &mut short), (25, 0));
    assert_eq!(short, vec![0xEE; 2_067]);
    assert_eq!(pack(&[0xC0; 1_033], &mut vec![0; 2_068]), (0, 2_068));
}

#[test]
fn what_is_packed_is_received() {
    for length in [5, 6, 300, 1_032, 1_033] {
        let mut unit = Bench::open();
        let message: Vec<u8> = pattern(length).iter().map(|b| 0xB0 | b).collect();
        let (answer, sent) = compare::second::pack(&message, &mut unit.ports[1].reply);
        assert_eq!(answer, 0);
        let line = unit.ports[1].reply[..sent - 1].to_vec();
        unit.feed(&line);
        assert_eq!(unit.receiver().count, length);
        assert_eq!(unit.ports[0].message[..length], message);
    }
}
