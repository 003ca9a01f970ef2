//! 02, T-06: units of limits from 260 to 1,028. Whatever is tried here is tried on the second program and on the proved unit.
use crate::bench::*;
use compare::record::{Mode, Place, Record, FRESH, REFUSED};

/// The ends, and one between that is a multiple of five and of six.
const LIMITS: [u64; 3] = [260, 300, 1_028];

/// Limits that no unit can have. Some have low bits that one could have.
const NO_LIMITS: [u64; 12] = [
    0,
    1,
    255,
    259,
    1_029,
    1_030,
    65_535,
    65_536 + 260,
    65_536 + 1_028,
    1 << 32 | 300,
    1 << 63 | 1_028,
    u64::MAX,
];

/// Something to try on units of both programs, in application mode and after a FEND.
fn on_both(limit: u64, tried: impl Fn(Bench)) {
    for program in PROGRAMS {
        tried(Bench::application_of(program, limit));
    }
}

/// The answer to a message of so many bytes that is sound but for its length.
fn length_sent(unit: &mut Bench, length: usize) -> u8 {
    let sound = message(ADDRESS, 0x11, 0x80, &pattern(length - 5));
    assert_eq!(sound.len(), length);
    unit.run(&escaped(&sound)).0
}

#[test]
fn set_up_keeps_the_limit() {
    for program in PROGRAMS {
        for limit in 260..=1_028 {
            let mut unit = Bench::bare_of(program, 256);
            assert_eq!(unit.set_up_with(STRAP, limit), 0);
            let due = Record {
                strap: STRAP,
                mode: Mode::Bootloader,
                bootloader_len: 768,
                fram_len: 256,
                locked: 0,
                limit: limit as u16,
                receivers: [FRESH; 2],
            };
            assert_eq!(unit.record, due);
            assert_eq!(unit.sums, [crc(&unit.fram)]);
        }
    }
}

#[test]
fn set_up_refuses_every_other_limit() {
    for program in PROGRAMS {
        for limit in NO_LIMITS.into_iter().chain(0..260).chain(1_029..1_300) {
            let mut unit = Bench::bare_of(program, 256);
            let before = unit.clone();
            assert_eq!(unit.set_up_with(STRAP, limit), 29, "{limit}");
            assert_eq!(unit.record, REFUSED);
            assert_eq!((unit.record.strap, unit.record.limit), (8, 0));
            assert_eq!(unit, before);
            // Nothing comes of that record later.
            assert_eq!(unit.byte(FEND), (20, 0));
        }
    }
}

#[test]
fn at_set_up_the_limit_is_judged_last() {
    for (program, limit) in PROGRAMS.into_iter().flat_map(|p| NO_LIMITS.map(|n| (p, n))) {
        let wrong = |strap, change: fn(&mut Bench)| {
            let mut unit = Bench::bare_of(program, 512);
            change(&mut unit);
            let before = unit.clone();
            let answer = unit.set_up_with(strap, limit);
            assert_eq!(unit, before);
            answer
        };
        for strap in [8, 9, 0x41, 0xFF] {
            assert_eq!(wrong(strap, |_| ()), 20);
        }
        assert_eq!(wrong(STRAP, |u| u.edac.truncate(1_535)), 21);
        assert_eq!(wrong(STRAP, |u| u.fram.push(0)), 22);
        assert_eq!(wrong(STRAP, |u| u.sums.push(0)), 23);
        assert_eq!(wrong(STRAP, |u| u.diagnostics.truncate(30)), 24);
        assert_eq!(wrong(STRAP, |u| u.ports[0].message.truncate(1_032)), 25);
        assert_eq!(wrong(STRAP, |u| u.ports[1].reply.truncate(2_067)), 25);
        assert_eq!(wrong(STRAP, |_| ()), 29);
    }
}

#[test]
fn the_buffers_keep_their_sizes() {
    // A shorter limit is no reason to lend less.
    for program in PROGRAMS {
        let short = |message: usize, reply: usize| {
            let mut unit = Bench::bare_of(program, 256);
            unit.ports[0].message.truncate(message);
            unit.ports[1].reply.truncate(reply);
            unit.set_up_with(STRAP, 260)
        };
        assert_eq!(short(265, 2_068), 25);
        assert_eq!(short(1_033, 532), 25);
        assert_eq!(short(1_033, 2_068), 0);
        // Packing alone has no limit.
        let mut reply = vec![0; 2_068];
        for (length, answer) in [(4, 35), (265, 0), (266, 0), (1_033, 0), (1_034, 35)] {
            let packed = program.wheel().pack(&vec![0x55; length], &mut reply);
            assert_eq!(packed.0, answer);
        }
    }
}

#[test]
fn a_record_with_another_limit_is_refused_in_every_place() {
    for program in PROGRAMS {
        for limit in [0, 1, 255, 259, 1_029, 1_030, 65_535] {
            for place in PLACES {
                for count in [0, 5, 265, 1_034] {
                    let mut unit = Bench::fresh_of(program, LIMIT);
                    unit.record.limit = limit;
                    unit.receiver().place = place;
                    unit.receiver().count = count;
                    let before = unit.clone();
                    for byte in [FEND, 0xDB, 0xDC, 0x41] {
                        assert_eq!(unit.byte(byte), (29, 0), "{limit} {place:?}");
                        assert_eq!(unit, before);
                    }
                }
            }
        }
    }
}

#[test]
fn in_a_record_the_limit_is_judged_last() {
    for (program, limit) in PROGRAMS
        .into_iter()
        .flat_map(|p| [0, 259, 1_029].map(|n| (p, n)))
    {
        let wrong = |change: fn(&mut Bench)| {
            let mut unit = Bench::fresh_of(program, LIMIT);
            unit.record.limit = limit;
            change(&mut unit);
            let before = unit.clone();
            let (answer, _) = unit.byte(FEND);
            assert_eq!(unit, before);
            answer
        };
        assert_eq!(wrong(|u| u.record.strap = 8), 20);
        assert_eq!(wrong(|u| u.edac.push(0)), 21);
        assert_eq!(wrong(|u| u.record.fram_len = 512), 22);
        assert_eq!(wrong(|u| u.sums.truncate(3)), 23);
        assert_eq!(wrong(|u| u.diagnostics.push(0)), 24);
        assert_eq!(wrong(|u| u.ports[0].message.truncate(1_032)), 25);
        assert_eq!(wrong(|u| u.ports[1].reply.truncate(2_067)), 25);
        assert_eq!(wrong(|u| u.receiver().count = 1_035), 26);
        assert_eq!(wrong(|u| u.receiver().count = usize::MAX), 26);
        assert_eq!(wrong(|u| u.receiver().count = 1_034), 29);
        assert_eq!(wrong(|_| ()), 29);
    }
}

#[test]
fn messages_of_5_bytes_to_the_limit_and_5() {
    for (limit, lengths) in [
        (260, [(264, 1), (265, 1), (266, 7), (267, 7), (1_033, 7)]),
        (300, [(304, 1), (305, 1), (306, 7), (307, 7), (1_033, 7)]),
        (
            1_028,
            [(1_032, 1), (1_033, 1), (1_034, 7), (1_035, 7), (1_300, 7)],
        ),
    ] {
        on_both(limit, |mut unit| {
            assert_eq!(length_sent(&mut unit, 5), 1);
            assert_eq!(unit.run(&[0x41, 0x11, 0x80, 0xD8]).0, 6);
            for (length, answer) in lengths {
                let mut due = unit.diagnostics.clone();
                due[9] += u32::from(answer == 7);
                assert_eq!(length_sent(&mut unit, length), answer, "{length}");
                assert_eq!(unit.diagnostics, due);
            }
        });
    }
}

#[test]
fn every_limit_takes_its_longest_message_and_no_longer_one() {
    for limit in 260..=1_028 {
        on_both(limit, |mut unit| {
            assert_eq!(length_sent(&mut unit, limit as usize + 5), 1);
            assert_eq!(length_sent(&mut unit, limit as usize + 6), 7);
        });
    }
}

#[test]
fn only_the_limit_and_5_bytes_are_stored_and_the_limit_and_6_counted() {
    for (limit, stored) in [(260, 265), (300, 305), (1_028, 1_033)] {
        on_both(limit, |mut unit| {
            unit.ports[0].message = vec![0xAA; 3_000];
            unit.feed(&vec![0x55; stored]);
            assert_eq!(unit.receiver().count, stored);
            unit.feed(&[0x55]);
            assert_eq!(unit.receiver().count, stored + 1);
            unit.feed(&vec![0x55; 2_000]);
            assert_eq!(unit.stands(), (Place::Run, stored + 1));
            assert!(unit.ports[0].message[..stored]
                .iter()
                .all(|&byte| byte == 0x55));
            assert!(unit.ports[0].message[stored..]
                .iter()
                .all(|&byte| byte == 0xAA));
            assert_eq!(unit.run(&[]).0, 7);
        });
    }
}

#[test]
fn escapes_about_the_limit() {
    for (limit, stored) in [(260, 265), (300, 305), (1_028, 1_033)] {
        on_both(limit, |mut unit| {
            // The last byte that is stored, and the one after it, each by an escape.
            unit.feed(&vec![0x55; stored - 1]);
            unit.feed(&[0xDB, 0xDC]);
            assert_eq!(
                (unit.receiver().count, unit.ports[0].message[stored - 1]),
                (stored, 0xC0)
            );
            unit.feed(&[0xDB, 0xDD]);
            assert_eq!(unit.stands(), (Place::Run, stored + 1));
            assert_eq!(
                unit.ports[0].message.get(stored).copied().unwrap_or(0xAA),
                0xAA
            );
            assert_eq!(unit.run(&[]).0, 7);
            // A fault after it is framing too.
            let long = vec![0x55; stored + 1];
            assert_eq!(unit.run(&[&long[..], &[0xDB, 0x00]].concat()).0, 5);
            assert_eq!(unit.run(&[&long[..], &[0xDB]].concat()).0, 5);
            assert_eq!(unit.run(&[&long[..], &[0xDB, 0xDC]].concat()).0, 7);
        });
    }
}

#[test]
fn a_lent_count_above_the_limit_and_6_stays() {
    for (limit, counts) in [
        (260, [266, 267, 700, 1_034]),
        (300, [306, 307, 1_033, 1_034]),
    ] {
        for count in counts {
            on_both(limit, |unit| {
                for (place, byte, after) in [
                    (Place::Fresh, 0x55, Place::Fresh),
                    (Place::Run, 0x55, Place::Run),
                    (Place::Run, 0xDB, Place::Escape),
                    (Place::Escape, 0xDC, Place::Run),
                    (Place::Escape, 0xDD, Place::Run),
                    (Place::Escape, 0x55, Place::Fault),
                    (Place::Fault, 0x55, Place::Fault),
                    (Place::Thrown, 0x55, Place::Thrown),
                    (Place::Thrown, 0xDB, Place::Thrown),
                ] {
                    let mut unit = unit.clone();
                    unit.receiver().place = place;
                    unit.receiver().count = count;
                    let mut due = unit.clone();
                    due.receiver().place = after;
                    assert_eq!(unit.byte(byte), (0, 0));
                    assert_eq!(unit, due, "{place:?} {byte:#04x}");
                }
            });
        }
    }
}

#[test]
fn a_lent_count_above_the_limit_and_5_is_oversize() {
    // A fault or a FESC before it is framing, a fresh receiver has no run, and one that is thrown away is nothing more.
    for (limit, counts) in [
        (260, [266, 267, 700, 1_034]),
        (300, [306, 307, 1_033, 1_034]),
    ] {
        for count in counts {
            on_both(limit, |unit| {
                for (place, answer) in [
                    (Place::Fresh, 0),
                    (Place::Run, 7),
                    (Place::Escape, 5),
                    (Place::Fault, 5),
                    (Place::Thrown, 0),
                ] {
                    let mut unit = unit.clone();
                    unit.receiver().place = place;
                    unit.receiver().count = count;
                    let mut due = unit.clone();
                    (due.receiver().place, due.receiver().count) = (Place::Run, 0);
                    if answer != 0 {
                        due.diagnostics[usize::from(answer) + 2] += 1;
                    }
                    assert_eq!(unit.byte(FEND), (answer, 0));
                    assert_eq!(unit, due, "{place:?} {count}");
                }
            });
        }
    }
}

#[test]
fn a_sound_message_that_was_not_received_is_as_long_as_the_limit_says() {
    for (limit, length, answer) in [
        (260, 265, 1),
        (260, 266, 7),
        (260, 267, 7),
        (260, 1_033, 7),
        (300, 305, 1),
        (300, 306, 7),
        (300, 600, 7),
        (1_028, 600, 1),
        (1_028, 1_033, 1),
    ] {
        on_both(limit, |mut unit| {
            let sound = message(ADDRESS, 0x11, 0x80, &pattern(length - 5));
            unit.ports[0].message[..length].copy_from_slice(&sound);
            unit.receiver().count = length;
            assert_eq!(unit.byte(FEND).0, answer, "{limit} {length}");
        });
    }
}

#[test]
fn the_caller_may_hand_in_another_limit() {
    let sound = message(ADDRESS, 0x11, 0x80, &pattern(595));
    assert_eq!(sound.len(), 600);
    for program in PROGRAMS {
        // Received under the highest and closed under a shorter one, and the other way round.
        for (close, answer) in [(1_028, 1), (595, 1), (594, 7), (300, 7), (260, 7)] {
            let mut unit = Bench::application_of(program, 1_028);
            unit.feed(&escaped(&sound));
            assert_eq!(unit.receiver().count, 600);
            unit.record.limit = close;
            assert_eq!(unit.byte(FEND).0, answer, "{close}");
            assert_eq!(unit.record.limit, close);
        }
        // Under 260 bytes are stored up to the 265th; the 266th and those after it are lost.
        let mut unit = Bench::application_of(program, 260);
        unit.feed(&[0x55; 400]);
        assert_eq!(unit.receiver().count, 266);
        unit.record.limit = 1_028;
        unit.feed(&[0x66, 0x77]);
        assert_eq!(unit.receiver().count, 268);
        assert_eq!(
            unit.ports[0].message[264..269],
            [0x55, 0xAA, 0x66, 0x77, 0xAA]
        );
        assert_eq!(unit.run(&[]).0, 8);
    }
}

#[test]
fn peek() {
    for (limit, most) in [(260, 256), (261, 257), (300, 296), (1_028, 1_024)] {
        on_both(limit, |mut unit| {
            let shown = unit.done(0x02, &at(FIRST, &long(most)));
            assert_eq!(shown, at(FIRST, &unit.fram[..usize::from(most)]));
            assert_eq!(shown.len() as u64, limit);
            unit.refuses(0x02, &at(FIRST, &long(most + 1)));
            unit.refuses(0x02, &at(FIRST, &long(65_535)));
            // The size comes before the range.
            unit.hardfaults(0x02, &at(0, &long(most)));
            unit.refuses(0x02, &at(0, &long(most + 1)));
            // A one-byte count of 0 is 256, which has room under every limit.
            assert_eq!(unit.done(0x02, &at(FIRST, &[0])).len(), 260);
        });
    }
}

#[test]
fn poke() {
    for (limit, most) in [(260, 256), (300, 296), (1_028, 1_024)] {
        on_both(limit, |mut unit| {
            let bytes = vec![0x5A; most + 1];
            let data = at(FIRST, &bytes[..most]);
            assert_eq!(unit.done(0x03, &data), data);
            assert!(unit.fram[..most].iter().all(|&byte| byte == 0x5A));
            let before = unit.clone();
            assert_eq!(unit.send(0x83, &at(FIRST, &bytes)), (7, None));
            assert_eq!((&unit.fram, &unit.sums), (&before.fram, &before.sums));
        });
    }
}

#[test]
fn channels() {
    for (limit, most) in [
        (260, 52),
        (264, 52),
        (265, 53),
        (300, 60),
        (1_024, 204),
        (1_028, 205),
    ] {
        on_both(limit, |mut unit| {
            assert_eq!(unit.done(0x04, &vec![0x1E; most]).len(), 5 * most);
            unit.refuses(0x04, &vec![0x1E; most + 1]);
        });
    }
}

#[test]
fn files_read() {
    let mixed = |zeros: usize, others: usize| [vec![0; zeros], vec![9; others]].concat();
    for (limit, taken, not) in [
        // 52 fives, 43 sixes, and 60 + 200; 265, 264 and 66 + 195.
        (
            260,
            [(0, 52), (43, 0), (10, 40)],
            [(0, 53), (44, 0), (11, 39)],
        ),
        // 60 fives, 50 sixes, and 150 + 150; 305, 306 and 156 + 145.
        (
            300,
            [(0, 60), (50, 0), (25, 30)],
            [(0, 61), (51, 0), (26, 29)],
        ),
        // 1,025, 1,026, and 18 + 1,010; 1,030, 1,032 and 24 + 1,005.
        (
            1_028,
            [(0, 205), (171, 0), (3, 202)],
            [(0, 206), (172, 0), (4, 201)],
        ),
    ] {
        on_both(limit, |mut unit| {
            for (zeros, others) in taken {
                let shown = unit.done(0x07, &mixed(zeros, others));
                assert_eq!(shown.len(), 6 * zeros + 5 * others);
            }
            for (zeros, others) in not {
                unit.refuses(0x07, &mixed(zeros, others));
            }
        });
    }
}

#[test]
fn files_written() {
    // 200 + 60 and 195 + 66; 300 and 300 + 6; 1,010 + 18 and 1,005 + 24.
    for (limit, fives, sixes, more) in [
        (260, 40, 10, (39, 11)),
        (300, 60, 0, (60, 1)),
        (1_028, 202, 3, (201, 4)),
    ] {
        let list = |fives, sixes| {
            [
                [0x28, 1, 2, 3, 4].repeat(fives),
                [0, 3, 5, 6, 7, 8].repeat(sixes),
            ]
            .concat()
        };
        on_both(limit, |mut unit| {
            let longest = list(fives, sixes);
            assert_eq!(longest.len() as u64, limit);
            assert_eq!(unit.done(0x08, &longest), longest);
            assert_eq!(unit.edac[0x0A0..0x0A4], [1, 2, 3, 4]);
            let before = unit.clone();
            let longer = [&[0x28, 9, 9, 9, 9], &list(more.0, more.1)[5..]].concat();
            assert!(longer.len() as u64 > limit);
            assert_eq!(unit.send(0x88, &longer), (7, None));
            assert_eq!(unit.edac, before.edac);
        });
    }
}

#[test]
fn read_edac() {
    for (limit, most) in [(260, 258), (300, 298), (1_028, 1_026)] {
        on_both(limit, |mut unit| {
            let last = 1_536 - most;
            let shown = unit.done(0x09, &edac_at(last, &long(most)));
            assert_eq!(shown, edac_at(last, &unit.edac[usize::from(last)..]));
            unit.refuses(0x09, &edac_at(last + 1, &long(most)));
            unit.refuses(0x09, &edac_at(0, &long(most + 1)));
            unit.refuses(0x09, &edac_at(0, &long(65_535)));
            assert_eq!(unit.done(0x09, &edac_at(0, &[0])).len(), 258);
        });
    }
}

#[test]
fn write_edac() {
    for (limit, most) in [(260, 258), (300, 298), (1_028, 1_026)] {
        on_both(limit, |mut unit| {
            // Read-only bytes stand between, and are shown as they are.
            let start = 1_536 - most;
            let bytes = vec![0x5A; most];
            let shown = unit.done(0x0A, &edac_at(start as u16, &bytes));
            assert_eq!(shown, edac_at(start as u16, &unit.edac[start..]));
            assert_eq!((unit.edac[start], unit.edac[1_535]), (0x5A, 0x5A));
            let before = unit.clone();
            let more = edac_at(0, &vec![0x77; most + 1]);
            assert_eq!(unit.send(0x8A, &more), (7, None));
            assert_eq!(unit.edac, before.edac);
        });
    }
}

#[test]
fn gather() {
    let asked = |address, count| edac_at(address, &long(count));
    // One range, two that share the data field, and ranges of one byte each.
    for (limit, one, two, many) in [
        (260, 256, 126, 52),
        (300, 296, 146, 60),
        (1_028, 1_024, 510, 205),
    ] {
        on_both(limit, |mut unit| {
            let shown = unit.done(0x0B, &asked(512, one));
            assert_eq!(
                shown,
                [&asked(512, one), &unit.edac[512..][..usize::from(one)]].concat()
            );
            assert_eq!(shown.len() as u64, limit);
            unit.refuses(0x0B, &asked(0, one + 1));
            unit.refuses(0x0B, &asked(1_537 - one, one));
            let both = |count| [asked(0, two), asked(7, count)].concat();
            assert_eq!(unit.done(0x0B, &both(two)).len() as u64, limit);
            unit.refuses(0x0B, &both(two + 1));
            assert_eq!(unit.done(0x0B, &asked(3, 1).repeat(many)).len(), 5 * many);
            unit.refuses(0x0B, &asked(3, 1).repeat(many + 1));
        });
    }
}

#[test]
fn ping_and_nacks_have_as_much_data_as_the_limit() {
    for limit in LIMITS {
        on_both(limit, |mut unit| {
            let data = vec![0xC0; limit as usize];
            assert_eq!(unit.done(0x00, &data), b"WHEEL UNIT NSP 01");
            unit.refuses(0x05, &data);
            unit.refuses(0x1F, &data);
            let more = vec![0x00; limit as usize + 1];
            assert_eq!(unit.send(0x80, &more), (7, None));
            assert_eq!(unit.send(0x85, &more), (7, None));
        });
    }
}

#[test]
fn the_sizes_of_replies_at_every_limit() {
    for limit in 260..=1_028 {
        on_both(limit, |mut unit| {
            let most = limit as u16;
            let length = |unit: &mut Bench, code, data: &[u8]| unit.done(code, data).len() as u64;
            assert_eq!(length(&mut unit, 0x02, &at(FIRST, &long(most - 4))), limit);
            unit.refuses(0x02, &at(FIRST, &long(most - 3)));
            assert_eq!(length(&mut unit, 0x09, &edac_at(0, &long(most - 2))), limit);
            unit.refuses(0x09, &edac_at(0, &long(most - 1)));
            assert_eq!(length(&mut unit, 0x0B, &edac_at(0, &long(most - 4))), limit);
            unit.refuses(0x0B, &edac_at(0, &long(most - 3)));
            let channels = vec![0x07; usize::from(most / 5)];
            assert_eq!(length(&mut unit, 0x04, &channels), limit - limit % 5);
            unit.refuses(0x04, &[&channels[..], &[0]].concat());
            // A six for each byte over a multiple of five, and one six more in a five's place.
            let zeros = usize::from(most % 5);
            let mut files = vec![1; usize::from(most) / 5];
            files[..zeros].fill(0);
            assert_eq!(length(&mut unit, 0x07, &files), limit);
            files[zeros] = 0;
            unit.refuses(0x07, &files);
        });
    }
}
