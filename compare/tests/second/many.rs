//! Many bytes in one call. Whatever is tried here is tried on the second program and on the proved unit.
use crate::bench::*;
use compare::record::{Place, Record};
use compare::wheel::{Many, Stepped};

/// PINGs to strap 1 on port 0: answered on port 1 (P6), and on port 0; and how long a reply to either is.
const P6: [u8; 7] = [0xC0, 0x41, 0x11, 0x80, 0xD8, 0x6D, 0xC0];
const PING: [u8; 7] = [0xC0, 0x61, 0x11, 0x80, 0xE3, 0x6E, 0xC0];
const PONG: usize = 24;

/// Something to try on fresh units of both programs.
fn on_both(tried: impl Fn(Bench)) {
    for program in PROGRAMS {
        tried(Bench::fresh_of(program, LIMIT));
    }
}

/// How many were taken, the answer, and what is sent.
fn came(many: Many) -> (usize, u8, usize) {
    (many.taken, many.last.answer, many.last.sent)
}

/// A call on a copy of the unit, byte by byte, which must come to the same and leave the same.
fn held(unit: &mut Bench, port: u8, bytes: &[u8]) -> Many {
    let mut copy = unit.clone();
    let many = unit.many_on(port, bytes);
    let mut last = None;
    for (at, &byte) in bytes.iter().enumerate() {
        let stepped = copy.step_on(port, byte);
        last = Some((stepped, at + 1));
        if stepped.answer != 0 {
            break;
        }
    }
    if let Some((last, taken)) = last {
        assert_eq!(many, Many { last, taken });
    }
    assert_eq!(*unit, copy);
    many
}

#[test]
fn no_bytes_change_nothing_and_are_not_refused() {
    on_both(|fresh| {
        let mut units = vec![fresh.clone()];
        // Strap, lengths, count and limit are wrong, each alone; the port is, below.
        let spoils: [fn(&mut Bench); 8] = [
            |unit| unit.record.strap = 8,
            |unit| unit.edac.clear(),
            |unit| unit.record.fram_len += 256,
            |unit| unit.sums.push(0),
            |unit| unit.diagnostics.clear(),
            |unit| unit.ports[1].reply.clear(),
            |unit| unit.record.receivers[1].count = usize::MAX,
            |unit| unit.record.limit = 0,
        ];
        for spoil in spoils {
            let mut unit = fresh.clone();
            spoil(&mut unit);
            unit.record.receivers[0].place = Place::Escape;
            units.push(unit);
        }
        for mut unit in units {
            for (port, locked) in [(0, 0), (1, 1), (2, 0xFF), (0xFF, 2)] {
                unit.record.locked = locked;
                let before = unit.clone();
                let many = unit.many_on(port, &[]);
                let record = Record {
                    locked: u8::from(locked != 0),
                    ..before.record
                };
                let last = Stepped {
                    record,
                    answer: 0,
                    sent: 0,
                    port: 0,
                    cost: 0,
                };
                assert_eq!(many, Many { last, taken: 0 });
                unit.record = before.record;
                assert_eq!(unit, before);
            }
        }
    });
}

#[test]
fn a_refused_call_loses_one_byte() {
    on_both(|mut unit| {
        unit.feed(&[FEND, 0x61]);
        let refused = |unit: &mut Bench, port, number| {
            for bytes in [&[0x11][..], &[FEND, FEND], &PING, &[0x55; 2_000]] {
                let before = unit.clone();
                assert_eq!(came(unit.many_on(port, bytes)), (1, number, 0));
                assert_eq!(*unit, before);
            }
        };
        for (spoil, number) in [
            ((|unit| unit.record.strap = 8) as fn(&mut Bench), 20),
            (|unit| unit.edac.truncate(1_535), 21),
            (|unit| unit.record.bootloader_len = 256, 22),
            (|unit| unit.bootloader_sums.clear(), 23),
            (|unit| unit.diagnostics.push(0), 24),
            (|unit| unit.ports[0].message.truncate(1_032), 25),
            (|unit| unit.record.receivers[0].count = 1_035, 26),
            (|unit| unit.record.limit = 1_029, 29),
        ] {
            let mut unit = unit.clone();
            spoil(&mut unit);
            refused(&mut unit, 1, number);
        }
        refused(&mut unit.clone(), 2, 27);
        // The record was handed back, so the rest of the message is heard.
        assert_eq!(came(unit.many_on(0, &PING[2..])), (5, 1, PONG));
    });
}

#[test]
fn a_call_stops_in_the_middle_and_the_rest_is_given_again() {
    on_both(|mut unit| {
        let line = [&PING[..], &P6, &[FEND, 0x55, FEND], &PING, &[FEND]].concat();
        let mut rest = &line[..];
        for (due, port) in [((7, 1, PONG), 0), ((7, 1, PONG), 1)] {
            let many = held(&mut unit, 0, rest);
            assert_eq!((came(many), many.last.port), (due, port));
            let reply = unit.sent(&many.last);
            assert_eq!(unpacked(&reply)[1], [0x61, 0x41][usize::from(port)]);
            rest = &rest[many.taken..];
        }
        for due in [(3, 6, 0), (7, 1, PONG), (1, 0, 0), (0, 0, 0)] {
            let many = held(&mut unit, 0, rest);
            assert_eq!(came(many), due);
            rest = &rest[many.taken..];
        }
    });
}

#[test]
fn empty_runs_and_the_first_fend_do_not_stop_a_call() {
    on_both(|mut unit| {
        assert_eq!(came(held(&mut unit, 0, &[0x55, 0x66])), (2, 0, 0));
        let fends = [FEND; 40];
        assert_eq!(came(held(&mut unit, 0, &fends)), (40, 0, 0));
        assert_eq!(unit.stands(), (Place::Run, 0));
        let line = [&[0x12, 0x34][..], &fends, &PING[1..], &fends].concat();
        // What stands before the FENDs is a runt now.
        assert_eq!(came(held(&mut unit, 0, &line)), (3, 6, 0));
        assert_eq!(came(held(&mut unit, 0, &line[3..])), (39 + 6, 1, PONG));
        assert_eq!(came(held(&mut unit, 0, &line[48..])), (40, 0, 0));
    });
}

#[test]
fn every_way_to_cut_a_message_in_two_calls() {
    // A POKE of FEND and FESC, which are escaped, by an address of each port.
    let data = at(FIRST + 3, &[0xC0, 0xDB, 0x00]);
    for program in PROGRAMS {
        for way in WAYS {
            let fresh = Bench::fresh_of(program, LIMIT);
            let address = way.address + STRAP;
            let poke = escaped(&message(address, 0x11, 0x83, &data));
            let line = [&[FEND][..], &poke, &[FEND]].concat();
            for cut in 0..=line.len() {
                let (mut unit, port) = (fresh.clone(), way.heard as u8);
                let one = held(&mut unit, port, &line[..cut]);
                let two = held(&mut unit, port, &line[cut..]);
                let last = if cut == line.len() { one } else { two };
                assert_eq!(one.taken + two.taken, line.len());
                assert_eq!(last.last.answer, 1);
                assert_eq!(usize::from(last.last.port), way.answered);
                assert_eq!(unit.fram[3..6], [0xC0, 0xDB, 0x00]);
            }
        }
    }
}

#[test]
fn a_fesc_at_the_end_of_one_call_and_what_follows_in_the_next() {
    on_both(|mut unit| {
        assert_eq!(came(held(&mut unit, 0, &[FEND, 0x41, 0xDB])), (3, 0, 0));
        assert_eq!(unit.stands(), (Place::Escape, 1));
        assert_eq!(held(&mut unit, 0, &[]).taken, 0);
        assert_eq!(unit.stands(), (Place::Escape, 1));
        assert_eq!(came(held(&mut unit, 0, &[0xDC, 0xDB])), (2, 0, 0));
        assert_eq!(unit.stands(), (Place::Escape, 2));
        assert_eq!(unit.ports[0].message[..2], [0x41, 0xC0]);
        assert_eq!(came(held(&mut unit, 0, &[0x00, 0x01, 0xDB])), (3, 0, 0));
        assert_eq!(unit.stands(), (Place::Fault, 2));
        assert_eq!(came(held(&mut unit, 0, &[0x02, FEND, FEND])), (2, 5, 0));
        assert_eq!(unit.stands(), (Place::Run, 0));
    });
}

#[test]
fn the_end_of_a_run_that_is_thrown_away_does_not_stop_a_call() {
    on_both(|mut unit| {
        // A run is open on port 1 when a reply leaves there.
        assert_eq!(came(held(&mut unit, 1, &[FEND, 0x51, 0x11])), (3, 0, 0));
        assert_eq!(came(held(&mut unit, 0, &P6)), (7, 1, PONG));
        assert_eq!(unit.stands_on(1), (Place::Thrown, 2));
        let ping = escaped(&message(0x51, 0x11, 0x80, &[]));
        let line = [&[0x80, 0xDB, FEND][..], &ping, &[FEND, FEND]].concat();
        let many = held(&mut unit, 1, &line);
        assert_eq!(came(many), (line.len() - 1, 1, PONG));
        assert_eq!(many.last.port, 1);
    });
}

#[test]
fn every_answer_of_a_run_stops_a_call() {
    on_both(|fresh| {
        let line = |message: Vec<u8>| [&[FEND][..], &escaped(&message), &[FEND]].concat();
        let sound = |control, data: &[u8]| line(message(0x61, 0x11, control, data));
        let outside = at(0x2008_0000, &[1]);
        let mut spoiled = message(0x61, 0x11, 0x80, &[]);
        spoiled[4] ^= 1;
        for (line, answer) in [
            (sound(0x80, &[]), 1),
            (sound(0x00, &[]), 2),
            (sound(0x85, &[]), 3),
            (sound(0x05, &[]), 4),
            (vec![FEND, 0x61, 0xDB, FEND], 5),
            (vec![FEND, 0x61, 0x11, 0x80, 0x00, FEND], 6),
            (line(vec![0x61; 1_034]), 7),
            (line(spoiled), 8),
            (line(message(0x71, 0x11, 0x80, &[])), 9),
            (sound(0x82, &outside), 10),
        ] {
            for after in [&[][..], &[FEND], &[0x55], &PING] {
                let mut unit = fresh.clone();
                let many = held(&mut unit, 0, &[&line, after].concat());
                assert_eq!((many.taken, many.last.answer), (line.len(), answer));
            }
        }
    });
}

#[test]
fn the_ports_are_sending_as_they_are_told() {
    on_both(|fresh| {
        for (ping, to) in [(PING, 0), (P6, 1)] {
            for sending in [[0, 0], [0, 9], [9, 0], [1, 0xFF]] {
                let mut unit = fresh.clone();
                unit.sending = sending;
                let due = if sending[to] == 0 {
                    (7, 1, PONG)
                } else {
                    (7, 2, 0)
                };
                assert_eq!(came(held(&mut unit, 0, &ping)), due);
                // A port of which a call is told that it is sending hears all the same.
                assert_eq!(came(held(&mut unit, 1, &ping)), (7, 9, 0));
            }
        }
    });
}

#[test]
fn what_a_crc_cost_is_told() {
    on_both(|mut unit| {
        let asked = message(0x61, 0x11, 0x86, &span(FIRST + 1, FIRST + 1_022));
        let line = [&[FEND, FEND][..], &escaped(&asked), &[FEND, FEND]].concat();
        let many = held(&mut unit, 0, &line);
        assert_eq!(
            (many.taken, many.last.cost),
            (line.len() - 1, 255 + 2 + 255)
        );
        assert_eq!(held(&mut unit, 0, &[FEND]).last.cost, 0);
    });
}

#[test]
fn a_run_as_long_as_the_limit_allows_and_longer() {
    for program in PROGRAMS {
        for limit in [260, 1_028] {
            for data in [limit - 1, limit, limit + 1] {
                let mut unit = Bench::fresh_of(program, limit as u64);
                let ping = message(0x61, 0x11, 0x80, &vec![0x55; data]);
                let line = [&[FEND][..], &escaped(&ping), &[FEND, FEND]].concat();
                let many = held(&mut unit, 0, &line);
                let answer = if data > limit { 7 } else { 1 };
                assert_eq!((many.taken, many.last.answer), (line.len() - 1, answer));
            }
        }
    }
}
