//! 02, T-01: both ports. Whatever is tried here is tried on the second program and on the proved unit.
use crate::bench::*;
use compare::record::{Mode, Place, Receiver, Record, FRESH};
use compare::wheel::Stepped;

/// The diagnostics of each port, by the ICD's Table 17.
const FRAMING: [usize; 2] = [0x07, 0x0E];
const RUNT: [usize; 2] = [0x08, 0x0F];
const OVERSIZE: [usize; 2] = [0x09, 0x10];
const BAD_CRC: [usize; 2] = [0x0A, 0x11];
const THROWN: [usize; 2] = [0x0C, 0x13];
const LOST: [usize; 2] = [0x0D, 0x14];

/// PING to 0x41, and the reply to it, as the line carries them.
const PING_41: [u8; 7] = [0xC0, 0x41, 0x11, 0x80, 0xD8, 0x6D, 0xC0];
const PONG_41: [u8; 24] = [
    0xC0, 0x11, 0x41, 0xA0, 0x57, 0x48, 0x45, 0x45, 0x4C, 0x20, 0x55, 0x4E, 0x49, 0x54, 0x20, 0x4E,
    0x53, 0x50, 0x20, 0x30, 0x31, 0x8A, 0x6D, 0xC0,
];

/// Something to try on units of both programs, in bootloader mode and after a FEND on each port.
fn on_both(tried: impl Fn(Bench)) {
    for program in PROGRAMS {
        tried(open(program));
    }
}

fn open(program: Program) -> Bench {
    let mut unit = Bench::fresh_of(program, LIMIT);
    assert_eq!(answers(&mut unit, 0, &[FEND]), [0]);
    assert_eq!(answers(&mut unit, 1, &[FEND]), [0]);
    unit
}

/// The answers to some bytes on a port.
fn answers(unit: &mut Bench, port: usize, bytes: &[u8]) -> Vec<u8> {
    let bytes = bytes.iter();
    bytes
        .map(|&byte| unit.step_on(port as u8, byte).answer)
        .collect()
}

/// Some bytes on a port, of which none may be answered with another number than 0.
fn fed(unit: &mut Bench, port: usize, bytes: &[u8]) {
    let answers = answers(unit, port, bytes);
    assert!(answers.iter().all(|&answer| answer == 0), "{answers:?}");
}

/// Feeds a message on a port, and then its FEND.
fn said(unit: &mut Bench, port: usize, message: &[u8]) -> Stepped {
    fed(unit, port, &escaped(message));
    unit.step_on(port as u8, FEND)
}

/// A command by one of the unit's addresses, on the port that hears it.
fn told(unit: &mut Bench, way: Way, control: u8, data: &[u8]) -> Stepped {
    let message = message(way.address + unit.record.strap, 0x11, control, data);
    said(unit, way.heard, &message)
}

/// The way from one port to the other that ends at this one.
fn way_to(port: usize) -> Way {
    let crossing = |way: &&Way| way.heard != port && way.answered == port;
    *WAYS.iter().find(crossing).expect("a way")
}

/// The diagnostics as they were, but for some that are one higher.
fn moved(before: &Bench, channels: &[usize]) -> Vec<u32> {
    let mut diagnostics = before.diagnostics.clone();
    channels
        .iter()
        .for_each(|&channel| diagnostics[channel] += 1);
    diagnostics
}

/// Runs that have begun on a port, and how its receiver stands after them.
const BEGUN: [(&[u8], Place, usize); 7] = [
    (&[0x41], Place::Run, 1),
    (&[0x41, 0x11, 0x80, 0xD8, 0x6D], Place::Run, 5),
    (&[0xDB], Place::Escape, 0),
    (&[0x41, 0xDB], Place::Escape, 1),
    (&[0xDB, 0x00], Place::Fault, 0),
    (&[0xDB, 0xDB, 0x41, 0xDB], Place::Fault, 0),
    (&[0x41, 0x11, 0xDB, 0x41, 0x33], Place::Fault, 2),
];

#[test]
fn p6_comes_on_port_0_and_its_reply_leaves_on_port_1() {
    for program in PROGRAMS {
        let mut unit = Bench::fresh_of(program, LIMIT);
        let before = unit.clone();
        fed(&mut unit, 0, &PING_41[..6]);
        let stepped = unit.step_on(0, FEND);
        assert_eq!((stepped.answer, stepped.sent, stepped.port), (1, 24, 1));
        let mut due = before.clone();
        due.record.receivers[0] = Receiver {
            place: Place::Run,
            count: 0,
        };
        due.ports[0].message[..5].copy_from_slice(&PING_41[1..6]);
        due.ports[1].reply[..24].copy_from_slice(&PONG_41);
        assert_eq!(unit, due);
        // On port 1 nobody hears it.
        let mut unit = before;
        fed(&mut unit, 1, &PING_41[..6]);
        assert_eq!(unit.step_on(1, FEND).answer, 9);
    }
}

/// Table 12 of the ICD: the strap, and its addresses 0x40, 0x50, 0x60 and 0x70 with the ports of command and telemetry.
const TABLE: [(u8, [(u8, usize, usize); 4]); 8] = [
    (0, [(0x40, 0, 1), (0x50, 1, 1), (0x60, 0, 0), (0x70, 1, 0)]),
    (1, [(0x41, 0, 1), (0x51, 1, 1), (0x61, 0, 0), (0x71, 1, 0)]),
    (2, [(0x42, 0, 1), (0x52, 1, 1), (0x62, 0, 0), (0x72, 1, 0)]),
    (3, [(0x43, 0, 1), (0x53, 1, 1), (0x63, 0, 0), (0x73, 1, 0)]),
    (4, [(0x44, 0, 1), (0x54, 1, 1), (0x64, 0, 0), (0x74, 1, 0)]),
    (5, [(0x45, 0, 1), (0x55, 1, 1), (0x65, 0, 0), (0x75, 1, 0)]),
    (6, [(0x46, 0, 1), (0x56, 1, 1), (0x66, 0, 0), (0x76, 1, 0)]),
    (7, [(0x47, 0, 1), (0x57, 1, 1), (0x67, 0, 0), (0x77, 1, 0)]),
];

#[test]
fn every_address_of_every_strap_on_either_port() {
    for program in PROGRAMS {
        for (strap, addresses) in TABLE {
            let mut unit = Bench::bare_of(program, 256);
            assert_eq!(unit.set_up(strap), 0);
            fed(&mut unit, 0, &[FEND]);
            fed(&mut unit, 1, &[FEND]);
            for (address, port) in (0..=0xFF).flat_map(|address| [(address, 0), (address, 1)]) {
                let mut unit = unit.clone();
                let before = unit.clone();
                let stepped = said(&mut unit, port, &message(address, 0x22, 0xC0, &[1, 2, 3]));
                let heard = addresses
                    .iter()
                    .find(|row| (row.0, row.1) == (address, port));
                let Some(&(_, _, answered)) = heard else {
                    assert_eq!((stepped.answer, stepped.sent, stepped.port), (9, 0, 0));
                    assert_eq!(unit.replies(), before.replies());
                    assert_eq!(unit.diagnostics, before.diagnostics);
                    continue;
                };
                assert_eq!((stepped.answer, stepped.sent), (1, 24));
                assert_eq!(usize::from(stepped.port), answered);
                // From the address that was called.
                assert_eq!(unit.sent(&stepped)[1..4], [0x22, address, 0xE0]);
                let (other, written) = (1 - answered, &unit.ports[answered].reply);
                assert_eq!(unit.ports[other].reply, before.ports[other].reply);
                assert_eq!(written[24..], before.ports[answered].reply[24..]);
            }
        }
    }
}

#[test]
fn an_address_of_its_own_on_the_wrong_port_is_for_another() {
    on_both(|mut unit| {
        let before = unit.clone();
        for way in WAYS {
            let to = message(way.address + STRAP, 0x11, 0x83, &at(FIRST, &[9, 9]));
            let stepped = said(&mut unit, 1 - way.heard, &to);
            assert_eq!((stepped.answer, stepped.sent, stepped.port), (9, 0, 0));
        }
        unit.same_memory(&before);
        assert_eq!(unit.replies(), before.replies());
    });
}

#[test]
fn commands_by_every_way() {
    for (program, way) in PROGRAMS.into_iter().flat_map(|p| WAYS.map(|way| (p, way))) {
        let mut unit = open(program);
        unit.way = way;
        assert_eq!(unit.done(0x00, &[]), b"WHEEL UNIT NSP 01");
        let data = at(FIRST + 255, &[1, 2]);
        assert_eq!(unit.done(0x03, &data), data);
        assert_eq!(unit.fram[255..257], [1, 2]);
        assert_eq!(unit.done(0x02, &at(FIRST + 255, &[2])), data);
        let sum = crc(&unit.fram).to_le_bytes();
        assert_eq!(unit.done(0x06, &span(FIRST, FIRST + 1_023))[8..], sum);
        assert_eq!(unit.done(0x04, &[0x0C])[1..], [0x0C, 0x00, 0x11, 0x11]);
        unit.hardfaults(0x02, &at(0, &[1]));
        unit.refuses(0x09, &edac_at(0, &[1]));
        assert_eq!(unit.done(0x01, &APPLICATION), APPLICATION);
        assert_eq!(unit.done(0x08, &[0x28, 1, 2, 3, 4]), [0x28, 1, 2, 3, 4]);
        assert_eq!(unit.done(0x07, &[0x28]), [0x28, 1, 2, 3, 4]);
        assert_eq!(unit.done(0x0A, &edac_at(0, &[7])), edac_at(0, &[7]));
        assert_eq!(unit.done(0x09, &edac_at(0, &[1])), edac_at(0, &[7]));
        let asked = edac_at(0, &long(1));
        assert_eq!(unit.done(0x0B, &asked), [&asked[..], &[7]].concat());
        unit.refuses(0x1F, &[1, 2, 3]);
    }
}

#[test]
fn the_longest_reply_on_either_port() {
    for (program, way) in PROGRAMS.into_iter().flat_map(|p| WAYS.map(|way| (p, way))) {
        let mut unit = open(program);
        unit.fram.fill(0xC0);
        let stepped = told(&mut unit, way, 0x82, &at(FIRST, &long(1_024)));
        // FENDs, five other bytes of the message before the 1,024 that are two each on the line, and the CRC.
        assert_eq!(usize::from(stepped.port), way.answered);
        let reply = unpacked(&unit.sent(&stepped));
        assert_eq!(reply.len(), 1_033);
        assert_eq!(reply[..3], [0x11, way.address + STRAP, 0xA2]);
        assert!(reply[7..1_031].iter().all(|&byte| byte == 0xC0));
    }
}

/// Numbers by which C says that a port is sending.
const SENDING: [u8; 4] = [1, 2, 0x80, 0xFF];

fn while_sending(port: usize, number: u8) -> [u8; 2] {
    let mut sending = [0, 0];
    sending[port] = number;
    sending
}

#[test]
fn a_reply_for_a_sending_port_is_lost_and_its_command_done() {
    on_both(|unit| {
        for (way, number) in WAYS.into_iter().flat_map(|w| SENDING.map(|n| (w, n))) {
            let mut unit = unit.clone();
            unit.sending = while_sending(way.answered, number);
            let mut before = unit.clone();
            let stepped = told(&mut unit, way, 0x83, &at(FIRST + 255, &[9, 9]));
            assert_eq!((stepped.answer, stepped.sent, stepped.port), (2, 0, 0));
            before.fram[255..257].fill(9);
            assert_eq!(unit.fram, before.fram);
            let sums: Vec<u16> = unit.fram.chunks(256).map(crc).collect();
            assert_eq!(unit.sums, sums);
            assert_eq!(unit.replies(), before.replies());
            assert_eq!(unit.diagnostics, moved(&before, &[LOST[way.answered]]));
            assert_eq!(unit.record, before.record);
        }
    });
}

#[test]
fn a_lost_nack_is_a_refusal_without_a_reply() {
    on_both(|unit| {
        for way in WAYS {
            let mut unit = unit.clone();
            unit.sending = while_sending(way.answered, 1);
            let before = unit.clone();
            for data in [&[][..], &[0x28, 1, 2, 3, 4]] {
                let stepped = told(&mut unit, way, 0x88, data);
                assert_eq!((stepped.answer, stepped.sent, stepped.port), (4, 0, 0));
            }
            assert_eq!(unit.edac, before.edac);
            assert_eq!(unit.replies(), before.replies());
            let mut due = moved(&before, &[LOST[way.answered]]);
            due[LOST[way.answered]] += 1;
            assert_eq!(unit.diagnostics, due);
        }
    });
}

#[test]
fn what_a_command_does_stays_where_its_reply_is_lost() {
    on_both(|mut unit| {
        unit.sending = [1, 1];
        let mut lost = |control, data: &[u8]| {
            let stepped = told(&mut unit, WAYS[0], control, data);
            assert_eq!((stepped.answer, stepped.sent), (2, 0));
            unit.clone()
        };
        lost(0x80, &[]);
        let unit = lost(0x81, &LOCK);
        assert_eq!(
            (unit.record.locked, unit.diagnostics[0x06]),
            (1, 0x1111_00CC)
        );
        assert_eq!(lost(0x81, &APPLICATION).record.mode, Mode::Application);
        let unit = lost(0x88, &[0x28, 1, 2, 3, 4]);
        assert_eq!(unit.edac[0xA0..0xA4], [1, 2, 3, 4]);
        assert_eq!(lost(0x8A, &edac_at(0x400, &[7])).edac[0x400], 7);
        for (control, data) in [(0x84, &[7][..]), (0x87, &[0]), (0x89, &[0, 0, 1])] {
            lost(control, data);
        }
        assert_eq!(lost(0x81, &[]).record.mode, Mode::Bootloader);
        assert_eq!(
            unit.diagnostics[LOST[1]],
            0x1111_0014 + 4,
            "four commands had been done then"
        );
        assert_eq!(lost(0x80, &[]).diagnostics[LOST[1]], 0x1111_0014 + 10);
    });
}

#[test]
fn only_the_port_of_the_reply_matters() {
    on_both(|unit| {
        for (way, number) in WAYS.into_iter().flat_map(|w| SENDING.map(|n| (w, n))) {
            // The other port is sending, be it the one that the command comes on.
            let mut unit = unit.clone();
            unit.sending = while_sending(1 - way.answered, number);
            let before = unit.clone();
            let stepped = told(&mut unit, way, 0x80, &[]);
            assert_eq!((stepped.answer, stepped.sent), (1, 24));
            assert_eq!(usize::from(stepped.port), way.answered);
            assert_eq!(unit.diagnostics, before.diagnostics);
        }
    });
}

#[test]
fn a_crc_whose_reply_is_lost_costs_the_same() {
    on_both(|mut unit| {
        for way in WAYS {
            for (sending, answer) in [([0, 0], 1), ([1, 1], 2)] {
                unit.sending = sending;
                // All but the first and the last byte of four blocks: twice 255, and two blocks.
                let stepped = told(&mut unit, way, 0x86, &span(FIRST + 1, FIRST + 1_022));
                assert_eq!((stepped.answer, stepped.cost), (answer, 512));
                let stepped = told(&mut unit, way, 0x86, &span(FIRST + 1, FIRST));
                assert_eq!((stepped.answer, stepped.cost), (answer + 2, 0));
            }
        }
    });
}

#[test]
fn what_comes_in_on_a_sending_port_is_read_as_ever() {
    on_both(|unit| {
        for port in [0, 1] {
            for sending in [[1, 1], while_sending(port, 1), while_sending(port, 0xFF)] {
                let (mut calm, mut busy) = (unit.clone(), unit.clone());
                busy.sending = sending;
                for bytes in [
                    &[0xDB, 0x00, FEND][..],
                    &[0x01, FEND],
                    &[0x01; 5],
                    &[FEND, FEND, 0xDB, 0xDC, 0xDB],
                    &[FEND, 0x33],
                ] {
                    let due = answers(&mut calm, port, bytes);
                    assert_eq!(answers(&mut busy, port, bytes), due);
                    busy.sending = calm.sending;
                    assert_eq!(busy, calm);
                    busy.sending = sending;
                }
                // A command that asks for no reply, and one for nobody here.
                for (address, answer) in [(0x40 + 0x10 * port as u8 + STRAP, 2), (0x7F, 9)] {
                    busy.step_on(port as u8, FEND);
                    let before = busy.clone();
                    let message = message(address, 0x11, 0x00, &[]);
                    assert_eq!(said(&mut busy, port, &message).answer, answer);
                    assert_eq!(busy.diagnostics, before.diagnostics);
                }
            }
        }
    });
}

#[test]
fn a_reply_throws_the_run_away_that_is_open_on_its_port() {
    on_both(|unit| {
        for port in [0, 1] {
            for (begun, place, count) in BEGUN {
                for (control, answer) in [(0x80, 1), (0x9F, 3)] {
                    let mut unit = unit.clone();
                    fed(&mut unit, port, begun);
                    assert_eq!(unit.stands_on(port), (place, count));
                    let before = unit.clone();
                    let stepped = told(&mut unit, way_to(port), control, &[]);
                    assert_eq!(stepped.answer, answer);
                    assert_eq!(usize::from(stepped.port), port);
                    // The count stays where it stood, and so do the bytes that are stored.
                    assert_eq!(unit.stands_on(port), (Place::Thrown, count));
                    assert_eq!(unit.stands_on(1 - port), (Place::Run, 0));
                    assert_eq!(unit.ports[port].message, before.ports[port].message);
                    assert_eq!(unit.diagnostics, moved(&before, &[THROWN[port]]));
                }
            }
        }
    });
}

#[test]
fn a_run_that_is_thrown_away_ends_at_its_fend_with_0() {
    on_both(|unit| {
        for port in [0, 1] {
            for (begun, _, count) in BEGUN {
                for rest in [
                    &[][..],
                    &[0x11],
                    &[0xDB],
                    &[0xDB, 0x00],
                    &[0xDB, 0xDC, 0xDB, 0xDD, 0xDB],
                    &[0x55; 1_100],
                    // What would have made it a sound message.
                    &[0x11, 0x80, 0xD8, 0x6D],
                ] {
                    let mut unit = unit.clone();
                    fed(&mut unit, port, begun);
                    assert_eq!(told(&mut unit, way_to(port), 0x80, &[]).answer, 1);
                    let mut due = unit.clone();
                    fed(&mut unit, port, rest);
                    assert_eq!(unit, due, "nothing is stored or counted");
                    assert_eq!(unit.stands_on(port), (Place::Thrown, count));
                    fed(&mut unit, port, &[FEND]);
                    due.record.receivers[port] = Receiver {
                        place: Place::Run,
                        count: 0,
                    };
                    assert_eq!(unit, due);
                    // It opened the next run, which is read as any other.
                    let way = way_to(1 - port);
                    assert_eq!(told(&mut unit, way, 0x80, &[]).answer, 1);
                    assert_eq!(unit.diagnostics, due.diagnostics);
                }
            }
        }
    });
}

#[test]
fn a_whole_message_is_thrown_away_before_its_fend() {
    // POKE of 07 to the first byte of user FRAM by 0x51, all of it there but for the FEND.
    on_both(|mut unit| {
        let poke = message(0x51, 0x11, 0x83, &at(FIRST, &[0x07]));
        fed(&mut unit, 1, &escaped(&poke));
        assert_eq!(unit.stands_on(1), (Place::Run, 10));
        let before = unit.clone();
        fed(&mut unit, 0, &PING_41[1..6]);
        assert_eq!(unit.step_on(0, FEND).answer, 1);
        fed(&mut unit, 1, &[FEND]);
        unit.diagnostics[THROWN[1]] -= 1;
        unit.same_memory(&before);
        // It stands in the buffer as before, and sent once more it is done.
        assert_eq!(unit.ports[1].message[..10], poke);
        assert_eq!(said(&mut unit, 1, &poke).answer, 1);
        assert_eq!(unit.fram[0], 0x07);
    });
}

#[test]
fn a_fresh_receiver_loses_nothing() {
    for (program, port) in PROGRAMS.into_iter().flat_map(|p| [(p, 0), (p, 1)]) {
        let mut unit = Bench::fresh_of(program, LIMIT);
        // Bytes before the first FEND are no run, and a count that is lent makes none of them.
        fed(&mut unit, port, &[0x41, 0xDB, 0x11]);
        for count in [0, 5, 1_034] {
            unit.record.receivers[port].count = count;
            fed(&mut unit, 1 - port, &[FEND]);
            let before = unit.clone();
            assert_eq!(told(&mut unit, way_to(port), 0x80, &[]).answer, 1);
            assert_eq!(unit.stands_on(port), (Place::Fresh, count));
            assert_eq!(unit.diagnostics, before.diagnostics);
        }
    }
}

#[test]
fn a_receiver_just_after_its_fend_loses_nothing() {
    on_both(|unit| {
        for port in [0, 1] {
            for run in [&[][..], &[0x01], &[0xDB], &[0xDB, 0x00], &[0x01; 5]] {
                let mut unit = unit.clone();
                answers(&mut unit, port, run);
                unit.step_on(port as u8, FEND);
                let before = unit.clone();
                assert_eq!(told(&mut unit, way_to(port), 0x80, &[]).answer, 1);
                assert_eq!(unit.stands_on(port), (Place::Run, 0));
                assert_eq!(unit.diagnostics, before.diagnostics);
            }
        }
    });
}

#[test]
fn a_reply_on_the_commands_own_port_throws_nothing_away() {
    on_both(|unit| {
        for way in [WAYS[1], WAYS[2]] {
            assert_eq!(way.heard, way.answered);
            for (begun, place, count) in BEGUN {
                // Not on its own port, and not the run that is open on the other.
                let (mut unit, other) = (unit.clone(), 1 - way.heard);
                fed(&mut unit, other, begun);
                let before = unit.clone();
                assert_eq!(told(&mut unit, way, 0x80, &[]).answer, 1);
                assert_eq!(unit.stands_on(way.heard), (Place::Run, 0));
                assert_eq!(unit.stands_on(other), (place, count));
                assert_eq!(unit.diagnostics, before.diagnostics);
            }
        }
    });
}

#[test]
fn a_lost_reply_throws_nothing_away() {
    on_both(|unit| {
        for port in [0, 1] {
            for (begun, place, count) in BEGUN {
                for (control, answer) in [(0x80, 2), (0x9F, 4)] {
                    let mut unit = unit.clone();
                    fed(&mut unit, port, begun);
                    unit.sending = while_sending(port, 1);
                    let before = unit.clone();
                    let stepped = told(&mut unit, way_to(port), control, &[]);
                    assert_eq!((stepped.answer, stepped.sent), (answer, 0));
                    assert_eq!(unit.stands_on(port), (place, count));
                    assert_eq!(unit.diagnostics, moved(&before, &[LOST[port]]));
                }
            }
        }
        // The run goes on: PING to 0x71 on port 1, with a reply that is lost there in its middle.
        let mut unit = unit;
        let ping = message(0x71, 0x11, 0x80, &[]);
        fed(&mut unit, 1, &ping[..3]);
        unit.sending = [0, 1];
        assert_eq!(said(&mut unit, 0, &PING_41[1..6]).answer, 2);
        fed(&mut unit, 1, &ping[3..]);
        let stepped = unit.step_on(1, FEND);
        assert_eq!((stepped.answer, stepped.port), (1, 0));
    });
}

#[test]
fn without_a_reply_nothing_is_lost_or_thrown_away() {
    // Poll clear, done and refused; an own address on the wrong port; memory that is not fitted, whatever the poll bit.
    on_both(|unit| {
        for (port, sending) in [0, 1].into_iter().flat_map(|p| [(p, [0, 0]), (p, [1, 1])]) {
            for (begun, place, count) in BEGUN {
                let (mut unit, way) = (unit.clone(), way_to(port));
                fed(&mut unit, port, begun);
                unit.sending = sending;
                let before = unit.clone();
                let outside = at(0, &[1]);
                for (control, data, answer) in [
                    (0x00, &[][..], 2),
                    (0x60, &[], 2),
                    (0x1F, &[], 4),
                    (0x02, &outside, 10),
                    (0x82, &outside, 10),
                ] {
                    assert_eq!(told(&mut unit, way, control, data).answer, answer);
                }
                // To the address that the other port hears and this one answers.
                let own = WAYS.iter().find(|w| w.heard == port && w.answered == port);
                let address = own.expect("a way").address + STRAP;
                let elsewhere = message(address, 0x11, 0x80, &[]);
                assert_eq!(said(&mut unit, way.heard, &elsewhere).answer, 9);
                assert_eq!(unit.stands_on(port), (place, count));
                assert_eq!(unit.replies(), before.replies());
                assert_eq!(unit.diagnostics, before.diagnostics);
            }
        }
    });
}

#[test]
fn a_run_is_thrown_away_once() {
    on_both(|unit| {
        for port in [0, 1] {
            let mut unit = unit.clone();
            fed(&mut unit, port, &[0x41, 0x11]);
            let before = unit.clone();
            for control in [0x80, 0x9F, 0x80] {
                let stepped = told(&mut unit, way_to(port), control, &[]);
                assert_eq!(usize::from(stepped.port), port);
                assert!(stepped.sent > 0);
                assert_eq!(unit.stands_on(port), (Place::Thrown, 2));
                assert_eq!(unit.diagnostics, moved(&before, &[THROWN[port]]));
                // Bytes of it in between make no other run of it.
                fed(&mut unit, port, &[0x80, 0xDB]);
            }
            // The next one is another.
            fed(&mut unit, port, &[FEND, 0x41]);
            told(&mut unit, way_to(port), 0x80, &[]);
            let channel = THROWN[port];
            assert_eq!(unit.diagnostics[channel], before.diagnostics[channel] + 2);
        }
    });
}

#[test]
fn a_lost_reply_in_a_run_that_is_thrown_away() {
    on_both(|mut unit| {
        fed(&mut unit, 1, &[0x41, 0x11]);
        told(&mut unit, WAYS[0], 0x80, &[]);
        let before = unit.clone();
        unit.sending = [0, 1];
        assert_eq!(told(&mut unit, WAYS[0], 0x80, &[]).answer, 2);
        assert_eq!(unit.stands_on(1), (Place::Thrown, 2));
        assert_eq!(unit.diagnostics, moved(&before, &[LOST[1]]));
    });
}

#[test]
fn a_diagnostic_shows_the_counts_before_its_own_reply() {
    on_both(|mut unit| {
        // By 0x41 on port 0, while port 1 is in a run: 0x13 is shown as it was, and then is one higher.
        fed(&mut unit, 1, &[0x41]);
        let stepped = told(&mut unit, WAYS[0], 0x84, &[0x0C, 0x0D, 0x13, 0x14]);
        let reply = unpacked(&unit.sent(&stepped));
        assert_eq!(reply[..3], [0x11, 0x41, 0xA4]);
        assert_eq!(
            reply[3..23],
            [
                0x0C, 0x0C, 0x00, 0x11, 0x11, 0x0D, 0x0D, 0x00, 0x11, 0x11, 0x13, 0x13, 0x00, 0x11,
                0x11, 0x14, 0x14, 0x00, 0x11, 0x11
            ]
        );
        assert_eq!(unit.diagnostics[0x13], 0x1111_0014);
        // By 0x71 on port 1 (whose run is closed first), while port 0 is in one.
        fed(&mut unit, 1, &[FEND]);
        fed(&mut unit, 0, &[0xDB]);
        let stepped = told(&mut unit, WAYS[3], 0x84, &[0x0C, 0x13]);
        let reply = unpacked(&unit.sent(&stepped));
        assert_eq!(reply[..3], [0x11, 0x71, 0xA4]);
        let shown = [0x0C, 0x0C, 0x00, 0x11, 0x11, 0x13, 0x14, 0x00, 0x11, 0x11];
        assert_eq!(reply[3..13], shown);
        assert_eq!(unit.diagnostics[0x0C], 0x1111_000D);
        // One that is lost shows nothing, and the next shows it.
        unit.sending = [0, 1];
        fed(&mut unit, 0, &[FEND]);
        assert_eq!(told(&mut unit, WAYS[0], 0x84, &[0x14]).answer, 2);
        unit.sending = [0, 0];
        let stepped = told(&mut unit, WAYS[0], 0x84, &[0x14]);
        let reply = unpacked(&unit.sent(&stepped));
        assert_eq!(reply[3..8], [0x14, 0x15, 0x00, 0x11, 0x11]);
    });
}

#[test]
fn errors_are_counted_for_their_own_port() {
    on_both(|unit| {
        for port in [0, 1] {
            for (run, answer, channel) in [
                (vec![0xDB], 5, FRAMING[port]),
                (vec![0x01, 0xDB, 0x01], 5, FRAMING[port]),
                (vec![0x01; 4], 6, RUNT[port]),
                (vec![0x01; 1_034], 7, OVERSIZE[port]),
                (vec![0x01; 5], 8, BAD_CRC[port]),
            ] {
                let mut unit = unit.clone();
                let before = unit.clone();
                fed(&mut unit, port, &run);
                let stepped = unit.step_on(port as u8, FEND);
                assert_eq!((stepped.answer, stepped.sent, stepped.port), (answer, 0, 0));
                assert_eq!(unit.diagnostics, moved(&before, &[channel]));
                assert_eq!(unit.record, before.record);
                let other = 1 - port;
                assert_eq!(unit.ports[other], before.ports[other]);
            }
        }
    });
}

#[test]
fn every_count_stays_at_its_highest_value() {
    on_both(|unit| {
        for port in [0, 1] {
            let full = |channel: usize, then: &dyn Fn(&mut Bench)| {
                let mut unit = unit.clone();
                unit.diagnostics[channel] = 0xFFFF_FFFE;
                let mut due = unit.diagnostics.clone();
                due[channel] = 0xFFFF_FFFF;
                for _ in 0..3 {
                    then(&mut unit);
                    assert_eq!(unit.diagnostics, due);
                }
            };
            let run = |bytes: &'static [u8]| {
                move |unit: &mut Bench| {
                    fed(unit, port, bytes);
                    assert!(unit.step_on(port as u8, FEND).answer > 4);
                }
            };
            full(FRAMING[port], &run(&[0xDB]));
            full(RUNT[port], &run(&[0x01]));
            full(OVERSIZE[port], &run(&[0x01; 1_034]));
            full(BAD_CRC[port], &run(&[0x01; 5]));
            full(THROWN[port], &|unit| {
                fed(unit, port, &[FEND, 0x41]);
                assert_eq!(told(unit, way_to(port), 0x80, &[]).answer, 1);
            });
            full(LOST[port], &|unit| {
                unit.sending = while_sending(port, 1);
                assert_eq!(told(unit, way_to(port), 0x80, &[]).answer, 2);
            });
        }
    });
}

#[test]
fn two_messages_come_byte_by_byte_in_turn() {
    on_both(|mut unit| {
        // PING to 0x61 on port 0, and PING with one byte to 0x51 on port 1. Each is answered on its own port.
        let (zero, one) = (
            message(0x61, 0x11, 0x80, &[]),
            message(0x51, 0x22, 0x80, &[7]),
        );
        for i in 0..5 {
            fed(&mut unit, 1, &[one[i]]);
            fed(&mut unit, 0, &[zero[i]]);
        }
        assert_eq!(unit.stands_on(0), (Place::Run, 5));
        assert_eq!(unit.stands_on(1), (Place::Run, 5));
        assert_eq!(unit.ports[0].message[..6], [&zero[..], &[0xAA]].concat());
        assert_eq!(unit.ports[1].message[..6], [&one[..5], &[0xBB]].concat());
        let stepped = unit.step_on(0, FEND);
        assert_eq!((stepped.answer, stepped.port), (1, 0));
        assert_eq!(unit.sent(&stepped)[1..4], [0x11, 0x61, 0xA0]);
        fed(&mut unit, 1, &one[5..]);
        let stepped = unit.step_on(1, FEND);
        assert_eq!((stepped.answer, stepped.port), (1, 1));
        assert_eq!(unit.sent(&stepped)[1..4], [0x22, 0x51, 0xA0]);
    });
}

#[test]
fn a_message_is_received_though_the_other_port_speaks_in_between() {
    // As long as no reply leaves on the message's port: others may leave, be lost, or not be asked for.
    on_both(|unit| {
        for port in [0, 1] {
            for length in [5, 6, 300, 1_032, 1_033] {
                let mut unit = unit.clone();
                let due: Vec<u8> = pattern(length).iter().map(|b| 0xB0 | b).collect();
                let (line, other) = (escaped(&due), 1 - port);
                for (i, byte) in line.iter().enumerate() {
                    if i % 100 == 1 {
                        unit.sending = [0, 0];
                        let own = WAYS
                            .iter()
                            .find(|w| w.heard == other && w.answered == other);
                        assert_eq!(told(&mut unit, *own.expect("a way"), 0x80, &[]).answer, 1);
                        assert_eq!(told(&mut unit, way_to(port), 0x00, &[]).answer, 2);
                        unit.sending = while_sending(port, 1);
                        assert_eq!(told(&mut unit, way_to(port), 0x80, &[]).answer, 2);
                        answers(&mut unit, other, &[0xDB, 0x00, 0xC0, 0x01, 0xC0, 0xC0]);
                    }
                    fed(&mut unit, port, &[*byte]);
                }
                assert_eq!(unit.stands_on(port), (Place::Run, length));
                assert_eq!(unit.ports[port].message[..length], due);
            }
        }
    });
}

#[test]
fn a_lent_receiver_that_throws_its_run_away_is_believed() {
    on_both(|unit| {
        for port in [0, 1] {
            for count in [0, 1, 5, 1_033, 1_034] {
                let mut unit = unit.clone();
                unit.record.receivers[port] = Receiver {
                    place: Place::Thrown,
                    count,
                };
                let before = unit.clone();
                fed(&mut unit, port, &[0x41, 0xDB, 0xDC, 0xDB, 0x00, 0xDB]);
                assert_eq!(unit, before);
                // A reply on its port makes nothing of it.
                assert_eq!(told(&mut unit, way_to(port), 0x80, &[]).answer, 1);
                assert_eq!(unit.diagnostics, before.diagnostics);
                assert_eq!(unit.stands_on(port), (Place::Thrown, count));
                fed(&mut unit, port, &[FEND]);
                assert_eq!(unit.stands_on(port), (Place::Run, 0));
                assert_eq!(unit.diagnostics, before.diagnostics);
            }
            let mut unit = unit.clone();
            unit.record.receivers[port] = Receiver {
                place: Place::Thrown,
                count: 1_035,
            };
            for byte in [FEND, 0xDB, 0x41] {
                assert_eq!(answers(&mut unit, port, &[byte]), [26]);
                assert_eq!(answers(&mut unit, 1 - port, &[byte]), [26]);
            }
        }
    });
}

#[test]
fn a_run_that_is_too_long_is_thrown_away_like_any_other() {
    for (program, port) in PROGRAMS.into_iter().flat_map(|p| [(p, 0), (p, 1)]) {
        for (limit, lent) in [(260, 266), (260, 700), (260, 1_034), (1_028, 1_034)] {
            let mut unit = Bench::fresh_of(program, limit);
            fed(&mut unit, 0, &[FEND]);
            fed(&mut unit, 1, &[FEND]);
            fed(&mut unit, port, &vec![0x55; 1_100]);
            assert_eq!(unit.stands_on(port), (Place::Run, limit as usize + 6));
            // A higher count that is lent stays too.
            unit.record.receivers[port].count = lent;
            let before = unit.clone();
            assert_eq!(told(&mut unit, way_to(port), 0x80, &[]).answer, 1);
            assert_eq!(unit.stands_on(port), (Place::Thrown, lent));
            fed(&mut unit, port, &[0x55, FEND]);
            assert_eq!(unit.stands_on(port), (Place::Run, 0));
            assert_eq!(unit.diagnostics, moved(&before, &[THROWN[port]]));
        }
    }
}

#[test]
fn a_lent_run_without_bytes_is_no_run() {
    // A count of 0 in a run is one just after its FEND, whatever came before; a FESC or a fault is a byte that came.
    on_both(|unit| {
        for port in [0, 1] {
            for (place, after) in [
                (Place::Fresh, Place::Fresh),
                (Place::Run, Place::Run),
                (Place::Escape, Place::Thrown),
                (Place::Fault, Place::Thrown),
                (Place::Thrown, Place::Thrown),
            ] {
                let mut unit = unit.clone();
                unit.record.receivers[port] = Receiver { place, count: 0 };
                let before = unit.clone();
                told(&mut unit, way_to(port), 0x80, &[]);
                assert_eq!(unit.stands_on(port), (after, 0));
                let counted: &[usize] = match place {
                    Place::Escape | Place::Fault => &[THROWN[port]],
                    _ => &[],
                };
                assert_eq!(unit.diagnostics, moved(&before, counted));
            }
        }
    });
}

#[test]
fn every_number_of_a_port_but_two_is_refused() {
    on_both(|mut unit| {
        fed(&mut unit, 0, &[0x41, 0xDB]);
        fed(&mut unit, 1, &[0x51]);
        unit.sending = [1, 0];
        let before = unit.clone();
        for port in 2..=0xFF {
            for byte in [FEND, 0xDB, 0x00] {
                let stepped = unit.step_on(port, byte);
                assert_eq!((stepped.answer, stepped.sent, stepped.port), (27, 0, 0));
                assert_eq!(stepped.cost, 0);
                assert_eq!(unit, before);
            }
        }
    });
}

#[test]
fn a_wrong_port_is_refused_after_26_and_before_29() {
    for program in PROGRAMS {
        let wrong = |change: fn(&mut Record), port| {
            let mut unit = open(program);
            change(&mut unit.record);
            let before = unit.clone();
            let answer = unit.step_on(port, FEND).answer;
            assert_eq!(unit, before);
            answer
        };
        assert_eq!(wrong(|_| (), 2), 27);
        assert_eq!(wrong(|r| r.limit = 259, 2), 27);
        assert_eq!(wrong(|r| r.limit = 259, 1), 29);
        for port in [0, 1, 2, 0xFF] {
            assert_eq!(wrong(|r| r.receivers[0].count = 1_035, port), 26);
            assert_eq!(wrong(|r| r.receivers[1].count = 1_035, port), 26);
            assert_eq!(wrong(|r| r.receivers[1].count = usize::MAX, port), 26);
            assert_eq!(wrong(|r| r.strap = 8, port), 20);
        }
        assert_eq!(
            wrong(
                |r| {
                    r.receivers[1].count = 1_035;
                    r.limit = 0;
                },
                2
            ),
            26
        );
    }
}

#[test]
fn short_buffers_of_either_port() {
    for program in PROGRAMS {
        for port in [0, 1] {
            let changes: [fn(&mut Lines); 4] = [
                |lines| lines.message.truncate(1_032),
                |lines| lines.reply.truncate(2_067),
                |lines| lines.message.clear(),
                |lines| lines.reply.clear(),
            ];
            for change in changes {
                let mut bare = Bench::bare_of(program, 256);
                change(&mut bare.ports[port]);
                let before = bare.clone();
                assert_eq!(bare.set_up(STRAP), 25);
                assert_eq!(bare, before);
                // On either port, before 26, 27 and 29.
                let mut unit = open(program);
                change(&mut unit.ports[port]);
                unit.record.receivers[0].count = 1_035;
                unit.record.limit = 0;
                let before = unit.clone();
                for heard in [0, 1, 2] {
                    assert_eq!(unit.step_on(heard, FEND).answer, 25);
                    assert_eq!(unit, before);
                }
            }
        }
    }
}

#[test]
fn a_refused_set_up_hands_back_one_record() {
    for program in PROGRAMS {
        for (strap, limit, locked) in [(8, 1_028, 1), (0xFF, 0, 0), (7, 259, 1)] {
            let mut unit = open(program);
            assert!(unit.set_up_as(strap, limit, locked) >= 20);
            let due = Record {
                strap: 8,
                mode: Mode::Bootloader,
                bootloader_len: 0,
                fram_len: 0,
                locked: 0,
                limit: 0,
                receivers: [FRESH, FRESH],
            };
            assert_eq!(unit.record, due);
            for port in [0, 1, 2] {
                assert_eq!(unit.step_on(port, FEND).answer, 20);
            }
        }
    }
}

#[test]
fn a_later_set_up_makes_both_receivers_fresh() {
    on_both(|mut unit| {
        fed(&mut unit, 0, &[0x41]);
        fed(&mut unit, 1, &[0x41, 0xDB]);
        let before = unit.clone();
        assert_eq!(unit.set_up(7), 0);
        assert_eq!(unit.record.receivers, [FRESH, FRESH]);
        // What the buffers and the counts hold is as it was.
        assert_eq!(unit.ports, before.ports);
        assert_eq!(unit.diagnostics, before.diagnostics);
    });
}

#[test]
fn replies_of_both_ports_stand_side_by_side() {
    on_both(|mut unit| {
        // PING to 0x41 is answered on port 1, and PING to 0x71 on port 0; neither alters what stands in the other's buffer.
        let first = said(&mut unit, 0, &PING_41[1..6]);
        let second = told(&mut unit, WAYS[3], 0x80, &[]);
        assert_eq!((first.port, second.port), (1, 0));
        assert_eq!(unit.ports[1].reply[..24], PONG_41);
        let due = message(0x11, 0x71, 0xA0, b"WHEEL UNIT NSP 01");
        assert_eq!(unpacked(&unit.ports[0].reply[..second.sent]), due);
    });
}
