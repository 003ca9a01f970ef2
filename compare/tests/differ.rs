//! The comparison itself: what its streams reach, that a seed gives one stream, and that it sees a wheel that panics.

use compare::differ::{session, sessions, Tally};
use compare::record::Record;
use compare::wheel::{Heard, HeardMany, Lent, Many, Second, Stepped, Wheel};
use compare::Part;
use std::cell::RefCell;

#[test]
fn every_answer_and_every_command_comes_often() {
    let mut tally = Tally::default();
    sessions(&Second, &Second, 1, 3_000_000, &mut tally).unwrap();
    for answer in (0..=10).chain(20..=27).chain([29]) {
        assert!(tally.answers.of(answer) >= 100, "{answer}:\n{tally}");
    }
    for (code, times) in tally.commands.iter().enumerate() {
        let done = matches!(code, 0x00..=0x04 | 0x06..=0x0B);
        // PING is never refused.
        let refused = code != 0x00;
        let outside = matches!(code, 0x02 | 0x03 | 0x06);
        let due = [
            (1, done),
            (2, done),
            (3, refused),
            (4, refused),
            (10, outside),
        ];
        for (answer, comes) in due {
            assert_eq!(times.of(answer) > 0, comes, "{code:#04x}:\n{tally}");
        }
    }
    for answer in [0, 29].into_iter().chain(20..=25) {
        assert!(tally.set_ups.of(answer) >= 5, "{answer}:\n{tally}");
    }
    for answer in [0, 25, 35] {
        assert!(tally.packed.of(answer) >= 50, "{answer}:\n{tally}");
    }
    for answer in [0, 36] {
        assert!(tally.joined.of(answer) >= 50, "{answer}:\n{tally}");
    }
    for (times, answers) in [
        (&tally.judged, &[0, 1][..]),
        (&tally.stored, &[0, 4, 21]),
        (&tally.sent, &[1, 2, 3, 4, 7]),
    ] {
        for &answer in answers {
            assert!(times.of(answer) >= 20, "{answer}:\n{tally}");
        }
    }
    // Every read-only row is written over and beside and shown in every way, every file written, every end of the limits and of
    // the two FRAMs met, every kind of range of a CRC command, with the highest cost, all that can befall the two ports, and all that
    // a call with many bytes can come to.
    let missed = tally.missed();
    assert!(missed.is_empty(), "{missed:#?}\n{tally}");
}

#[test]
fn a_run_that_is_too_short_says_what_it_missed() {
    // 39 rows in nine ways, but for the two ways by file of the one that is no file, and 256 files; four limits, and a count
    // beyond the limit in each of five places; four forms of range from window to window in seven ways, CRC in three more and
    // with each of four ends at each of four, the lock by four answers when locked and when not, POKE in three ways, and two
    // bytes and three set-ups by what they say of the lock; in each FRAM 51 ways in which a range lies to the blocks, CRC by two
    // answers when locked and when not, and two costs; and CRC refused for three reasons by two answers. For each port: what can
    // come of a message in eight ways by six places at which the port of its reply stands, or by its being the same; 16 addresses
    // heard there and not on the other; in a run that is thrown away four kinds of bytes and three of counts; five lent places,
    // four errors, six counts at their highest, four calls with a short buffer, and six points more. Eight straps, eleven commands
    // whose reply is lost, four refused straps, nine refused bytes, and two points more. Of calls with many bytes 20 answers, no
    // bytes in two ways where one would be refused, one byte lost of several, and eleven points for each port.
    let ports = 2 * (8 * 7 + 2 * 16 + 4 + 3 + 5 + 4 + 6 + 4 + 6) + 8 + 11 + 4 + 9 + 2;
    let many = 20 + 2 + 1 + 2 * 11;
    let all =
        39 * 9 - 2 + 256 + 4 + 5 + 4 * 7 + 3 + 16 + 8 + 3 + 5 + 2 * (51 + 4 + 2) + 6 + ports + many;
    let mut tally = Tally::default();
    assert_eq!(tally.missed().len(), all);
    session(&Second, &Second, 1, &mut tally).unwrap();
    let missed = tally.missed().len();
    assert!(0 < missed && missed < all, "{missed}");
}

/// A wheel that notes each call, and halts at one of them.
struct Noting {
    calls: RefCell<Vec<(Record, Heard)>>,
    halt: usize,
}

impl Wheel for Noting {
    fn set_up(&self, strap: u8, limit: u64, locked: u8, lent: Lent) -> Stepped {
        Second.set_up(strap, limit, locked, lent)
    }

    fn step(&self, record: Record, heard: Heard, lent: Lent) -> Stepped {
        self.calls.borrow_mut().push((record, heard));
        assert!(self.calls.borrow().len() <= self.halt, "the wheel halts");
        Second.step(record, heard, lent)
    }

    fn steps(&self, record: Record, heard: HeardMany, lent: Lent) -> Many {
        Second.steps(record, heard, lent)
    }

    fn pack(&self, message: &[u8], reply: &mut [u8]) -> (u8, usize) {
        Second.pack(message, reply)
    }

    fn join(&self, first: Part, second: Part) -> Result<Part, u8> {
        Second.join(first, second)
    }

    fn judge_list(&self, limit: u64, list: &[u8]) -> bool {
        Second.judge_list(limit, list)
    }

    fn store_list(&self, limit: u64, edac: &mut [u8], list: &[u8]) -> u8 {
        Second.store_list(limit, edac, list)
    }
}

fn noting(halt: usize) -> Noting {
    Noting {
        calls: RefCell::new(Vec::new()),
        halt,
    }
}

#[test]
fn a_seed_gives_one_stream() {
    let streams: Vec<Vec<(Record, Heard)>> = [7, 7, 8]
        .map(|seed| {
            let wheel = noting(usize::MAX);
            session(&wheel, &Second, seed, &mut Tally::default()).unwrap();
            wheel.calls.into_inner()
        })
        .into();
    assert_eq!(streams[0], streams[1]);
    assert_ne!(streams[0], streams[2]);
}

#[test]
fn a_wheel_that_halts_is_a_difference_at_its_place() {
    let difference = session(&Second, &noting(1_000), 5, &mut Tally::default()).unwrap_err();
    assert_eq!((difference.seed, difference.offset), (5, 1_000));
    assert!(difference.what.ends_with("a wheel panicked"));
    // The seed has it again.
    let again = session(&Second, &noting(1_000), 5, &mut Tally::default()).unwrap_err();
    assert_eq!(again.what, difference.what);
}
