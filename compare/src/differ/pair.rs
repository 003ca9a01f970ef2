//! Two wheels over equal buffers: each call is made on both, and what they hand back and what they left must agree.

use super::ports::Aside;
use super::tally::Tally;
use super::traffic::Call;
use crate::record::{Receiver, Record, REFUSED};
use crate::wheel::{Fram, Heard, HeardMany, Lent, Many, Port, Stepped, Wheel};
use crate::{Part, Seeded};
use std::panic::{catch_unwind, AssertUnwindSafe};

const FEND: u8 = 0xC0;

/// Cells beyond the right length of each buffer, so that a longer one can be lent and a write past the end shows.
const SLACK: usize = 512;

/// An FRAM above this is compared at FENDs and at numbers other than 0 only.
const LONG: usize = 4_096;

/// Which of two FRAMs, wherever a pair has both.
pub const BOOTLOADER: usize = 0;
pub const USER: usize = 1;

/// Everything that can be lent, one side's copy.
#[derive(Clone, PartialEq)]
pub struct Buffers {
    pub edac: Vec<u8>,
    pub frams: [Chip; 2],
    pub diagnostics: Vec<u32>,
    pub ports: [Lines; 2],
}

/// An FRAM and its sums.
#[derive(Clone, PartialEq)]
pub struct Chip {
    pub bytes: Vec<u8>,
    pub sums: Vec<u16>,
}

/// The two buffers of a port.
#[derive(Clone, PartialEq)]
pub struct Lines {
    pub message: Vec<u8>,
    pub reply: Vec<u8>,
}

/// How many cells of each buffer the next call is lent.
#[derive(Clone, Copy, Debug, PartialEq)]
pub struct Lengths {
    pub edac: usize,
    pub frams: [ChipLengths; 2],
    pub diagnostics: usize,
    pub ports: [LineLengths; 2],
}

#[derive(Clone, Copy, Debug, PartialEq)]
pub struct LineLengths {
    pub message: usize,
    pub reply: usize,
}

impl LineLengths {
    /// As much as a port needs, or somewhat more.
    fn any(seeded: &mut Seeded) -> LineLengths {
        LineLengths {
            message: 1_033 + seeded.pick(&[0, 0, 0, 1, 200]),
            reply: 2_068 + seeded.pick(&[0, 0, 0, 1, 200]),
        }
    }
}

#[derive(Clone, Copy, Debug, PartialEq)]
pub struct ChipLengths {
    pub bytes: usize,
    pub sums: usize,
}

impl ChipLengths {
    /// So many bytes, with as many sums as they have whole blocks.
    pub fn of(bytes: usize) -> ChipLengths {
        ChipLengths {
            bytes,
            sums: bytes / 256,
        }
    }
}

pub struct Pair<'a> {
    first: &'a dyn Wheel,
    second: &'a dyn Wheel,
    sides: [Buffers; 2],
    pub tally: &'a mut Tally,
    pub lengths: Lengths,
    pub record: Record,
    pub offset: u64,
    /// The port that bytes go to now.
    pub port: usize,
    /// The number that a call is told in its place.
    pub misnamed: Option<u8>,
    /// What a call is told of each port: whether it is sending.
    pub sending: [u8; 2],
    /// What comes on the other port in between.
    pub aside: Aside,
    /// What the last call handed back.
    handed: Record,
}

/// The largest FRAM that may be fitted.
pub const LARGEST: usize = 262_144;

/// FRAM sizes: mostly small, so that whole buffers are quickly compared. Of 64 sessions each FRAM is the largest in two.
fn fram_lens(seed: u64, seeded: &mut Seeded) -> [usize; 2] {
    let mut blocks = |most| 256 * (1 + seeded.below(most));
    match seed % 64 {
        15 => [LARGEST, blocks(6)],
        31 => [blocks(6), LARGEST],
        63 => [LARGEST, LARGEST],
        14 => [blocks(1_024), blocks(6)],
        30 => [blocks(6), blocks(1_024)],
        10..=13 => [blocks(64), blocks(6)],
        26..=29 => [blocks(6), blocks(64)],
        _ => [blocks(6), blocks(6)],
    }
}

impl<'a> Pair<'a> {
    pub fn new(
        first: &'a dyn Wheel,
        second: &'a dyn Wheel,
        seed: u64,
        seeded: &mut Seeded,
        tally: &'a mut Tally,
    ) -> Pair<'a> {
        let lengths = Lengths {
            edac: 1_536,
            frams: fram_lens(seed, seeded).map(ChipLengths::of),
            diagnostics: 31,
            ports: [LineLengths::any(seeded), LineLengths::any(seeded)],
        };
        let cells = Buffers {
            edac: seeded.bytes(lengths.edac + SLACK),
            frams: lengths.frams.map(|lengths| Chip {
                bytes: seeded.bytes(lengths.bytes + SLACK),
                sums: (0..lengths.sums + SLACK)
                    .map(|_| seeded.number() as u16)
                    .collect(),
            }),
            diagnostics: (0..lengths.diagnostics + SLACK)
                .map(|_| seeded.number() as u32)
                .collect(),
            ports: lengths.ports.map(|lengths| Lines {
                message: seeded.bytes(lengths.message + SLACK),
                reply: seeded.bytes(lengths.reply + SLACK),
            }),
        };
        Pair {
            first,
            second,
            sides: [cells.clone(), cells],
            tally,
            lengths,
            record: REFUSED,
            offset: 0,
            port: 0,
            misnamed: None,
            sending: [0; 2],
            aside: Aside::new(seeded.number()),
            handed: REFUSED,
        }
    }

    /// The receiver of the port that bytes go to now.
    pub fn receiver(&mut self) -> &mut Receiver {
        &mut self.record.receivers[self.port]
    }

    /// One byte to both wheels, after those that come on the other port before it.
    pub fn byte(&mut self, byte: u8) -> Result<u8, String> {
        let other = 1 - self.port;
        while let Some(between) = self.aside.next(&self.record, other) {
            self.sending = self.aside.sending(self.sending);
            self.on(other, between)?;
        }
        self.on(self.port, byte)
    }

    /// One byte on a port to both wheels, with nothing before it.
    pub fn on(&mut self, port: usize, byte: u8) -> Result<u8, String> {
        let heard = Heard {
            port: self.misnamed.unwrap_or(port as u8),
            byte,
            sending: self.sending,
        };
        Ok(self.heard(heard)?.answer)
    }

    /// One call with a byte. The record is kept for the next one.
    fn heard(&mut self, heard: Heard) -> Result<Stepped, String> {
        let (record, lengths) = (self.record, self.lengths);
        let [left, right] = &mut self.sides;
        // For the tally: what a command finds, if this closes one.
        let held = (heard.byte == FEND).then(|| (left.edac.clone(), left.diagnostics.clone()));
        let call = || format!("{heard:x?}, {record:?}, {lengths:?}");
        let made = |wheel: &dyn Wheel, side| {
            returned(|| wheel.step(record, heard, lent(side, &lengths)), call)
        };
        let (one, two) = (made(self.first, left)?, made(self.second, right)?);
        agree(one, two, call)?;
        let all = heard.byte == FEND || one.answer != 0;
        same_buffers(left, right, all, call)?;
        self.count(heard, &one, held);
        self.offset += 1;
        (self.record, self.handed) = (one.record, one.record);
        Ok(one)
    }

    /// Tells the tally what a byte came to.
    fn count(&mut self, heard: Heard, stepped: &Stepped, held: Option<(Vec<u8>, Vec<u32>)>) {
        let (record, answer, left) = (self.record, stepped.answer, &self.sides[0]);
        let port = usize::from(heard.port);
        let message = left.ports.get(port).map_or(&[][..], |port| &port.message);
        let code = message.get(2).map_or(0, |control| control & 0x1F);
        self.tally.byte(answer, code);
        self.tally.frams.byte(&record, answer);
        let (edac, diagnostics) = held.unwrap_or_default();
        self.tally.ports.byte(&Call {
            record: &record,
            lengths: &self.lengths,
            handed: &self.handed,
            heard,
            stepped,
            message,
            diagnostics: &diagnostics,
        });
        if answer >= 20 {
            return;
        }
        let receiver = record.receivers[port];
        let limits = &mut self.tally.limits;
        limits.byte(record.limit, receiver, heard.byte);
        if matches!(answer, 1..=4 | 10) {
            let (data, chip) = (&message[3..receiver.count - 2], &left.frams[BOOTLOADER]);
            let frams = &mut self.tally.frams;
            frams.answered(&record, code, data, answer, chip);
            self.tally.costs.answered(&record, code, data, stepped);
            if matches!(answer, 1 | 2) {
                self.tally.rows.done(code, data, &edac);
            }
        }
    }

    /// Many bytes on a port in one call to both wheels. What the first makes of them must also be what it makes of them one by one.
    pub fn many(&mut self, port: usize, bytes: &[u8]) -> Result<Many, String> {
        let heard = HeardMany {
            port: self.misnamed.unwrap_or(port as u8),
            bytes,
            sending: self.sending,
        };
        let (record, lengths) = (self.record, self.lengths);
        let [left, right] = &mut self.sides;
        let mut copy = left.clone();
        let call = || format!("{heard:x?}, {record:?}, {lengths:?}");
        let made = |wheel: &dyn Wheel, side| {
            returned(|| wheel.steps(record, heard, lent(side, &lengths)), call)
        };
        let (one, two) = (made(self.first, left)?, made(self.second, right)?);
        agree(one, two, call)?;
        same_buffers(left, right, true, call)?;
        let singly = || format!("{}, and one by one", call());
        let ones = returned(
            || one_by_one(self.first, record, heard, &mut copy, &lengths),
            singly,
        )?;
        agree(one, ones, singly)?;
        same_buffers(left, &copy, true, singly)?;
        self.tally.many.call(&record, heard, &one);
        self.offset += one.taken as u64;
        (self.record, self.handed) = (one.last.record, one.last.record);
        Ok(one)
    }

    pub fn bytes(&mut self, bytes: &[u8]) -> Result<(), String> {
        for &byte in bytes {
            self.byte(byte)?;
        }
        Ok(())
    }

    pub fn set_up(&mut self, strap: u8, limit: u64, locked: u8) -> Result<u8, String> {
        let lengths = self.lengths;
        let [left, right] = &mut self.sides;
        let call =
            || format!("set-up with strap {strap}, limit {limit}, locked {locked}, {lengths:?}");
        let made = |wheel: &dyn Wheel, side| {
            returned(
                || wheel.set_up(strap, limit, locked, lent(side, &lengths)),
                call,
            )
        };
        let (one, two) = (made(self.first, left)?, made(self.second, right)?);
        agree(one, two, call)?;
        same_buffers(left, right, true, call)?;
        self.tally.set_ups.add(one.answer);
        self.tally.frams.set_up(locked, one.answer);
        self.tally.ports.set_up(strap, one.answer, &lengths);
        (self.record, self.handed) = (one.record, one.record);
        Ok(one.answer)
    }

    pub fn pack(&mut self, message: &[u8], reply: usize) -> Result<(), String> {
        let port = self.port;
        let [left, right] = &mut self.sides;
        let call = || format!("packing {message:x?} into {reply}");
        let made = |wheel: &dyn Wheel, side: &mut Buffers| {
            let buffer = &mut side.ports[port].reply[..reply];
            returned(|| wheel.pack(message, buffer), call)
        };
        let (one, two) = (made(self.first, left)?, made(self.second, right)?);
        agree(one, two, call)?;
        same_buffers(left, right, true, call)?;
        self.tally.packed.add(one.0);
        Ok(())
    }

    pub fn join(&mut self, a: Part, b: Part) -> Result<(), String> {
        let call = || format!("joining {a:?} and {b:?}");
        let one = returned(|| self.first.join(a, b), call)?;
        let two = returned(|| self.second.join(a, b), call)?;
        agree(one, two, call)?;
        self.tally.joined.add(one.err().unwrap_or(0));
        Ok(())
    }

    pub fn judge_list(&mut self, limit: u64, list: &[u8]) -> Result<bool, String> {
        let call = || format!("judging {list:x?}, limit {limit}");
        let one = returned(|| self.first.judge_list(limit, list), call)?;
        let two = returned(|| self.second.judge_list(limit, list), call)?;
        agree(one, two, call)?;
        self.tally.judged.add(one.into());
        Ok(one)
    }

    /// Storing in EDAC memory of which so many bytes are lent.
    pub fn store_list(&mut self, limit: u64, edac: usize, list: &[u8]) -> Result<u8, String> {
        let [left, right] = &mut self.sides;
        let call = || format!("storing {list:x?}, limit {limit}, in {edac}");
        let (here, there) = (&mut left.edac[..edac], &mut right.edac[..edac]);
        let one = returned(|| self.first.store_list(limit, here, list), call)?;
        let two = returned(|| self.second.store_list(limit, there, list), call)?;
        agree(one, two, call)?;
        same_buffers(left, right, true, call)?;
        self.tally.stored.add(one);
        Ok(one)
    }

    /// EDAC memory, with its slack.
    pub fn edac(&self) -> Vec<u8> {
        self.sides[0].edac.clone()
    }

    /// The most blocks of an FRAM that can be lent, so that there is still slack.
    pub fn blocks(&self, which: usize) -> usize {
        (self.sides[0].frams[which].bytes.len() - SLACK) / 256
    }

    /// The length of an FRAM that the record has.
    pub fn recorded(&mut self, which: usize) -> &mut usize {
        match which {
            BOOTLOADER => &mut self.record.bootloader_len,
            _ => &mut self.record.fram_len,
        }
    }

    /// Changes both sides' buffers alike, as a caller may between two calls.
    pub fn alter(&mut self, change: impl Fn(&mut Buffers)) {
        for side in &mut self.sides {
            change(side);
        }
    }
}

/// Many bytes as single ones: up to the first answer other than 0. With none the record comes back, its lock as it is read.
fn one_by_one(
    wheel: &dyn Wheel,
    record: Record,
    heard: HeardMany,
    cells: &mut Buffers,
    lengths: &Lengths,
) -> Many {
    let HeardMany { port, sending, .. } = heard;
    let locked = u8::from(record.locked != 0);
    let mut many = Many {
        last: Stepped {
            record: Record { locked, ..record },
            answer: 0,
            sent: 0,
            port: 0,
            cost: 0,
        },
        taken: 0,
    };
    for &byte in heard.bytes {
        let heard = Heard {
            port,
            byte,
            sending,
        };
        many.last = wheel.step(many.last.record, heard, lent(cells, lengths));
        many.taken += 1;
        if many.last.answer != 0 {
            break;
        }
    }
    many
}

fn lent<'a>(cells: &'a mut Buffers, lengths: &Lengths) -> Lent<'a> {
    let [bootloader, user] = &mut cells.frams;
    let [zero, one] = &mut cells.ports;
    Lent {
        edac: &mut cells.edac[..lengths.edac],
        bootloader: lent_chip(bootloader, &lengths.frams[BOOTLOADER]),
        user: lent_chip(user, &lengths.frams[USER]),
        diagnostics: &mut cells.diagnostics[..lengths.diagnostics],
        ports: [
            lent_lines(zero, &lengths.ports[0]),
            lent_lines(one, &lengths.ports[1]),
        ],
    }
}

fn lent_lines<'a>(cells: &'a mut Lines, lengths: &LineLengths) -> Port<'a> {
    Port {
        message: &mut cells.message[..lengths.message],
        reply: &mut cells.reply[..lengths.reply],
    }
}

fn lent_chip<'a>(cells: &'a mut Chip, lengths: &ChipLengths) -> Fram<'a> {
    Fram {
        bytes: &mut cells.bytes[..lengths.bytes],
        sums: &mut cells.sums[..lengths.sums],
    }
}

/// What a call hands back. A wheel that panics differs from any other, since no call may halt.
fn returned<T>(wheel: impl FnOnce() -> T, call: impl Fn() -> String) -> Result<T, String> {
    catch_unwind(AssertUnwindSafe(wheel)).map_err(|_| format!("{}\n  a wheel panicked", call()))
}

fn agree<T: PartialEq + std::fmt::Debug>(
    one: T,
    two: T,
    call: impl Fn() -> String,
) -> Result<(), String> {
    if one == two {
        return Ok(());
    }
    Err(format!(
        "{}\n  first:  {one:x?}\n  second: {two:x?}",
        call()
    ))
}

/// All ten buffers, but for FRAMs that take long where not all are asked for: what a byte does to them it does for good, so the
/// next FEND shows it.
fn same_buffers(
    one: &Buffers,
    two: &Buffers,
    all: bool,
    call: impl Fn() -> String,
) -> Result<(), String> {
    let frams = one.frams.iter().zip(&two.frams);
    let same = one.ports == two.ports
        && one.diagnostics == two.diagnostics
        && one.edac == two.edac
        && frams.fold(true, |same, (one, two)| {
            same && (!all && one.bytes.len() > LONG || one == two)
        });
    if same {
        return Ok(());
    }
    let mut what = call();
    what += &parted("EDAC", &one.edac, &two.edac);
    for (which, name) in ["bootloader FRAM", "user FRAM"].into_iter().enumerate() {
        let (one, two) = (&one.frams[which], &two.frams[which]);
        what += &parted(name, &one.bytes, &two.bytes);
        what += &parted(&format!("sums of {name}"), &one.sums, &two.sums);
    }
    what += &parted("diagnostics", &one.diagnostics, &two.diagnostics);
    for (port, (one, two)) in one.ports.iter().zip(&two.ports).enumerate() {
        what += &parted(
            &format!("message of port {port}"),
            &one.message,
            &two.message,
        );
        what += &parted(&format!("reply of port {port}"), &one.reply, &two.reply);
    }
    Err(what)
}

/// The first place at which two copies of a buffer differ.
fn parted<T: PartialEq + std::fmt::LowerHex>(name: &str, one: &[T], two: &[T]) -> String {
    match one.iter().zip(two).position(|(a, b)| a != b) {
        None => String::new(),
        Some(at) => format!("\n  {name} at {at}: {:x} and {:x}", one[at], two[at]),
    }
}
