//! The proved unit, by the crate wheel-unit as anyone links it, as a wheel that can be compared.

use crate::record::{Mode, Place, Receiver, Record};
use crate::wheel::{Heard, HeardMany, Lent, Many, Stepped, Wheel};
use crate::Part;
use wheel_unit::{plain, Answer, Unit};

impl From<Record> for Unit {
    fn from(record: Record) -> Unit {
        let [zero, one] = record.receivers;
        Unit {
            bootloader_len: record.bootloader_len as u64,
            fram_len: record.fram_len as u64,
            count0: zero.count as u64,
            count1: one.count as u64,
            limit: record.limit,
            strap: record.strap,
            mode: record.mode as u8,
            place0: zero.place as u8,
            place1: one.place as u8,
            locked: record.locked,
        }
    }
}

/// A number that no mode or place has is a fault of the face.
impl From<Unit> for Record {
    fn from(unit: Unit) -> Record {
        Record {
            strap: unit.strap,
            mode: Mode::of(unit.mode).expect("a mode handed back"),
            bootloader_len: length(unit.bootloader_len),
            fram_len: length(unit.fram_len),
            locked: unit.locked,
            limit: unit.limit,
            receivers: [
                receiver(unit.place0, unit.count0),
                receiver(unit.place1, unit.count1),
            ],
        }
    }
}

fn receiver(place: u8, count: u64) -> Receiver {
    Receiver {
        place: Place::of(place).expect("a place handed back"),
        count: length(count),
    }
}

fn length(number: u64) -> usize {
    number
        .try_into()
        .expect("a length that this machine can have")
}

impl From<wheel_unit::Stepped> for Stepped {
    fn from(stepped: wheel_unit::Stepped) -> Stepped {
        Stepped {
            record: stepped.unit.into(),
            answer: stepped.answer.0,
            sent: length(stepped.sent),
            port: stepped.port,
            cost: stepped.cost,
        }
    }
}

pub struct Proved;

impl Wheel for Proved {
    fn set_up(&self, strap: u8, limit: u64, locked: u8, lent: Lent) -> Stepped {
        plain::set_up(strap, limit, locked, lent).into()
    }

    fn step(&self, record: Record, heard: Heard, lent: Lent) -> Stepped {
        plain::step(record.into(), heard.port, heard.byte, heard.sending, lent).into()
    }

    fn steps(&self, record: Record, heard: HeardMany, lent: Lent) -> Many {
        let many = plain::steps(record.into(), heard.port, heard.bytes, heard.sending, lent);
        Many {
            last: many.last.into(),
            taken: length(many.taken),
        }
    }

    fn pack(&self, message: &[u8], reply: &mut [u8]) -> (u8, usize) {
        let packed = plain::pack(message, reply);
        (packed.answer.0, length(packed.sent))
    }

    /// A refusal that brings a part is a fault of the face.
    fn join(&self, first: Part, second: Part) -> Result<Part, u8> {
        let joined = plain::join(first, second);
        match joined.answer {
            Answer::TAKEN => Ok(joined.part),
            refused => {
                assert_eq!(joined.part, Part { sum: 0, len: 0 });
                Err(refused.0)
            }
        }
    }

    /// A number that is neither yes nor no is a fault of the face.
    fn judge_list(&self, limit: u64, list: &[u8]) -> bool {
        match plain::judge_list(limit, list) {
            0 => false,
            1 => true,
            number => panic!("the face judged a list with {number}"),
        }
    }

    fn store_list(&self, limit: u64, edac: &mut [u8], list: &[u8]) -> u8 {
        plain::store_list(limit, edac, list).0
    }
}
