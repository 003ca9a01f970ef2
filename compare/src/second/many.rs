//! Many bytes of one port in one call. Only a FEND can answer other than 0, so the bytes are taken a stretch at a time, each up to
//! its FEND: what stands before the FEND is unpacked at once, and the FEND says whether to go on.

use super::line::{self, Run, FEND, FESC, TFEND, TFESC};
use super::{closing, limit, refusals, silent};
use crate::record::{Place, Receiver, Record};
use crate::wheel::{HeardMany, Lent, Many, Stepped};

/// Stops at the first answer other than 0, and counts the byte that has it.
pub fn steps(record: Record, heard: HeardMany, lent: Lent) -> Many {
    let locked = u8::from(record.locked != 0);
    let mut record = Record { locked, ..record };
    // With no byte there is nothing to refuse.
    if heard.bytes.is_empty() {
        return many(silent(record, 0), 0);
    }
    // No byte makes a call wrong or right: strap, lengths and limit stay, and no count passes 1,034 that was not past it. So the
    // first byte is refused, or none is.
    if let Some(number) = refusals::of_step(&record, heard.port, &lent) {
        return many(silent(record, number), 1);
    }
    let longest = limit::longest(record.limit);
    let port = usize::from(heard.port);
    let mut taken = 0;
    for stretch in heard.bytes.split_inclusive(|&byte| byte == FEND) {
        taken += stretch.len();
        let message = &mut *lent.ports[port].message;
        let receiver = &mut record.receivers[port];
        let [within @ .., FEND] = stretch else {
            *receiver = unpack(*receiver, stretch, longest, message);
            break;
        };
        *receiver = unpack(*receiver, within, longest, message);
        let (after, closed) = line::take(*receiver, FEND, longest, message);
        *receiver = after;
        match closed {
            // The first FEND, the end of a run thrown away, and that of an empty one.
            None | Some(Run::Whole(0)) => {}
            Some(run) => {
                let last = closing::close(record, port, heard.sending, run, lent);
                return many(last, taken);
            }
        }
    }
    many(silent(record, 0), taken)
}

fn many(last: Stepped, taken: usize) -> Many {
    Many { last, taken }
}

/// Bytes without a FEND, unpacked behind what stands in the message already.
fn unpack(receiver: Receiver, bytes: &[u8], longest: usize, message: &mut [u8]) -> Receiver {
    let mut escaped = match receiver.place {
        Place::Fresh | Place::Fault | Place::Thrown => return receiver,
        Place::Run => false,
        Place::Escape => true,
    };
    let mut count = receiver.count;
    for &byte in bytes {
        let unpacked = match (escaped, byte) {
            (false, FESC) => {
                escaped = true;
                continue;
            }
            (false, _) => byte,
            (true, TFEND) => FEND,
            (true, TFESC) => FESC,
            // Up to the FEND nothing more is read.
            (true, _) => {
                let place = Place::Fault;
                return Receiver { place, count };
            }
        };
        escaped = false;
        count = line::store(unpacked, count, longest, message);
    }
    let place = if escaped { Place::Escape } else { Place::Run };
    Receiver { place, count }
}
