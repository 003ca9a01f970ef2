//! 01, The line and The message (ICD 10): the tests at the close of a run, and the reply.

use super::command::{self, Done, Memory, No};
use super::counts::{self, Count};
use super::fram::Frams;
use super::leaving::{self, Way};
use super::line::Run;
use super::{crc, limit, ports, silent};
use crate::record::Record;
use crate::wheel::{Lent, Stepped};

/// The fewest bytes of a message: two addresses, control and CRC (ICD 10.2).
pub const SHORTEST: usize = 5;

// The control byte (ICD 10.6): poll of a command and final of a reply, B, ACK, and the code.
const POLL: u8 = 0x80;
const B: u8 = 0x40;
const ACK: u8 = 0x20;
const CODE: u8 = 0x1F;

/// What the tests say about a run.
enum Judged<'a> {
    Empty,
    Dropped(Count),
    ForAnother,
    /// A command for this unit, without its CRC, and the port of its reply.
    Command(&'a [u8], usize),
}

/// Closes a run that came on a port.
pub fn close(record: Record, port: usize, sending: [u8; 2], run: Run, lent: Lent) -> Stepped {
    let [zero, one] = lent.ports;
    let message = [&*zero.message, &*one.message][port];
    match judged(run, &record, port, message) {
        Judged::Empty => silent(record, 0),
        Judged::Dropped(count) => {
            counts::add_one(count, port, lent.diagnostics);
            silent(record, number(count))
        }
        Judged::ForAnother => silent(record, 9),
        Judged::Command(command, answered) => {
            let (bootloader, user) = (lent.bootloader, lent.user);
            let memory = Memory {
                edac: lent.edac,
                frams: Frams { bootloader, user },
            };
            let way = Way {
                port: answered,
                sending,
                replies: [zero.reply, one.reply],
            };
            obeyed(record, command, memory, lent.diagnostics, way)
        }
    }
}

/// The answer to a run that is dropped.
fn number(count: Count) -> u8 {
    5 + count as u8
}

/// The tests in 01's order: empty, framing, under 5 bytes, over the limit and 5, and those of a message of legal length.
fn judged<'a>(run: Run, record: &Record, port: usize, message: &'a [u8]) -> Judged<'a> {
    let longest = limit::longest(record.limit);
    match run {
        Run::Whole(0) => Judged::Empty,
        Run::Faulty => Judged::Dropped(Count::Framing),
        Run::Whole(count) if count < SHORTEST => Judged::Dropped(Count::Runt),
        Run::Whole(count) if count > longest => Judged::Dropped(Count::Oversize),
        // The buffer as it is lent now, not what was seen on the way.
        Run::Whole(count) => judged_message(record.strap, port, &message[..count]),
    }
}

/// CRC before address, so that noise is not blamed on another unit.
fn judged_message(strap: u8, port: usize, message: &[u8]) -> Judged<'_> {
    let (command, crc) = message.split_at(message.len() - 2);
    if crc != crc::sum(command).to_le_bytes() {
        return Judged::Dropped(Count::BadCrc);
    }
    match ports::answered_on(strap, command[0], port) {
        None => Judged::ForAnother,
        Some(answered) => Judged::Command(command, answered),
    }
}

/// Carries a command out and answers 1 to 4 or 10. Only one that is done has a cost, with poll set or clear, and where its reply
/// is lost (02, T-13).
fn obeyed(
    record: Record,
    command: &[u8],
    memory: Memory,
    diagnostics: &mut [u32],
    way: Way,
) -> Stepped {
    let (control, data) = (command[2], &command[3..]);
    let mut after = record;
    let carried = command::carry_out(control & CODE, data, &mut after, memory, diagnostics);
    let (answer, cost, reply) = match carried {
        Ok(Done { shown, cost }) => (2, cost, reply_to(command, ACK, &shown)),
        // A NACK carries the command's data.
        Err(No::Refused) => (4, 0, reply_to(command, 0, data)),
        Err(No::NotFitted) => return silent(record, 10),
    };
    let unsent = Stepped {
        cost,
        ..silent(after, answer)
    };
    if control & POLL == 0 {
        return unsent;
    }
    let port = way.port as u8;
    match leaving::leave(&reply, way, &mut after.receivers, diagnostics) {
        None => unsent,
        // 1 where it would have been 2, and 3 where 4.
        Some(sent) => Stepped {
            record: after,
            answer: answer - 1,
            sent,
            port,
            cost,
        },
    }
}

/// The reply, not yet packed: addresses exchanged, final set, B and code copied, low byte of the CRC first.
fn reply_to(command: &[u8], ack: u8, data: &[u8]) -> Vec<u8> {
    let control = POLL | ack | command[2] & (B | CODE);
    let mut message = vec![command[1], command[0], control];
    message.extend(data);
    message.extend(crc::sum(&message).to_le_bytes());
    message
}
