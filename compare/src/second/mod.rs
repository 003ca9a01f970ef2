//! The whole unit of 01 a second time, with T-01, T-02, T-06, T-07, T-11 and T-13 of 02, in plain Rust: what the proved unit is
//! held against. It is written from 01, 02 and the ICD alone and shares no line with the proved one. It has no table of sums and
//! keeps nothing between calls, and each sum is worked out bit by bit wherever 01 does not say that it comes from the kept ones.
//!
//! A byte's way: `refusals` judges what is lent, `line` unpacks, `closing` judges a closed run, `ports` says whether its address
//! is heard there, `command` carries it out on `edac`, where `read_only` says which bytes stay, and `fram`, and `leaving` packs
//! the reply by `line` into the buffer of the port that it leaves on, if it does. `counts` counts what befell each port. `list`
//! judges and stores the files of WRITE FILE, for the command and for anyone who asks without a unit. `limit` says how long a
//! message may be, and `lock` shows whether bootloader FRAM can be written. `many` takes many bytes in one call, run by run.

mod closing;
mod command;
mod counts;
mod crc;
mod edac;
mod fram;
mod leaving;
mod limit;
mod line;
mod list;
mod lock;
mod many;
mod ports;
pub mod read_only;
mod refusals;

use crate::record::{Mode, Record, FRESH, REFUSED};
use crate::wheel::{Heard, Lent, Stepped};
pub use crc::{join, sum};
pub use list::{judge_list, store_list};
pub use many::steps;

/// 01, The unit and its neighbours: computes all sums, shows the lock and changes nothing else.
pub fn set_up(strap: u8, limit: u64, locked: u8, lent: Lent) -> Stepped {
    if let Some(number) = refusals::of_set_up(strap, limit, &lent) {
        return silent(REFUSED, number);
    }
    let locked = locked != 0;
    let record = Record {
        strap,
        mode: Mode::Bootloader,
        bootloader_len: lent.bootloader.bytes.len(),
        fram_len: lent.user.bytes.len(),
        locked: locked.into(),
        // No limit that is right is cut.
        limit: limit as u16,
        receivers: [FRESH; 2],
    };
    fram::sum_every_block(lent.bootloader);
    fram::sum_every_block(lent.user);
    lock::show(locked, lent.diagnostics);
    silent(record, 0)
}

/// 01, One byte in, one answer out, by the receiver of the port that it came on. What is sent stands at the start of a reply
/// buffer.
pub fn step(record: Record, heard: Heard, lent: Lent) -> Stepped {
    // Any number but 0 is locked, and comes back as 1, from a refused call too.
    let locked = u8::from(record.locked != 0);
    let mut record = Record { locked, ..record };
    if let Some(number) = refusals::of_step(&record, heard.port, &lent) {
        return silent(record, number);
    }
    let longest = limit::longest(record.limit);
    let port = usize::from(heard.port);
    let message = &mut *lent.ports[port].message;
    let (receiver, closed) = line::take(record.receivers[port], heard.byte, longest, message);
    record.receivers[port] = receiver;
    match closed {
        None => silent(record, 0),
        Some(run) => closing::close(record, port, heard.sending, run, lent),
    }
}

/// An answer with which nothing is sent, and which cost nothing.
fn silent(record: Record, answer: u8) -> Stepped {
    Stepped {
        record,
        answer,
        sent: 0,
        port: 0,
        cost: 0,
    }
}

/// 01, One byte in, one answer out: packing alone. A message is taken with its two last bytes on it, right or wrong.
pub fn pack(message: &[u8], reply: &mut [u8]) -> (u8, usize) {
    if reply.len() < refusals::REPLY_LEN {
        return (25, 0);
    }
    if message.len() < closing::SHORTEST || message.len() > line::LONGEST {
        return (35, 0);
    }
    (0, line::pack(message, reply))
}
