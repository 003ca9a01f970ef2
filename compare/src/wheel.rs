//! Any wheel that can be compared: set-up, one byte, many bytes, packing, joining, and judging and storing a list of files, over
//! what it is lent.

use crate::record::Record;
use crate::Part;

/// What a call is lent, with its FRAMs and the buffers of its ports.
pub use wheel_unit::{Fram, Lent, Port};

/// One byte as the caller tells it (02, T-01): the port on which it came, and for each port whether it is sending now, which it
/// is by any number but 0.
#[derive(Clone, Copy, Debug, PartialEq, Eq)]
pub struct Heard {
    pub port: u8,
    pub byte: u8,
    pub sending: [u8; 2],
}

/// What a call hands back: the record, 01's number of the answer, the length of what is sent and the port on which it is, which
/// is 0 where nothing is sent, and what a CRC command cost (02, T-13), which is 0 for all else.
#[derive(Clone, Copy, Debug, PartialEq, Eq)]
pub struct Stepped {
    pub record: Record,
    pub answer: u8,
    pub sent: usize,
    pub port: u8,
    pub cost: u32,
}

/// Many bytes of one port, told in one call, and for each port whether it is sending.
#[derive(Clone, Copy, Debug, PartialEq, Eq)]
pub struct HeardMany<'a> {
    pub port: u8,
    pub bytes: &'a [u8],
    pub sending: [u8; 2],
}

/// What they come to: what the last that was taken handed back, and how many were.
#[derive(Clone, Copy, Debug, PartialEq, Eq)]
pub struct Many {
    pub last: Stepped,
    pub taken: usize,
}

pub trait Wheel {
    /// Bootloader FRAM is locked where `locked` is any number but 0.
    fn set_up(&self, strap: u8, limit: u64, locked: u8, lent: Lent) -> Stepped;
    fn step(&self, record: Record, heard: Heard, lent: Lent) -> Stepped;
    /// Bytes up to the first answer other than 0, which is that of the last byte taken.
    fn steps(&self, record: Record, heard: HeardMany, lent: Lent) -> Many;
    /// The answer and the length of the packed message.
    fn pack(&self, message: &[u8], reply: &mut [u8]) -> (u8, usize);
    /// The joined part, or the number of the refusal.
    fn join(&self, first: Part, second: Part) -> Result<Part, u8>;
    /// Whether a list of files is fit to be stored, where a message has at most `limit` data bytes.
    fn judge_list(&self, limit: u64, list: &[u8]) -> bool;
    /// The answer: 0 where the list is stored.
    fn store_list(&self, limit: u64, edac: &mut [u8], list: &[u8]) -> u8;
}

/// Makes a wheel of a module that has the functions of `second`.
#[macro_export]
macro_rules! wheel_of_module {
    ($name:ident, $($module:ident)::+) => {
        pub struct $name;

        impl $crate::wheel::Wheel for $name {
            fn set_up(
                &self,
                strap: u8,
                limit: u64,
                locked: u8,
                lent: $crate::wheel::Lent,
            ) -> $crate::wheel::Stepped {
                $($module)::+::set_up(strap, limit, locked, lent)
            }

            fn step(
                &self,
                record: $crate::record::Record,
                heard: $crate::wheel::Heard,
                lent: $crate::wheel::Lent,
            ) -> $crate::wheel::Stepped {
                $($module)::+::step(record, heard, lent)
            }

            fn steps(
                &self,
                record: $crate::record::Record,
                heard: $crate::wheel::HeardMany,
                lent: $crate::wheel::Lent,
            ) -> $crate::wheel::Many {
                $($module)::+::steps(record, heard, lent)
            }

            fn pack(&self, message: &[u8], reply: &mut [u8]) -> (u8, usize) {
                $($module)::+::pack(message, reply)
            }

            fn join(&self, first: $crate::Part, second: $crate::Part) -> Result<$crate::Part, u8> {
                $($module)::+::join(first, second)
            }

            fn judge_list(&self, limit: u64, list: &[u8]) -> bool {
                $($module)::+::judge_list(limit, list)
            }

            fn store_list(&self, limit: u64, edac: &mut [u8], list: &[u8]) -> u8 {
                $($module)::+::store_list(limit, edac, list)
            }
        }
    };
}

wheel_of_module!(Second, crate::second);
