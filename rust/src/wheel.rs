//! A whole unit with its memories, as `struct wheel` of `include/wheel.h` is for C, and the calls that need no unit. Lengths that
//! are always the same are checked by their types.

use crate::numbers::{
    Answer, Mode, CRC_START, DIAGNOSTICS, EDAC, LOCKED, MESSAGE, REPLY, UNLOCKED,
};
use crate::plain::{self, Fram, Lent, Port};
use crate::records::{Part, Stepped, Unit};

/// One of the two ports.
#[derive(Clone, Copy, Debug, PartialEq, Eq)]
#[repr(u8)]
pub enum PortId {
    /// Port 0.
    Zero = 0,
    /// Port 1.
    One = 1,
}

/// Whether bootloader FRAM is locked.
#[derive(Clone, Copy, Debug, PartialEq, Eq)]
#[repr(u8)]
pub enum Lock {
    /// It can be written.
    Unlocked = UNLOCKED,
    /// Nothing on the line writes it, and nothing on the line unlocks it.
    Locked = LOCKED,
}

/// The memories of a unit, where the board has them.
#[derive(Debug)]
pub struct Memories<'a> {
    /// EDAC memory.
    pub edac: &'a mut [u8; EDAC],
    /// Bootloader FRAM, with its sums.
    pub bootloader: Fram<'a>,
    /// User FRAM, with its sums.
    pub user: Fram<'a>,
}

/// What a unit needs beside its memories: some 6 KB, which firmware keeps in a static.
#[derive(Debug)]
pub struct Buffers {
    /// What DIAGNOSTIC shows. No call clears them, set-up writes the lock's byte, and the board may set any before set-up.
    pub diagnostics: [u32; DIAGNOSTICS],
    ports: [Line; 2],
}

#[derive(Debug)]
struct Line {
    message: [u8; MESSAGE],
    reply: [u8; REPLY],
}

impl Line {
    const fn new() -> Line {
        Line {
            message: [0; MESSAGE],
            reply: [0; REPLY],
        }
    }

    fn lent(&mut self) -> Port<'_> {
        Port {
            message: &mut self.message,
            reply: &mut self.reply,
        }
    }
}

impl Buffers {
    /// All zeros.
    pub const fn new() -> Buffers {
        Buffers {
            diagnostics: [0; DIAGNOSTICS],
            ports: [Line::new(), Line::new()],
        }
    }
}

impl Default for Buffers {
    fn default() -> Buffers {
        Buffers::new()
    }
}

/// What is to be sent, and on which port.
#[derive(Clone, Copy, Debug, PartialEq, Eq)]
pub struct Reply<'a> {
    /// The port on which it leaves.
    pub port: PortId,
    /// Its bytes as the line carries them, FEND at both ends.
    pub bytes: &'a [u8],
}

/// A unit that is set up. It alone writes its record, the FRAMs and their sums, and the lengths that it lends do not change, so no
/// byte is ever refused by 20 to 29.
///
/// Both ports share it: where each has an interrupt of its own, the bytes are queued and the calls made in one place, which the
/// borrow that each call needs asks for.
#[derive(Debug)]
pub struct Wheel<'a> {
    memories: Memories<'a>,
    buffers: &'a mut Buffers,
    now: Stepped,
}

impl<'a> Wheel<'a> {
    /// Sets a unit up, with a strap, a limit ([`LIMIT_MOST`](crate::LIMIT_MOST), or less where the bus allows less), and bootloader
    /// FRAM locked or not: in bootloader mode, both receivers fresh. Or says why not: [`Answer::BAD_STRAP`], [`Answer::BAD_FRAM`],
    /// [`Answer::BAD_SUMS`] or [`Answer::BAD_LIMIT`]; then nothing that was lent has changed.
    pub fn begin(
        mut memories: Memories<'a>,
        buffers: &'a mut Buffers,
        strap: u8,
        limit: u16,
        lock: Lock,
    ) -> Result<Wheel<'a>, Answer> {
        let lent = lent(&mut memories, buffers);
        let now = plain::set_up(strap, limit.into(), lock as u8, lent);
        match now.answer {
            Answer::TAKEN => Ok(Wheel {
                memories,
                buffers,
                now,
            }),
            refused => Err(refused),
        }
    }

    /// Sets the unit up anew over the same memories, as after a reset. Or says why not, [`Answer::BAD_STRAP`] or
    /// [`Answer::BAD_LIMIT`]; then the unit is as it was.
    pub fn again(&mut self, strap: u8, limit: u16, lock: Lock) -> Result<(), Answer> {
        let lent = lent(&mut self.memories, self.buffers);
        let now = plain::set_up(strap, limit.into(), lock as u8, lent);
        match now.answer {
            Answer::TAKEN => {
                self.now = now;
                Ok(())
            }
            refused => Err(refused),
        }
    }

    /// One byte that came in on a port, with whether port 0 and port 1 are sending now.
    pub fn byte(&mut self, port: PortId, byte: u8, sending: [bool; 2]) -> Answer {
        let lent = lent(&mut self.memories, self.buffers);
        let sending = sending.map(u8::from);
        self.now = plain::step(self.now.unit, port as u8, byte, sending, lent);
        self.now.answer
    }

    /// Bytes that came in on a port, up to the first answer other than [`Answer::TAKEN`]: how many were taken, that one included,
    /// and the answer. The reply, if there is one, is to be read before the rest is given.
    pub fn bytes(&mut self, port: PortId, bytes: &[u8], sending: [bool; 2]) -> (usize, Answer) {
        let lent = lent(&mut self.memories, self.buffers);
        let sending = sending.map(u8::from);
        let many = plain::steps(self.now.unit, port as u8, bytes, sending, lent);
        self.now = many.last;
        (many.taken as usize, many.last.answer)
    }

    /// What the last call gives to be sent. It stands there until another reply leaves on that port, which none does while the
    /// port is told to be sending.
    pub fn reply(&self) -> Option<Reply<'_>> {
        let [zero, one] = &self.buffers.ports;
        let (port, line) = match self.now.port {
            0 => (PortId::Zero, zero),
            _ => (PortId::One, one),
        };
        match line.reply.get(..self.now.sent as usize) {
            None | Some([]) => None,
            Some(bytes) => Some(Reply { port, bytes }),
        }
    }

    /// The answer of the last call.
    pub fn answer(&self) -> Answer {
        self.now.answer
    }

    /// What a CRC command cost, if the last call closed one that is done: 1 to [`COST_MOST`](crate::COST_MOST), else 0.
    pub fn cost(&self) -> u32 {
        self.now.cost
    }

    /// The record, as the last call handed it back.
    pub fn unit(&self) -> &Unit {
        &self.now.unit
    }

    /// The mode that the unit is in.
    pub fn mode(&self) -> Mode {
        self.now.unit.mode()
    }

    /// Whether bootloader FRAM is locked. A board whose lock is to outlast a reset keeps this and tells [`Wheel::begin`].
    pub fn lock(&self) -> Lock {
        match self.now.unit.locked {
            UNLOCKED => Lock::Unlocked,
            _ => Lock::Locked,
        }
    }

    /// EDAC memory, of which the board may set any byte between two calls.
    pub fn edac(&mut self) -> &mut [u8; EDAC] {
        self.memories.edac
    }

    /// The diagnostics, of which the board may set any between two calls.
    pub fn diagnostics(&mut self) -> &mut [u32; DIAGNOSTICS] {
        &mut self.buffers.diagnostics
    }

    /// The bytes of bootloader FRAM.
    pub fn bootloader(&self) -> &[u8] {
        self.memories.bootloader.bytes
    }

    /// The bytes of user FRAM.
    pub fn user(&self) -> &[u8] {
        self.memories.user.bytes
    }
}

/// All that a unit has, for one call.
fn lent<'b>(memories: &'b mut Memories<'_>, buffers: &'b mut Buffers) -> Lent<'b> {
    let [zero, one] = &mut buffers.ports;
    Lent {
        edac: memories.edac,
        bootloader: again(&mut memories.bootloader),
        user: again(&mut memories.user),
        diagnostics: &mut buffers.diagnostics,
        ports: [zero.lent(), one.lent()],
    }
}

fn again<'b>(fram: &'b mut Fram<'_>) -> Fram<'b> {
    Fram {
        bytes: fram.bytes,
        sums: fram.sums,
    }
}

/// A message of 5 to [`MESSAGE`] bytes, its CRC already on it, as the line carries it: FEND at both ends, escapes between. None
/// where it is shorter or longer.
pub fn pack<'b>(message: &[u8], reply: &'b mut [u8; REPLY]) -> Option<&'b [u8]> {
    let packed = plain::pack(message, reply);
    match packed.answer {
        Answer::TAKEN => reply.get(..packed.sent as usize),
        _ => None,
    }
}

/// Whether a list of files is fit: where a unit of this limit in application mode would do a WRITE FILE of it.
pub fn judge_list(limit: u16, list: &[u8]) -> bool {
    plain::judge_list(limit.into(), list) == 1
}

/// Stores every file of a fit list in EDAC memory, in order, as a WRITE FILE of it would, and says whether it did. An unfit list
/// changes nothing.
pub fn store_list(limit: u16, edac: &mut [u8; EDAC], list: &[u8]) -> bool {
    plain::store_list(limit.into(), edac, list) == Answer::TAKEN
}

impl Part {
    /// The part of no bytes.
    pub const EMPTY: Part = Part {
        sum: CRC_START,
        len: 0,
    };

    /// This part and the one that follows it as one. None where the total length is above 4,294,967,295.
    pub fn join(self, next: Part) -> Option<Part> {
        let joined = plain::join(self, next);
        match joined.answer {
            Answer::TAKEN => Some(joined.part),
            _ => None,
        }
    }
}
