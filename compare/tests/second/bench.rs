//! A unit on a bench: everything that it is lent, and messages to and from it in the tests' own coding.

use compare::plain;
use compare::proved::Proved;
pub use compare::record::PLACES;
use compare::record::{Mode, Place, Receiver, Record, REFUSED};
use compare::wheel::{Fram, Heard, HeardMany, Lent, Many, Port, Second, Stepped, Wheel};

pub const FEND: u8 = 0xC0;

/// The strap of every unit unless a test says another, and the address that port 0 then hears and port 1 answers.
pub const STRAP: u8 = 1;
pub const ADDRESS: u8 = 0x41;

/// One of a unit's four addresses: as it is where the strap is 0, the port that hears it, and the port of its replies (02, T-01).
#[derive(Clone, Copy, Debug, PartialEq)]
pub struct Way {
    pub address: u8,
    pub heard: usize,
    pub answered: usize,
}

const fn way(address: u8, heard: usize, answered: usize) -> Way {
    Way {
        address,
        heard,
        answered,
    }
}

pub const WAYS: [Way; 4] = [
    way(0x40, 0, 1),
    way(0x60, 0, 0),
    way(0x50, 1, 1),
    way(0x70, 1, 0),
];

pub const APPLICATION: [u8; 4] = [0x00, 0x00, 0x05, 0x20];
pub const LOCK: [u8; 4] = [0xEF, 0xBE, 0xAD, 0xDE];

/// The first addresses of user FRAM and of bootloader FRAM.
pub const FIRST: u32 = 0x2004_0000;
pub const BOOTLOADER: u32 = 0x2000_0000;

/// The highest limit, which is that of every unit unless a test says another.
pub const LIMIT: u64 = 1_028;

/// Which program a unit is.
#[derive(Clone, Copy, Debug, PartialEq)]
pub enum Program {
    Second,
    Proved,
}

pub const PROGRAMS: [Program; 2] = [Program::Second, Program::Proved];

impl Program {
    pub fn wheel(self) -> &'static dyn Wheel {
        match self {
            Program::Second => &Second,
            Program::Proved => &Proved,
        }
    }
}

#[derive(Clone, Debug, PartialEq)]
pub struct Bench {
    pub program: Program,
    pub record: Record,
    pub edac: Vec<u8>,
    pub bootloader: Vec<u8>,
    pub bootloader_sums: Vec<u16>,
    pub fram: Vec<u8>,
    pub sums: Vec<u16>,
    pub diagnostics: Vec<u32>,
    pub ports: [Lines; 2],
    /// By which of its addresses messages go to the unit, and so on which port bytes come.
    pub way: Way,
    /// What the unit is told of each port.
    pub sending: [u8; 2],
}

/// The buffers of a port.
#[derive(Clone, Debug, PartialEq)]
pub struct Lines {
    pub message: Vec<u8>,
    pub reply: Vec<u8>,
}

impl Lines {
    fn lent(&mut self) -> Port<'_> {
        Port {
            message: &mut self.message,
            reply: &mut self.reply,
        }
    }
}

/// Buffers of the least length, full of two bytes.
fn lines(message: u8, reply: u8) -> Lines {
    Lines {
        message: vec![message; 1_033],
        reply: vec![reply; 2_068],
    }
}

/// A reply without its framing and CRC.
#[derive(Debug, PartialEq)]
pub struct Reply {
    pub destination: u8,
    pub source: u8,
    pub control: u8,
    pub data: Vec<u8>,
}

/// Bytes that differ from their neighbours and from block to block.
pub fn pattern(length: usize) -> Vec<u8> {
    (0..length)
        .map(|i| (i * 7 + i / 256 * 13 + 1) as u8)
        .collect()
}

pub fn crc(bytes: &[u8]) -> u16 {
    plain::bit_by_bit(0xFFFF, bytes)
}

/// A message with its CRC.
pub fn message(destination: u8, source: u8, control: u8, data: &[u8]) -> Vec<u8> {
    let mut message = [&[destination, source, control], data].concat();
    message.extend(crc(&message).to_le_bytes());
    message
}

/// A message as the line carries it, without the FENDs.
pub fn escaped(message: &[u8]) -> Vec<u8> {
    let mut line = Vec::new();
    for &byte in message {
        match byte {
            0xC0 => line.extend([0xDB, 0xDC]),
            0xDB => line.extend([0xDB, 0xDD]),
            _ => line.push(byte),
        }
    }
    line
}

/// The message in a sent reply, which has FEND at both ends and none within.
pub fn unpacked(sent: &[u8]) -> Vec<u8> {
    let inner = sent.strip_prefix(&[FEND]).expect("a FEND first");
    let inner = inner.strip_suffix(&[FEND]).expect("a FEND last");
    let (mut message, mut bytes) = (Vec::new(), inner.iter());
    while let Some(&byte) = bytes.next() {
        message.push(match byte {
            0xC0 => panic!("a FEND within"),
            0xDB => match bytes.next() {
                Some(0xDC) => 0xC0,
                Some(0xDD) => 0xDB,
                other => panic!("FESC and {other:?}"),
            },
            _ => byte,
        });
    }
    message
}

/// How much bootloader FRAM a bench has, unless a test says another length.
const BOOTLOADER_LEN: usize = 768;

impl Bench {
    /// Lent buffers of right lengths that no set-up has seen.
    pub fn bare(fram_len: usize) -> Bench {
        Bench::bare_of(Program::Second, fram_len)
    }

    pub fn bare_of(program: Program, fram_len: usize) -> Bench {
        Bench::bare_with(program, BOOTLOADER_LEN, fram_len)
    }

    pub fn bare_with(program: Program, bootloader_len: usize, fram_len: usize) -> Bench {
        Bench {
            program,
            record: REFUSED,
            edac: pattern(1_536),
            // Other bytes than those of user FRAM.
            bootloader: pattern(bootloader_len).iter().map(|byte| !byte).collect(),
            bootloader_sums: vec![0x3333; bootloader_len / 256],
            fram: pattern(fram_len),
            sums: vec![0x5555; fram_len / 256],
            diagnostics: (0..31).map(|i| 0x1111_0000 + i).collect(),
            ports: [lines(0xAA, 0xEE), lines(0xBB, 0xDD)],
            way: WAYS[0],
            sending: [0, 0],
        }
    }

    pub fn set_up(&mut self, strap: u8) -> u8 {
        self.set_up_with(strap, LIMIT)
    }

    pub fn set_up_with(&mut self, strap: u8, limit: u64) -> u8 {
        self.set_up_as(strap, limit, 0)
    }

    pub fn set_up_as(&mut self, strap: u8, limit: u64, locked: u8) -> u8 {
        let wheel = self.program.wheel();
        let stepped = wheel.set_up(strap, limit, locked, self.lent());
        assert_eq!((stepped.sent, stepped.port, stepped.cost), (0, 0, 0));
        self.record = stepped.record;
        stepped.answer
    }

    fn lent(&mut self) -> Lent<'_> {
        let [zero, one] = &mut self.ports;
        Lent {
            edac: &mut self.edac,
            bootloader: Fram {
                bytes: &mut self.bootloader,
                sums: &mut self.bootloader_sums,
            },
            user: Fram {
                bytes: &mut self.fram,
                sums: &mut self.sums,
            },
            diagnostics: &mut self.diagnostics,
            ports: [zero.lent(), one.lent()],
        }
    }

    /// The address of the unit that messages go to.
    pub fn address(&self) -> u8 {
        self.way.address + self.record.strap
    }

    /// The receiver that bytes come to.
    pub fn receiver(&mut self) -> &mut Receiver {
        &mut self.record.receivers[self.way.heard]
    }

    /// Its place and its count.
    pub fn stands(&self) -> (Place, usize) {
        self.stands_on(self.way.heard)
    }

    pub fn stands_on(&self, port: usize) -> (Place, usize) {
        let Receiver { place, count } = self.record.receivers[port];
        (place, count)
    }

    /// A unit that was set up, in bootloader mode, whose receiver is fresh.
    pub fn fresh() -> Bench {
        Bench::fresh_of(Program::Second, LIMIT)
    }

    /// The same of either program and with any limit.
    pub fn fresh_of(program: Program, limit: u64) -> Bench {
        let mut bench = Bench::bare_of(program, 1_024);
        assert_eq!(bench.set_up_with(STRAP, limit), 0);
        bench
    }

    /// The same in application mode, after a FEND.
    pub fn application() -> Bench {
        Bench::application_of(Program::Second, LIMIT)
    }

    pub fn application_of(program: Program, limit: u64) -> Bench {
        let mut bench = Bench::fresh_of(program, limit);
        bench.record.mode = Mode::Application;
        assert_eq!(bench.feed(&[FEND]), [0]);
        bench
    }

    /// The same in bootloader mode, after a FEND.
    pub fn open() -> Bench {
        let mut bench = Bench::fresh();
        assert_eq!(bench.feed(&[FEND]), [0]);
        bench
    }

    pub fn step(&mut self, byte: u8) -> Stepped {
        self.step_on(self.way.heard as u8, byte)
    }

    /// A byte on any port. Where nothing is sent, its port is 0.
    pub fn step_on(&mut self, port: u8, byte: u8) -> Stepped {
        let (wheel, record, sending) = (self.program.wheel(), self.record, self.sending);
        let heard = Heard {
            port,
            byte,
            sending,
        };
        let stepped = wheel.step(record, heard, self.lent());
        self.record = stepped.record;
        assert_eq!(stepped.sent > 0, matches!(stepped.answer, 1 | 3));
        assert!(stepped.sent > 0 && stepped.port <= 1 || stepped.port == 0);
        stepped
    }

    /// Many bytes on any port in one call.
    pub fn many_on(&mut self, port: u8, bytes: &[u8]) -> Many {
        let (wheel, record, sending) = (self.program.wheel(), self.record, self.sending);
        let heard = HeardMany {
            port,
            bytes,
            sending,
        };
        let many = wheel.steps(record, heard, self.lent());
        self.record = many.last.record;
        many
    }

    /// The answer to a byte and the length of what is sent.
    pub fn byte(&mut self, byte: u8) -> (u8, usize) {
        let stepped = self.step(byte);
        (stepped.answer, stepped.sent)
    }

    /// The answers to some bytes.
    pub fn feed(&mut self, bytes: &[u8]) -> Vec<u8> {
        bytes.iter().map(|&byte| self.byte(byte).0).collect()
    }

    /// Closes the run that some bytes are in. Every byte before the FEND must be taken without an answer.
    pub fn close(&mut self, bytes: &[u8]) -> Stepped {
        for &byte in bytes {
            let stepped = self.step(byte);
            assert_eq!((stepped.answer, stepped.sent, stepped.cost), (0, 0, 0));
        }
        self.step(FEND)
    }

    /// The same: the last answer and what was sent.
    pub fn run(&mut self, bytes: &[u8]) -> (u8, Vec<u8>) {
        let stepped = self.close(bytes);
        (stepped.answer, self.sent(&stepped))
    }

    /// What is to be sent after a call.
    pub fn sent(&self, stepped: &Stepped) -> Vec<u8> {
        let reply = &self.ports[usize::from(stepped.port)].reply;
        reply[..stepped.sent].to_vec()
    }

    /// Sends a message to this unit. Nothing but a CRC command that is done may cost anything (02, T-13).
    pub fn ask(&mut self, source: u8, control: u8, data: &[u8]) -> Stepped {
        let message = message(self.address(), source, control, data);
        let stepped = self.close(&escaped(&message));
        let crc_done = control & 0x1F == 0x06 && matches!(stepped.answer, 1 | 2);
        assert_eq!(stepped.cost > 0, crc_done);
        stepped
    }

    /// Sends a message of this unit and checks everything about the reply that holds for all.
    pub fn send(&mut self, control: u8, data: &[u8]) -> (u8, Option<Reply>) {
        let (before, source) = (self.ports.clone(), 0x11);
        let stepped = self.ask(source, control, data);
        let (answer, sent) = (stepped.answer, self.sent(&stepped));
        assert_eq!(self.stands(), (Place::Run, 0));
        for (port, lines) in self.ports.iter().enumerate() {
            let written = if port == self.way.answered {
                sent.len()
            } else {
                0
            };
            assert_eq!(lines.reply[written..], before[port].reply[written..]);
        }
        if sent.is_empty() {
            return (answer, None);
        }
        assert_eq!(usize::from(stepped.port), self.way.answered);
        let reply = unpacked(&sent);
        let (body, sum) = reply.split_at(reply.len() - 2);
        assert_eq!(sum, crc(body).to_le_bytes());
        assert_eq!((body[0], body[1]), (source, self.address()));
        let reply = Reply {
            destination: body[0],
            source: body[1],
            control: body[2],
            data: body[3..].to_vec(),
        };
        (answer, Some(reply))
    }

    /// Sends a command with poll set that must be done, and hands back the reply's data.
    pub fn done(&mut self, code: u8, data: &[u8]) -> Vec<u8> {
        let (answer, reply) = self.send(0x80 | code, data);
        let reply = reply.unwrap_or_else(|| panic!("answer {answer}, no reply"));
        assert_eq!((answer, reply.control), (1, 0xA0 | code));
        reply.data
    }

    /// Sends a command that must be refused with poll set and with poll clear, and change nothing.
    pub fn refuses(&mut self, code: u8, data: &[u8]) {
        let before = self.clone();
        let (answer, reply) = self.send(0x80 | code, data);
        let reply = reply.unwrap_or_else(|| panic!("answer {answer}, no reply"));
        assert_eq!((answer, reply.control), (3, 0x80 | code));
        assert_eq!(reply.data, data);
        assert_eq!(self.send(code, data), (4, None));
        self.same_memory(&before);
    }

    /// Sends a command that must be answer 10 whatever the poll bit, and change nothing.
    pub fn hardfaults(&mut self, code: u8, data: &[u8]) {
        let before = self.clone();
        assert_eq!(self.send(0x80 | code, data), (10, None));
        assert_eq!(self.send(code, data), (10, None));
        self.same_memory(&before);
        assert_eq!(self.replies(), before.replies());
    }

    /// Both reply buffers.
    pub fn replies(&self) -> [&[u8]; 2] {
        let [zero, one] = &self.ports;
        [&zero.reply, &one.reply]
    }

    /// EDAC, both FRAMs, their sums, diagnostics, mode and lock are as before.
    pub fn same_memory(&self, before: &Bench) {
        assert_eq!(self.edac, before.edac);
        assert_eq!(self.bootloader, before.bootloader);
        assert_eq!(self.bootloader_sums, before.bootloader_sums);
        assert_eq!(self.fram, before.fram);
        assert_eq!(self.sums, before.sums);
        assert_eq!(self.diagnostics, before.diagnostics);
        assert_eq!(self.record.mode, before.record.mode);
        assert_eq!(self.record.locked, before.record.locked);
    }
}

/// An address and what follows it, as command data.
pub fn at(address: u32, rest: &[u8]) -> Vec<u8> {
    [&address.to_le_bytes(), rest].concat()
}

pub fn edac_at(address: u16, rest: &[u8]) -> Vec<u8> {
    [&address.to_le_bytes(), rest].concat()
}

/// A two-byte count.
pub fn long(count: u16) -> [u8; 2] {
    count.to_le_bytes()
}

/// The data of a CRC command.
pub fn span(first: u32, last: u32) -> Vec<u8> {
    at(first, &last.to_le_bytes())
}
