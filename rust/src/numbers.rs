//! Every number of `include/wheel.h`, under its name there without WHEEL_, but for the addresses, whose names would begin with a
//! digit. `tests/header.rs` holds the two to each other.

use core::fmt;

/// The length of EDAC memory in bytes.
pub const EDAC: usize = 1536;
/// The least length of an FRAM in bytes.
pub const FRAM_LEAST: usize = 256;
/// The largest length of an FRAM in bytes.
pub const FRAM_MOST: usize = 262_144;
/// The bytes of a block of an FRAM: its length is a multiple of this, and it has one sum for each block.
pub const FRAM_BLOCK: usize = 256;
/// How many diagnostics there are.
pub const DIAGNOSTICS: usize = 31;
/// The least length of a port's message buffer in bytes.
pub const MESSAGE: usize = 1033;
/// The least length of a port's reply buffer in bytes.
pub const REPLY: usize = 2068;

/// The highest strap.
pub const STRAP_MOST: u8 = 7;
/// The address, plus the strap, that port 0 hears and port 1 answers.
pub const ADDRESS_0_ANSWERED_ON_1: u8 = 0x40;
/// The address, plus the strap, that port 0 hears and answers.
pub const ADDRESS_0_ANSWERED_ON_0: u8 = 0x60;
/// The address, plus the strap, that port 1 hears and answers.
pub const ADDRESS_1_ANSWERED_ON_1: u8 = 0x50;
/// The address, plus the strap, that port 1 hears and port 0 answers.
pub const ADDRESS_1_ANSWERED_ON_0: u8 = 0x70;

/// What a plain call is told of a port that is not sending.
pub const SILENT: u8 = 0;
/// What a plain call is told of a port that is sending; any number but [`SILENT`] is read as this.
pub const SENDING: u8 = 1;

/// The diagnostic that counts runs of port 0 dropped as [`Answer::FRAMING`].
pub const FRAMINGS: usize = 0x07;
/// The diagnostic that counts runs of port 0 dropped as [`Answer::RUNT`].
pub const RUNTS: usize = 0x08;
/// The diagnostic that counts runs of port 0 dropped as [`Answer::OVERSIZE`].
pub const OVERSIZES: usize = 0x09;
/// The diagnostic that counts runs of port 0 dropped as [`Answer::BAD_CRC`].
pub const BAD_CRCS: usize = 0x0A;
/// The diagnostic that counts runs of port 0 thrown away because a reply left there.
pub const THROWN_AWAY: usize = 0x0C;
/// The diagnostic that counts replies lost because port 0 was sending.
pub const LOST: usize = 0x0D;
/// How much higher the same diagnostics of port 1 stand.
pub const PORT_1_COUNTS: usize = 0x07;

/// The address of the first byte of bootloader FRAM for PEEK, POKE and CRC.
pub const BOOTLOADER_FRAM_FIRST: u32 = 0x2000_0000;
/// The address of the first byte of user FRAM for PEEK, POKE and CRC.
pub const USER_FRAM_FIRST: u32 = 0x2004_0000;

/// What a plain call is told, and a record says, where bootloader FRAM is not locked.
pub const UNLOCKED: u8 = 0;
/// The same where it is locked; any number but [`UNLOCKED`] is read as this.
pub const LOCKED: u8 = 1;
/// The data of an INIT that locks bootloader FRAM for good, low byte first.
pub const INIT_LOCK: u32 = 0xDEAD_BEEF;
/// The diagnostic whose low byte shows the lock.
pub const FRAM_STATUS: usize = 0x06;
/// That byte where bootloader FRAM is not locked.
pub const STATUS_UNLOCKED: u8 = 0x40;
/// That byte where it is locked.
pub const STATUS_LOCKED: u8 = 0xCC;

/// The least limit: the most data bytes of a message on a unit's bus.
pub const LIMIT_LEAST: u16 = 260;
/// The highest limit.
pub const LIMIT_MOST: u16 = 1028;

/// The sum of no bytes, which a sum starts from.
pub const CRC_START: u16 = 0xFFFF;

/// The most that a CRC command can cost.
pub const COST_MOST: u32 = 1532;

/// The number of an answer. It is not an enum: what the archive hands over needs no check on its way, and a `match` names the
/// constants all the same.
#[derive(Clone, Copy, PartialEq, Eq, Hash)]
#[repr(transparent)]
pub struct Answer(
    /// The number as `include/wheel.h` has it.
    pub u8,
);

/// The constants of the answers, each with its number and what it says, and their names for `Debug`.
macro_rules! answers {
    ($($(#[$said:meta])* $name:ident = $number:literal;)*) => {
        impl Answer {
            $($(#[$said])* pub const $name: Answer = Answer($number);)*
        }

        fn name(answer: Answer) -> Option<&'static str> {
            match answer {
                $(Answer::$name => Some(stringify!($name)),)*
                _ => None,
            }
        }
    };
}

answers! {
    /// Set up; packed; joined; list stored; byte taken; empty run, or one thrown away, closed.
    TAKEN = 0;
    /// Command done, poll set: an ACK reply.
    ACKED = 1;
    /// Command done, poll clear, or its reply lost.
    DONE_SILENT = 2;
    /// Command refused, poll set: a NACK reply.
    NACKED = 3;
    /// Command refused, poll clear, or its reply lost; storing: the list is unfit.
    REFUSED_SILENT = 4;
    /// Run dropped: framing.
    FRAMING = 5;
    /// Run dropped: under 5 bytes.
    RUNT = 6;
    /// Run dropped: over limit + 5 bytes.
    OVERSIZE = 7;
    /// Run dropped: the CRC does not agree.
    BAD_CRC = 8;
    /// Sound message for an address that this port does not hear.
    ELSEWHERE = 9;
    /// Access to memory not fitted.
    UNFITTED = 10;
    /// Strap above [`STRAP_MOST`].
    BAD_STRAP = 20;
    /// Wrong length of EDAC.
    BAD_EDAC = 21;
    /// Wrong length of either FRAM, or another than the one set up.
    BAD_FRAM = 22;
    /// Wrong length of either FRAM's sums.
    BAD_SUMS = 23;
    /// Wrong length of the diagnostics.
    BAD_DIAGNOSTICS = 24;
    /// Wrong length of either port's message or reply buffer.
    BAD_BUFFERS = 25;
    /// A count above 1,034, of either port.
    BAD_COUNT = 26;
    /// Port other than 0 and 1.
    BAD_PORT = 27;
    /// Limit below [`LIMIT_LEAST`] or above [`LIMIT_MOST`].
    BAD_LIMIT = 29;
    /// Packing: message under 5 or over 1,033 bytes.
    BAD_LENGTH = 35;
    /// Joining: the total length is above 4,294,967,295.
    TOO_LONG = 36;
}

impl fmt::Debug for Answer {
    fn fmt(&self, f: &mut fmt::Formatter<'_>) -> fmt::Result {
        match name(*self) {
            Some(name) => write!(f, "{name} ({})", self.0),
            None => write!(f, "{}", self.0),
        }
    }
}

/// Which of its two programs a unit is in.
#[derive(Clone, Copy, Debug, PartialEq, Eq)]
#[repr(u8)]
pub enum Mode {
    /// As after set-up.
    Bootloader = 0,
    /// Where every command is heard.
    Application = 1,
}

impl Mode {
    /// The mode that has this number, if one has.
    pub const fn of(number: u8) -> Option<Mode> {
        match number {
            0 => Some(Mode::Bootloader),
            1 => Some(Mode::Application),
            _ => None,
        }
    }
}

/// Where the receiver of a port stands in its bytes.
#[derive(Clone, Copy, Debug, PartialEq, Eq)]
#[repr(u8)]
pub enum Place {
    /// No FEND has come yet.
    Fresh = 0,
    /// In a run, or at its start.
    Run = 1,
    /// In a run, right after a FESC.
    Escape = 2,
    /// In a run that has a framing fault.
    Fault = 3,
    /// In a run that is thrown away up to its FEND, since a reply left on this port.
    Thrown = 4,
}

impl Place {
    /// The place that has this number, if one has.
    pub const fn of(number: u8) -> Option<Place> {
        match number {
            0 => Some(Place::Fresh),
            1 => Some(Place::Run),
            2 => Some(Place::Escape),
            3 => Some(Place::Fault),
            4 => Some(Place::Thrown),
            _ => None,
        }
    }
}
