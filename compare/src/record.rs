//! What a unit is between two bytes: the record that each call takes and hands back (01, The unit and its neighbours; 02, T-01).
//! The caller keeps it and may hand in any, so every field is open.

/// The mode of a unit, and where a receiver stands in the bytes of its port.
pub use wheel_unit::{Mode, Place};

pub const PLACES: [Place; 5] = [
    Place::Fresh,
    Place::Run,
    Place::Escape,
    Place::Fault,
    Place::Thrown,
];

/// What one port has received.
#[derive(Clone, Copy, Debug, PartialEq, Eq)]
pub struct Receiver {
    pub place: Place,
    /// The bytes unpacked from this run.
    pub count: usize,
}

pub const FRESH: Receiver = Receiver {
    place: Place::Fresh,
    count: 0,
};

#[derive(Clone, Copy, Debug, PartialEq, Eq)]
pub struct Record {
    pub strap: u8,
    pub mode: Mode,
    /// The lengths of bootloader FRAM and of user FRAM, as they were set up.
    pub bootloader_len: usize,
    pub fram_len: usize,
    /// Whether bootloader FRAM is locked (02, T-07), as C says it: 0 is unlocked, any other number locked, and handed back as 1.
    pub locked: u8,
    /// The most data bytes of a message, as it was set up (02, T-06).
    pub limit: u16,
    /// Those of port 0 and of port 1.
    pub receivers: [Receiver; 2],
}

/// What a refused set-up hands back: every later call with it is refused by its strap.
pub const REFUSED: Record = Record {
    strap: 8,
    mode: Mode::Bootloader,
    bootloader_len: 0,
    fram_len: 0,
    locked: 0,
    limit: 0,
    receivers: [FRESH; 2],
};
