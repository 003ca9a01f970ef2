//! What C and Rust hand each other by value, laid out as C lays it out.

use crate::numbers::{Answer, Mode, Place};
use core::mem::{align_of, offset_of, size_of};

/// What a unit is between two calls (`struct wheel_unit`). Every record has a meaning; one that no call handed back may be
/// refused, and is else believed, with its lock.
#[derive(Clone, Copy, Debug, Default, PartialEq, Eq)]
#[repr(C)]
pub struct Unit {
    /// The length of bootloader FRAM that was set up, in bytes.
    pub bootloader_len: u64,
    /// That of user FRAM.
    pub fram_len: u64,
    /// The bytes unpacked in this run of port 0.
    pub count0: u64,
    /// And of port 1.
    pub count1: u64,
    /// As it was set up, [`LIMIT_LEAST`](crate::LIMIT_LEAST) to [`LIMIT_MOST`](crate::LIMIT_MOST).
    pub limit: u16,
    /// 0 to [`STRAP_MOST`](crate::STRAP_MOST).
    pub strap: u8,
    /// The number of a [`Mode`]; any other is read as application mode.
    pub mode: u8,
    /// The number of the [`Place`] of port 0; any other is read as [`Place::Fault`].
    pub place0: u8,
    /// And of port 1.
    pub place1: u8,
    /// [`UNLOCKED`](crate::UNLOCKED); any other number is read as [`LOCKED`](crate::LOCKED).
    pub locked: u8,
}

impl Unit {
    /// The mode, as a call reads it.
    pub fn mode(&self) -> Mode {
        Mode::of(self.mode).unwrap_or(Mode::Application)
    }

    /// The places of both ports, as a call reads them.
    pub fn places(&self) -> [Place; 2] {
        [self.place0, self.place1].map(|place| Place::of(place).unwrap_or(Place::Fault))
    }
}

/// What a call on a unit gives back (`struct wheel_stepped`).
#[derive(Clone, Copy, Debug, PartialEq, Eq)]
#[repr(C)]
pub struct Stepped {
    /// The record afterwards.
    pub unit: Unit,
    /// How many bytes are to be sent from the start of a reply buffer, 0 where nothing is sent.
    pub sent: u64,
    /// The number of the answer.
    pub answer: Answer,
    /// The port on which they are to be sent, from whose reply buffer; 0 where nothing is sent.
    pub port: u8,
    /// What a CRC command that is done cost, its reply sent or not: 1 to [`COST_MOST`](crate::COST_MOST); of all else 0.
    pub cost: u32,
}

/// What a call with many bytes gives back (`struct wheel_many`).
#[derive(Clone, Copy, Debug, PartialEq, Eq)]
#[repr(C)]
pub struct Many {
    /// What the last byte that was taken gave back.
    pub last: Stepped,
    /// How many bytes were taken, the one with that answer included.
    pub taken: u64,
}

/// What packing gives back (`struct wheel_packed`).
#[derive(Clone, Copy, Debug, PartialEq, Eq)]
#[repr(C)]
pub struct Packed {
    /// How many bytes are to be sent from the start of the reply buffer.
    pub sent: u64,
    /// [`Answer::TAKEN`], [`Answer::BAD_BUFFERS`] or [`Answer::BAD_LENGTH`].
    pub answer: Answer,
}

/// A stretch of bytes by its sum and its length alone (`struct wheel_part`).
#[derive(Clone, Copy, Debug, PartialEq, Eq)]
#[repr(C)]
pub struct Part {
    /// The sum of the bytes.
    pub sum: u16,
    /// How many they are.
    pub len: u32,
}

/// What joining answers (`struct wheel_joined`).
#[derive(Clone, Copy, Debug, PartialEq, Eq)]
#[repr(C)]
pub struct Joined {
    /// [`Answer::TAKEN`] or [`Answer::TOO_LONG`].
    pub answer: Answer,
    /// The two as one; zeros with [`Answer::TOO_LONG`].
    pub part: Part,
}

// Where C has each field. A target on which one of these fails has no archive.
const _: () = {
    assert!(size_of::<Unit>() == 40 && align_of::<Unit>() == 8);
    assert!(offset_of!(Unit, bootloader_len) == 0);
    assert!(offset_of!(Unit, fram_len) == 8);
    assert!(offset_of!(Unit, count0) == 16);
    assert!(offset_of!(Unit, count1) == 24);
    assert!(offset_of!(Unit, limit) == 32);
    assert!(offset_of!(Unit, strap) == 34);
    assert!(offset_of!(Unit, mode) == 35);
    assert!(offset_of!(Unit, place0) == 36);
    assert!(offset_of!(Unit, place1) == 37);
    assert!(offset_of!(Unit, locked) == 38);

    assert!(size_of::<Stepped>() == 56 && align_of::<Stepped>() == 8);
    assert!(offset_of!(Stepped, unit) == 0);
    assert!(offset_of!(Stepped, sent) == 40);
    assert!(offset_of!(Stepped, answer) == 48);
    assert!(offset_of!(Stepped, port) == 49);
    assert!(offset_of!(Stepped, cost) == 52);

    assert!(size_of::<Many>() == 64 && align_of::<Many>() == 8);
    assert!(offset_of!(Many, last) == 0);
    assert!(offset_of!(Many, taken) == 56);

    assert!(size_of::<Packed>() == 16 && align_of::<Packed>() == 8);
    assert!(offset_of!(Packed, sent) == 0);
    assert!(offset_of!(Packed, answer) == 8);

    assert!(size_of::<Part>() == 8 && align_of::<Part>() == 4);
    assert!(offset_of!(Part, sum) == 0);
    assert!(offset_of!(Part, len) == 4);

    assert!(size_of::<Joined>() == 12 && align_of::<Joined>() == 4);
    assert!(offset_of!(Joined, answer) == 0);
    assert!(offset_of!(Joined, part) == 4);
};
