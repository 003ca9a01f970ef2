//! The functions of `include/wheel.h` as they are: any record, slices of any length, and what C hands back unchanged. A wrong
//! length is no error of the caller: it has a number. Firmware takes [`Wheel`](crate::Wheel), whose lengths are right.
//!
//! The functions of the archive ask of their caller what Rust's slices are by themselves: not null, as long as they say, and where
//! they may be written, lent once. So each function here is safe as it stands.

use crate::numbers::Answer;
use crate::records::{Joined, Many, Packed, Part, Stepped, Unit};

/// An FRAM, with one sum for each block of [`FRAM_BLOCK`](crate::FRAM_BLOCK) bytes.
#[derive(Debug)]
pub struct Fram<'a> {
    /// Its bytes: [`FRAM_LEAST`](crate::FRAM_LEAST) to [`FRAM_MOST`](crate::FRAM_MOST), a multiple of a block.
    pub bytes: &'a mut [u8],
    /// The sums of its blocks.
    pub sums: &'a mut [u16],
}

/// The two buffers of a port.
#[derive(Debug)]
pub struct Port<'a> {
    /// Of the message that comes in: [`MESSAGE`](crate::MESSAGE) bytes or more.
    pub message: &'a mut [u8],
    /// Of the reply that leaves: [`REPLY`](crate::REPLY) bytes or more.
    pub reply: &'a mut [u8],
}

/// What a call on a unit is lent.
#[derive(Debug)]
pub struct Lent<'a> {
    /// EDAC memory: [`EDAC`](crate::EDAC) bytes.
    pub edac: &'a mut [u8],
    /// Bootloader FRAM.
    pub bootloader: Fram<'a>,
    /// User FRAM.
    pub user: Fram<'a>,
    /// The diagnostics: [`DIAGNOSTICS`](crate::DIAGNOSTICS) of them.
    pub diagnostics: &'a mut [u32],
    /// The buffers of port 0 and of port 1.
    pub ports: [Port<'a>; 2],
}

extern "C" {
    fn wheel_set_up(
        strap: u8,
        limit: u64,
        locked: u8,
        edac: *const u8,
        edac_len: usize,
        bootloader: *const u8,
        bootloader_len: usize,
        bootloader_sums: *mut u16,
        bootloader_sums_len: usize,
        fram: *const u8,
        fram_len: usize,
        sums: *mut u16,
        sums_len: usize,
        diagnostics: *mut u32,
        diagnostics_len: usize,
        message0: *const u8,
        message0_len: usize,
        reply0: *const u8,
        reply0_len: usize,
        message1: *const u8,
        message1_len: usize,
        reply1: *const u8,
        reply1_len: usize,
    ) -> Stepped;

    fn wheel_step(
        unit: Unit,
        port: u8,
        byte: u8,
        sending0: u8,
        sending1: u8,
        edac: *mut u8,
        edac_len: usize,
        bootloader: *mut u8,
        bootloader_len: usize,
        bootloader_sums: *mut u16,
        bootloader_sums_len: usize,
        fram: *mut u8,
        fram_len: usize,
        sums: *mut u16,
        sums_len: usize,
        diagnostics: *mut u32,
        diagnostics_len: usize,
        message0: *mut u8,
        message0_len: usize,
        reply0: *mut u8,
        reply0_len: usize,
        message1: *mut u8,
        message1_len: usize,
        reply1: *mut u8,
        reply1_len: usize,
    ) -> Stepped;

    fn wheel_steps(
        unit: Unit,
        port: u8,
        bytes: *const u8,
        bytes_len: usize,
        sending0: u8,
        sending1: u8,
        edac: *mut u8,
        edac_len: usize,
        bootloader: *mut u8,
        bootloader_len: usize,
        bootloader_sums: *mut u16,
        bootloader_sums_len: usize,
        fram: *mut u8,
        fram_len: usize,
        sums: *mut u16,
        sums_len: usize,
        diagnostics: *mut u32,
        diagnostics_len: usize,
        message0: *mut u8,
        message0_len: usize,
        reply0: *mut u8,
        reply0_len: usize,
        message1: *mut u8,
        message1_len: usize,
        reply1: *mut u8,
        reply1_len: usize,
    ) -> Many;

    fn wheel_pack(
        message: *const u8,
        message_len: usize,
        reply: *mut u8,
        reply_len: usize,
    ) -> Packed;

    fn wheel_judge_list(limit: u64, list: *const u8, list_len: usize) -> u8;

    fn wheel_store_list(
        limit: u64,
        edac: *mut u8,
        edac_len: usize,
        list: *const u8,
        list_len: usize,
    ) -> Answer;

    fn wheel_crc(bytes: *const u8, length: usize) -> u16;

    fn wheel_crc_from(start: u16, bytes: *const u8, length: usize) -> u16;

    fn wheel_join(first: Part, second: Part) -> Joined;
}

/// Sets a unit up. Nothing that is lent changes but the sums of both FRAMs and the low byte of the diagnostic
/// [`FRAM_STATUS`](crate::FRAM_STATUS).
pub fn set_up(strap: u8, limit: u64, locked: u8, lent: Lent<'_>) -> Stepped {
    let [zero, one] = lent.ports;
    // SAFETY: each pointer and length are of one slice, and no two slices that are lent to be written overlap.
    unsafe {
        wheel_set_up(
            strap,
            limit,
            locked,
            lent.edac.as_ptr(),
            lent.edac.len(),
            lent.bootloader.bytes.as_ptr(),
            lent.bootloader.bytes.len(),
            lent.bootloader.sums.as_mut_ptr(),
            lent.bootloader.sums.len(),
            lent.user.bytes.as_ptr(),
            lent.user.bytes.len(),
            lent.user.sums.as_mut_ptr(),
            lent.user.sums.len(),
            lent.diagnostics.as_mut_ptr(),
            lent.diagnostics.len(),
            zero.message.as_ptr(),
            zero.message.len(),
            zero.reply.as_ptr(),
            zero.reply.len(),
            one.message.as_ptr(),
            one.message.len(),
            one.reply.as_ptr(),
            one.reply.len(),
        )
    }
}

/// One byte that came in on a port, with the numbers that say of port 0 and of port 1 whether it is sending. What is to be sent
/// stands at the start of the reply buffer of the port that is handed back.
pub fn step(unit: Unit, port: u8, byte: u8, sending: [u8; 2], lent: Lent<'_>) -> Stepped {
    let [zero, one] = lent.ports;
    // SAFETY: each pointer and length are of one slice, and no two slices that are lent to be written overlap.
    unsafe {
        wheel_step(
            unit,
            port,
            byte,
            sending[0],
            sending[1],
            lent.edac.as_mut_ptr(),
            lent.edac.len(),
            lent.bootloader.bytes.as_mut_ptr(),
            lent.bootloader.bytes.len(),
            lent.bootloader.sums.as_mut_ptr(),
            lent.bootloader.sums.len(),
            lent.user.bytes.as_mut_ptr(),
            lent.user.bytes.len(),
            lent.user.sums.as_mut_ptr(),
            lent.user.sums.len(),
            lent.diagnostics.as_mut_ptr(),
            lent.diagnostics.len(),
            zero.message.as_mut_ptr(),
            zero.message.len(),
            zero.reply.as_mut_ptr(),
            zero.reply.len(),
            one.message.as_mut_ptr(),
            one.message.len(),
            one.reply.as_mut_ptr(),
            one.reply.len(),
        )
    }
}

/// Bytes that came in on a port, one after the other as [`step`] takes them, up to the first answer other than
/// [`Answer::TAKEN`]: what the last that was taken gave back, and how many were, that one included. A refused call loses one byte.
/// With no bytes the record comes back as it is read, and nothing is refused.
pub fn steps(unit: Unit, port: u8, bytes: &[u8], sending: [u8; 2], lent: Lent<'_>) -> Many {
    let [zero, one] = lent.ports;
    // SAFETY: each pointer and length are of one slice, and a slice that may be written overlaps no other.
    unsafe {
        wheel_steps(
            unit,
            port,
            bytes.as_ptr(),
            bytes.len(),
            sending[0],
            sending[1],
            lent.edac.as_mut_ptr(),
            lent.edac.len(),
            lent.bootloader.bytes.as_mut_ptr(),
            lent.bootloader.bytes.len(),
            lent.bootloader.sums.as_mut_ptr(),
            lent.bootloader.sums.len(),
            lent.user.bytes.as_mut_ptr(),
            lent.user.bytes.len(),
            lent.user.sums.as_mut_ptr(),
            lent.user.sums.len(),
            lent.diagnostics.as_mut_ptr(),
            lent.diagnostics.len(),
            zero.message.as_mut_ptr(),
            zero.message.len(),
            zero.reply.as_mut_ptr(),
            zero.reply.len(),
            one.message.as_mut_ptr(),
            one.message.len(),
            one.reply.as_mut_ptr(),
            one.reply.len(),
        )
    }
}

/// A message of 5 to [`MESSAGE`](crate::MESSAGE) bytes, its CRC already on it, as the line carries it, at the start of a reply
/// buffer.
pub fn pack(message: &[u8], reply: &mut [u8]) -> Packed {
    // SAFETY: each pointer and length are of one slice, and a slice that may be written overlaps no other.
    unsafe {
        wheel_pack(
            message.as_ptr(),
            message.len(),
            reply.as_mut_ptr(),
            reply.len(),
        )
    }
}

/// 1 where a list of files is fit to be stored by a unit of this limit, else 0.
pub fn judge_list(limit: u64, list: &[u8]) -> u8 {
    // SAFETY: the pointer and the length are of one slice.
    unsafe { wheel_judge_list(limit, list.as_ptr(), list.len()) }
}

/// Stores a list of files that is fit in EDAC memory: [`Answer::TAKEN`], or [`Answer::BAD_EDAC`] or [`Answer::REFUSED_SILENT`],
/// which change nothing.
pub fn store_list(limit: u64, edac: &mut [u8], list: &[u8]) -> Answer {
    // SAFETY: each pointer and length are of one slice, and a slice that may be written overlaps no other.
    unsafe {
        wheel_store_list(
            limit,
            edac.as_mut_ptr(),
            edac.len(),
            list.as_ptr(),
            list.len(),
        )
    }
}

/// The message CRC of the bytes (ICD 10.8).
pub fn crc(bytes: &[u8]) -> u16 {
    // SAFETY: the pointer and the length are of one slice.
    unsafe { wheel_crc(bytes.as_ptr(), bytes.len()) }
}

/// The CRC that goes on from another over the bytes that follow.
pub fn crc_from(start: u16, bytes: &[u8]) -> u16 {
    // SAFETY: the pointer and the length are of one slice.
    unsafe { wheel_crc_from(start, bytes.as_ptr(), bytes.len()) }
}

/// Two parts, one after the other, as one.
pub fn join(first: Part, second: Part) -> Joined {
    // SAFETY: it is lent no memory, and any two parts can be joined or refused.
    unsafe { wheel_join(first, second) }
}
