//! Commands at the edges of their fields: a code and its data, mostly such that a unit takes it or only just refuses it.

use crate::record::{Mode, Record};
use crate::second::read_only::{Row, ROWS};
use crate::Seeded;

const APPLICATION: [u8; 4] = [0x00, 0x00, 0x05, 0x20];
pub const LOCK: [u8; 4] = [0xEF, 0xBE, 0xAD, 0xDE];

/// The first addresses of bootloader FRAM and of user FRAM, and the one behind both.
pub const WINDOWS: [i64; 3] = [0x2000_0000, 0x2004_0000, 0x2008_0000];

/// The addresses at which a range of CRC begins and ends, each with each: at the ends of the windows, and one off.
pub const FIRSTS: [u32; 4] = [0x1FFF_FFFF, 0x2000_0000, 0x2003_FFFF, 0x2004_0000];
pub const LASTS: [u32; 4] = [0x2003_FFFF, 0x2004_0000, 0x2007_FFFF, 0x2008_0000];

/// A code and its data for a unit with this record, whose limit is the most data that a sound message to it has.
pub fn command(seeded: &mut Seeded, record: &Record) -> (u8, Vec<u8>) {
    let limit = usize::from(record.limit);
    let code = code(seeded, record.mode);
    let mut data = match code {
        0x00 => any_data(seeded, limit),
        0x01 => init(seeded),
        0x02 => peek(seeded, record),
        0x03 => poke(seeded, record),
        0x04 => diagnostic(seeded, limit),
        0x06 => crc(seeded, record),
        0x07 => read_file(seeded, limit),
        0x08 => write_file(seeded, limit),
        0x09 => read_edac(seeded, limit),
        0x0A => write_edac(seeded, limit),
        0x0B => gather(seeded, limit),
        _ => any_data(seeded, limit),
    };
    // A data field that is one byte too short or too long, now and then.
    match seeded.below(20) {
        0 => drop(data.pop()),
        1 => data.push(seeded.number() as u8),
        _ => {}
    }
    data.truncate(limit);
    (code, data)
}

/// From the bootloader the way into application mode is taken often, since most commands need it.
fn code(seeded: &mut Seeded, mode: Mode) -> u8 {
    if mode == Mode::Bootloader && seeded.one_in(4) {
        return 0x01;
    }
    match seeded.below(16) {
        0 => seeded.below(32) as u8,
        _ => seeded.pick(&[
            0x00, 0x01, 0x02, 0x02, 0x02, 0x02, 0x03, 0x03, 0x03, 0x03, 0x04, 0x05, 0x06, 0x06,
            0x06, 0x07, 0x07, 0x08, 0x08, 0x08, 0x09, 0x09, 0x0A, 0x0A, 0x0B, 0x0B,
        ]),
    }
}

/// Bytes of one kind or another: any, the line's own special ones, or all alike.
pub fn bytes(seeded: &mut Seeded, length: usize) -> Vec<u8> {
    match seeded.below(8) {
        0 => vec![seeded.pick(&[0x00, 0xFF, 0xC0, 0xDB, 0xDC, 0xDD]); length],
        1 | 2 => (0..length)
            .map(|_| seeded.pick(&[0xC0, 0xDB, 0xDC, 0xDD, 0x00, 0x41]))
            .collect(),
        _ => seeded.bytes(length),
    }
}

/// Mostly a few, and now and then as many as there may be, or one more or less.
fn length(seeded: &mut Seeded, most: usize) -> usize {
    match seeded.below(12) {
        0 => most + seeded.below(3) - 1,
        1 => 1 + seeded.below(most),
        2 => 250 + seeded.below(12),
        _ => 1 + seeded.below(12),
    }
}

fn any_data(seeded: &mut Seeded, limit: usize) -> Vec<u8> {
    let length = match seeded.below(3) {
        0 => 0,
        _ => length(seeded, limit),
    };
    bytes(seeded, length)
}

/// The lock comes seldom, since nothing but another record takes it away.
fn init(seeded: &mut Seeded) -> Vec<u8> {
    match seeded.below(16) {
        0..=8 => APPLICATION.to_vec(),
        9 | 10 => Vec::new(),
        11 => LOCK.to_vec(),
        12 => nearly(seeded, APPLICATION),
        13 => nearly(seeded, LOCK),
        _ => {
            let length = seeded.below(9);
            bytes(seeded, length)
        }
    }
}

/// Not what INIT takes, though nearly: a bit off, the bytes in another order, or one too few or too many.
pub fn nearly(seeded: &mut Seeded, taken: [u8; 4]) -> Vec<u8> {
    let mut data = taken.to_vec();
    match seeded.below(6) {
        0..=2 => data[seeded.below(4)] ^= 1 << seeded.below(8),
        3 => data.reverse(),
        4 => drop(data.pop()),
        _ => data.push(0),
    }
    data
}

/// A place at or about the edges of blocks and of an FRAM, as an offset from its first byte.
fn fram_edge(seeded: &mut Seeded, fram_len: usize) -> i64 {
    let edge = match seeded.below(8) {
        0 => 0,
        1 | 2 => fram_len,
        3..=6 => 256 * seeded.below(fram_len / 256 + 2),
        _ => seeded.below(fram_len + 256),
    };
    edge as i64 + seeded.pick(&[-1, 0, 0, 0, 1])
}

/// One FRAM or the other: its first address, and how much of it is fitted.
fn chip(seeded: &mut Seeded, record: &Record) -> (i64, usize) {
    seeded.pick(&[
        (WINDOWS[0], record.bootloader_len),
        (WINDOWS[1], record.fram_len),
    ])
}

/// A range by its first address and its count, which is at least 1 mostly.
fn fram_range(seeded: &mut Seeded, record: &Record) -> (i64, i64) {
    if seeded.one_in(4) {
        return across(seeded);
    }
    let (first, fram_len) = chip(seeded, record);
    let (a, b) = (fram_edge(seeded, fram_len), fram_edge(seeded, fram_len));
    match seeded.below(16) {
        // Most ranges are short and lie inside.
        0..=5 => {
            let count = 1 + seeded.below(12);
            let start = seeded.below(fram_len + 1 - count.min(fram_len));
            (first + start as i64, count as i64)
        }
        6 => (first + a, 1 + seeded.below(300) as i64),
        7 => (first + a, fram_len as i64 - a),
        8 => (seeded.number() as u32 as i64, 1 + a.abs()),
        // At the ends of all addresses, where a sum of 32 bits would wrap.
        9 => (
            seeded.pick(&[0, 0x1_0000_0000 - first, 0x1_0000_0000 - 2 * first]) + a,
            b.abs(),
        ),
        _ => (first + a.min(b), (a - b).abs()),
    }
}

/// A range over the border between the two, or just up to it, about any end of a window, or from one window into the other.
fn across(seeded: &mut Seeded) -> (i64, i64) {
    let mut below = |n| seeded.below(n) as i64;
    let (start, end) = match below(4) {
        0 => (WINDOWS[1] - 1 - below(300), WINDOWS[1] + below(3)),
        1 => (WINDOWS[0] + below(262_144), WINDOWS[1] + below(262_144)),
        _ => {
            let edge = WINDOWS[below(3) as usize];
            (edge - below(3), edge + below(3))
        }
    };
    (start, end - start)
}

fn address(number: i64) -> [u8; 4] {
    (number as u32).to_le_bytes()
}

fn peek(seeded: &mut Seeded, record: &Record) -> Vec<u8> {
    // The reply has the address too.
    let most = i64::from(record.limit) - 4;
    if seeded.one_in(12) {
        let (first, fram_len) = chip(seeded, record);
        let start = seeded.below(1 + fram_len.saturating_sub(most as usize));
        let count = (most - 1) as u16 + seeded.below(3) as u16;
        return [&address(first + start as i64)[..], &count.to_le_bytes()].concat();
    }
    let (start, count) = fram_range(seeded, record);
    let mut data = address(start).to_vec();
    if seeded.one_in(3) {
        data.push(count.min(256) as u8);
    } else {
        let count = match seeded.below(8) {
            0 => seeded.pick(&[0, 1, 255, 256, most, most + 1, 1_024, 1_025, 1_280, 65_535]),
            _ => count.clamp(0, most + 2),
        };
        data.extend((count as u16).to_le_bytes());
    }
    data
}

fn poke(seeded: &mut Seeded, record: &Record) -> Vec<u8> {
    let (start, count) = fram_range(seeded, record);
    let most = i64::from(record.limit) - 4;
    let count = match seeded.below(16) {
        0 => seeded.pick(&[0, 1, 256, most - 1, most]),
        _ => count.clamp(1, most),
    };
    let stored = bytes(seeded, count as usize);
    [&address(start)[..], &stored].concat()
}

pub fn crc(seeded: &mut Seeded, record: &Record) -> Vec<u8> {
    if seeded.one_in(5) {
        let ends = [seeded.pick(&FIRSTS), seeded.pick(&LASTS)];
        return ends.map(u32::to_le_bytes).concat();
    }
    let (first, count) = fram_range(seeded, record);
    let (start, end) = match seeded.below(12) {
        0 => (address(first + count), address(first)),
        1 => (address(first), address(first)),
        2 => (address(first), address(first - 1)),
        _ => (address(first), address(first + count.max(1) - 1)),
    };
    [start, end].concat()
}

fn diagnostic(seeded: &mut Seeded, limit: usize) -> Vec<u8> {
    // Five bytes of the reply for each channel.
    let most = limit / 5;
    let length = match seeded.below(6) {
        0 => most - 1 + seeded.below(3),
        _ => length(seeded, most),
    };
    let mut channels: Vec<u8> = (0..length).map(|_| seeded.below(31) as u8).collect();
    if seeded.one_in(8) && length > 0 {
        channels[seeded.below(length)] = seeded.pick(&[0x1F, 0x20, 0x80, 0xFF]);
    }
    if seeded.one_in(4) && length + 14 <= most {
        channels.extend(0x07..=0x14);
    }
    channels
}

/// A file address: any, few so that a list names one twice, read-only ones and file 0 often.
fn file(seeded: &mut Seeded) -> u8 {
    match seeded.below(7) {
        0 => 0,
        1 => seeded.pick(&[1, 0xFF, 0xFE, 0x28]),
        2 | 3 => 1 + seeded.below(4) as u8,
        4 => file_of(seeded.pick(&ROWS)).unwrap_or(0),
        _ => seeded.number() as u8,
    }
}

/// The file that a row is, if it is one.
fn file_of(row: Row) -> Option<u8> {
    u8::try_from(row.first / 4).ok()
}

/// Files whose structures fill a data field to its edge.
fn filling(seeded: &mut Seeded, limit: usize) -> Vec<u8> {
    let size = limit + seeded.below(9) - 5;
    let zeros = match seeded.below(3) {
        0 => size / 6,
        1 => 0,
        _ => seeded.below(size / 6),
    };
    files_up_to(seeded, size, zeros)
}

/// So many times file 0, and others up to a size: six bytes for each file 0, five for each other.
fn files_up_to(seeded: &mut Seeded, size: usize, zeros: usize) -> Vec<u8> {
    let others = size.saturating_sub(6 * zeros) / 5;
    let mut files = vec![0; zeros];
    files.extend((0..others).map(|_| 1 + seeded.below(255) as u8));
    let first = seeded.below(files.len().max(1));
    files.rotate_left(first);
    files
}

fn read_file(seeded: &mut Seeded, limit: usize) -> Vec<u8> {
    if seeded.one_in(4) {
        return filling(seeded, limit);
    }
    let length = match seeded.below(12) {
        0 => 0,
        _ => length(seeded, limit / 5 + 1),
    };
    (0..length).map(|_| file(seeded)).collect()
}

pub fn write_file(seeded: &mut Seeded, limit: usize) -> Vec<u8> {
    let files = match seeded.below(10) {
        0 => filling(seeded, limit),
        _ => {
            let length = seeded.below(9);
            (0..length).map(|_| file(seeded)).collect()
        }
    };
    let mut data = structures(seeded, &files);
    if seeded.one_in(6) {
        data.truncate(data.len() - seeded.below(7).min(data.len()));
    }
    data
}

/// A list of whole structures that is so long, if there is one.
pub fn whole_list(seeded: &mut Seeded, size: usize) -> Vec<u8> {
    // A six for each byte over a multiple of five, and then five sixes in the place of six fives.
    let (least, most) = (size % 5, size / 6);
    let zeros = least + 5 * seeded.below(1 + most.saturating_sub(least) / 5);
    let files = files_up_to(seeded, size, zeros);
    structures(seeded, &files)
}

/// Files with a value for each.
fn structures(seeded: &mut Seeded, files: &[u8]) -> Vec<u8> {
    let mut data = Vec::new();
    for &file in files {
        data.push(file);
        data.extend(seeded.bytes(if file == 0 { 5 } else { 4 }));
    }
    data
}

/// Commands that write over and beside one read-only row, by its addresses and by its file, and one that shows it. They
/// need application mode.
pub fn about_a_row(seeded: &mut Seeded, mode: Mode) -> Vec<(u8, Vec<u8>)> {
    let row = seeded.pick(&ROWS);
    let mut list = Vec::new();
    if mode == Mode::Bootloader {
        list.push((0x01, APPLICATION.to_vec()));
    }
    for _ in 0..1 + seeded.below(4) {
        list.push(row_written(seeded, row));
    }
    list.push(row_shown(seeded, row));
    list
}

fn row_written(seeded: &mut Seeded, row: Row) -> (u8, Vec<u8>) {
    match file_of(row) {
        Some(file) if seeded.one_in(4) => {
            let mut files = vec![file - 1, file, file + 1];
            files.extend(seeded.pick(&[&[][..], &[0], &[file], &[0, file]]));
            let first = seeded.below(files.len());
            files.rotate_left(first);
            (0x08, structures(seeded, &files))
        }
        _ => {
            let (start, count) = row_range(seeded, row);
            let stored = bytes(seeded, count);
            (0x0A, [&start.to_le_bytes()[..], &stored].concat())
        }
    }
}

fn row_shown(seeded: &mut Seeded, row: Row) -> (u8, Vec<u8>) {
    let start = (row.first as u16 - 1).to_le_bytes();
    let count = (row.last - row.first + 3) as u8;
    match (seeded.below(3), file_of(row)) {
        (0, Some(file)) => (0x07, vec![file - 1, file, file + 1, file]),
        (0 | 1, _) => (0x09, vec![start[0], start[1], count]),
        _ => (0x0B, [start[0], start[1], count, 0].repeat(2)),
    }
}

/// An EDAC range about a read-only row: over it with bytes on either side, up to it, from its end on, or with an end in it.
fn row_range(seeded: &mut Seeded, row: Row) -> (u16, usize) {
    let (first, behind) = (row.first, row.last + 1);
    let (inside, more) = (first + seeded.below(behind - first), seeded.below(4));
    let (start, end) = match seeded.below(5) {
        0 => (first - 1 - more, behind + 1 + seeded.below(4)),
        1 => (first - 1 - more, first),
        2 => (behind, behind + 1 + more),
        3 => (inside - more, inside + 1),
        _ => (inside, inside + 1 + more),
    };
    (start as u16, end - start)
}

/// An EDAC range: anywhere, about a read-only row, about the end, about the mode's byte, or as 01's table of edges has it, by
/// the limit.
fn edac_range(seeded: &mut Seeded, limit: usize) -> (u16, usize) {
    // The most bytes that READ EDAC shows, and one range of GATHER.
    let (read, gathered) = (limit - 2, limit - 4);
    if seeded.one_in(5) {
        let (start, count) = seeded.pick(&[
            (1_536 - read, read),
            (1_537 - read, read),
            (0, read),
            (0, read + 1),
            (1_536 - gathered, gathered),
            (1_537 - gathered, gathered),
            (0, gathered + 1),
            (1_535, 1),
            (1_535, 2),
            (1_536, 1),
        ]);
        return (start as u16, count);
    }
    if seeded.one_in(5) {
        let row = seeded.pick(&ROWS);
        return row_range(seeded, row);
    }
    let start = match seeded.below(10) {
        0 => 0,
        1 => 509 + seeded.below(4),
        2 => 0x5C3 - seeded.below(4),
        3 => 1_533 + seeded.below(5),
        4 => seeded.pick(&[1_023, 1_024, 2_048, 32_768, 65_535]),
        _ => seeded.below(1_524),
    };
    let count = match seeded.below(12) {
        0 => seeded.pick(&[0, 255, 256, 257, gathered - 2, gathered - 1, gathered]),
        1 => gathered + seeded.below(5),
        2 | 3 => (1_535 + seeded.below(3)).saturating_sub(start),
        _ => 1 + seeded.below(12),
    };
    (start as u16, count)
}

fn read_edac(seeded: &mut Seeded, limit: usize) -> Vec<u8> {
    let (start, count) = edac_range(seeded, limit);
    let mut data = start.to_le_bytes().to_vec();
    if seeded.one_in(3) {
        data.push(count.min(256) as u8);
    } else {
        data.extend((count as u16).to_le_bytes());
    }
    data
}

fn write_edac(seeded: &mut Seeded, limit: usize) -> Vec<u8> {
    let (start, count) = edac_range(seeded, limit);
    let stored = bytes(seeded, count.min(limit - 2));
    [&start.to_le_bytes()[..], &stored].concat()
}

/// Ranges of which the last may be chosen so that the reply just fits, or just does not.
fn gather(seeded: &mut Seeded, limit: usize) -> Vec<u8> {
    let (mut data, mut left) = (Vec::new(), limit);
    for _ in 0..seeded.pick(&[0, 1, 1, 2, 3]) {
        let (start, count) = edac_range(seeded, limit);
        data.extend(start.to_le_bytes());
        data.extend((count as u16).to_le_bytes());
        left = left.saturating_sub(4 + count);
    }
    if seeded.one_in(2) && left > 5 {
        let count = left - 5 + seeded.below(3);
        data.extend((seeded.below(1_538).saturating_sub(count) as u16).to_le_bytes());
        data.extend((count as u16).to_le_bytes());
    }
    data
}
