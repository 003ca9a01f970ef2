//! How commands met each read-only row (02, T-02), and which files were written: a byte that is kept says nothing where
//! nobody tried to write it, and one that is stored says nothing where it was there before. The rows are the second
//! program's; that none is missing there, `tests/second/read_only.rs` sees by a list of its own.

use crate::second::read_only::ROWS;
use std::fmt;

/// The ways in which a command that is done can meet a row. A write counts where what it sends to the row, or to the byte
/// beside it, is another value than memory holds.
const WAYS: [&str; 9] = [
    "WRITE EDAC over it and the byte on either side",
    "WRITE EDAC that ends right before it",
    "WRITE EDAC that ends in it",
    "WRITE EDAC that begins in it",
    "WRITE EDAC that begins right behind it",
    "WRITE FILE",
    "READ EDAC",
    "READ FILE",
    "GATHER",
];

const FILED: usize = 5;
const READ_EDAC: usize = 6;
const READ_FILE: usize = 7;
const GATHERED: usize = 8;

pub struct Rows {
    /// How often each row was met in each way.
    times: [[u64; WAYS.len()]; ROWS.len()],
    /// How often WRITE FILE was sent another value of each file.
    files: [u64; 256],
}

impl Default for Rows {
    fn default() -> Rows {
        Rows {
            times: [[0; WAYS.len()]; ROWS.len()],
            files: [0; 256],
        }
    }
}

impl Rows {
    /// A command that was done, and what EDAC memory held before it.
    pub fn done(&mut self, code: u8, data: &[u8], held: &[u8]) {
        match code {
            0x07 => {
                for &file in data {
                    self.shown(READ_FILE, 4 * usize::from(file), 4);
                }
            }
            0x08 => self.files_written(data, held),
            0x09 => self.shown(READ_EDAC, half_word(data), count(&data[2..])),
            0x0A => self.written(half_word(data), &data[2..], held),
            0x0B => {
                for asked in data.chunks(4) {
                    self.shown(GATHERED, half_word(asked), count(&asked[2..]));
                }
            }
            _ => {}
        }
    }

    fn shown(&mut self, way: usize, start: usize, count: usize) {
        for (row, times) in ROWS.iter().zip(&mut self.times) {
            times[way] += u64::from(start <= row.first && row.last < start + count);
        }
    }

    fn files_written(&mut self, data: &[u8], held: &[u8]) {
        let mut rest = data;
        while let Some(&file) = rest.first() {
            let (structure, after) = rest.split_at(if file == 0 { 6 } else { 5 });
            rest = after;
            let (start, value) = (4 * usize::from(file), &structure[structure.len() - 4..]);
            let same_mode = file == 0 && structure[1] == held[0x5C3];
            if same_mode || (0..4).any(|i| value[i] == held[start + i]) {
                continue;
            }
            self.files[usize::from(file)] += 1;
            self.shown(FILED, start, 4);
        }
    }

    fn written(&mut self, start: usize, bytes: &[u8], held: &[u8]) {
        let end = start + bytes.len();
        let other = |from: usize, to: usize| (from..to).all(|at| bytes[at - start] != held[at]);
        for (row, times) in ROWS.iter().zip(&mut self.times) {
            let (first, behind) = (row.first, row.last + 1);
            let met = [
                start < first && behind < end && other(first - 1, behind + 1),
                start < first && end == first && other(first - 1, first),
                first < end && end <= behind && other(start.max(first), end),
                first <= start && start < behind && other(start, end.min(behind)),
                start == behind && other(behind, behind + 1),
            ];
            for (way, met) in met.into_iter().enumerate() {
                times[way] += u64::from(met);
            }
        }
    }

    /// What a run never did: ways in which some row was not met, and files that were not written.
    pub fn missed(&self) -> Vec<String> {
        let mut missed = Vec::new();
        for (row, times) in ROWS.iter().zip(&self.times) {
            for (_, name) in ways_of(row.first).filter(|&(way, _)| times[way] == 0) {
                missed.push(format!("{}: {name}", row.name));
            }
        }
        for (file, _) in self.files.iter().enumerate().filter(|(_, &n)| n == 0) {
            missed.push(format!("file {file:#04x}: WRITE FILE"));
        }
        missed
    }
}

/// The ways in which a row can be met: from 0x400 on memory has no files.
fn ways_of(first: usize) -> impl Iterator<Item = (usize, &'static str)> {
    let by_file = |way| way == FILED || way == READ_FILE;
    let ways = WAYS.into_iter().enumerate();
    ways.filter(move |&(way, _)| first < 0x400 || !by_file(way))
}

/// For each way the row that was met least.
impl fmt::Display for Rows {
    fn fmt(&self, f: &mut fmt::Formatter) -> fmt::Result {
        write!(f, "read-only rows, the one met least:")?;
        for (way, name) in WAYS.into_iter().enumerate() {
            let rows = ROWS.iter().zip(&self.times);
            let least = rows
                .filter(|(row, _)| ways_of(row.first).any(|(its, _)| its == way))
                .map(|(row, times)| (times[way], row.name))
                .min();
            if let Some((times, row)) = least {
                write!(f, "\n    {name}: {row} {times}")?;
            }
        }
        Ok(())
    }
}

fn half_word(bytes: &[u8]) -> usize {
    usize::from(u16::from_le_bytes([bytes[0], bytes[1]]))
}

/// A count of one byte, in which 0 is 256, or of two.
fn count(bytes: &[u8]) -> usize {
    match bytes {
        [0] => 256,
        [byte] => usize::from(*byte),
        _ => half_word(bytes),
    }
}
