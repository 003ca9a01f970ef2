//! 01, Commands (ICD 11.11 to 11.15, 12.4): EDAC memory by byte and by file.

use super::command::No;
use super::read_only;
use std::ops::Range;

const LEN: usize = 1_536;

/// Where the mode stands that file 0 carries beside its four bytes.
const MODE: usize = 0x5C3;

/// The bytes of an EDAC range, which must end at or below 1,536.
pub fn range(address: u16, count: usize) -> Result<Range<usize>, No> {
    let start = usize::from(address);
    let end = start + count;
    if end > LEN {
        return Err(No::Refused);
    }
    Ok(start..end)
}

/// How long the structure of a file is, its address included: file 0 has the mode too.
pub fn structure_len(file: u8) -> usize {
    if file == 0 {
        6
    } else {
        5
    }
}

/// A file address counts words of four bytes.
fn bytes_of(file: u8) -> Range<usize> {
    let start = 4 * usize::from(file);
    start..start + 4
}

/// The structure that shows a file as memory has it.
pub fn file(file: u8, edac: &[u8]) -> Vec<u8> {
    let mut shown = vec![file];
    if file == 0 {
        shown.push(edac[MODE]);
    }
    shown.extend(&edac[bytes_of(file)]);
    shown
}

/// Stores the file that a structure carries.
pub fn store_file(structure: &[u8], edac: &mut [u8]) {
    let (file, mut value) = (structure[0], &structure[1..]);
    if file == 0 {
        store(MODE..MODE + 1, &value[..1], edac);
        value = &value[1..];
    }
    store(bytes_of(file), value, edac);
}

/// Stores bytes, but for those that are read-only (02, T-02): they keep their value, and the rest is stored all the same.
pub fn store(range: Range<usize>, bytes: &[u8], edac: &mut [u8]) {
    for (at, &byte) in range.zip(bytes) {
        if !read_only::keeps(at) {
            edac[at] = byte;
        }
    }
}
