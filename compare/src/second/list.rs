//! 02, T-11 (ICD 11.12): a list of files is judged, and one that is fit is stored. WRITE FILE uses both. They can be asked with
//! no unit at hand, so they are told the limit.

use super::{edac, limit, refusals};

/// Whether WRITE FILE with this list would be ACKed in application mode.
pub fn judge_list(limit: u64, list: &[u8]) -> bool {
    limit::is_right(limit)
        && list.len() as u64 <= limit
        && !list.is_empty()
        && structures(list).into_iter().all(is_whole)
}

/// Stores every file in order and answers 0. A wrong length of EDAC is 21, and then an unfit list is 4, as a command refused
/// without a reply; both change nothing.
pub fn store_list(limit: u64, edac: &mut [u8], list: &[u8]) -> u8 {
    if edac.len() != refusals::EDAC_LEN {
        return 21;
    }
    if !judge_list(limit, list) {
        return 4;
    }
    for structure in structures(list) {
        edac::store_file(structure, edac);
    }
    0
}

/// The structures of a list, of which the last may be cut short.
pub fn structures(list: &[u8]) -> Vec<&[u8]> {
    let (mut structures, mut rest) = (Vec::new(), list);
    while !rest.is_empty() {
        let length = edac::structure_len(rest[0]).min(rest.len());
        let (structure, after) = rest.split_at(length);
        structures.push(structure);
        rest = after;
    }
    structures
}

fn is_whole(structure: &[u8]) -> bool {
    structure.len() == edac::structure_len(structure[0])
}
