//! ICD 12.3, Table 17: the diagnostics that count what befell each port. Here a count stays at its highest value (01).

/// What is counted, in the order of the table.
#[derive(Clone, Copy)]
pub enum Count {
    Framing,
    Runt,
    Oversize,
    BadCrc,
    /// The bytes that a port was too slow for. They are the board's, and not counted here.
    #[allow(dead_code)]
    Overflow,
    /// Runs thrown away, which the ICD calls incoming discarded.
    Thrown,
    /// Replies lost: outgoing discarded.
    Lost,
}

/// The first of them for each port.
const FIRST: [usize; 2] = [0x07, 0x0E];

pub fn add_one(count: Count, port: usize, diagnostics: &mut [u32]) {
    let value = &mut diagnostics[FIRST[port] + count as usize];
    *value = value.saturating_add(1);
}
