//! 02, T-01 (ICD 10.5): where a unit is heard. Its strap moves four addresses, two on each port, and each of them names the port
//! on which its replies leave.

/// The highest strap: three pins in the harness say it.
pub const MOST: u8 = 7;

/// An address of a unit whose strap is 0, the port that hears it, and the port of its replies.
struct Row {
    address: u8,
    heard: usize,
    answered: usize,
}

const fn row(address: u8, heard: usize, answered: usize) -> Row {
    Row {
        address,
        heard,
        answered,
    }
}

/// As Table 12 has them.
const TABLE: [Row; 4] = [
    row(0x40, 0, 1),
    row(0x50, 1, 1),
    row(0x60, 0, 0),
    row(0x70, 1, 0),
];

/// The port on which a command to this address is answered, if the unit hears it on that port.
pub fn answered_on(strap: u8, address: u8, port: usize) -> Option<usize> {
    let heard = |row: &&Row| row.address + strap == address && row.heard == port;
    TABLE.iter().find(heard).map(|row| row.answered)
}
