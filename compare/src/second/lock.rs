//! 02, T-07 (ICD 11.6, 12.3): the lock of bootloader FRAM. The unit's record has it. Diagnostic 0x06 only shows it: whatever the
//! caller makes of that value later, it is not read here.

/// The diagnostic of FRAM status bytes, of which the lowest is that of bootloader FRAM.
const STATUS: usize = 0x06;

/// Writes the status byte and leaves the other three.
pub fn show(locked: bool, diagnostics: &mut [u32]) {
    let [_, others @ ..] = diagnostics[STATUS].to_le_bytes();
    let status = if locked { 0xCC } else { 0x40 };
    diagnostics[STATUS] = u32::from_le_bytes([status, others[0], others[1], others[2]]);
}
