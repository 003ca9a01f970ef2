//! 02, T-02: the parameters that the prose of ICD 12.4 calls read-only, each with its addresses from Table 18. Where the
//! prose is silent, and where the table has no row, a byte can be written.

/// A parameter's first and last byte in EDAC memory, the last included.
#[derive(Clone, Copy, Debug)]
pub struct Row {
    pub first: usize,
    pub last: usize,
    pub name: &'static str,
}

const fn row(first: usize, last: usize, name: &'static str) -> Row {
    Row { first, last, name }
}

/// In the order of their addresses.
pub const ROWS: [Row; 39] = [
    row(0x00C, 0x00F, "VBUS"),
    row(0x020, 0x023, "VCC"),
    row(0x040, 0x043, "TEMP0"),
    row(0x048, 0x04B, "TEMP2"),
    row(0x04C, 0x04F, "TEMP3"),
    row(0x054, 0x057, "SPEED"),
    row(0x058, 0x05B, "MOMENTUM"),
    row(0x06C, 0x06F, "HALL_DIGITAL"),
    row(0x074, 0x077, "ADC_CALIBRATE"),
    row(0x080, 0x083, "SPEED_P_GAIN"),
    row(0x084, 0x087, "SPEED_I_GAIN"),
    row(0x088, 0x08B, "SPEED_D_GAIN"),
    row(0x100, 0x103, "PREVIOUS_SPEED"),
    row(0x108, 0x10B, "SPEED_LAST_ERROR"),
    row(0x12C, 0x12F, "TORQUE_T0"),
    row(0x130, 0x133, "TORQUE_T1"),
    row(0x134, 0x137, "TORQUE_T2"),
    row(0x138, 0x13B, "TORQUE_T3"),
    row(0x13C, 0x13F, "TORQUE_T4"),
    row(0x168, 0x16B, "SLEEP_DUTY"),
    row(0x16C, 0x16F, "DCDC_FREQ"),
    row(0x184, 0x187, "RESPONSE_AMPLITUDE"),
    row(0x188, 0x18B, "RESPONSE_PHASE"),
    row(0x190, 0x193, "KT_ESTIMATE"),
    row(0x194, 0x197, "R_ESTIMATE"),
    row(0x19C, 0x19F, "DRY_FRICTION_ESTIMATE"),
    row(0x1A0, 0x1A3, "WET_FRICTION_ESTIMATE"),
    row(0x1A4, 0x1A7, "AERO_FRICTION_ESTIMATE"),
    row(0x1A8, 0x1AB, "RUNDOWN_TIME"),
    row(0x200, 0x203, "TEMP_R0"),
    row(0x204, 0x207, "TEMP_R2"),
    // The table calls it TEMP_R4.
    row(0x208, 0x20B, "TEMP_R3"),
    row(0x20C, 0x20F, "ADC_RAW_VBUS"),
    row(0x210, 0x213, "ADC_RAW_VCC"),
    row(0x214, 0x217, "ADC_RAW_TEMP0"),
    row(0x218, 0x21B, "ADC_RAW_TEMP2"),
    row(0x21C, 0x21F, "ADC_RAW_TEMP3"),
    row(0x220, 0x223, "ADC_RAW_CALIBRATE"),
    row(0x5D7, 0x5D7, "FLAGS_ACTIVE"),
];

/// Whether the byte at an EDAC address keeps its value whatever is written there.
pub fn keeps(at: usize) -> bool {
    ROWS.iter().any(|row| (row.first..=row.last).contains(&at))
}
