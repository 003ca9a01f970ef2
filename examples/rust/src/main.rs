//! A unit on a board, as small as it gets: sets one up with strap 1, which hears 0x41 on port 0, sends it P6 of 01 there byte by
//! byte and prints the reply, which leaves on port 1. The same in C is `examples/c/ping.c`.

use std::process::ExitCode;
use wheel_unit::{
    Answer, Buffers, Fram, Lock, Memories, PortId, Wheel, EDAC, FRAM_BLOCK, LIMIT_MOST,
};

/// The bytes of each FRAM.
const FITTED: usize = 65_536;

const P6: [u8; 7] = [0xC0, 0x41, 0x11, 0x80, 0xD8, 0x6D, 0xC0];

fn main() -> ExitCode {
    let mut edac = [0; EDAC];
    let (mut bootloader, mut bootloader_sums) = ([0; FITTED], [0; FITTED / FRAM_BLOCK]);
    let (mut user, mut user_sums) = ([0; FITTED], [0; FITTED / FRAM_BLOCK]);
    let mut buffers = Buffers::new();
    let memories = Memories {
        edac: &mut edac,
        bootloader: Fram {
            bytes: &mut bootloader,
            sums: &mut bootloader_sums,
        },
        user: Fram {
            bytes: &mut user,
            sums: &mut user_sums,
        },
    };
    let mut wheel = match Wheel::begin(memories, &mut buffers, 1, LIMIT_MOST, Lock::Unlocked) {
        Ok(wheel) => wheel,
        Err(answer) => {
            eprintln!("set-up refused: {answer:?}");
            return ExitCode::FAILURE;
        }
    };
    let mut left_on_port_1 = false;
    for byte in P6 {
        wheel.byte(PortId::Zero, byte, [false, false]);
        if let Some(reply) = wheel.reply() {
            let bytes: Vec<String> = reply
                .bytes
                .iter()
                .map(|byte| format!("{byte:02X}"))
                .collect();
            println!("{}", bytes.join(" "));
            left_on_port_1 = reply.port == PortId::One;
        }
    }
    if wheel.answer() == Answer::ACKED && left_on_port_1 {
        ExitCode::SUCCESS
    } else {
        ExitCode::FAILURE
    }
}
