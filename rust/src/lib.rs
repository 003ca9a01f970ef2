//! The command unit of a small reaction wheel, as Rust calls it: the functions of `include/wheel.h`, which are proved, and over
//! them a safe [`Wheel`] for firmware. No standard library, no allocation and no panic.
//!
//! A unit is set up over the memories where the board has them, and then takes the bytes of its two ports:
//!
//! ```
//! use wheel_unit::{Buffers, Fram, Lock, Memories, PortId, Wheel, EDAC, FRAM_BLOCK, LIMIT_MOST};
//!
//! let (mut edac, mut boot, mut user) = ([0; EDAC], [0; 1024], [0; 4096]);
//! let (mut boot_sums, mut user_sums) = ([0; 1024 / FRAM_BLOCK], [0; 4096 / FRAM_BLOCK]);
//! let mut buffers = Buffers::new();
//! let memories = Memories {
//!     edac: &mut edac,
//!     bootloader: Fram { bytes: &mut boot, sums: &mut boot_sums },
//!     user: Fram { bytes: &mut user, sums: &mut user_sums },
//! };
//! let mut wheel = Wheel::begin(memories, &mut buffers, 1, LIMIT_MOST, Lock::Unlocked).unwrap();
//! for byte in [0xC0, 0x61, 0x11, 0x80, 0xE3, 0x6E, 0xC0] {
//!     wheel.byte(PortId::Zero, byte, [false, false]);
//! }
//! let reply = wheel.reply().unwrap();
//! assert_eq!((reply.port, reply.bytes.len()), (PortId::Zero, 24));
//! ```
//!
//! What the functions of the archive do is proved for every argument. These declarations of them and the [`Wheel`] are tested, and
//! not proved.
//!
//! The build links `target/archive/TARGET/libboard.a` of the repository, which `tools/archive TARGET` writes, or `libboard.a` of
//! the folder that the environment variable WHEEL_ARCHIVE names.

#![no_std]
#![deny(missing_docs, unsafe_op_in_unsafe_fn)]
#![warn(clippy::undocumented_unsafe_blocks)]

mod numbers;
pub mod plain;
mod records;
mod wheel;

pub use numbers::*;
pub use plain::{crc, crc_from, Fram, Lent, Port};
pub use records::{Joined, Many, Packed, Part, Stepped, Unit};
pub use wheel::{judge_list, pack, store_list, Buffers, Lock, Memories, PortId, Reply, Wheel};
