//! `times TURNS`: times the proved CRC and set-up against the same sums by the table-driven CRC in plain Rust and by that of
//! another crate, and prints the best time of each and the ratios. tools/times builds it with the feature `debian`, and then the
//! other is Debian's librust-crc-dev, which no test needs. Else the one in plain Rust takes its turn twice.

use compare::wheel::{Fram, Lent, Port};
use compare::{plain, Seeded};
use std::{env, hint::black_box, time::Instant};
use wheel_unit::plain::set_up;
use wheel_unit::Answer;

const BLOCK: usize = 256;

#[cfg(feature = "debian")]
const OTHER: &str = "librust-crc-dev";
#[cfg(not(feature = "debian"))]
const OTHER: &str = "plain Rust again";

/// Debian's crate has CRC-16/X-25, which is the message CRC with a final inversion.
#[cfg(feature = "debian")]
fn other(bytes: &[u8]) -> u16 {
    !crc::crc16::checksum_x25(bytes)
}
#[cfg(not(feature = "debian"))]
fn other(bytes: &[u8]) -> u16 {
    plain::crc(bytes)
}

/// Nanoseconds for one call: the best of many turns, in which the ways take their turns one after the other. A short call
/// is made often in a turn.
fn best(turns: usize, bytes: usize, ways: &mut [&mut dyn FnMut()]) -> Vec<f64> {
    let times = (262_144 / bytes).max(1);
    let mut best = vec![f64::MAX; ways.len()];
    for _ in 0..turns {
        for (way, best) in ways.iter_mut().zip(&mut best) {
            let start = Instant::now();
            for _ in 0..times {
                way();
            }
            *best = best.min(start.elapsed().as_nanos() as f64 / times as f64);
        }
    }
    best
}

fn say(what: &str, length: usize, best: &[f64]) {
    println!(
        "{what} {length} bytes: proved {:.0} ns, plain Rust {:.0} ns, {OTHER} {:.0} ns; ratio {:.3} and {:.3}",
        best[0],
        best[1],
        best[2],
        best[0] / best[1],
        best[0] / best[2]
    );
}

fn main() {
    let word = env::args().nth(1).unwrap_or_default();
    let turns = word.parse().expect("times TURNS");
    of_slices(turns);
    of_blocks(turns);
}

fn of_slices(turns: usize) {
    for length in [3, 11, 64, BLOCK, 4_096, 65_536, 262_144] {
        let bytes = Seeded(20).bytes(length);
        assert_eq!(wheel_unit::crc(&bytes), plain::crc(&bytes));
        assert_eq!(other(&bytes), plain::crc(&bytes));
        let times = best(
            turns,
            length,
            &mut [
                &mut || {
                    black_box(wheel_unit::crc(black_box(&bytes)));
                },
                &mut || {
                    black_box(plain::crc(black_box(&bytes)));
                },
                &mut || {
                    black_box(other(black_box(&bytes)));
                },
            ],
        );
        say("the CRC of", length, &times);
    }
}

fn of_blocks(turns: usize) {
    let (mut edac, mut diagnostics) = ([0; 1536], [0; 31]);
    let mut ports = [([0; 1033], [0; 2068]); 2];
    // Bootloader FRAM as small as it may be: one block more than the others sum.
    let (mut bootloader, mut bootloader_sums) = ([0; BLOCK], [0; 1]);
    for length in [BLOCK, 4_096, 65_536, 262_144] {
        let fram = Seeded(21).bytes(length);
        let mut our_fram = fram.clone();
        let [mut ours, mut plains, mut others] = [(); 3].map(|()| vec![0; length / BLOCK]);
        let times = best(
            turns,
            length,
            &mut [
                &mut || {
                    let lent = Lent {
                        edac: &mut edac,
                        bootloader: Fram {
                            bytes: &mut bootloader,
                            sums: &mut bootloader_sums,
                        },
                        user: Fram {
                            bytes: black_box(&mut our_fram),
                            sums: &mut ours,
                        },
                        diagnostics: &mut diagnostics,
                        ports: ports
                            .each_mut()
                            .map(|(message, reply)| Port { message, reply }),
                    };
                    assert_eq!(set_up(1, 1_028, 0, lent).answer, Answer::TAKEN);
                },
                &mut || {
                    for (sum, block) in plains.iter_mut().zip(black_box(&fram).chunks(BLOCK)) {
                        *sum = plain::crc(block);
                    }
                },
                &mut || {
                    for (sum, block) in others.iter_mut().zip(black_box(&fram).chunks(BLOCK)) {
                        *sum = other(block);
                    }
                },
            ],
        );
        assert_eq!(ours, plains);
        assert_eq!(ours, others);
        say("set-up, or the sums of the blocks of", length, &times);
    }
}
