//! Joining: the proved code against plain Rust, over short gaps by brute force and over long ones by a matrix of bits.
use compare::proved::Proved;
use compare::wheel::Wheel;
use compare::{plain, Part, Seeded};
use wheel_unit::crc;

fn part(seeded: &mut Seeded, len: u32) -> Part {
    Part {
        sum: seeded.number() as u16,
        len,
    }
}

#[test]
fn the_matrix_agrees_with_brute_force() {
    let mut seeded = Seeded(10);
    for n in (0..600).chain([4_096, 65_535, 65_536, 1_000_003]) {
        let value = seeded.number() as u16;
        assert_eq!(
            plain::carried(value, n),
            plain::carried_one_by_one(value, n),
            "gap {n}"
        );
    }
}

#[test]
fn short_gaps_by_brute_force() {
    let mut seeded = Seeded(11);
    for n in 0..1_500 {
        let first_len = seeded.number() as u32 / 2;
        let (a, b) = (part(&mut seeded, first_len), part(&mut seeded, n));
        let sum = plain::carried_one_by_one(a.sum ^ 0xffff, n) ^ b.sum;
        assert_eq!(
            Proved.join(a, b),
            Ok(Part {
                sum,
                len: first_len + n
            }),
            "gap {n}"
        );
    }
}

#[test]
fn any_parts() {
    let mut seeded = Seeded(12);
    let (mut joined, mut refused) = (0, 0);
    for turn in 0..200_000 {
        // Every second turn has lengths of all sizes; the others are mostly large, so that many are refused.
        let sizes = if turn % 2 == 0 { 32 } else { 2 };
        let mut length = || seeded.number() as u32 >> (seeded.number() % sizes);
        let lens = [length(), length()];
        let (a, b) = (part(&mut seeded, lens[0]), part(&mut seeded, lens[1]));
        let due = plain::join(a, b);
        if due.is_ok() {
            joined += 1
        } else {
            refused += 1
        }
        assert_eq!(Proved.join(a, b), due, "{a:?} {b:?}");
    }
    assert!(
        joined > 1_000 && refused > 1_000,
        "{joined} joined, {refused} refused"
    );
}

#[test]
fn edges_of_the_lengths() {
    let mut seeded = Seeded(13);
    let lens = [
        0,
        1,
        2,
        255,
        256,
        0x7fff_ffff,
        0x8000_0000,
        0xffff_fffe,
        0xffff_ffff,
    ];
    for first in lens {
        for second in lens {
            for sums in [
                [0xffff, 0xffff],
                [0, 0],
                [0, 0xffff],
                [0xffff, 0],
                [seeded.number() as u16, seeded.number() as u16],
            ] {
                let (a, b) = (
                    Part {
                        sum: sums[0],
                        len: first,
                    },
                    Part {
                        sum: sums[1],
                        len: second,
                    },
                );
                assert_eq!(Proved.join(a, b), plain::join(a, b), "{a:?} {b:?}");
                assert_eq!(
                    Proved.join(a, b).is_err(),
                    u64::from(first) + u64::from(second) > 0xffff_ffff
                );
            }
        }
    }
}

#[test]
fn neutral_on_either_side() {
    let mut seeded = Seeded(14);
    let neutral = Part {
        sum: 0xffff,
        len: 0,
    };
    for _ in 0..10_000 {
        let len = seeded.number() as u32;
        let p = part(&mut seeded, len);
        assert_eq!(Proved.join(neutral, p), Ok(p));
        assert_eq!(Proved.join(p, neutral), Ok(p));
    }
}

/// Joins neighbours in a seeded order until one part is left.
fn in_some_order(seeded: &mut Seeded, mut parts: Vec<Part>) -> Part {
    while parts.len() > 1 {
        let at = seeded.number() as usize % (parts.len() - 1);
        let second = parts.remove(at + 1);
        parts[at] = Proved.join(parts[at], second).unwrap();
    }
    parts[0]
}

#[test]
fn any_cut_in_any_order() {
    let mut seeded = Seeded(15);
    for _ in 0..300 {
        let length = seeded.number() as usize % 3_000;
        let bytes = seeded.bytes(length);
        let mut cuts: Vec<usize> = (0..seeded.number() % 12)
            .map(|_| seeded.number() as usize % (length + 1))
            .collect();
        cuts.extend([0, length]);
        cuts.sort_unstable();
        let parts = cuts
            .windows(2)
            .map(|w| Part {
                sum: crc(&bytes[w[0]..w[1]]),
                len: (w[1] - w[0]) as u32,
            })
            .collect();
        let due = Part {
            sum: plain::bit_by_bit(0xffff, &bytes),
            len: length as u32,
        };
        assert_eq!(in_some_order(&mut seeded, parts), due);
    }
}
