//! 02, T-11: lists of files judged and stored with no unit at hand. Whatever is asked here is asked of the second program and
//! of the proved unit.
use crate::bench::*;

const EDAC: usize = 1_536;
const MODE: usize = 0x5C3;

const FIVE: [u8; 5] = [0x28, 1, 2, 3, 4];
const SIX: [u8; 6] = [0x00, 3, 5, 6, 7, 8];
const P11: [u8; 10] = [0x28, 1, 2, 3, 4, 0x28, 5, 6, 7, 8];
const P12: [u8; 7] = [0x28, 1, 2, 3, 4, 0x29, 5];

/// Limits that no unit can have. Some have low bits that one could have.
const NO_LIMITS: [u64; 9] = [
    0,
    1,
    259,
    1_029,
    1_030,
    1 << 16 | 1_028,
    1 << 32 | 1_028,
    1 << 63 | 260,
    u64::MAX,
];

fn judged(limit: u64, list: &[u8]) -> bool {
    let [one, two] = PROGRAMS.map(|program| program.wheel().judge_list(limit, list));
    assert_eq!(one, two, "limit {limit}, {list:x?}");
    one
}

/// What EDAC memory that held the pattern holds after storing, or the number of the refusal, which changes nothing.
fn stored(limit: u64, edac_len: usize, list: &[u8]) -> Result<Vec<u8>, u8> {
    let [one, two] = PROGRAMS.map(|program| {
        let mut edac = pattern(edac_len);
        match program.wheel().store_list(limit, &mut edac, list) {
            0 => Ok(edac),
            number => {
                assert_eq!(edac, pattern(edac_len));
                Err(number)
            }
        }
    });
    assert_eq!(one, two, "limit {limit}, {list:x?}");
    one
}

/// A list that must be fit, and what memory holds after it is stored.
fn fit(limit: u64, list: &[u8]) -> Vec<u8> {
    assert!(judged(limit, list), "limit {limit}, {list:x?}");
    stored(limit, EDAC, list).unwrap()
}

fn unfit(limit: u64, list: &[u8]) {
    assert!(!judged(limit, list), "limit {limit}, {list:x?}");
    assert_eq!(stored(limit, EDAC, list), Err(4));
}

/// The pattern with other bytes from some addresses on.
fn held(changes: &[(usize, &[u8])]) -> Vec<u8> {
    let mut edac = pattern(EDAC);
    for &(start, bytes) in changes {
        edac[start..start + bytes.len()].copy_from_slice(bytes);
    }
    edac
}

/// Whole structures of so many bytes: a six for each byte over a multiple of five, and fives.
fn list_of(length: usize) -> Vec<u8> {
    let sixes = length % 5;
    let list = [SIX.repeat(sixes), FIVE.repeat((length - 6 * sixes) / 5)].concat();
    assert_eq!(list.len(), length);
    list
}

/// The answer of a unit in application mode to WRITE FILE with poll set, and the memory that it leaves.
fn sent(program: Program, limit: u64, list: &[u8]) -> (u8, Vec<u8>) {
    let mut unit = Bench::application_of(program, limit);
    let (answer, _) = unit.run(&escaped(&message(ADDRESS, 0x11, 0x88, list)));
    (answer, unit.edac)
}

#[test]
fn one_file() {
    assert_eq!(fit(LIMIT, &FIVE), held(&[(0x0A0, &[1, 2, 3, 4])]));
    assert_eq!(fit(LIMIT, &[1, 9, 8, 7, 6]), held(&[(4, &[9, 8, 7, 6])]));
    let last = held(&[(1_020, &[9, 8, 7, 6])]);
    assert_eq!(fit(LIMIT, &[0xFF, 9, 8, 7, 6]), last);
    assert_eq!(fit(LIMIT, &SIX), held(&[(0, &[5, 6, 7, 8]), (MODE, &[3])]));
}

#[test]
fn p11_and_p12() {
    assert_eq!(fit(LIMIT, &P11), held(&[(0x0A0, &[5, 6, 7, 8])]));
    unfit(LIMIT, &P12);
}

#[test]
fn the_empty_list_is_unfit_at_every_limit() {
    for limit in (260..=1_028).chain(NO_LIMITS) {
        unfit(limit, &[]);
    }
}

#[test]
fn a_list_cut_anywhere_inside_a_structure() {
    for before in [&[][..], &FIVE, &SIX, &P11, &[0x15, 1, 2, 3, 4]] {
        for structure in [&FIVE[..], &SIX] {
            let list = [before, structure].concat();
            fit(LIMIT, &list);
            for end in before.len() + 1..list.len() {
                unfit(LIMIT, &list[..end]);
            }
        }
    }
}

#[test]
fn a_byte_after_the_last_structure() {
    for byte in 0..=0xFF {
        unfit(LIMIT, &[&FIVE[..], &[byte]].concat());
        unfit(LIMIT, &[&SIX[..], &[byte]].concat());
    }
    // File 0 needs the byte that would be too much for any other.
    for file in 0..=0xFF {
        assert_eq!(judged(LIMIT, &[file, 1, 2, 3, 4]), file != 0);
        assert_eq!(judged(LIMIT, &[file, 1, 2, 3, 4, 5]), file == 0);
    }
}

#[test]
fn the_longest_list() {
    let mut list = Vec::new();
    for n in 1..=202 {
        list.extend([0x28, n, !n, n, n]);
    }
    for mode in 1..=3 {
        list.extend([0x00, mode, mode, 0, 0, 0]);
    }
    assert_eq!(list.len(), 1_028);
    let last = held(&[
        (0x0A0, &[202, 53, 202, 202]),
        (0, &[3, 0, 0, 0]),
        (MODE, &[3]),
    ]);
    assert_eq!(fit(1_028, &list), last);
    unfit(1_027, &list);
    unfit(1_028, &list[..1_027]);
    // 201 fives and four sixes, and 206 fives: whole, but no message carries them.
    for length in [1_029, 1_030, 1_100, 5_000, 65_540, 66_564] {
        for limit in [260, 1_028, 1_029, 1_030, length as u64, u64::MAX] {
            unfit(limit, &list_of(length));
        }
    }
}

#[test]
fn the_limits_that_there_are() {
    for limit in 260..=1_028 {
        assert_eq!(fit(limit, &P11), held(&[(0x0A0, &[5, 6, 7, 8])]));
        unfit(limit, &P12);
    }
    for limit in (0..260).chain(1_029..2_000).chain(NO_LIMITS) {
        unfit(limit, &P11);
        unfit(limit, &FIVE);
    }
}

#[test]
fn a_list_as_long_as_each_limit_and_one_longer() {
    for limit in 260..=1_028 {
        fit(limit, &list_of(limit as usize));
        unfit(limit, &list_of(limit as usize + 1));
    }
    // Where there is no such limit, a list that is shorter is no better.
    unfit(259, &list_of(255));
    unfit(1_029, &list_of(1_028));
}

#[test]
fn another_length_of_edac_comes_first() {
    for edac_len in [0, 1, 4, 0x0A4, 384, 1_024, MODE + 1, 1_535, 1_537, 3_072] {
        for (limit, list) in [
            (LIMIT, &P11[..]),
            (LIMIT, &P12),
            (LIMIT, &[]),
            (260, &[1; 265]),
            (0, &P11),
            (1_029, &P12),
        ] {
            assert_eq!(stored(limit, edac_len, list), Err(21), "{edac_len}");
        }
    }
    fit(LIMIT, &P11);
    unfit(LIMIT, &P12);
}

#[test]
fn read_only_files_are_fit_and_keep_their_value() {
    // SPEED alone changes nothing, and is stored all the same.
    assert_eq!(fit(LIMIT, &[0x15, 1, 2, 3, 4]), pattern(EDAC));
    // With the files on either side, MOMENTUM behind it, and SPEED once more.
    let list = [
        [0x14, 1, 2, 3, 4],
        [0x15, 5, 6, 7, 8],
        [0x16, 9, 10, 11, 12],
        [0x17, 13, 14, 15, 16],
        [0x15, 17, 18, 19, 20],
    ]
    .concat();
    let due = held(&[(0x050, &[1, 2, 3, 4]), (0x05C, &[13, 14, 15, 16])]);
    assert_eq!(fit(LIMIT, &list), due);
    unfit(LIMIT, &list[..24]);
}

#[test]
fn files_are_stored_in_order() {
    let list = [
        &SIX[..],
        &FIVE,
        &[0, 9, 10, 11, 12, 13],
        &[0x28, 7, 7, 7, 7],
    ]
    .concat();
    let due = held(&[(0, &[10, 11, 12, 13]), (MODE, &[9]), (0x0A0, &[7, 7, 7, 7])]);
    assert_eq!(fit(LIMIT, &list), due);
}

#[test]
fn a_list_altered_after_it_was_judged() {
    let mut list = P11.to_vec();
    assert!(judged(LIMIT, &list));
    list.pop();
    assert_eq!(stored(LIMIT, EDAC, &list), Err(4));
    list.push(9);
    assert_eq!(
        stored(LIMIT, EDAC, &list),
        Ok(held(&[(0x0A0, &[5, 6, 7, 9])]))
    );
    // 00 01 02 03 04 28 is file 0, and 05 06 07 09 the beginning of file 5.
    list[0] = 0x00;
    assert_eq!(stored(LIMIT, EDAC, &list), Err(4));
    list.push(10);
    assert_eq!(
        stored(LIMIT, EDAC, &list),
        Ok(held(&[
            (0, &[2, 3, 4, 0x28]),
            (MODE, &[1]),
            (0x014, &[6, 7, 9, 10])
        ]))
    );
    // One that was judged at another limit.
    let longest = list_of(1_028);
    assert!(judged(1_028, &longest));
    assert_eq!(stored(1_027, EDAC, &longest), Err(4));
    assert_eq!(stored(1_029, EDAC, &longest), Err(4));
}

/// The bytes that a list goes through again and again, and the lengths at which it is whole.
type Cycle = (&'static [u8], fn(usize) -> bool);

const CYCLES: [Cycle; 3] = [
    (&[0], |length| length % 6 == 0),
    (&[1], |length| length % 5 == 0),
    (&[0x28, 1, 2, 3, 4, 0, 5, 6, 7, 8, 9], |length| {
        matches!(length % 11, 0 | 5)
    }),
];

#[test]
fn judging_and_storing_are_what_the_command_does() {
    for (length, (cycle, whole)) in (0..=1_040).flat_map(|n| CYCLES.map(|cycle| (n, cycle))) {
        let list: Vec<u8> = cycle.iter().cycle().take(length).copied().collect();
        let fits = 0 < length && length <= 1_028 && whole(length);
        for limit in [260, 261, 500, 1_027, 1_028] {
            assert_eq!(judged(limit, &list), fits && length as u64 <= limit);
        }
        for limit in NO_LIMITS {
            assert!(!judged(limit, &list));
        }
        // A unit that the list just fits, one that it is a byte too long for, and one of the highest limit.
        let just = (length as u64).clamp(261, LIMIT);
        for limit in [just, just - 1, LIMIT] {
            sent_as_judged(limit, &list);
        }
    }
}

/// A list sent to a unit is answered as it is judged by the unit's limit, and leaves what storing leaves.
fn sent_as_judged(limit: u64, list: &[u8]) {
    let due = match (judged(limit, list), stored(limit, EDAC, list)) {
        (true, Ok(edac)) => (1, edac),
        // A list that no message can carry makes an oversize run.
        (false, Err(4)) if list.len() as u64 > limit => (7, pattern(EDAC)),
        (false, Err(4)) => (3, pattern(EDAC)),
        (_, stored) => panic!("{}: {stored:x?}", list.len()),
    };
    for program in PROGRAMS {
        assert_eq!(sent(program, limit, list), due, "{}", list.len());
    }
}

#[test]
fn lengths_that_are_no_sum_of_fives_and_sixes() {
    // Every list of zeros and ones: all that matters of a byte is whether it is a zero.
    for length in 0..=20 {
        let list = |bits: u32| -> Vec<u8> { (0..length).map(|i| (bits >> i & 1) as u8).collect() };
        let some = (0..1 << length).any(|bits| judged(LIMIT, &list(bits)));
        assert_eq!(some, !matches!(length, 0..=4 | 7..=9 | 13 | 14 | 19));
    }
}
