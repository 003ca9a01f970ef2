//! A session: a unit is set up, with one strap and limit or another, locked or not, and then messages, noise, callers who alter
//! what they lend or lend it wrongly, and callers who ask about lists of files, on either port, with or without bytes of the other
//! in between.

use super::pair::{ChipLengths, Lengths, Pair, BOOTLOADER, LARGEST, USER};
use super::{commands, costs, frams, limits, lines, lists, ports};
use crate::record::{Mode, Place, Receiver, Record, PLACES};
use crate::second::read_only::ROWS;
use crate::{Part, Seeded};

const FEND: u8 = 0xC0;
const FESC: u8 = 0xDB;

pub type Played = Result<(), String>;

const FRAMS: [usize; 2] = [BOOTLOADER, USER];

/// Line bytes of a session. A large FRAM takes long to compare, so its sessions are short.
fn bytes_with(lengths: &Lengths) -> u64 {
    if is_large(lengths) {
        8_192
    } else {
        32_768
    }
}

/// Above this an FRAM is set up and compared seldom.
const LARGE: usize = 16_384;

fn is_large(lengths: &Lengths) -> bool {
    lengths.frams.iter().any(|fram| fram.bytes > LARGE)
}

pub fn play(pair: &mut Pair, seeded: &mut Seeded) -> Played {
    if seeded.one_in(4) {
        refused_set_up(pair, seeded)?;
    }
    set_up(pair, seeded)?;
    for which in FRAMS {
        if pair.lengths.frams[which].bytes == LARGEST {
            one_block_too_many(pair, which)?;
            costs::largest(pair, seeded, which)?;
        }
    }
    let bytes = bytes_with(&pair.lengths);
    while pair.offset < bytes {
        turn(pair, seeded);
        match seeded.below(85) {
            0..=28 => sound_run(pair, seeded)?,
            29..=31 => read_only_row(pair, seeded)?,
            32..=35 => repeated(pair, seeded)?,
            36..=43 => spoiled_run(pair, seeded)?,
            44..=46 => pair.bytes(&lines::noise(seeded))?,
            47..=50 => planted(pair, seeded)?,
            51..=55 => altered_memory(pair, seeded),
            56..=57 => altered_record(pair, seeded)?,
            58..=60 => wrongly_lent(pair, seeded)?,
            61 => another_set_up(pair, seeded)?,
            62 => packing(pair, seeded)?,
            63 => joining(pair, seeded)?,
            64..=67 => lists::asked(pair, seeded)?,
            68..=69 => lists::sent(pair, seeded)?,
            70 => limits::another(pair, seeded)?,
            71 => limits::wrong(pair, seeded)?,
            72..=73 => frams::about_the_lock(pair, seeded)?,
            74..=75 => costs::asked(pair, seeded)?,
            76 => ports::misnamed(pair, seeded)?,
            _ => ports::crossed(pair, seeded)?,
        }
    }
    Ok(())
}

/// What follows is on one port or the other, with bytes of the other in between or not, and with ports that are sending or not.
fn turn(pair: &mut Pair, seeded: &mut Seeded) {
    pair.port = seeded.below(2);
    pair.aside.leaves(pair.port);
    pair.aside.woven = seeded.one_in(3);
    pair.sending = ports::sending(seeded);
}

/// Any strap and any limit that a unit may have, locked or not.
pub fn set_up(pair: &mut Pair, seeded: &mut Seeded) -> Played {
    let strap = ports::strap(seeded);
    pair.set_up(strap, limits::any(seeded).into(), frams::locked(seeded))?;
    Ok(())
}

/// More FRAM than may be fitted, on which record, slice and sums agree.
fn one_block_too_many(pair: &mut Pair, which: usize) -> Played {
    let (lengths, record) = (pair.lengths, pair.record);
    pair.lengths.frams[which] = ChipLengths::of(LARGEST + 256);
    *pair.recorded(which) += 256;
    pair.byte(FEND)?;
    pair.set_up(record.strap, record.limit.into(), record.locked)?;
    (pair.lengths, pair.record) = (lengths, record);
    Ok(())
}

/// A set-up in the midst of it all. A large FRAM's sums take long, so there it comes seldom.
fn another_set_up(pair: &mut Pair, seeded: &mut Seeded) -> Played {
    if is_large(&pair.lengths) && !seeded.one_in(16) {
        return Ok(());
    }
    if seeded.one_in(2) {
        refused_set_up(pair, seeded)?;
    }
    set_up(pair, seeded)
}

/// Feeds a run and its FEND, with a first FEND where the receiver needs one, or stands in another run.
fn run(pair: &mut Pair, seeded: &mut Seeded, line: &[u8]) -> Played {
    let receiver = *pair.receiver();
    let open = receiver.place != Place::Run || receiver.count > 0;
    if open && !seeded.one_in(8) {
        if receiver.place == Place::Fresh && seeded.one_in(2) {
            pair.bytes(&lines::noise(seeded))?;
        }
        pair.byte(FEND)?;
    }
    if seeded.one_in(16) {
        let at = seeded.below(line.len() + 1);
        pair.bytes(&line[..at])?;
        disturbed(pair, seeded)?;
        pair.bytes(&line[at..])?;
    } else {
        pair.bytes(line)?;
    }
    pair.byte(FEND)?;
    if seeded.one_in(4) {
        pair.byte(FEND)?;
    }
    Ok(())
}

fn sound_run(pair: &mut Pair, seeded: &mut Seeded) -> Played {
    let message = lines::message(seeded, &pair.record, pair.port);
    run(pair, seeded, &lines::escaped(&message))
}

/// One read-only row written over and beside, and read.
fn read_only_row(pair: &mut Pair, seeded: &mut Seeded) -> Played {
    for (code, data) in commands::about_a_row(seeded, pair.record.mode) {
        let message = lines::message_of(seeded, &pair.record, pair.port, code, &data);
        run(pair, seeded, &lines::escaped(&message))?;
    }
    Ok(())
}

/// The same command twice: where it stores, the second time it stores what is there. Its sums may have been altered.
fn repeated(pair: &mut Pair, seeded: &mut Seeded) -> Played {
    let message = lines::message(seeded, &pair.record, pair.port);
    run(pair, seeded, &lines::escaped(&message))?;
    if seeded.one_in(2) {
        pair.alter(|lent| {
            let sums = lent.frams.iter_mut().flat_map(|fram| &mut fram.sums);
            sums.for_each(|sum| *sum ^= 0x0101);
        });
    }
    run(pair, seeded, &lines::escaped(&message))
}

fn spoiled_run(pair: &mut Pair, seeded: &mut Seeded) -> Played {
    let line = lines::spoiled(seeded, &pair.record, pair.port);
    run(pair, seeded, &line)
}

/// Something that happens in the middle of a run.
fn disturbed(pair: &mut Pair, seeded: &mut Seeded) -> Played {
    match seeded.below(4) {
        0 => wrongly_lent(pair, seeded),
        1 => altered_record(pair, seeded),
        2 => {
            let (at, byte, port) = (seeded.below(12), seeded.number() as u8, pair.port);
            pair.alter(|lent| lent.ports[port].message[at] = byte);
            Ok(())
        }
        _ => {
            altered_memory(pair, seeded);
            Ok(())
        }
    }
}

/// A message that stands in the lent buffer without having been received, and a record that says it was. Some are sound but for
/// being longer than the limit allows.
fn planted(pair: &mut Pair, seeded: &mut Seeded) -> Played {
    let message = match seeded.below(8) {
        0 => limits::long_ping(seeded, &pair.record, pair.port),
        _ => lines::message(seeded, &pair.record, pair.port),
    };
    let port = pair.port;
    pair.alter(|lent| lent.ports[port].message[..message.len()].copy_from_slice(&message));
    pair.receiver().place = match seeded.below(16) {
        0 => Place::Fresh,
        1 => Place::Escape,
        2 => Place::Fault,
        3 => Place::Thrown,
        _ => Place::Run,
    };
    pair.receiver().count = match seeded.below(16) {
        0 => message.len() - 1,
        1 => message.len() + 1,
        _ => message.len(),
    };
    pair.byte(FEND)?;
    Ok(())
}

/// The caller writes into what it lends.
fn altered_memory(pair: &mut Pair, seeded: &mut Seeded) {
    let (byte, which, port) = (seeded.number() as u8, seeded.pick(&FRAMS), seeded.below(2));
    let lengths = pair.lengths.frams[which];
    match seeded.below(9) {
        0 => ports::altered_counts(pair, seeded),
        1 => {
            let at = seeded.below(lengths.sums);
            let sum = seeded.number() as u16;
            pair.alter(|lent| lent.frams[which].sums[at] = sum);
        }
        2 => pair.alter(|lent| lent.frams[which].sums.fill(u16::from(byte) * 0x0101)),
        3 => {
            let at = seeded.below(lengths.bytes);
            pair.alter(|lent| lent.frams[which].bytes[at] = byte);
        }
        4 => {
            let at = match seeded.below(3) {
                0 => seeded.pick(&[0, 1, 3, 4, 0x5C2, 0x5C3, 0x5C4, 1_020, 1_535]),
                // As the drive does with its telemetry.
                1 => seeded.pick(&ROWS).first,
                _ => seeded.below(1_536),
            };
            pair.alter(|lent| lent.edac[at] = byte);
        }
        5 => pair.alter(|lent| lent.ports[port].message.fill(byte)),
        6 => pair.alter(|lent| lent.ports[port].reply.fill(byte)),
        7 => frams::altered(pair, seeded),
        _ => {
            let at = seeded.below(31);
            pair.alter(|lent| lent.diagnostics[at] = u32::from(byte) << 20 | 0xC0DB);
        }
    }
}

/// The caller hands in another record: any mode, lock, limit, and any place and count of one port or both. A count that is refused
/// is set right afterwards, since nothing else would come of it.
fn altered_record(pair: &mut Pair, seeded: &mut Seeded) -> Played {
    if seeded.one_in(2) {
        pair.record.limit = limits::any(seeded);
    }
    pair.record.mode = seeded.pick(&[Mode::Bootloader, Mode::Application, Mode::Application]);
    pair.record.locked = frams::locked(seeded);
    for port in seeded.pick(&[&[0][..], &[1], &[0, 1]]) {
        let count = altered_count(
            seeded,
            pair.record.limit,
            pair.record.receivers[*port].count,
        );
        let place = seeded.pick(&PLACES);
        pair.record.receivers[*port] = Receiver { place, count };
    }
    for _ in 0..1 + seeded.below(3) {
        pair.byte(any_byte(seeded))?;
    }
    for receiver in &mut pair.record.receivers {
        if receiver.count > 1_034 {
            receiver.count = seeded.below(1_035);
        }
    }
    if seeded.one_in(4) {
        another_fram(pair, seeded);
    }
    Ok(())
}

fn altered_count(seeded: &mut Seeded, limit: u16, now: usize) -> usize {
    let full = usize::from(limit) + 6;
    match seeded.below(8) {
        0 => seeded.below(8),
        1 => full - 3 + seeded.below(6),
        // No unit of this limit counts so far.
        2 => full + seeded.below(1_035 - full),
        3 => 1_030 + seeded.below(5),
        4 => 1_035 + seeded.below(3),
        5 => seeded.pick(&[1 << 16, (1 << 32) + 4, 1 << 63, usize::MAX]),
        6 => now,
        _ => seeded.below(1_035),
    }
}

/// From now on the caller lends an FRAM of another length, and its record says so.
fn another_fram(pair: &mut Pair, seeded: &mut Seeded) {
    if is_large(&pair.lengths) {
        return;
    }
    let which = seeded.pick(&FRAMS);
    let length = 256 * (1 + seeded.below(pair.blocks(which)));
    pair.lengths.frams[which] = ChipLengths::of(length);
    *pair.recorded(which) = length;
}

/// A byte that means something to the receiver, mostly.
pub fn any_byte(seeded: &mut Seeded) -> u8 {
    match seeded.below(3) {
        0 => FEND,
        1 => seeded.pick(&[FESC, 0xDC, 0xDD, 0x41]),
        _ => seeded.number() as u8,
    }
}

/// Some calls that are wrong in one way or in several, after which everything is lent rightly again.
fn wrongly_lent(pair: &mut Pair, seeded: &mut Seeded) -> Played {
    let (lengths, record) = (pair.lengths, pair.record);
    for _ in 0..seeded.pick(&[1, 1, 2, 3]) {
        spoil(pair, seeded, &lengths);
    }
    for _ in 0..1 + seeded.below(3) {
        pair.byte(any_byte(seeded))?;
    }
    right(pair, lengths, record);
    Ok(())
}

/// Makes a call wrong, given the right lengths.
pub fn spoil(pair: &mut Pair, seeded: &mut Seeded, right: &Lengths) {
    match seeded.below(7) {
        0 | 1 => spoil_record(pair, seeded, right),
        2 => pair.misnamed = Some(ports::no_port(seeded)),
        _ => spoil_length(pair, seeded, right),
    }
}

/// Makes it right again, by the right lengths and the record that there was.
pub fn right(pair: &mut Pair, lengths: Lengths, record: Record) {
    pair.lengths = lengths;
    pair.misnamed = None;
    pair.record.strap = record.strap;
    pair.record.bootloader_len = record.bootloader_len;
    pair.record.fram_len = record.fram_len;
    pair.record.limit = record.limit;
    for (port, receiver) in pair.record.receivers.iter_mut().enumerate() {
        if receiver.count > 1_034 {
            receiver.count = record.receivers[port].count;
        }
    }
}

/// Makes the record wrong, given the right lengths.
fn spoil_record(pair: &mut Pair, seeded: &mut Seeded, right: &Lengths) {
    let which = seeded.pick(&FRAMS);
    let fram = right.frams[which].bytes;
    match seeded.below(7) {
        0 => pair.record.strap = ports::no_strap(seeded),
        1 => {
            *pair.recorded(which) =
                seeded.pick(&[0, fram - 256, fram + 256, fram + (1 << 32), usize::MAX]);
        }
        // Record and slice agree, on a length that is wrong or for which there are not as many sums.
        2 => {
            let length = seeded.pick(&[0, 1, fram - 1, fram + 1, fram + 128, fram + 256]);
            (pair.lengths.frams[which].bytes, *pair.recorded(which)) = (length, length);
            if seeded.one_in(2) {
                pair.lengths.frams[which].sums = length / 256;
            }
        }
        3 => {
            let receiver = &mut pair.record.receivers[seeded.below(2)];
            receiver.count = seeded.pick(&[1_035, 1_036, 1 << 32, usize::MAX]);
            if seeded.one_in(2) {
                receiver.place = seeded.pick(&PLACES);
            }
        }
        // Each FRAM's length in the other's place.
        4 => {
            pair.record.bootloader_len = right.frams[USER].bytes;
            pair.record.fram_len = right.frams[BOOTLOADER].bytes;
        }
        5 => pair.record.locked = frams::locked(seeded),
        _ => pair.record.limit = limits::none(seeded),
    }
}

/// Makes a length wrong, given the right ones.
fn spoil_length(pair: &mut Pair, seeded: &mut Seeded, right: &Lengths) {
    let which = seeded.pick(&FRAMS);
    let ChipLengths { bytes, sums } = right.frams[which];
    let lengths = &mut pair.lengths;
    let chip = &mut lengths.frams[which];
    let lines = &mut lengths.ports[seeded.below(2)];
    match seeded.below(8) {
        0 => lengths.edac = seeded.pick(&[0, 1, 384, 1_535, 1_537, 2_048]),
        1 => chip.bytes = seeded.pick(&[0, bytes - 256, bytes - 1, bytes + 1, bytes + 256]),
        2 | 3 => chip.sums = seeded.pick(&[0, sums - 1, sums + 1, sums + sums.min(256)]),
        4 => lengths.diagnostics = seeded.pick(&[0, 30, 32, 124]),
        5 => lines.message = seeded.pick(&[0, 4, 1_032]),
        // FRAM and sums agree on a block more or less.
        6 => *chip = ChipLengths::of(seeded.pick(&[bytes - 256, bytes + 256])),
        _ => lines.reply = seeded.pick(&[0, 1_033, 2_067]),
    }
}

/// A set-up that is mostly refused, and bytes with the record that it handed back.
fn refused_set_up(pair: &mut Pair, seeded: &mut Seeded) -> Played {
    let lengths = pair.lengths;
    let strap = match seeded.below(4) {
        0 => ports::no_strap(seeded),
        _ => ports::strap(seeded),
    };
    let limit = match seeded.below(3) {
        0 => limits::wide_none(seeded),
        _ => limits::any(seeded).into(),
    };
    for _ in 0..seeded.below(4) {
        spoil_length(pair, seeded, &lengths);
    }
    pair.set_up(strap, limit, frams::locked(seeded))?;
    if seeded.one_in(2) {
        pair.lengths = lengths;
    }
    for _ in 0..seeded.below(3) {
        pair.byte(any_byte(seeded))?;
    }
    pair.lengths = lengths;
    Ok(())
}

fn packing(pair: &mut Pair, seeded: &mut Seeded) -> Played {
    let length = match seeded.below(4) {
        0 => seeded.pick(&[0, 3, 4, 5, 6]),
        1 => 1_032 + seeded.below(4),
        _ => seeded.below(1_100),
    };
    let message = commands::bytes(seeded, length);
    let reply = seeded.pick(&[0, 2_067, 2_068, 2_068, 2_069, 2_100]);
    pair.pack(&message, reply)
}

/// Lengths of all sizes, long ones often, so that many are refused, and pairs about the longest total.
fn joining(pair: &mut Pair, seeded: &mut Seeded) -> Played {
    let sizes = seeded.pick(&[2, 32]);
    let mut part = || Part {
        sum: seeded.number() as u16,
        len: seeded.number() as u32 >> seeded.below(sizes),
    };
    let (first, mut second) = (part(), part());
    if seeded.one_in(3) {
        second.len = (u32::MAX - first.len).saturating_add(seeded.below(2) as u32);
    }
    pair.join(first, second)
}
