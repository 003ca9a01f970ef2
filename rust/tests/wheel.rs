//! The safe wrapper: a unit set up, refused, asked, and read, and the calls that need no unit.

use wheel_unit::*;

const QUIET: [bool; 2] = [false, false];

/// PINGs to strap 1 on port 0, one that is answered there and one that is answered on port 1 (P6), and what a PING shows.
const PING: [u8; 7] = [0xC0, 0x61, 0x11, 0x80, 0xE3, 0x6E, 0xC0];
const P6: [u8; 7] = [0xC0, 0x41, 0x11, 0x80, 0xD8, 0x6D, 0xC0];
const TEXT: &[u8] = b"WHEEL UNIT NSP 01";

/// All that a unit borrows: 512 bytes of bootloader FRAM and 768 of user FRAM.
struct Board {
    edac: [u8; EDAC],
    boot: [u8; 512],
    boot_sums: [u16; 2],
    user: [u8; 768],
    user_sums: [u16; 3],
    buffers: Buffers,
}

impl Board {
    fn new() -> Board {
        Board {
            edac: [0x11; EDAC],
            boot: [0x22; 512],
            boot_sums: [0; 2],
            user: [0x33; 768],
            user_sums: [0; 3],
            buffers: Buffers::new(),
        }
    }

    fn begin(&mut self, strap: u8, limit: u16, lock: Lock) -> Result<Wheel<'_>, Answer> {
        let memories = Memories {
            edac: &mut self.edac,
            bootloader: Fram {
                bytes: &mut self.boot,
                sums: &mut self.boot_sums,
            },
            user: Fram {
                bytes: &mut self.user,
                sums: &mut self.user_sums,
            },
        };
        Wheel::begin(memories, &mut self.buffers, strap, limit, lock)
    }

    fn wheel(&mut self) -> Wheel<'_> {
        self.begin(1, LIMIT_MOST, Lock::Unlocked)
            .expect("it is set up")
    }
}

/// A message to a unit, with its CRC, as the line carries it.
fn line(address: u8, control: u8, data: &[u8]) -> Vec<u8> {
    let mut message = [&[address, 0x11, control], data].concat();
    message.extend(crc(&message).to_le_bytes());
    pack(&message, &mut [0; REPLY])
        .expect("a legal length")
        .to_vec()
}

/// The answer to the last of some bytes on a port. Those before it are taken.
fn fed(wheel: &mut Wheel<'_>, port: PortId, bytes: &[u8]) -> Answer {
    let (last, before) = bytes.split_last().expect("a byte");
    for &byte in before {
        assert_eq!(wheel.byte(port, byte, QUIET), Answer::TAKEN);
        assert_eq!(wheel.reply(), None);
    }
    wheel.byte(port, *last, QUIET)
}

#[test]
fn a_ping_is_answered_on_the_port_that_its_address_names() {
    let mut board = Board::new();
    let mut wheel = board.wheel();
    assert_eq!((wheel.answer(), wheel.reply()), (Answer::TAKEN, None));
    for (ping, port) in [(PING, PortId::Zero), (P6, PortId::One)] {
        assert_eq!(fed(&mut wheel, PortId::Zero, &ping), Answer::ACKED);
        let reply = wheel.reply().expect("a reply");
        assert_eq!(reply.port, port);
        assert_eq!(reply.bytes[..4], [0xC0, 0x11, ping[1], 0xA0]);
        assert_eq!(&reply.bytes[4..21], TEXT);
        assert_eq!(reply.bytes.len(), 24);
    }
    // A byte later nothing is to be sent.
    assert_eq!(wheel.byte(PortId::One, 0xC0, QUIET), Answer::TAKEN);
    assert_eq!(wheel.reply(), None);
    // The addresses of port 0 are not heard on port 1.
    assert_eq!(fed(&mut wheel, PortId::One, &PING), Answer::ELSEWHERE);
}

#[test]
fn a_reply_for_a_port_that_is_sending_is_lost() {
    let mut board = Board::new();
    let mut wheel = board.wheel();
    for (ping, sending, lost) in [
        (PING, [true, false], LOST),
        (P6, [false, true], LOST + PORT_1_COUNTS),
    ] {
        fed(&mut wheel, PortId::Zero, &ping[..6]);
        let answer = wheel.byte(PortId::Zero, 0xC0, sending);
        assert_eq!((answer, wheel.reply()), (Answer::DONE_SILENT, None));
        assert_eq!(wheel.diagnostics()[lost], 1);
    }
    // The other port may be sending.
    fed(&mut wheel, PortId::Zero, &PING[..6]);
    let answer = wheel.byte(PortId::Zero, 0xC0, [false, true]);
    assert_eq!(answer, Answer::ACKED);
}

#[test]
fn many_bytes_stop_at_the_first_answer() {
    let mut board = Board::new();
    let mut wheel = board.wheel();
    let line = [&PING[..], &P6, &[0x55]].concat();
    let mut rest = &line[..];
    assert_eq!(wheel.bytes(PortId::Zero, &[], QUIET), (0, Answer::TAKEN));
    for port in [PortId::Zero, PortId::One] {
        let (taken, answer) = wheel.bytes(PortId::Zero, rest, QUIET);
        assert_eq!((taken, answer), (7, Answer::ACKED));
        let reply = wheel.reply().expect("a reply");
        assert_eq!((reply.port, reply.bytes.len()), (port, 24));
        rest = &rest[taken..];
    }
    assert_eq!(wheel.bytes(PortId::Zero, rest, QUIET), (1, Answer::TAKEN));
    assert_eq!((wheel.answer(), wheel.reply()), (Answer::TAKEN, None));
    assert_eq!(wheel.unit().count0, 1);
    // A message in two calls, its second part while the port of its reply is sending.
    let (answer, sending) = (Answer::DONE_SILENT, [false, true]);
    assert_eq!(
        wheel.bytes(PortId::Zero, &P6[..1], QUIET),
        (1, Answer::RUNT)
    );
    assert_eq!(
        wheel.bytes(PortId::Zero, &P6[1..4], QUIET),
        (3, Answer::TAKEN)
    );
    assert_eq!(wheel.bytes(PortId::Zero, &P6[4..], sending), (3, answer));
    assert_eq!(wheel.reply(), None);
}

#[test]
fn what_set_up_refuses() {
    let mut board = Board::new();
    let mut begun = |strap, limit| board.begin(strap, limit, Lock::Unlocked).err();
    assert_eq!(begun(STRAP_MOST, LIMIT_LEAST), None);
    assert_eq!(begun(STRAP_MOST + 1, LIMIT_LEAST), Some(Answer::BAD_STRAP));
    assert_eq!(begun(1, LIMIT_LEAST - 1), Some(Answer::BAD_LIMIT));
    assert_eq!(begun(1, LIMIT_MOST + 1), Some(Answer::BAD_LIMIT));
    let mut refused = |boot: usize, sums: usize| {
        let bootloader = Fram {
            bytes: &mut board.boot[..boot],
            sums: &mut board.boot_sums[..sums],
        };
        let memories = Memories {
            edac: &mut board.edac,
            bootloader,
            user: Fram {
                bytes: &mut board.user,
                sums: &mut board.user_sums,
            },
        };
        Wheel::begin(memories, &mut board.buffers, 1, 300, Lock::Unlocked).err()
    };
    assert_eq!(refused(512, 2), None);
    assert_eq!(refused(511, 2), Some(Answer::BAD_FRAM));
    assert_eq!(refused(0, 0), Some(Answer::BAD_FRAM));
    assert_eq!(refused(512, 1), Some(Answer::BAD_SUMS));
}

#[test]
fn a_second_set_up_and_one_that_is_refused() {
    let mut board = Board::new();
    let mut wheel = board.wheel();
    let init = line(0x61, 0x01, &[0x00, 0x00, 0x05, 0x20]);
    assert_eq!(fed(&mut wheel, PortId::Zero, &init), Answer::DONE_SILENT);
    assert_eq!(wheel.mode(), Mode::Application);
    let before = *wheel.unit();
    let refused = wheel.again(1, 0, Lock::Locked);
    assert_eq!(refused, Err(Answer::BAD_LIMIT));
    assert_eq!(*wheel.unit(), before);
    assert_eq!(wheel.again(2, 260, Lock::Locked), Ok(()));
    assert_eq!(
        (wheel.mode(), wheel.lock()),
        (Mode::Bootloader, Lock::Locked)
    );
    assert_eq!((wheel.unit().strap, wheel.unit().limit), (2, 260));
    assert_eq!(wheel.unit().places(), [Place::Fresh; 2]);
}

#[test]
fn memory_through_the_line_and_by_the_board() {
    let mut board = Board::new();
    let mut wheel = board.wheel();
    // A POKE in each FRAM, the lock, and a POKE that then stores nothing.
    let poke = |first: u32, byte| line(0x61, 0x03, &[&first.to_le_bytes()[..], &[byte]].concat());
    for (first, byte) in [(BOOTLOADER_FRAM_FIRST, 0xAA), (USER_FRAM_FIRST, 0xBB)] {
        let answer = fed(&mut wheel, PortId::Zero, &poke(first, byte));
        assert_eq!(answer, Answer::DONE_SILENT);
    }
    assert_eq!((wheel.bootloader()[0], wheel.user()[0]), (0xAA, 0xBB));
    let lock = line(0x61, 0x01, &INIT_LOCK.to_le_bytes());
    assert_eq!(wheel.lock(), Lock::Unlocked);
    assert_eq!(fed(&mut wheel, PortId::Zero, &lock), Answer::DONE_SILENT);
    assert_eq!(wheel.lock(), Lock::Locked);
    assert_eq!(wheel.diagnostics()[FRAM_STATUS] as u8, STATUS_LOCKED);
    fed(&mut wheel, PortId::Zero, &poke(BOOTLOADER_FRAM_FIRST, 0xCC));
    assert_eq!(wheel.bootloader()[0], 0xAA);
    // A CRC from the second byte of user FRAM to its last but one.
    let ends = [USER_FRAM_FIRST + 1, USER_FRAM_FIRST + 766].map(u32::to_le_bytes);
    let asked = line(0x61, 0x86, &ends.concat());
    assert_eq!(fed(&mut wheel, PortId::Zero, &asked), Answer::ACKED);
    assert_eq!(wheel.cost(), 255 + 1 + 255);
    // What the board sets, a READ EDAC shows.
    fed(
        &mut wheel,
        PortId::Zero,
        &line(0x61, 0x01, &[0, 0, 5, 0x20]),
    );
    wheel.edac()[0x54] = 0x7E;
    let read = line(0x61, 0x89, &[0x54, 0x00, 1]);
    assert_eq!(fed(&mut wheel, PortId::Zero, &read), Answer::ACKED);
    assert_eq!(wheel.reply().expect("a reply").bytes[6], 0x7E);
    assert_eq!(wheel.cost(), 0);
}

#[test]
fn what_needs_no_unit() {
    assert_eq!(crc(b"123456789"), 0x6F91);
    assert_eq!(crc_from(crc(b"1234"), b"56789"), 0x6F91);
    let part = |bytes: &[u8]| Part {
        sum: crc(bytes),
        len: bytes.len() as u32,
    };
    let whole = part(b"1234").join(part(b"56789"));
    assert_eq!(whole, Some(part(b"123456789")));
    assert_eq!(Part::EMPTY, part(b""));
    let long = Part {
        sum: 0,
        len: u32::MAX,
    };
    assert_eq!(
        (long.join(Part::EMPTY), long.join(part(b"1"))),
        (Some(long), None)
    );

    let mut reply = [0; REPLY];
    assert_eq!(pack(&[1, 2, 3, 4], &mut reply), None);
    assert_eq!(pack(&[0; MESSAGE + 1], &mut reply), None);
    let packed = pack(&[1, 0xC0, 3, 0xDB, 5], &mut reply);
    assert_eq!(
        packed,
        Some(&[0xC0, 1, 0xDB, 0xDC, 3, 0xDB, 0xDD, 5, 0xC0][..])
    );

    let (list, mut edac) = ([0x28, 1, 2, 3, 4], [0; EDAC]);
    assert!(judge_list(LIMIT_MOST, &list) && !judge_list(LIMIT_MOST, &list[..4]));
    assert!(!store_list(LIMIT_MOST, &mut edac, &list[..4]) && edac == [0; EDAC]);
    assert!(store_list(LIMIT_MOST, &mut edac, &list) && edac[0xA0..0xA4] == [1, 2, 3, 4]);
}
