/* The command unit's C face. C99 or later, or C++. Firmware takes `struct wheel`, at the end, with its four short functions,
 * which rest on the calls before it.
 *
 * Every function of the archive is proved for all arguments that this header allows: it returns, and touches no memory but
 * what it is lent. A slice is a pointer and a length in elements. A pointer that is lent must reach that many elements, which
 * nothing else writes before the call returns, and what a call may write must be lent to it once only; with a length of 0 it
 * may point anywhere but must not be null. A wrong length is not an error of the caller: it has a number below. */
#ifndef WHEEL_H
#define WHEEL_H

#include <stddef.h>
#include <stdint.h>

#ifdef __cplusplus
extern "C" {
#endif

/* What is lent to a unit, in elements of its type. There are two FRAMs, the bootloader's and the user's, each with sums of its
 * own. Each has a length of its own, a multiple of WHEEL_FRAM_BLOCK. */
#define WHEEL_EDAC 1536u         /* uint8_t, exactly; 153 of them are read-only to WRITE FILE and WRITE EDAC (docs/EDAC.md) */
#define WHEEL_FRAM_LEAST 256u    /* uint8_t */
#define WHEEL_FRAM_MOST 262144u  /* uint8_t */
#define WHEEL_FRAM_BLOCK 256u    /* one sum, a uint16_t, for each block of so many bytes of an FRAM, exactly */
#define WHEEL_DIAGNOSTICS 31u    /* uint32_t, exactly */
#define WHEEL_MESSAGE 1033u      /* uint8_t, at least; one for each port */
#define WHEEL_REPLY 2068u        /* uint8_t, at least; one for each port */

/* The two ports, 0 and 1, by which a unit hears and answers, and its strap, which says where it is heard: on port 0 at
 * WHEEL_0_ANSWERED_ON_1 + strap and at WHEEL_0_ANSWERED_ON_0 + strap, on port 1 at the other two. A reply leaves on the port
 * that the address names, from the address that was called. An address heard on the wrong port is WHEEL_ELSEWHERE. */
#define WHEEL_STRAP_MOST 7u
#define WHEEL_0_ANSWERED_ON_1 0x40u
#define WHEEL_0_ANSWERED_ON_0 0x60u
#define WHEEL_1_ANSWERED_ON_1 0x50u
#define WHEEL_1_ANSWERED_ON_0 0x70u

/* Whether a port is sending, told to each call with a byte, for either port. Any other number is read as WHEEL_SENDING. What
 * comes in on a port that is sending is read as ever. A reply for it is lost: its command is done or refused all the same,
 * with WHEEL_DONE_SILENT or WHEEL_REFUSED_SILENT, no reply buffer changes, and the loss is counted in WHEEL_LOST. */
#define WHEEL_SILENT 0u
#define WHEEL_SENDING 1u

/* The diagnostics that count what befell a port: of port 0 these, of port 1 those that stand WHEEL_PORT_1_COUNTS higher. A
 * count stays at its largest value. A DIAGNOSTIC shows them as they were before its own reply. */
#define WHEEL_FRAMINGS 0x07u      /* runs dropped as WHEEL_FRAMING, */
#define WHEEL_RUNTS 0x08u         /* as WHEEL_RUNT, */
#define WHEEL_OVERSIZES 0x09u     /* as WHEEL_OVERSIZE, */
#define WHEEL_BAD_CRCS 0x0Au      /* as WHEEL_BAD_CRC */
#define WHEEL_THROWN_AWAY 0x0Cu   /* runs thrown away because a reply left on that port */
#define WHEEL_LOST 0x0Du          /* replies lost because the port was sending */
#define WHEEL_PORT_1_COUNTS 0x07u

/* Where the FRAMs lie for PEEK, POKE and CRC: the address of the first byte of each. Each has WHEEL_FRAM_MOST addresses. A
 * range that starts among those of bootloader FRAM and ends among those of user FRAM is refused, whatever is fitted. Else one
 * of which any byte is not in a fitted FRAM is WHEEL_UNFITTED. */
#define WHEEL_BOOTLOADER_FRAM_FIRST 0x20000000u
#define WHEEL_USER_FRAM_FIRST 0x20040000u

/* Whether bootloader FRAM is locked: told to set-up, and in a record. Any other number is read as WHEEL_LOCKED. A POKE to it
 * while it is locked is echoed like any other and stores nothing. INIT with WHEEL_INIT_LOCK as its data (EF BE AD DE) in
 * bootloader mode locks it for good: nothing on the line unlocks it, only a new set-up that the board tells WHEEL_UNLOCKED. A
 * board whose lock is to outlast a reset keeps it and tells set-up. User FRAM has no lock. */
#define WHEEL_UNLOCKED 0u
#define WHEEL_LOCKED 1u
#define WHEEL_INIT_LOCK 0xDEADBEEFu

/* The diagnostic whose low byte shows the lock. Set-up and each INIT that locks write that byte, and no other of it. The record
 * decides, and not the diagnostic. */
#define WHEEL_FRAM_STATUS 0x06u
#define WHEEL_STATUS_UNLOCKED 0x40u
#define WHEEL_STATUS_LOCKED 0xCCu

/* The limit of a unit: the most data bytes of a message on its bus. A longer message is WHEEL_OVERSIZE, a command whose reply
 * would have more data is refused, and no more than 2 * limit + 12 bytes are ever to be sent. What is lent has the same
 * lengths under every limit. */
#define WHEEL_LIMIT_LEAST 260u
#define WHEEL_LIMIT_MOST 1028u

/* The numbers of the answers. Only WHEEL_ACKED, WHEEL_NACKED and a packing that is WHEEL_TAKEN have bytes to send. */
#define WHEEL_TAKEN 0u            /* set up; packed; joined; list stored; byte taken; empty run, or one thrown away, closed */
#define WHEEL_ACKED 1u            /* command done, poll set: an ACK reply */
#define WHEEL_DONE_SILENT 2u      /* command done, poll clear, or its reply lost */
#define WHEEL_NACKED 3u           /* command refused, poll set: a NACK reply */
#define WHEEL_REFUSED_SILENT 4u   /* command refused, poll clear, or its reply lost; storing: the list is unfit */
#define WHEEL_FRAMING 5u          /* run dropped: framing */
#define WHEEL_RUNT 6u             /* run dropped: under 5 bytes */
#define WHEEL_OVERSIZE 7u         /* run dropped: over limit + 5 bytes */
#define WHEEL_BAD_CRC 8u          /* run dropped: the CRC does not agree */
#define WHEEL_ELSEWHERE 9u        /* sound message for an address that this port does not hear */
#define WHEEL_UNFITTED 10u        /* access to memory not fitted */
#define WHEEL_BAD_STRAP 20u       /* strap above WHEEL_STRAP_MOST */
#define WHEEL_BAD_EDAC 21u        /* wrong length of EDAC */
#define WHEEL_BAD_FRAM 22u        /* wrong length of either FRAM, or another than the one set up */
#define WHEEL_BAD_SUMS 23u        /* wrong length of either FRAM's sums */
#define WHEEL_BAD_DIAGNOSTICS 24u /* wrong length of the diagnostics */
#define WHEEL_BAD_BUFFERS 25u     /* wrong length of either port's message or reply buffer */
#define WHEEL_BAD_COUNT 26u       /* a count above 1,034, of either port */
#define WHEEL_BAD_PORT 27u        /* port other than 0 and 1 */
#define WHEEL_BAD_LIMIT 29u       /* limit below WHEEL_LIMIT_LEAST or above WHEEL_LIMIT_MOST */
#define WHEEL_BAD_LENGTH 35u      /* packing: message under 5 or over 1,033 bytes */
#define WHEEL_TOO_LONG 36u        /* joining: the total length is above 4,294,967,295 */

/* The numbers of a record's mode. Any other number is read as application mode. */
#define WHEEL_BOOTLOADER 0u
#define WHEEL_APPLICATION 1u

/* The numbers of a record's places: where the receiver of each port stands. Any other number is read as WHEEL_FAULT. */
#define WHEEL_FRESH 0u  /* no FEND has come yet */
#define WHEEL_RUN 1u    /* between two FENDs */
#define WHEEL_ESCAPE 2u /* the same, after FESC */
#define WHEEL_FAULT 3u  /* the same, after a framing fault */
#define WHEEL_THROWN 4u /* in a run that is thrown away up to its FEND (then WHEEL_TAKEN), since a reply left on this port */

/* The sum of no bytes, which a sum starts from. */
#define WHEEL_CRC_START 0xFFFFu

/* What a unit is between two calls. The caller keeps it, and hands the one it got last to the next call. Every record has a
 * meaning; one that no call handed back may be answered with 20, 22, 26 or 29, and is else believed, with its lock. Of a
 * unit's own a count stops at limit + 6. A higher one, up to 1,034, stays as it is: no more of that run is stored, and its
 * FEND is WHEEL_OVERSIZE, or WHEEL_FRAMING after a fault or FESC, or WHEEL_TAKEN before the first FEND and where it is thrown
 * away. */
struct wheel_unit {
    uint64_t bootloader_len; /* the length of bootloader FRAM that was set up, in bytes */
    uint64_t fram_len;       /* that of user FRAM */
    uint64_t count0;         /* the bytes unpacked in this run of port 0 */
    uint64_t count1;         /* and of port 1 */
    uint16_t limit;          /* as it was set up, WHEEL_LIMIT_LEAST to WHEEL_LIMIT_MOST */
    uint8_t strap;           /* 0 to WHEEL_STRAP_MOST */
    uint8_t mode;            /* WHEEL_BOOTLOADER or WHEEL_APPLICATION */
    uint8_t place0;          /* of port 0, WHEEL_FRESH to WHEEL_THROWN */
    uint8_t place1;          /* and of port 1 */
    uint8_t locked;          /* bootloader FRAM: WHEEL_UNLOCKED or WHEEL_LOCKED */
};

/* The most that a CRC command can cost. Its cost is a count and no time, but bounds the time (docs/MEASURED.md): the bytes of
 * the range that lie in blocks of which it covers only a part, plus the blocks that it covers as a whole. The blocks of an
 * FRAM, WHEEL_FRAM_BLOCK bytes each, follow one another from the FRAM's first byte. In an FRAM of n blocks it is at most
 * n + 508, which from two blocks on the range of all but the first and the last byte costs. */
#define WHEEL_COST_MOST 1532u

/* What a call on a unit gives back: the record afterwards, how many bytes are to be sent from the start of a reply buffer (0
 * where nothing is sent), the number of the answer, the port on which they are to be sent, from whose reply buffer, and beside
 * it what a CRC command cost. */
struct wheel_stepped {
    struct wheel_unit unit;
    uint64_t sent;
    uint8_t answer; /* WHEEL_TAKEN to WHEEL_BAD_LIMIT */
    uint8_t port;   /* 0 or 1; 0 where nothing is sent */
    uint32_t cost;  /* of a CRC command that is done, its reply sent or not: 1 to WHEEL_COST_MOST; of all else 0 */
};

/* What many bytes a call give back: what the last of them that was taken gave back, and how many were taken. Of no bytes it is
 * the record as it is read, and else zeros. */
struct wheel_many {
    struct wheel_stepped last;
    uint64_t taken;
};

/* What packing gives back: how many bytes are to be sent from the start of the reply buffer, and the number. */
struct wheel_packed {
    uint64_t sent;
    uint8_t answer; /* WHEEL_TAKEN, WHEEL_BAD_BUFFERS or WHEEL_BAD_LENGTH */
};

/* A stretch of bytes by its sum and its length alone. */
struct wheel_part {
    uint16_t sum;
    uint32_t len;
};

/* What joining answers: the number, and the part, which is zeros with WHEEL_TOO_LONG. */
struct wheel_joined {
    uint8_t answer; /* WHEEL_TAKEN or WHEEL_TOO_LONG */
    struct wheel_part part;
};

/* The three calls on a unit are lent ten slices in one order: the memories, each FRAM with its sums behind it, then the
 * diagnostics, then the two buffers of port 0 and those of port 1. `fram` and `sums` alone are the user's. The FRAMs are of
 * one type, and so are the buffers: where the lengths agree, nothing tells a caller that exchanges them.
 *
 * Sets a unit up, with a strap, a limit (WHEEL_LIMIT_MOST, or less where the bus allows less) and bootloader FRAM locked or
 * not. Writes the sum of each block of both FRAMs and the low byte of the diagnostic WHEEL_FRAM_STATUS, and hands back a
 * record in bootloader mode with both receivers fresh and WHEEL_TAKEN. Nothing else that is lent changes. Or WHEEL_BAD_STRAP
 * to WHEEL_BAD_BUFFERS or WHEEL_BAD_LIMIT, lowest number first: then nothing at all changes, and the record has strap 8 and
 * else zeros, so that every later byte with it is refused. */
struct wheel_stepped wheel_set_up(uint8_t strap, uint64_t limit, uint8_t locked, const uint8_t *edac, size_t edac_len,
                                  const uint8_t *bootloader, size_t bootloader_len, uint16_t *bootloader_sums,
                                  size_t bootloader_sums_len, const uint8_t *fram, size_t fram_len, uint16_t *sums,
                                  size_t sums_len, uint32_t *diagnostics, size_t diagnostics_len, const uint8_t *message0,
                                  size_t message0_len, const uint8_t *reply0, size_t reply0_len, const uint8_t *message1,
                                  size_t message1_len, const uint8_t *reply1, size_t reply1_len);

/* One byte that came in on a port, with whether port 0 and port 1 are sending now. It may write any of the ten. The sums must
 * be those of their FRAM, as set-up and earlier calls left them, and while a run is open on a port its message buffer is to be
 * left alone; the rest may be another at each call. Where it answers WHEEL_ACKED or WHEEL_NACKED, the first `sent` bytes of
 * the reply buffer of `port` are to be sent there; the others of that buffer, and all of both where nothing is sent, are as
 * they were. If a run in which any byte came is open on that port, it is thrown away, and counted in WHEEL_THROWN_AWAY. With
 * WHEEL_BAD_STRAP to WHEEL_BAD_LIMIT, lowest number first, nothing at all changes and the byte is lost; the record comes back
 * with its mode, places and lock as they are read (see above).
 *
 * The bytes of EDAC that the ICD's prose calls read-only, as SPEED's, keep their value whatever comes on the line. That a byte
 * is read-only is no reason to refuse: WRITE FILE and WRITE EDAC over such bytes are done like any other, with WHEEL_ACKED, or
 * with WHEEL_DONE_SILENT where poll is clear; they store the other bytes, and reply with what EDAC then holds. The caller
 * itself may set any byte of EDAC between two calls. */
struct wheel_stepped wheel_step(struct wheel_unit unit, uint8_t port, uint8_t byte, uint8_t sending0, uint8_t sending1,
                                uint8_t *edac, size_t edac_len, uint8_t *bootloader, size_t bootloader_len,
                                uint16_t *bootloader_sums, size_t bootloader_sums_len, uint8_t *fram, size_t fram_len,
                                uint16_t *sums, size_t sums_len, uint32_t *diagnostics, size_t diagnostics_len,
                                uint8_t *message0, size_t message0_len, uint8_t *reply0, size_t reply0_len,
                                uint8_t *message1, size_t message1_len, uint8_t *reply1, size_t reply1_len);

/* Many bytes that came in on a port, in one call: just what the same bytes come to by wheel_step one by one, with the record
 * and all that is lent handed on and the same ports sending, up to the first answer other than WHEEL_TAKEN. `taken` counts the
 * byte of that answer too: the rest is for the next call, once a reply is on its way. Where every answer is WHEEL_TAKEN, all
 * are taken. A call that is refused takes one byte, and loses it. One with no bytes is never refused, whatever else it is
 * given: nothing changes, and the answer is WHEEL_TAKEN. The bytes must lie in nothing that is written. An ordinary byte costs
 * a small part of what a call for it alone does (docs/MEASURED.md). */
struct wheel_many wheel_steps(struct wheel_unit unit, uint8_t port, const uint8_t *bytes, size_t bytes_len, uint8_t sending0,
                              uint8_t sending1, uint8_t *edac, size_t edac_len, uint8_t *bootloader, size_t bootloader_len,
                              uint16_t *bootloader_sums, size_t bootloader_sums_len, uint8_t *fram, size_t fram_len,
                              uint16_t *sums, size_t sums_len, uint32_t *diagnostics, size_t diagnostics_len,
                              uint8_t *message0, size_t message0_len, uint8_t *reply0, size_t reply0_len,
                              uint8_t *message1, size_t message1_len, uint8_t *reply1, size_t reply1_len);

/* A message of 5 to 1,033 bytes, its CRC already on it, as the line carries it: FEND at both ends, escapes between. It knows of
 * no limit: a unit drops a message that is longer than its limit + 5. The reply buffer is WHEEL_REPLY bytes or more, else
 * WHEEL_BAD_BUFFERS; then WHEEL_BAD_LENGTH; both write nothing. */
struct wheel_packed wheel_pack(const uint8_t *message, size_t message_len, uint8_t *reply, size_t reply_len);

/* A WRITE FILE as two operations that need no unit. A list is the data of a WRITE FILE: for each file its address and four
 * bytes, for file 0 its address, the mode byte and four bytes. `limit` is the unit's. A list that is empty, that ends inside
 * a file or that is longer than the limit is unfit, and with a limit that no unit has every list is.
 *
 * Judging answers 1 where the list is fit, else 0: with the unit's limit, 1 exactly where a WRITE FILE of it would be done by
 * that unit in application mode, whatever its memory holds, and so ACKed where its reply leaves. Nothing is written. */
uint8_t wheel_judge_list(uint64_t limit, const uint8_t *list, size_t list_len);

/* Storing stores every file of a fit list in EDAC, in order, as a WRITE FILE of it would: read-only bytes keep their value.
 * It judges the list that it is lent, so a list need not have been judged before, and may have been altered since. The list
 * must not lie in EDAC. WHEEL_TAKEN: stored. WHEEL_BAD_EDAC: EDAC is not WHEEL_EDAC long; else WHEEL_REFUSED_SILENT: the list
 * is unfit; with either nothing changes. */
uint8_t wheel_store_list(uint64_t limit, uint8_t *edac, size_t edac_len, const uint8_t *list, size_t list_len);

/* The message CRC of the bytes (ICD 10.8). */
uint16_t wheel_crc(const uint8_t *bytes, size_t length);

/* The CRC that goes on from another over the bytes that follow. */
uint16_t wheel_crc_from(uint16_t start, const uint8_t *bytes, size_t length);

/* Two parts, one after the other, as one. */
struct wheel_joined wheel_join(struct wheel_part first, struct wheel_part second);

/* An FRAM where the board has it, with room for its sums: one for each WHEEL_FRAM_BLOCK bytes. */
struct wheel_fram {
    uint8_t *bytes;
    size_t length; /* in bytes */
    uint16_t *sums;
};

/* What a port has: the message that comes in, and the reply that leaves. */
struct wheel_port {
    uint8_t message[WHEEL_MESSAGE];
    uint8_t reply[WHEEL_REPLY];
};

/* A whole unit. The board says where its memories are before wheel_begin, and does not alter that while the unit is used. All
 * else is zeros, as in static storage, but for what a board wants a diagnostic to show: no call clears the diagnostics. Between
 * two calls the board may read everything, and set any byte of EDAC and any diagnostic. The bytes of the FRAMs, their sums, the
 * ports' message buffers and `now` are for the unit alone to write.
 *
 * One call at a time: both ports share the record and the memories. A board with an interrupt for each port must not let one
 * break into a call that the other makes, and does best to queue the bytes and make the calls in one place. */
struct wheel {
    uint8_t *edac; /* WHEEL_EDAC bytes */
    struct wheel_fram bootloader;
    struct wheel_fram user;
    struct wheel_stepped now; /* what the last call gave back: the record, what is to be sent and where, number and cost */
    uint32_t diagnostics[WHEEL_DIAGNOSTICS];
    struct wheel_port ports[2];
};

/* The four functions over it are C that the caller compiles: tested, and not proved. They lend what the struct has to
 * wheel_set_up and wheel_steps and keep what comes back.
 *
 * Sets the unit up, as wheel_set_up does: answers WHEEL_TAKEN, or why not. Before that every byte is WHEEL_BAD_FRAM. */
static inline uint8_t wheel_begin(struct wheel *wheel, uint8_t strap, uint64_t limit, uint8_t locked) {
    wheel->now = wheel_set_up(strap, limit, locked, wheel->edac, WHEEL_EDAC, wheel->bootloader.bytes,
                              wheel->bootloader.length, wheel->bootloader.sums, wheel->bootloader.length / WHEEL_FRAM_BLOCK,
                              wheel->user.bytes, wheel->user.length, wheel->user.sums,
                              wheel->user.length / WHEEL_FRAM_BLOCK, wheel->diagnostics, WHEEL_DIAGNOSTICS,
                              wheel->ports[0].message, WHEEL_MESSAGE, wheel->ports[0].reply, WHEEL_REPLY,
                              wheel->ports[1].message, WHEEL_MESSAGE, wheel->ports[1].reply, WHEEL_REPLY);
    return wheel->now.answer;
}

/* Many bytes that came in on a port, as wheel_steps takes them: answers how many were taken. The number of the last one's
 * answer is now.answer; where `length` is more than was taken, the rest is for the next call. */
static inline size_t wheel_bytes(struct wheel *wheel, uint8_t port, const uint8_t *bytes, size_t length, uint8_t sending0,
                                 uint8_t sending1) {
    struct wheel_many many =
        wheel_steps(wheel->now.unit, port, bytes, length, sending0, sending1, wheel->edac, WHEEL_EDAC, wheel->bootloader.bytes,
                    wheel->bootloader.length, wheel->bootloader.sums, wheel->bootloader.length / WHEEL_FRAM_BLOCK,
                    wheel->user.bytes, wheel->user.length, wheel->user.sums, wheel->user.length / WHEEL_FRAM_BLOCK,
                    wheel->diagnostics, WHEEL_DIAGNOSTICS, wheel->ports[0].message, WHEEL_MESSAGE, wheel->ports[0].reply,
                    WHEEL_REPLY, wheel->ports[1].message, WHEEL_MESSAGE, wheel->ports[1].reply, WHEEL_REPLY);
    wheel->now = many.last;
    return (size_t)many.taken;
}

/* One byte that came in on a port, as wheel_step takes it, with whether each port is sending: answers its number. It is a call
 * of many with one byte, which is the same thing: so a board has one way into the unit. */
static inline uint8_t wheel_byte(struct wheel *wheel, uint8_t port, uint8_t byte, uint8_t sending0, uint8_t sending1) {
    (void)wheel_bytes(wheel, port, &byte, 1, sending0, sending1);
    return wheel->now.answer;
}

/* What the last call gives to be sent: where it stands, in `port` on which port, and in `length` how many bytes, 0 for
 * nothing. It stands there until another reply leaves on that port, which none does while the port is told to be sending. */
static inline const uint8_t *wheel_reply(const struct wheel *wheel, uint8_t *port, size_t *length) {
    *port = wheel->now.port;
    *length = (size_t)wheel->now.sent;
    return wheel->ports[wheel->now.port].reply;
}

#ifdef __cplusplus
}
#endif

#endif
