/* The C face's records across the boundary: every field of a record goes in and comes out as it was, with every other field
 * at odds with it; numbers out of range mean what the header says; every refusal has its number, costs nothing and changes nothing;
 * what a CRC command costs comes out beside the record and the number, and so does the port of a reply, which stands in the buffer
 * of that port; and many bytes in a call come to what they come to one by one. */
#include "wheel.h"

#include <stdio.h>
#include <string.h>

#define BOOT 768u
#define FRAM 512u
#define BOOT_SUMS (BOOT / WHEEL_FRAM_BLOCK)
#define SUMS (FRAM / WHEEL_FRAM_BLOCK)

struct lent {
    uint8_t edac[WHEEL_EDAC], bootloader[BOOT], fram[FRAM];
    struct wheel_port ports[2];
    uint16_t bootloader_sums[BOOT_SUMS], sums[SUMS];
    uint32_t diagnostics[WHEEL_DIAGNOSTICS];
};

static struct lent lent, before;
static int bad = 0;

static void same(const char *name, unsigned long long came, unsigned long long due) {
    if (came != due) {
        printf("BAD %s: %llx, not %llx\n", name, came, due);
        bad = 1;
    }
}

/* The lengths that are lent, one of which a test makes wrong. */
struct lengths {
    size_t edac, bootloader, bootloader_sums, fram, sums, diagnostics, message[2], reply[2];
};

static const struct lengths right = {.edac = WHEEL_EDAC,
                                     .bootloader = BOOT,
                                     .bootloader_sums = BOOT_SUMS,
                                     .fram = FRAM,
                                     .sums = SUMS,
                                     .diagnostics = WHEEL_DIAGNOSTICS,
                                     .message = {WHEEL_MESSAGE, WHEEL_MESSAGE},
                                     .reply = {WHEEL_REPLY, WHEEL_REPLY}};

/* Whether each port is sending, which a test says. */
static uint8_t sending[2];

static struct wheel_stepped step_on(uint8_t port, struct wheel_unit unit, uint8_t byte, struct lengths n) {
    return wheel_step(unit, port, byte, sending[0], sending[1], lent.edac, n.edac, lent.bootloader, n.bootloader,
                      lent.bootloader_sums, n.bootloader_sums, lent.fram, n.fram, lent.sums, n.sums, lent.diagnostics,
                      n.diagnostics, lent.ports[0].message, n.message[0], lent.ports[0].reply, n.reply[0],
                      lent.ports[1].message, n.message[1], lent.ports[1].reply, n.reply[1]);
}

static struct wheel_stepped step(struct wheel_unit unit, uint8_t byte, struct lengths n) { return step_on(0, unit, byte, n); }

static struct wheel_many steps_on(uint8_t port, struct wheel_unit unit, const uint8_t *bytes, size_t length, struct lengths n) {
    return wheel_steps(unit, port, bytes, length, sending[0], sending[1], lent.edac, n.edac, lent.bootloader, n.bootloader,
                       lent.bootloader_sums, n.bootloader_sums, lent.fram, n.fram, lent.sums, n.sums, lent.diagnostics,
                       n.diagnostics, lent.ports[0].message, n.message[0], lent.ports[0].reply, n.reply[0],
                       lent.ports[1].message, n.message[1], lent.ports[1].reply, n.reply[1]);
}

static struct wheel_stepped set_up_as(uint8_t strap, uint64_t limit, uint8_t locked, struct lengths n) {
    return wheel_set_up(strap, limit, locked, lent.edac, n.edac, lent.bootloader, n.bootloader, lent.bootloader_sums,
                        n.bootloader_sums, lent.fram, n.fram, lent.sums, n.sums, lent.diagnostics, n.diagnostics,
                        lent.ports[0].message, n.message[0], lent.ports[0].reply, n.reply[0], lent.ports[1].message,
                        n.message[1], lent.ports[1].reply, n.reply[1]);
}

enum { STRAP = 1, HEARD = WHEEL_0_ANSWERED_ON_1 + STRAP };

static struct wheel_stepped set_up(uint64_t limit, struct lengths n) {
    return set_up_as(STRAP, limit, WHEEL_UNLOCKED, n);
}

static void same_unit(const char *name, struct wheel_unit came, struct wheel_unit due) {
    same(name, came.bootloader_len, due.bootloader_len);
    same(name, came.fram_len, due.fram_len);
    same(name, came.count0, due.count0);
    same(name, came.count1, due.count1);
    same(name, came.limit, due.limit);
    same(name, came.strap, due.strap);
    same(name, came.mode, due.mode);
    same(name, came.place0, due.place0);
    same(name, came.place1, due.place1);
    same(name, came.locked, due.locked);
}

/* A call that sends nothing and changes nothing, but for what stands in `before`. */
static void silent(const char *name, struct wheel_stepped came, unsigned answer, unsigned cost, struct wheel_unit due) {
    same(name, came.answer, answer);
    same(name, came.sent, 0);
    same(name, came.port, 0);
    same(name, came.cost, cost);
    same_unit(name, came.unit, due);
    same(name, (unsigned long long)memcmp(&lent, &before, sizeof lent), 0);
}

static void refused(const char *name, struct wheel_stepped came, unsigned answer, struct wheel_unit due) {
    silent(name, came, answer, 0, due);
}

/* A call with three bytes that is refused, and so loses one of them, and with none, which nothing refuses: both hand the record back
 * and change nothing. */
static void lost(const char *name, uint8_t port, struct wheel_unit unit, struct lengths n, unsigned answer,
                 struct wheel_unit due) {
    static const uint8_t bytes[3] = {0xC0, 0x55, 0xC0};
    const struct wheel_many some = steps_on(port, unit, bytes, sizeof bytes, n), none = steps_on(port, unit, bytes, 0, n);
    same(name, some.taken, 1);
    refused(name, some.last, answer, due);
    same(name, none.taken, 0);
    refused(name, none.last, WHEEL_TAKEN, due);
}

/* The record of a refused set-up. */
static const struct wheel_unit nobody = {.strap = WHEEL_STRAP_MOST + 1};

/* Limits that no unit has, with all their bits: only the first NARROW of them fit in a record. */
enum { NARROW = 6, NO_LIMITS = 10 };
static const uint64_t no_limits[NO_LIMITS] = {
    0, 1, 259, 1029, 0x8404u, 0xFFFFu, 0x10000u + 1028, 0x100000000u + 260, 0x8000000000000404u, 0xFFFFFFFFFFFFFFFFu};

/* The limit at set-up and in a record: every right one goes in and comes out, and no other is taken. `fresh` is a unit that was
 * set up with the highest. */
static void limits(struct wheel_unit fresh) {
    for (size_t i = 0; i < NO_LIMITS; i++) {
        refused("set-up 29", set_up(no_limits[i], right), WHEEL_BAD_LIMIT, nobody);
        struct lengths n = right;
        n.reply[i % 2]--;
        refused("set-up 25 first", set_up(no_limits[i], n), WHEEL_BAD_BUFFERS, nobody);
    }
    struct wheel_unit unit = fresh;
    for (unsigned place = 0; place < 5; place++) {
        for (size_t i = 0; i < NARROW; i++) {
            unit.place0 = (uint8_t)place;
            unit.limit = (uint16_t)no_limits[i];
            unit.count0 = 1034;
            refused("step 29", step(unit, 0xC0, right), WHEEL_BAD_LIMIT, unit);
            refused("step 27 first", step_on(2, unit, 0xC0, right), WHEEL_BAD_PORT, unit);
            unit.count0 = 1035;
            refused("step 26 first", step(unit, 0xC0, right), WHEEL_BAD_COUNT, unit);
        }
    }
    for (unsigned limit = WHEEL_LIMIT_LEAST; limit <= WHEEL_LIMIT_MOST; limit++) {
        unit = fresh;
        unit.limit = (uint16_t)limit;
        refused("a limit set up", set_up(limit, right), WHEEL_TAKEN, unit);
        unit.count0 = 1034;
        refused("a limit kept", step(unit, 0x55, right), WHEEL_TAKEN, unit);
    }
    /* The count that makes a run too long, and what no unit of this limit counts to. */
    struct wheel_unit after = fresh;
    after.limit = 300;
    after.mode = WHEEL_APPLICATION;
    after.place0 = WHEEL_RUN;
    struct wheel_unit run = after;
    run.count0 = 305;
    before.diagnostics[10]++;
    refused("305 bytes under 300", step(run, 0xC0, right), WHEEL_BAD_CRC, after);
    struct wheel_unit full = after;
    full.count0 = 306;
    refused("the 306th under 300", step(run, 0x55, right), WHEEL_TAKEN, full);
    before.diagnostics[9]++;
    refused("306 bytes under 300", step(full, 0xC0, right), WHEEL_OVERSIZE, after);
    run.count0 = 1034;
    refused("1,034 stay under 300", step(run, 0x55, right), WHEEL_TAKEN, run);
    before.diagnostics[9]++;
    refused("1,034 bytes under 300", step(run, 0xC0, right), WHEEL_OVERSIZE, after);
}

/* Writes the low byte of the FRAM status, as a set-up is to leave it. */
static void status(uint32_t byte) {
    before.diagnostics[WHEEL_FRAM_STATUS] = (before.diagnostics[WHEEL_FRAM_STATUS] & ~(uint32_t)0xFF) | byte;
}

/* The lock at set-up and in a record: every byte goes in, and comes out as 0 or 1, whatever the diagnostic shows. `fresh` is a unit
 * that was set up unlocked. */
static void locks(struct wheel_unit fresh) {
    for (unsigned locked = 0; locked < 256; locked++) {
        struct wheel_unit due = fresh, unit = fresh;
        due.locked = locked == 0 ? WHEEL_UNLOCKED : WHEEL_LOCKED;
        unit.locked = (uint8_t)locked;
        refused("a record's lock", step(unit, 0x55, right), WHEEL_TAKEN, due);
        struct lengths n = right;
        n.diagnostics--;
        refused("a refused record's lock", step(unit, 0x55, n), WHEEL_BAD_DIAGNOSTICS, due);
        refused("a lock and a refused set-up", set_up_as(STRAP, WHEEL_LIMIT_MOST, unit.locked, n), WHEEL_BAD_DIAGNOSTICS, nobody);
        refused("a lock and no limit", set_up_as(STRAP, 0, unit.locked, right), WHEEL_BAD_LIMIT, nobody);
        before.diagnostics[WHEEL_FRAM_STATUS] = lent.diagnostics[WHEEL_FRAM_STATUS] = 0xFFFFFFFFu - 0x01010101u * locked;
        status(locked == 0 ? WHEEL_STATUS_UNLOCKED : WHEEL_STATUS_LOCKED);
        refused("a lock set up", set_up_as(STRAP, WHEEL_LIMIT_MOST, unit.locked, right), WHEEL_TAKEN, due);
    }
    status(WHEEL_STATUS_UNLOCKED);
    refused("unlocked by set-up", set_up(WHEEL_LIMIT_MOST, right), WHEEL_TAKEN, fresh);
}

/* Both FRAMs: what is wrong with either, in what is lent and in the record. `fits` is a unit that takes a byte. */
static void frams(struct wheel_unit fits) {
    struct lengths n = right;
    for (unsigned wrong = 1; wrong < 4; wrong++) {
        n = right;
        n.bootloader -= wrong & 1;
        n.fram -= wrong >> 1;
        refused("set-up 22", set_up(WHEEL_LIMIT_MOST, n), WHEEL_BAD_FRAM, nobody);
        refused("step 22", step(fits, 0xC0, n), WHEEL_BAD_FRAM, fits);
        n = right;
        n.bootloader_sums -= wrong & 1;
        n.sums -= wrong >> 1;
        refused("set-up 23", set_up(WHEEL_LIMIT_MOST, n), WHEEL_BAD_SUMS, nobody);
        refused("step 23", step(fits, 0xC0, n), WHEEL_BAD_SUMS, fits);
    }
    n = right, n.bootloader = 0, n.bootloader_sums = 0;
    refused("set-up with no bootloader FRAM", set_up(WHEEL_LIMIT_MOST, n), WHEEL_BAD_FRAM, nobody);
    n = right, n.fram = 0, n.sums = 0;
    refused("set-up with no user FRAM", set_up(WHEEL_LIMIT_MOST, n), WHEEL_BAD_FRAM, nobody);
    n = right, n.bootloader_sums--, n.fram--;
    refused("set-up 22 of user FRAM before 23", set_up(WHEEL_LIMIT_MOST, n), WHEEL_BAD_FRAM, nobody);
    refused("step 22 of user FRAM before 23", step(fits, 0xC0, n), WHEEL_BAD_FRAM, fits);
    n = right, n.bootloader -= WHEEL_FRAM_BLOCK, n.bootloader_sums--;
    refused("another bootloader FRAM", step(fits, 0xC0, n), WHEEL_BAD_FRAM, fits);
    n = right, n.fram -= WHEEL_FRAM_BLOCK, n.sums--;
    refused("another user FRAM", step(fits, 0xC0, n), WHEEL_BAD_FRAM, fits);
    struct wheel_unit unit = fits;
    unit.bootloader_len = FRAM, unit.fram_len = BOOT;
    refused("the FRAMs exchanged", step(unit, 0xC0, right), WHEEL_BAD_FRAM, unit);
    unit = fits, unit.bootloader_len += (uint64_t)1 << 32;
    refused("a wide length of bootloader FRAM", step(unit, 0xC0, right), WHEEL_BAD_FRAM, unit);
    unit = fits, unit.fram_len += (uint64_t)1 << 32;
    refused("a wide length of user FRAM", step(unit, 0xC0, right), WHEEL_BAD_FRAM, unit);
}

/* What a CRC command costs by its first and last byte of an FRAM: byte by byte. A block is covered where its ends are. */
static unsigned cost_of(unsigned first, unsigned last) {
    unsigned cost = 0;
    for (unsigned at = first; at <= last; at++) {
        const unsigned start = at - at % WHEEL_FRAM_BLOCK, end = start + WHEEL_FRAM_BLOCK - 1;
        const int covered = first <= start && end <= last;
        cost += !covered || at == start;
    }
    return cost;
}

/* CRC commands that stand in the message buffer as if they had been received, with poll clear: one for each pair of some bytes
 * about the edges of blocks in either FRAM, and a byte after each. `fits` is a unit that takes a byte. */
static void costs(struct wheel_unit fits) {
    static const unsigned ends[] = {0, 1, 100, 254, 255, 256, 257, 400, 511, 512, 513, 766, 767};
    static const uint32_t firsts[] = {WHEEL_BOOTLOADER_FRAM_FIRST, WHEEL_USER_FRAM_FIRST};
    const unsigned sizes[] = {BOOT, FRAM};
    enum { LENGTH = 13, ENDS = sizeof ends / sizeof ends[0] };
    struct wheel_unit unit = fits, after = fits;
    unit.count0 = LENGTH;
    after.count0 = 0;
    for (unsigned n = 0; n < 2 * ENDS * ENDS; n++) {
        const unsigned fram = n % 2, first = ends[n / 2 % ENDS], last = ends[n / 2 / ENDS];
        const uint32_t addresses[2] = {firsts[fram] + first, firsts[fram] + last};
        uint8_t *const message = lent.ports[0].message;
        message[0] = HEARD;
        message[1] = 0x11;
        message[2] = 0x06;
        for (size_t i = 0; i < 8; i++) {
            message[3 + i] = (uint8_t)(addresses[i / 4] >> 8 * (i % 4));
        }
        const uint16_t sum = wheel_crc(message, LENGTH - 2);
        message[LENGTH - 2] = (uint8_t)sum;
        message[LENGTH - 1] = (uint8_t)(sum >> 8);
        memcpy(before.ports[0].message, message, LENGTH);
        const struct wheel_stepped came = step(unit, 0xC0, right);
        if (last < first) {
            silent("a CRC command that is refused", came, WHEEL_REFUSED_SILENT, 0, after);
        } else if (last >= sizes[fram]) {
            silent("a CRC command of memory not fitted", came, WHEEL_UNFITTED, 0, after);
        } else {
            silent("a CRC command", came, WHEEL_DONE_SILENT, cost_of(first, last), after);
        }
        silent("a FEND after it", step(came.unit, 0xC0, right), WHEEL_TAKEN, 0, after);
    }
}

/* A list of files: a limit with all its bits, each refusal, and what is stored. */
static void lists(void) {
    static const uint8_t list[5] = {0x28, 0x11, 0x22, 0x33, 0x44};
    for (size_t i = 0; i < NO_LIMITS; i++) {
        same("no limit", wheel_judge_list(no_limits[i], list, 5), 0);
        same("no limit", wheel_store_list(no_limits[i], lent.edac, WHEEL_EDAC, list, 5), WHEEL_REFUSED_SILENT);
    }
    same("a cut list", wheel_judge_list(WHEEL_LIMIT_MOST, list, 4), 0);
    same("a cut list", wheel_store_list(WHEEL_LIMIT_MOST, lent.edac, WHEEL_EDAC, list, 4), WHEEL_REFUSED_SILENT);
    same("no list", wheel_judge_list(WHEEL_LIMIT_MOST, list, 0), 0);
    same("no list", wheel_store_list(WHEEL_LIMIT_MOST, lent.edac, WHEEL_EDAC, list, 0), WHEEL_REFUSED_SILENT);
    same("storing 21", wheel_store_list(WHEEL_LIMIT_MOST, lent.edac, WHEEL_EDAC - 1, list, 5), WHEEL_BAD_EDAC);
    same("storing 21 first", wheel_store_list(0, lent.edac, WHEEL_EDAC - 1, list, 4), WHEEL_BAD_EDAC);
    same("storing changes nothing", (unsigned long long)memcmp(&lent, &before, sizeof lent), 0);
    same("the least limit", wheel_judge_list(WHEEL_LIMIT_LEAST, list, 5), 1);
    same("the highest limit", wheel_judge_list(WHEEL_LIMIT_MOST, list, 5), 1);
    same("stored", wheel_store_list(WHEEL_LIMIT_MOST, lent.edac, WHEEL_EDAC, list, 5), WHEEL_TAKEN);
    memcpy(before.edac + 0xA0, list + 1, 4);
    same("stored", (unsigned long long)memcmp(&lent, &before, sizeof lent), 0);
}

/* The number of a place as a call reads it and hands it back. */
static uint8_t place_read(unsigned place) { return place > WHEEL_THROWN ? WHEEL_FAULT : (uint8_t)place; }

/* A refused call hands the record back: every field, with all bits of the wide ones. */
static void handed_back(void) {
    static const uint64_t wide[5] = {0, 1, 0x0123456789ABCDEFu, 0xFEDCBA9876543210u, 0xFFFFFFFFFFFFFFFFu};
    static const uint16_t half[5] = {0, 1, 0x0123, 0xFEDC, 0xFFFF};
    for (unsigned i = 0; i < 625; i++) {
        for (unsigned n = 0; n < 256; n++) {
            const struct wheel_unit unit = {.bootloader_len = wide[i % 5],
                                            .fram_len = wide[i / 5 % 5],
                                            .count0 = wide[i / 25 % 5],
                                            .count1 = wide[i / 125],
                                            .limit = half[n % 5],
                                            .strap = (uint8_t)(8 + n % 248),
                                            .mode = (uint8_t)n,
                                            .place0 = (uint8_t)(255 - n),
                                            .place1 = (uint8_t)(n + 200),
                                            .locked = (uint8_t)(n + 128)};
            struct wheel_unit due = unit;
            due.mode = unit.mode == WHEEL_BOOTLOADER ? WHEEL_BOOTLOADER : WHEEL_APPLICATION;
            due.place0 = place_read(unit.place0);
            due.place1 = place_read(unit.place1);
            due.locked = unit.locked == WHEEL_UNLOCKED ? WHEEL_UNLOCKED : WHEEL_LOCKED;
            refused("a record", step_on((uint8_t)(n % 3), unit, (uint8_t)n, right), WHEEL_BAD_STRAP, due);
            lost("a record and many bytes", (uint8_t)(n % 3), unit, right, WHEEL_BAD_STRAP, due);
        }
    }
    for (unsigned strap = 0; strap < 256; strap++) {
        const struct wheel_unit unit = {.bootloader_len = 0x8877665544332211u,
                                        .fram_len = 0x1122334455667788u,
                                        .count0 = 5,
                                        .count1 = 6,
                                        .limit = 0xFEDC,
                                        .strap = (uint8_t)strap,
                                        .mode = WHEEL_APPLICATION,
                                        .place0 = WHEEL_ESCAPE,
                                        .place1 = WHEEL_THROWN,
                                        .locked = WHEEL_LOCKED};
        refused("a strap", step(unit, 0, right), strap > WHEEL_STRAP_MOST ? WHEEL_BAD_STRAP : WHEEL_BAD_FRAM, unit);
    }
}

/* Every number of a place of either port, for a byte on the other port and for one on its own that a fault and a run that is thrown
 * away pass over alike. `fits` is a unit that takes a byte. */
static void places(struct wheel_unit fits) {
    struct wheel_unit quiet = fits;
    quiet.place0 = quiet.place1 = WHEEL_FRESH;
    for (unsigned place = 0; place < 256; place++) {
        struct wheel_unit unit = quiet, due = quiet;
        unit.place0 = (uint8_t)place;
        due.place0 = place_read(place);
        refused("a place of port 0", step_on(1, unit, 0x55, right), WHEEL_TAKEN, due);
        if (place >= WHEEL_FAULT) {
            refused("a byte passed over on port 0", step_on(0, unit, 0xDB, right), WHEEL_TAKEN, due);
        }
        unit = due = quiet;
        unit.place1 = (uint8_t)place;
        due.place1 = place_read(place);
        refused("a place of port 1", step_on(0, unit, 0x55, right), WHEEL_TAKEN, due);
        if (place >= WHEEL_FAULT) {
            refused("a byte passed over on port 1", step_on(1, unit, 0xDB, right), WHEEL_TAKEN, due);
        }
    }
    /* The FEND tells a run that is thrown away from one with a fault. */
    struct wheel_unit unit = quiet, due = quiet;
    unit.place1 = WHEEL_THROWN;
    due.place1 = WHEEL_RUN, due.count1 = 0;
    refused("thrown away", step_on(1, unit, 0xC0, right), WHEEL_TAKEN, due);
    unit.place1 = WHEEL_THROWN + 1;
    before.diagnostics[WHEEL_FRAMINGS + WHEEL_PORT_1_COUNTS]++;
    refused("a number that no place has", step_on(1, unit, 0xC0, right), WHEEL_FRAMING, due);
}

/* The buffers of a port with PING to an address in the one of messages, as if it had been received: 5 bytes. */
static void put_ping(unsigned port, unsigned address, unsigned control) {
    uint8_t *const message = lent.ports[port].message;
    message[0] = (uint8_t)address;
    message[1] = 0x11;
    message[2] = (uint8_t)control;
    const uint16_t sum = wheel_crc(message, 3);
    message[3] = (uint8_t)sum;
    message[4] = (uint8_t)(sum >> 8);
    memcpy(before.ports[port].message, message, 5);
}

/* Replies by each of a unit's addresses, with every number of either port's sending: where they stand, what is counted, and how the
 * other port's receiver stands then. `fits` is a unit that takes a byte. */
static void replies(struct wheel_unit fits) {
    static const unsigned firsts[4] = {WHEEL_0_ANSWERED_ON_1, WHEEL_0_ANSWERED_ON_0, WHEEL_1_ANSWERED_ON_1,
                                       WHEEL_1_ANSWERED_ON_0};
    for (unsigned n = 0; n < 4 * 256; n++) {
        const unsigned way = n / 256, number = n % 256, heard = way / 2, answered = way == 0 || way == 2;
        struct wheel_unit unit = fits;
        unit.place0 = unit.place1 = WHEEL_RUN;
        unit.count0 = unit.count1 = 5;
        struct wheel_unit due = unit;
        *(heard ? &due.count1 : &due.count0) = 0;
        put_ping(heard, firsts[way] + STRAP, 0x80);
        sending[answered] = (uint8_t)number;
        sending[!answered] = (uint8_t)(n * 7);
        const struct wheel_stepped came = step_on((uint8_t)heard, unit, 0xC0, right);
        if (number != WHEEL_SILENT) {
            before.diagnostics[WHEEL_LOST + answered * WHEEL_PORT_1_COUNTS]++;
            refused("a reply lost", came, WHEEL_DONE_SILENT, due);
            continue;
        }
        if (heard != answered) {
            *(answered ? &due.place1 : &due.place0) = WHEEL_THROWN;
            before.diagnostics[WHEEL_THROWN_AWAY + answered * WHEEL_PORT_1_COUNTS]++;
        }
        same("a reply", came.answer, WHEEL_ACKED);
        same("a reply's length", came.sent, 24);
        same("a reply's port", came.port, answered);
        same_unit("a reply's record", came.unit, due);
        const uint8_t *const reply = lent.ports[answered].reply;
        same("a reply's FEND", reply[0], 0xC0);
        same("a reply's destination", reply[1], 0x11);
        same("a reply's source", reply[2], firsts[way] + STRAP);
        same("a reply's CRC", wheel_crc(reply + 1, 20), (uint16_t)(reply[21] | reply[22] << 8));
        memcpy(before.ports[answered].reply, reply, 24);
        same("beside a reply", (unsigned long long)memcmp(&lent, &before, sizeof lent), 0);
    }
    sending[0] = sending[1] = WHEEL_SILENT;
}

/* Bytes in one call, and the same one by one with everything as it was: all that is given back, and all that is lent, must be the
 * same. What is then to be in `before` is what the bytes left. */
static struct wheel_many both_ways(const char *name, uint8_t port, struct wheel_unit unit, const uint8_t *bytes, size_t length) {
    static struct lent first, left;
    first = lent;
    const struct wheel_many many = steps_on(port, unit, bytes, length, right);
    left = lent;
    lent = first;
    struct wheel_stepped one = {.unit = unit};
    size_t taken = 0;
    while (taken < length && one.answer == WHEEL_TAKEN) {
        one = step_on(port, one.unit, bytes[taken++], right);
    }
    same(name, many.taken, taken);
    same(name, many.last.answer, one.answer);
    same(name, many.last.sent, one.sent);
    same(name, many.last.port, one.port);
    same(name, many.last.cost, one.cost);
    same_unit(name, many.last.unit, one.unit);
    same(name, (unsigned long long)memcmp(&lent, &left, sizeof lent), 0);
    before = lent;
    return many;
}

/* A command as the line carries it, behind what stands in the line already, with a FEND more. */
static size_t put_command(uint8_t *line, unsigned address, unsigned control, const uint8_t *data, size_t length) {
    uint8_t message[32] = {(uint8_t)address, 0x11, (uint8_t)control};
    memcpy(message + 3, data, length);
    const uint16_t sum = wheel_crc(message, 3 + length);
    message[3 + length] = (uint8_t)sum;
    message[4 + length] = (uint8_t)(sum >> 8);
    line[0] = 0xC0;
    return 1 + (size_t)wheel_pack(message, 5 + length, line + 1, WHEEL_REPLY).sent;
}

/* Many bytes: what is refused, by each length that is wrong alone, by port, count and limit; then commands that write each of the
 * memories and are answered on either port, in one call each way up to their answer. `fits` is a unit that takes a byte. */
static void many_bytes(struct wheel_unit fits) {
    struct lengths n = right;
    n.edac--;
    lost("many 21", 0, fits, n, WHEEL_BAD_EDAC, fits);
    n = right, n.bootloader--;
    lost("many 22", 1, fits, n, WHEEL_BAD_FRAM, fits);
    n = right, n.fram--;
    lost("many 22 of user FRAM", 0, fits, n, WHEEL_BAD_FRAM, fits);
    n = right, n.bootloader_sums--;
    lost("many 23", 1, fits, n, WHEEL_BAD_SUMS, fits);
    n = right, n.sums--;
    lost("many 23 of user FRAM", 0, fits, n, WHEEL_BAD_SUMS, fits);
    n = right, n.diagnostics--;
    lost("many 24", 1, fits, n, WHEEL_BAD_DIAGNOSTICS, fits);
    for (unsigned port = 0; port < 4; port++) {
        n = right, n.message[port % 2]--;
        lost("many 25", (uint8_t)(port / 2), fits, n, WHEEL_BAD_BUFFERS, fits);
        n = right, n.reply[port % 2]--;
        lost("many 25", (uint8_t)(port / 2), fits, n, WHEEL_BAD_BUFFERS, fits);
    }
    struct wheel_unit unit = fits;
    unit.count0 = 1035;
    lost("many 26 of port 0", 1, unit, right, WHEEL_BAD_COUNT, unit);
    unit = fits, unit.count1 = 1035;
    lost("many 26 of port 1", 0, unit, right, WHEEL_BAD_COUNT, unit);
    for (unsigned port = 2; port < 256; port++) {
        lost("many 27", (uint8_t)port, fits, right, WHEEL_BAD_PORT, fits);
    }
    for (size_t i = 0; i < NARROW; i++) {
        unit = fits, unit.limit = (uint16_t)no_limits[i];
        lost("many 29", 0, unit, right, WHEEL_BAD_LIMIT, unit);
    }

    static const uint8_t boot[] = {0xFE, 0x00, 0x00, 0x20, 0xC0, 0xDB, 0x12, 0x34};
    static const uint8_t user[] = {0xFF, 0x00, 0x04, 0x20, 0x56, 0x78};
    static const uint8_t edac[] = {0x02, 0x05, 0x9A, 0xBC};
    static const uint8_t range[] = {0x01, 0x00, 0x04, 0x20, 0xFE, 0x01, 0x04, 0x20};
    static const uint8_t channels[] = {WHEEL_LOST, WHEEL_THROWN_AWAY};
    static const unsigned ways[2][2] = {{WHEEL_0_ANSWERED_ON_1, WHEEL_0_ANSWERED_ON_0},
                                        {WHEEL_1_ANSWERED_ON_1, WHEEL_1_ANSWERED_ON_0}};
    static uint8_t line[16 * WHEEL_REPLY];
    unsigned acked[2] = {0, 0}, lost_replies = 0, cost = 0;
    unit = fits, unit.locked = WHEEL_UNLOCKED;
    for (unsigned turn = 0; turn < 64; turn++) {
        const unsigned port = turn & 1, poll = turn & 2 ? 0x80 : 0x00;
        const unsigned address = ways[port][turn >> 2 & 1] + STRAP;
        size_t length = 0;
        length += put_command(line + length, address, poll + 0x03, boot, sizeof boot);
        length += put_command(line + length, address, poll + 0x03, user, sizeof user);
        length += put_command(line + length, address, poll + 0x0A, edac, sizeof edac);
        length += put_command(line + length, address, poll + 0x06, range, sizeof range);
        length += put_command(line + length, address, poll + 0x04, channels, sizeof channels);
        length += put_command(line + length, address, poll + 0x00, channels, 0);
        sending[0] = turn & 8 ? (uint8_t)turn : WHEEL_SILENT;
        sending[1] = turn & 16 ? (uint8_t)turn : WHEEL_SILENT;
        /* All that is left in each call, or no more than 9 bytes. */
        for (size_t at = 0; at < length;) {
            const size_t left = length - at;
            const size_t some = turn & 32 && left > 9 ? 9 : left;
            const struct wheel_many many = both_ways("many bytes", (uint8_t)port, unit, line + at, some);
            unit = many.last.unit;
            at += (size_t)many.taken;
            acked[many.last.port] += many.last.answer == WHEEL_ACKED;
            lost_replies += poll != 0 && many.last.answer == WHEEL_DONE_SILENT;
            cost += many.last.cost;
        }
    }
    sending[0] = sending[1] = WHEEL_SILENT;
    same("replies to many bytes on port 0", acked[0] > 20, 1);
    same("replies to many bytes on port 1", acked[1] > 20, 1);
    same("replies to many bytes lost", lost_replies > 20, 1);
    same("the cost of CRC commands among many bytes", cost, 64 * cost_of(1, 510));
}

int main(void) {
    for (size_t i = 0; i < sizeof lent; i++) {
        ((uint8_t *)&lent)[i] = (uint8_t)(i * 7 + i / 251);
    }
    before = lent;
    same("size of a record", sizeof(struct wheel_unit), 40);
    same("size of what a call gives back", sizeof(struct wheel_stepped), 56);
    same("place of the cost", offsetof(struct wheel_stepped, cost), 52);
    same("place of the port", offsetof(struct wheel_stepped, port), 49);
    same("place of the number", offsetof(struct wheel_stepped, answer), 48);
    same("size of what many bytes give back", sizeof(struct wheel_many), 64);
    same("place of how many were taken", offsetof(struct wheel_many, taken), 56);

    handed_back();

    /* Set-up: its refusals, and then its record, its sums and the status that it writes. */
    for (unsigned strap = WHEEL_STRAP_MOST + 1; strap < 256; strap++) {
        refused("set-up 20", set_up_as((uint8_t)strap, WHEEL_LIMIT_MOST, 0, right), WHEEL_BAD_STRAP, nobody);
    }
    struct lengths n = right;
    n.edac--;
    refused("set-up 21", set_up(WHEEL_LIMIT_MOST, n), WHEEL_BAD_EDAC, nobody);
    n = right, n.diagnostics--;
    refused("set-up 24", set_up(WHEEL_LIMIT_MOST, n), WHEEL_BAD_DIAGNOSTICS, nobody);
    for (unsigned port = 0; port < 2; port++) {
        n = right, n.message[port]--;
        refused("set-up 25", set_up(WHEEL_LIMIT_MOST, n), WHEEL_BAD_BUFFERS, nobody);
        n = right, n.reply[port]--;
        refused("set-up 25", set_up(WHEEL_LIMIT_MOST, n), WHEEL_BAD_BUFFERS, nobody);
    }
    const struct wheel_unit fresh = {.bootloader_len = BOOT, .fram_len = FRAM, .limit = WHEEL_LIMIT_MOST, .strap = STRAP};
    struct wheel_stepped now = set_up(WHEEL_LIMIT_MOST, right);
    for (size_t block = 0; block < BOOT_SUMS; block++) {
        before.bootloader_sums[block] = wheel_crc(before.bootloader + block * WHEEL_FRAM_BLOCK, WHEEL_FRAM_BLOCK);
    }
    for (size_t block = 0; block < SUMS; block++) {
        before.sums[block] = wheel_crc(before.fram + block * WHEEL_FRAM_BLOCK, WHEEL_FRAM_BLOCK);
    }
    status(WHEEL_STATUS_UNLOCKED);
    refused("set up", now, WHEEL_TAKEN, fresh);
    struct wheel_unit strapped = fresh;
    for (uint8_t strap = 0; strap <= WHEEL_STRAP_MOST; strap++) {
        strapped.strap = strap;
        refused("a strap set up", set_up_as(strap, WHEEL_LIMIT_MOST, 0, right), WHEEL_TAKEN, strapped);
    }
    locks(fresh);

    /* A byte: its refusals, and each place. */
    const struct wheel_unit fits = {.bootloader_len = BOOT,
                                    .fram_len = FRAM,
                                    .count0 = 1034,
                                    .count1 = 77,
                                    .limit = WHEEL_LIMIT_MOST,
                                    .strap = STRAP,
                                    .mode = WHEEL_APPLICATION,
                                    .place0 = WHEEL_RUN,
                                    .place1 = WHEEL_ESCAPE,
                                    .locked = WHEEL_LOCKED};
    n = right, n.edac--;
    refused("step 21", step(fits, 0xC0, n), WHEEL_BAD_EDAC, fits);
    frams(fits);
    n = right, n.diagnostics--;
    refused("step 24", step(fits, 0xC0, n), WHEEL_BAD_DIAGNOSTICS, fits);
    for (unsigned port = 0; port < 4; port++) {
        n = right, n.message[port % 2]--;
        refused("step 25", step_on(port / 2, fits, 0xC0, n), WHEEL_BAD_BUFFERS, fits);
        n = right, n.reply[port % 2]--;
        refused("step 25", step_on(port / 2, fits, 0xC0, n), WHEEL_BAD_BUFFERS, fits);
    }
    struct wheel_unit unit = fits;
    for (unsigned port = 0; port < 256; port++) {
        unit = fits, unit.count0 = 1035;
        refused("step 26 of port 0", step_on((uint8_t)port, unit, 0xC0, right), WHEEL_BAD_COUNT, unit);
        unit = fits, unit.count1 = 1035;
        refused("step 26 of port 1", step_on((uint8_t)port, unit, 0xC0, right), WHEEL_BAD_COUNT, unit);
        if (port > 1) {
            refused("step 27", step_on((uint8_t)port, fits, 0xC0, right), WHEEL_BAD_PORT, fits);
        }
    }
    refused("a fresh unit", step(fresh, 0x55, right), WHEEL_TAKEN, fresh);
    unit = fresh, unit.place0 = WHEEL_RUN;
    refused("the first FEND", step(fresh, 0xC0, right), WHEEL_TAKEN, unit);
    unit = fresh, unit.place1 = WHEEL_RUN;
    refused("the first FEND of port 1", step_on(1, fresh, 0xC0, right), WHEEL_TAKEN, unit);
    unit = fits, unit.place0 = WHEEL_ESCAPE;
    refused("FESC", step(fits, 0xDB, right), WHEEL_TAKEN, unit);
    struct wheel_unit fault = fits;
    fault.place0 = WHEEL_FAULT;
    refused("FESC and another byte", step(unit, 0x00, right), WHEEL_TAKEN, fault);
    places(fits);
    unit = fits, unit.count0 = 0;
    before.diagnostics[WHEEL_FRAMINGS]++;
    refused("framing", step(fault, 0xC0, right), WHEEL_FRAMING, unit);
    before.diagnostics[WHEEL_OVERSIZES]++;
    refused("oversize", step(fits, 0xC0, right), WHEEL_OVERSIZE, unit);
    struct wheel_unit four = fits;
    four.count0 = 4;
    before.diagnostics[WHEEL_RUNTS]++;
    refused("runt", step(four, 0xC0, right), WHEEL_RUNT, unit);
    four.count0 = 5;
    before.diagnostics[WHEEL_BAD_CRCS]++;
    refused("bad CRC", step(four, 0xC0, right), WHEEL_BAD_CRC, unit);
    four.count0 = 7;
    struct wheel_stepped stored = step(four, 0xA5, right);
    before.ports[0].message[7] = 0xA5;
    four.count0 = 8;
    refused("a byte stored", stored, WHEEL_TAKEN, four);
    four = fits, four.place1 = WHEEL_RUN, four.count1 = 9;
    stored = step_on(1, four, 0x5A, right);
    before.ports[1].message[9] = 0x5A;
    four.count1 = 10;
    refused("a byte stored on port 1", stored, WHEEL_TAKEN, four);
    four.count1 = 0;
    before.diagnostics[WHEEL_FRAMINGS + WHEEL_PORT_1_COUNTS]++;
    unit = four, unit.place1 = WHEEL_FAULT, unit.count1 = 3;
    refused("framing on port 1", step_on(1, unit, 0xC0, right), WHEEL_FRAMING, four);
    before.diagnostics[WHEEL_RUNTS + WHEEL_PORT_1_COUNTS]++;
    unit = four, unit.count1 = 4;
    refused("runt on port 1", step_on(1, unit, 0xC0, right), WHEEL_RUNT, four);
    before.diagnostics[WHEEL_OVERSIZES + WHEEL_PORT_1_COUNTS]++;
    unit = four, unit.count1 = 1034;
    refused("oversize on port 1", step_on(1, unit, 0xC0, right), WHEEL_OVERSIZE, four);
    before.diagnostics[WHEEL_BAD_CRCS + WHEEL_PORT_1_COUNTS]++;
    unit = four, unit.count1 = 5;
    refused("bad CRC on port 1", step_on(1, unit, 0xC0, right), WHEEL_BAD_CRC, four);

    /* Packing: its refusals, and a message with both escapes. */
    static const uint8_t message[6] = {0x11, 0xC0, 0xDB, 0x00, 0xFF, 0x41};
    static const uint8_t packed[10] = {0xC0, 0x11, 0xDB, 0xDC, 0xDB, 0xDD, 0x00, 0xFF, 0x41, 0xC0};
    struct wheel_packed sent = wheel_pack(message, 6, lent.ports[0].reply, WHEEL_REPLY - 1);
    same("packing 25", sent.answer, WHEEL_BAD_BUFFERS);
    same("packing 25", sent.sent, 0);
    sent = wheel_pack(message, 4, lent.ports[0].reply, WHEEL_REPLY);
    same("packing 35", sent.answer, WHEEL_BAD_LENGTH);
    same("packing 35", sent.sent, 0);
    same("packing writes nothing", (unsigned long long)memcmp(&lent, &before, sizeof lent), 0);
    sent = wheel_pack(message, 6, lent.ports[0].reply, WHEEL_REPLY);
    memcpy(before.ports[0].reply, packed, sizeof packed);
    same("packed", sent.answer, WHEEL_TAKEN);
    same("packed", sent.sent, sizeof packed);
    same("packed", (unsigned long long)memcmp(&lent, &before, sizeof lent), 0);

    limits(fresh);
    costs(fits);
    replies(fits);
    many_bytes(fits);
    lists();

    /* Joining: with no bytes on either side a part comes back as it was, with all bits of its fields; and its refusal. */
    const uint16_t some[] = {0, 1, 0x0123, 0xFEDC, 0xFFFF};
    const uint32_t lengths[] = {0, 1, 0x01234567u, 0xFEDCBA98u, 0xFFFFFFFFu};
    const struct wheel_part none = {WHEEL_CRC_START, 0};
    const struct wheel_part one = {0x5555, 1};
    for (size_t i = 0; i < 5; i++) {
        for (size_t k = 0; k < 5; k++) {
            const struct wheel_part part = {some[i], lengths[k]};
            const struct wheel_joined after = wheel_join(none, part);
            same("joined after none", after.answer, WHEEL_TAKEN);
            same("joined after none", after.part.sum, part.sum);
            same("joined after none", after.part.len, part.len);
            const struct wheel_joined ahead = wheel_join(part, none);
            same("joined ahead of none", ahead.answer, WHEEL_TAKEN);
            same("joined ahead of none", ahead.part.sum, part.sum);
            same("joined ahead of none", ahead.part.len, part.len);
            const struct wheel_joined more = wheel_join(part, one);
            same("joined with one", more.answer, part.len == 0xFFFFFFFFu ? WHEEL_TOO_LONG : WHEEL_TAKEN);
            same("joined with one", more.part.len, part.len == 0xFFFFFFFFu ? 0 : part.len + 1);
            if (part.len == 0xFFFFFFFFu) {
                same("joining 36", more.part.sum, 0);
            }
        }
    }

    puts(bad ? "the C records: BAD" : "the C records: ok");
    return bad;
}
