/* The C face, linked and called as firmware does it: some vectors of 01, the joining of every cut of a text, a unit on which the
   line writes SPEED in vain, a unit of the least limit, bootloader FRAM written, read and locked, CRC commands with what they cost,
   the four addresses of each strap, replies that are lost and that throw a run away, and lists of files judged and stored with no
   unit at hand. */
#include "wheel.h"

#include <stdio.h>
#include <string.h>

static int bad = 0;

static uint8_t edac[WHEEL_EDAC], bootloader[2 * WHEEL_FRAM_BLOCK], user[WHEEL_FRAM_BLOCK];
static uint16_t bootloader_sums[2], user_sums[1];
static struct wheel wheel = {.edac = edac,
                             .bootloader = {bootloader, sizeof bootloader, bootloader_sums},
                             .user = {user, sizeof user, user_sums}};

static void same(const char *name, unsigned long came, unsigned long due) {
    if (came != due) {
        printf("BAD %s: %lx, not %lx\n", name, came, due);
        bad = 1;
    }
}

enum { STRAP = 1 };

static unsigned set_up(uint64_t limit) { return wheel_begin(&wheel, STRAP, limit, WHEEL_UNLOCKED); }

/* Whether port 0 and port 1 are sending. */
static uint8_t sending[2];

static unsigned byte_on(uint8_t port, uint8_t byte) { return wheel_byte(&wheel, port, byte, sending[0], sending[1]); }

/* Bytes of the line on a port, one after the other: the answer to the last. */
static unsigned fed_on(uint8_t port, const uint8_t *line, size_t length) {
    for (size_t i = 0; i < length; i++) {
        byte_on(port, line[i]);
    }
    return wheel.now.answer;
}

static unsigned fed(const uint8_t *line, size_t length) { return fed_on(0, line, length); }

/* The answer on a port to a command with this data to an address. */
static unsigned asked_at(uint8_t port, unsigned address, unsigned code, const uint8_t *data, size_t length) {
    static uint8_t bytes[WHEEL_MESSAGE], line[WHEEL_REPLY];
    bytes[0] = (uint8_t)address;
    bytes[1] = 0x11;
    bytes[2] = (uint8_t)(0x80 + code);
    memcpy(bytes + 3, data, length);
    const uint16_t sum = wheel_crc(bytes, 3 + length);
    bytes[3 + length] = (uint8_t)sum;
    bytes[3 + length + 1] = (uint8_t)(sum >> 8);
    const struct wheel_packed packed = wheel_pack(bytes, 3 + length + 2, line, WHEEL_REPLY);
    same("packed", packed.answer, WHEEL_TAKEN);
    return fed_on(port, line, packed.sent);
}

/* On port 0, to the address that is answered on port 1. */
static unsigned asked(unsigned code, const uint8_t *data, size_t length) {
    return asked_at(0, WHEEL_0_ANSWERED_ON_1 + STRAP, code, data, length);
}

/* The data of the reply that was just given, which must have so many bytes, none of them escaped, must be these. */
static void shown(const char *name, const uint8_t *data, size_t length) {
    uint8_t port;
    size_t sent;
    const uint8_t *reply = wheel_reply(&wheel, &port, &sent);
    same(name, port, 1);
    same(name, sent, 1 + 3 + length + 2 + 1);
    same(name, (unsigned long)memcmp(reply + 4, data, length), 0);
}

/* 02, T-02: INIT to application mode, then WRITE FILE 15 01 02 03 04, to a wheel whose SPEED is 100.0. */
static void speed_is_read_only(void) {
    static const uint8_t line[] = {0xC0, 0x41, 0x11, 0x81, 0x00, 0x00, 0x05, 0x20, 0x6C, 0xB3, 0xC0,
                                   0x41, 0x11, 0x88, 0x15, 0x01, 0x02, 0x03, 0x04, 0x7F, 0xC1, 0xC0};
    static const uint8_t speed[4] = {0x00, 0x00, 0xC8, 0x42};
    for (size_t i = 0; i < 4; i++) {
        edac[0x54 + i] = speed[i];
    }
    same("set up", set_up(WHEEL_LIMIT_MOST), WHEEL_TAKEN);
    same("SPEED written", fed(line, sizeof line), WHEEL_ACKED);
    same("SPEED's file", wheel.ports[1].reply[4], 0x15);
    for (size_t i = 0; i < 4; i++) {
        same("SPEED held", edac[0x54 + i], speed[i]);
        same("SPEED shown", wheel.ports[1].reply[5 + i], speed[i]);
    }
}

/* The answer to a PING with so many zeros as its data, from a unit of this limit. */
static unsigned pinged(uint64_t limit, size_t length) {
    static const uint8_t zeros[WHEEL_LIMIT_MOST];
    same("limit taken", set_up(limit), WHEEL_TAKEN);
    same("limit kept", wheel.now.unit.limit, limit);
    return asked(0x00, zeros, length);
}

/* 02, T-06: the limits that set-up takes, and the longest message under the least. */
static void shorter_messages(void) {
    same("limit 259", set_up(WHEEL_LIMIT_LEAST - 1), WHEEL_BAD_LIMIT);
    same("limit 1029", set_up(WHEEL_LIMIT_MOST + 1), WHEEL_BAD_LIMIT);
    same("a byte after a refused set-up", byte_on(0, 0xC0), WHEEL_BAD_STRAP);
    same("260 bytes under 260", pinged(WHEEL_LIMIT_LEAST, 260), WHEEL_ACKED);
    same("261 bytes under 260", pinged(WHEEL_LIMIT_LEAST, 261), WHEEL_OVERSIZE);
    same("261 bytes under 1028", pinged(WHEEL_LIMIT_MOST, 261), WHEEL_ACKED);
    same("1028 bytes under 1028", pinged(WHEEL_LIMIT_MOST, 1028), WHEEL_ACKED);
    same("oversize runs counted", wheel.diagnostics[WHEEL_OVERSIZES], 1);
}

/* 02, T-07: bootloader FRAM is written, read and locked; then it is read, and a POKE to it is echoed and stores nothing. */
static void bootloader_fram(void) {
    static const uint8_t poke[] = {0xFF, 0x00, 0x00, 0x20, 0x01, 0x02}, again[] = {0xFF, 0x00, 0x00, 0x20, 0x03, 0x04};
    static const uint8_t users[] = {0xFF, 0x00, 0x04, 0x20, 0x05}, peek[] = {0xFF, 0x00, 0x00, 0x20, 0x02};
    static const uint8_t lock[] = {0xEF, 0xBE, 0xAD, 0xDE}, application[] = {0x00, 0x00, 0x05, 0x20};
    static const uint8_t border[] = {0xFF, 0xFF, 0x03, 0x20, 0x02}, past[] = {0xFF, 0xFF, 0x03, 0x20, 0x01};
    const uint32_t above = 0xABCDEF00u;
    wheel.diagnostics[WHEEL_FRAM_STATUS] = above;
    same("set up unlocked", set_up(WHEEL_LIMIT_MOST), WHEEL_TAKEN);
    same("unlocked", wheel.now.unit.locked, WHEEL_UNLOCKED);
    same("shown unlocked", wheel.diagnostics[WHEEL_FRAM_STATUS], above | WHEEL_STATUS_UNLOCKED);
    same("POKE", asked(0x03, poke, sizeof poke), WHEEL_ACKED);
    shown("POKE echoed", poke, sizeof poke);
    same("first byte poked", bootloader[0xFF], 0x01);
    same("second byte poked", bootloader[0x100], 0x02);
    same("POKE in user FRAM", asked(0x03, users, sizeof users), WHEEL_ACKED);
    same("byte poked in user FRAM", user[0xFF], 0x05);
    same("PEEK", asked(0x02, peek, sizeof peek), WHEEL_ACKED);
    shown("PEEK shows", poke, sizeof poke);
    same("a range over the border", asked(0x02, border, sizeof border), WHEEL_NACKED);
    same("a byte not fitted", asked(0x02, past, sizeof past), WHEEL_UNFITTED);
    same("INIT locks", asked(0x01, lock, sizeof lock), WHEEL_ACKED);
    shown("INIT echoed", lock, sizeof lock);
    same("locked", wheel.now.unit.locked, WHEEL_LOCKED);
    same("shown locked", wheel.diagnostics[WHEEL_FRAM_STATUS], above | WHEEL_STATUS_LOCKED);
    same("POKE when locked", asked(0x03, again, sizeof again), WHEEL_ACKED);
    shown("POKE when locked echoed", again, sizeof again);
    same("PEEK when locked", asked(0x02, peek, sizeof peek), WHEEL_ACKED);
    shown("PEEK when locked shows", poke, sizeof poke);
    same("INIT starts", asked(0x01, application, sizeof application), WHEEL_ACKED);
    same("INIT of an application locks nothing", asked(0x01, lock, sizeof lock), WHEEL_NACKED);
    same("locked still", wheel.now.unit.locked, WHEEL_LOCKED);
    for (size_t block = 0; block < 2; block++) {
        same("sum kept", bootloader_sums[block], wheel_crc(bootloader + block * WHEEL_FRAM_BLOCK, WHEEL_FRAM_BLOCK));
    }
    same("sum of user FRAM kept", user_sums[0], wheel_crc(user, sizeof user));
    same("set up locked", wheel_begin(&wheel, STRAP, WHEEL_LIMIT_MOST, WHEEL_LOCKED), WHEEL_TAKEN);
    same("locked from set-up on", wheel.now.unit.locked, WHEEL_LOCKED);
    same("POKE when set up locked", asked(0x03, again, sizeof again), WHEEL_ACKED);
    same("nothing stored", bootloader[0xFF], 0x01);
    same("only set-up unlocks", set_up(WHEEL_LIMIT_MOST), WHEEL_TAKEN);
    same("POKE when unlocked", asked(0x03, again, sizeof again), WHEEL_ACKED);
    same("stored", bootloader[0xFF], 0x03);
}

static uint8_t large[WHEEL_FRAM_MOST];
static uint16_t large_sums[WHEEL_FRAM_MOST / WHEEL_FRAM_BLOCK];

/* A CRC command over user FRAM from one byte to another must have this answer and this cost, and show the CRC if it is done. */
static void summed(const char *name, uint32_t first, uint32_t last, unsigned answer, unsigned long cost) {
    const uint32_t ends[2] = {WHEEL_USER_FRAM_FIRST + first, WHEEL_USER_FRAM_FIRST + last};
    uint8_t data[10];
    for (size_t i = 0; i < 8; i++) {
        data[i] = (uint8_t)(ends[i / 4] >> 8 * (i % 4));
    }
    same(name, asked(0x06, data, 8), answer);
    same(name, wheel.now.cost, cost);
    if (answer == WHEEL_ACKED) {
        const uint16_t sum = wheel_crc(large + first, last - first + 1);
        data[8] = (uint8_t)sum;
        data[9] = (uint8_t)(sum >> 8);
        shown(name, data, sizeof data);
    }
}

/* 02, T-13: what CRC commands cost in an FRAM of the largest length. */
static void costs(void) {
    static const uint8_t peek[] = {0x00, 0x00, 0x04, 0x20, 0x02};
    const uint32_t end = WHEEL_FRAM_MOST - 1;
    for (size_t i = 0; i < sizeof large; i++) {
        large[i] = (uint8_t)(i * 7 + i / 251);
    }
    wheel.user.bytes = large;
    wheel.user.length = sizeof large;
    wheel.user.sums = large_sums;
    same("set up", set_up(WHEEL_LIMIT_MOST), WHEEL_TAKEN);
    same("set-up's cost", wheel.now.cost, 0);
    summed("CRC of a block", 256, 511, WHEEL_ACKED, 1);
    same("a byte after a CRC command", byte_on(0, 0xC0), WHEEL_TAKEN);
    same("its cost", wheel.now.cost, 0);
    summed("CRC of a byte less", 256, 510, WHEEL_ACKED, 255);
    summed("CRC of one byte", 255, 255, WHEEL_ACKED, 1);
    summed("CRC over an edge", 255, 256, WHEEL_ACKED, 2);
    summed("CRC of all", 0, end, WHEEL_ACKED, 1024);
    summed("CRC that costs most", 1, end - 1, WHEEL_ACKED, WHEEL_COST_MOST);
    summed("CRC with the last before the first", 1, 0, WHEEL_NACKED, 0);
    summed("CRC of a byte not fitted", 0, end + 1, WHEEL_UNFITTED, 0);
    same("PEEK", asked(0x02, peek, sizeof peek), WHEEL_ACKED);
    same("PEEK's cost", wheel.now.cost, 0);
}

/* 02, T-01: each strap's four addresses, on the port that hears them and on the other. */
static void addresses(void) {
    static const struct {
        unsigned first;
        uint8_t heard, answered;
    } ways[] = {{WHEEL_0_ANSWERED_ON_1, 0, 1},
                {WHEEL_0_ANSWERED_ON_0, 0, 0},
                {WHEEL_1_ANSWERED_ON_1, 1, 1},
                {WHEEL_1_ANSWERED_ON_0, 1, 0}};
    for (uint8_t strap = 0; strap <= WHEEL_STRAP_MOST; strap++) {
        same("a strap taken", wheel_begin(&wheel, strap, WHEEL_LIMIT_MOST, WHEEL_UNLOCKED), WHEEL_TAKEN);
        for (size_t i = 0; i < 4; i++) {
            const unsigned address = ways[i].first + strap;
            uint8_t port;
            size_t sent;
            same("heard", asked_at(ways[i].heard, address, 0x00, edac, 0), WHEEL_ACKED);
            const uint8_t *reply = wheel_reply(&wheel, &port, &sent);
            same("answered on", port, ways[i].answered);
            same("where it stands", reply == wheel.ports[ways[i].answered].reply, 1);
            same("sent", sent, 24);
            same("answered from", reply[2], address);
            same("on the other port", asked_at(!ways[i].heard, address, 0x00, edac, 0), WHEEL_ELSEWHERE);
            wheel_reply(&wheel, &port, &sent);
            same("nothing sent", sent + port, 0);
        }
    }
    same("strap 8", wheel_begin(&wheel, WHEEL_STRAP_MOST + 1, WHEEL_LIMIT_MOST, WHEEL_UNLOCKED), WHEEL_BAD_STRAP);
    same("its record", wheel.now.unit.strap, WHEEL_STRAP_MOST + 1);
}

/* A count of port 1, as it has moved since the wheel began. */
static unsigned long count1(unsigned channel) { return wheel.diagnostics[channel + WHEEL_PORT_1_COUNTS]; }

/* 02, T-01: port 1 sends while a reply is due there; then it is in a run, which a reply throws away; then it errs. */
static void both_ports(void) {
    static const uint8_t poke[] = {0x00, 0x00, 0x04, 0x20, 0x77}, run[] = {0xC0, 0x51, 0x11}, rest[] = {0x80, 0xDB, 0xC0};
    same("set up", set_up(WHEEL_LIMIT_MOST), WHEEL_TAKEN);
    memset(wheel.diagnostics, 0, sizeof wheel.diagnostics);
    large[0] = 0;
    sending[1] = WHEEL_SENDING;
    same("a reply lost", asked(0x03, poke, sizeof poke), WHEEL_DONE_SILENT);
    same("its command done", large[0], 0x77);
    same("a NACK lost", asked(0x1F, poke, sizeof poke), WHEEL_REFUSED_SILENT);
    same("lost", count1(WHEEL_LOST), 2);
    sending[0] = WHEEL_SENDING, sending[1] = WHEEL_SILENT;
    same("a run begun", fed_on(1, run, sizeof run), WHEEL_TAKEN);
    same("in a run", wheel.now.unit.place1, WHEEL_RUN);
    same("PING", asked(0x00, poke, 0), WHEEL_ACKED);
    same("thrown away", wheel.now.unit.place1, WHEEL_THROWN);
    same("its count", wheel.now.unit.count1, 2);
    same("counted", count1(WHEEL_THROWN_AWAY), 1);
    same("the rest of it", fed_on(1, rest, sizeof rest), WHEEL_TAKEN);
    same("after it", wheel.now.unit.place1, WHEEL_RUN);
    same("counted none", wheel.now.unit.count1, 0);
    same("a run begun anew", fed_on(1, run, sizeof run), WHEEL_TAKEN);
    same("a runt", byte_on(1, 0xC0), WHEEL_RUNT);
    same("runts of port 1", count1(WHEEL_RUNTS), 1);
    same("PING to port 1", asked_at(1, WHEEL_1_ANSWERED_ON_1 + STRAP, 0x00, poke, 0), WHEEL_ACKED);
    same("a reply for port 0 lost", asked_at(1, WHEEL_1_ANSWERED_ON_0 + STRAP, 0x00, poke, 0), WHEEL_DONE_SILENT);
    same("lost on port 0", wheel.diagnostics[WHEEL_LOST], 1);
    same("a port that there is not", byte_on(2, 0xC0), WHEEL_BAD_PORT);
    sending[0] = WHEEL_SILENT;
    unsigned long all = 0;
    for (size_t i = WHEEL_FRAMINGS; i < WHEEL_DIAGNOSTICS; i++) {
        all += wheel.diagnostics[i];
    }
    same("all that was counted", all, 5);
}

/* 02, T-11: the lists of P11 and P12, in memory that holds zeros. */
static void asked_before_writing(void) {
    static const uint8_t p11[] = {0x28, 0x01, 0x02, 0x03, 0x04, 0x28, 0x05, 0x06, 0x07, 0x08};
    static const uint8_t p12[] = {0x28, 0x01, 0x02, 0x03, 0x04, 0x29, 0x05};
    static uint8_t zeros[WHEEL_EDAC];
    same("P11 judged", wheel_judge_list(WHEEL_LIMIT_MOST, p11, sizeof p11), 1);
    same("P12 judged", wheel_judge_list(WHEEL_LIMIT_MOST, p12, sizeof p12), 0);
    same("P12 stored", wheel_store_list(WHEEL_LIMIT_MOST, zeros, WHEEL_EDAC, p12, sizeof p12), WHEEL_REFUSED_SILENT);
    same("P11 stored in less", wheel_store_list(WHEEL_LIMIT_MOST, zeros, WHEEL_EDAC - 1, p11, sizeof p11), WHEEL_BAD_EDAC);
    for (size_t i = 0; i < WHEEL_EDAC; i++) {
        same("nothing stored", zeros[i], 0);
    }
    same("P11 stored", wheel_store_list(WHEEL_LIMIT_MOST, zeros, WHEEL_EDAC, p11, sizeof p11), WHEEL_TAKEN);
    for (size_t i = 0; i < WHEEL_EDAC; i++) {
        same("P11 held", zeros[i], i / 4 == 0x28 ? 5 + i % 4 : 0);
    }
}

int main(void) {
    static const uint8_t text[9] = {'1', '2', '3', '4', '5', '6', '7', '8', '9'};
    static const uint8_t ping[3] = {0x41, 0x11, 0x80};
    same("no bytes", wheel_crc(text, 0), WHEEL_CRC_START);
    same("123456789", wheel_crc(text, sizeof text), 0x6F91);
    same("P5", wheel_crc(ping, sizeof ping), 0x6DD8);
    for (size_t cut = 0; cut <= sizeof text; cut++) {
        const size_t rest = sizeof text - cut;
        same("going on", wheel_crc_from(wheel_crc(text, cut), text + cut, rest), 0x6F91);
        const struct wheel_part first = {wheel_crc(text, cut), (uint32_t)cut};
        const struct wheel_part second = {wheel_crc(text + cut, rest), (uint32_t)rest};
        const struct wheel_joined whole = wheel_join(first, second);
        same("joined answer", whole.answer, WHEEL_TAKEN);
        same("joined sum", whole.part.sum, 0x6F91);
        same("joined length", whole.part.len, sizeof text);
    }
    const struct wheel_part longest = {0x1234, 0xFFFFFFFFu};
    const struct wheel_part one = {0x00FF, 1};
    const struct wheel_joined refused = wheel_join(longest, one);
    same("refused answer", refused.answer, WHEEL_TOO_LONG);
    same("refused sum", refused.part.sum, 0);
    same("refused length", refused.part.len, 0);
    speed_is_read_only();
    shorter_messages();
    bootloader_fram();
    costs();
    addresses();
    both_ports();
    asked_before_writing();
    puts(bad ? "the C face: BAD" : "the C face: ok");
    return bad;
}
