/* The header's struct with its functions against the plain calls: two units are set up and fed the same seeded bytes, one each
   way, on both ports in turn, with ports that are sending now and then, and after every call record, number, bytes to be sent, their
   port, cost, memories and buffers must be the same. Set-ups are in between, some of them refused, and so are bytes while the length
   of an FRAM is wrong and bytes on a port that there is not. Half of the bytes are given to the struct many in a call, and to the
   plain call one by one. */
#include "wheel.h"

#include <stdio.h>
#include <stdlib.h>
#include <string.h>

enum { MESSAGES = 6000, BLOCKS = 4, NUMBERS = 37 };

/* The memories of a unit. */
struct memories {
    uint8_t edac[WHEEL_EDAC], bootloader[BLOCKS * WHEEL_FRAM_BLOCK], user[BLOCKS * WHEEL_FRAM_BLOCK];
    uint16_t bootloader_sums[BLOCKS], user_sums[BLOCKS];
};

static struct memories wholes, plains;
static struct wheel whole = {.edac = wholes.edac,
                             .bootloader = {wholes.bootloader, 3 * WHEEL_FRAM_BLOCK, wholes.bootloader_sums},
                             .user = {wholes.user, 2 * WHEEL_FRAM_BLOCK, wholes.user_sums}};
static struct wheel_stepped plain;
static uint32_t diagnostics[WHEEL_DIAGNOSTICS];
static struct wheel_port ports[2];
static unsigned long calls, came[NUMBERS], replies[2], locked_calls, costly_calls, thrown_calls;
static unsigned long empty_calls, whole_calls, stopped_calls;

/* No expression asks for two numbers but by `?`: C leaves it to the compiler which of two operands comes first. */
static uint32_t any(uint32_t below) {
    static uint64_t state = 7;
    state = state * 6364136223846793005u + 1442695040888963407u;
    return (uint32_t)(state >> 33) % below;
}

static void same(const char *name, unsigned long long one, unsigned long long other) {
    if (one != other) {
        printf("BAD %s at call %lu: %llx by the struct, %llx by the plain call\n", name, calls, one, other);
        exit(1);
    }
}

/* All that a call leaves. */
static void compare(unsigned number) {
    uint8_t port;
    size_t length;
    const struct wheel_unit one = whole.now.unit, other = plain.unit;
    calls++;
    same("number handed back", number, plain.answer);
    same("number", whole.now.answer, plain.answer);
    same("bytes to be sent", whole.now.sent, plain.sent);
    same("port", whole.now.port, plain.port);
    same("cost", whole.now.cost, plain.cost);
    same("place of the reply", wheel_reply(&whole, &port, &length) == whole.ports[plain.port].reply, 1);
    same("port of the reply", port, plain.port);
    same("length of the reply", length, plain.sent);
    same("bootloader_len", one.bootloader_len, other.bootloader_len);
    same("fram_len", one.fram_len, other.fram_len);
    same("count of port 0", one.count0, other.count0);
    same("count of port 1", one.count1, other.count1);
    same("limit", one.limit, other.limit);
    same("strap", one.strap, other.strap);
    same("mode", one.mode, other.mode);
    same("place of port 0", one.place0, other.place0);
    same("place of port 1", one.place1, other.place1);
    same("lock", one.locked, other.locked);
    same("memories", memcmp(&wholes, &plains, sizeof wholes) != 0, 0);
    same("diagnostics", memcmp(whole.diagnostics, diagnostics, sizeof diagnostics) != 0, 0);
    same("buffers of port 0", memcmp(&whole.ports[0], &ports[0], sizeof ports[0]) != 0, 0);
    same("buffers of port 1", memcmp(&whole.ports[1], &ports[1], sizeof ports[1]) != 0, 0);
    came[number % NUMBERS]++;
    replies[plain.port] += plain.sent != 0;
    thrown_calls += one.place0 == WHEEL_THROWN || one.place1 == WHEEL_THROWN;
    locked_calls += one.locked;
    costly_calls += plain.cost != 0;
}

static void set_up(uint8_t strap, uint64_t limit, uint8_t locked) {
    const size_t boot = whole.bootloader.length, user = whole.user.length;
    plain = wheel_set_up(strap, limit, locked, plains.edac, WHEEL_EDAC, plains.bootloader, boot, plains.bootloader_sums,
                         boot / WHEEL_FRAM_BLOCK, plains.user, user, plains.user_sums, user / WHEEL_FRAM_BLOCK, diagnostics,
                         WHEEL_DIAGNOSTICS, ports[0].message, WHEEL_MESSAGE, ports[0].reply, WHEEL_REPLY, ports[1].message,
                         WHEEL_MESSAGE, ports[1].reply, WHEEL_REPLY);
    compare(wheel_begin(&whole, strap, limit, locked));
}

static void step(uint8_t port, uint8_t byte, uint8_t sending0, uint8_t sending1) {
    const size_t boot = whole.bootloader.length, user = whole.user.length;
    plain = wheel_step(plain.unit, port, byte, sending0, sending1, plains.edac, WHEEL_EDAC, plains.bootloader, boot,
                       plains.bootloader_sums, boot / WHEEL_FRAM_BLOCK, plains.user, user, plains.user_sums,
                       user / WHEEL_FRAM_BLOCK, diagnostics, WHEEL_DIAGNOSTICS, ports[0].message, WHEEL_MESSAGE, ports[0].reply,
                       WHEEL_REPLY, ports[1].message, WHEEL_MESSAGE, ports[1].reply, WHEEL_REPLY);
}

static uint8_t any_sending(void) { return any(8) ? WHEEL_SILENT : (uint8_t)any(256); }

static void feed(uint8_t port, uint8_t byte) {
    const uint8_t sending0 = any_sending(), sending1 = any_sending();
    step(port, byte, sending0, sending1);
    compare(wheel_byte(&whole, port, byte, sending0, sending1));
}

/* Many bytes in one call, and one by one up to the first number other than WHEEL_TAKEN: how many were taken. With none the record
   comes back and all else is zeros. */
static size_t feed_many(uint8_t port, const uint8_t *bytes, size_t length) {
    const uint8_t sending0 = any_sending(), sending1 = any_sending();
    size_t due = 0;
    plain.sent = 0, plain.answer = WHEEL_TAKEN, plain.port = 0, plain.cost = 0;
    while (due < length && plain.answer == WHEEL_TAKEN) {
        step(port, bytes[due++], sending0, sending1);
    }
    const size_t taken = wheel_bytes(&whole, port, bytes, length, sending0, sending1);
    same("bytes taken", taken, due);
    compare(whole.now.answer);
    empty_calls += length == 0;
    whole_calls += length > 1 && plain.answer == WHEEL_TAKEN;
    stopped_calls += taken < length;
    return taken;
}

/* An address in or near either FRAM, low byte first. */
static void put_address(uint8_t *data) {
    const uint32_t first = any(2) ? WHEEL_BOOTLOADER_FRAM_FIRST : WHEEL_USER_FRAM_FIRST;
    const uint32_t below = any(8) ? 0 : 4, address = first - below + any(BLOCKS * WHEEL_FRAM_BLOCK);
    for (int i = 0; i < 4; i++) {
        data[i] = (uint8_t)(address >> 8 * i);
    }
}

/* The data of a command, which often can be done: its length. */
static size_t put_data(unsigned code, uint8_t *data) {
    static const uint8_t orders[2][4] = {{0xEF, 0xBE, 0xAD, 0xDE}, {0x00, 0x00, 0x05, 0x20}};
    const size_t length = any(48);
    for (size_t i = 0; i < length; i++) {
        data[i] = (uint8_t)any(256);
    }
    if (code == 0x01) {
        memcpy(data, orders[any(2)], 4);
        return any(3) ? 4 : 0;
    }
    if (code == 0x02 || code == 0x03 || code == 0x06) {
        put_address(data);
        put_address(data + 4);
        return code == 0x02 ? 5 + any(2) : code == 0x03 ? 4 + length : 8;
    }
    for (size_t i = 0; code == 0x04 && i < length; i++) {
        data[i] = (uint8_t)(WHEEL_FRAM_STATUS + any(15)); /* and what befell the ports */
    }
    return length;
}

static const uint8_t wrongs[] = {0x55, 0xC0, 0xDB};

/* A message for the units on a port as the line carries it, now and then with a wrong byte in it, or to an address that it does not
   hear: its length. */
static size_t put_line(uint8_t port, uint8_t *line) {
    static const uint8_t heard[2][2] = {{WHEEL_0_ANSWERED_ON_1, WHEEL_0_ANSWERED_ON_0},
                                        {WHEEL_1_ANSWERED_ON_1, WHEEL_1_ANSWERED_ON_0}};
    static uint8_t bytes[WHEEL_MESSAGE];
    const unsigned code = any(13);
    const unsigned by = any(16) ? port : !port, answered = any(2), strap = any(16) ? plain.unit.strap : any(8);
    bytes[0] = (uint8_t)(heard[by][answered] + strap);
    bytes[1] = 0x11;
    bytes[2] = (uint8_t)((any(4) ? 0x80 : 0x00) + code);
    const size_t end = 3 + put_data(code, bytes + 3);
    const uint16_t sum = wheel_crc(bytes, end);
    bytes[end] = (uint8_t)sum;
    bytes[end + 1] = (uint8_t)(sum >> 8);
    const struct wheel_packed packed = wheel_pack(bytes, end + 2, line, WHEEL_REPLY);
    if (any(8) == 0) {
        const uint32_t wrong = any((uint32_t)packed.sent);
        line[wrong] = wrongs[any(3)];
    }
    return (size_t)packed.sent;
}

/* A byte of the other port, or one of a port that there is not. */
static void between(uint8_t port) {
    const uint8_t other = any(16) ? !port : (uint8_t)(2 + any(254));
    feed(other, wrongs[any(3)]);
}

/* A message byte by byte. Now and then a byte of another port comes in between. */
static void send(uint8_t port) {
    static uint8_t line[WHEEL_REPLY];
    const size_t length = put_line(port, line);
    for (size_t i = 0; i < length; i++) {
        feed(port, line[i]);
        if (any(32) == 0) {
            between(port);
        }
    }
}

/* Some messages, many bytes in a call, from none to all that are left. Now and then a byte of another port comes in between, or the
   call is for a port that there is not, which loses a byte. */
static void send_many(uint8_t port) {
    static uint8_t line[3 * WHEEL_REPLY];
    size_t length = 0;
    for (unsigned messages = 1 + any(3); messages > 0; messages--) {
        length += put_line(port, line + length);
    }
    for (size_t i = 0; i < length;) {
        const size_t slice = any(4) ? any((uint32_t)(length - i) + 1) : length - i;
        i += feed_many(any(32) ? port : (uint8_t)(2 + any(254)), line + i, slice);
        if (any(4) == 0) {
            between(port);
        }
    }
}

int main(void) {
    feed(0, 0xC0); /* before any set-up */
    for (unsigned i = 0; i < MESSAGES; i++) {
        if (any(plain.unit.bootloader_len ? 20 : 2) == 0) { /* soon after a set-up that was refused */
            const size_t less0 = any(8) ? 0 : 1, less1 = any(8) ? 0 : 1;
            whole.bootloader.length = (1 + any(BLOCKS)) * WHEEL_FRAM_BLOCK - less0;
            whole.user.length = (1 + any(BLOCKS)) * WHEEL_FRAM_BLOCK - less1;
            feed(0, 0x55);
            const uint8_t strap = (uint8_t)any(any(8) ? 8 : 256), locked = any(4) ? 0 : (uint8_t)any(256);
            set_up(strap, any(8) ? 260 + any(769) : any(260), locked);
        }
        if (any(2)) {
            send((uint8_t)any(2));
        } else {
            send_many((uint8_t)any(2));
        }
    }
    static const unsigned due[] = {0, 1, 2, 3, 4, 5, 6, 8, 9, 10, 20, 22, 27, 29};
    for (size_t i = 0; i < sizeof due / sizeof due[0]; i++) {
        if (came[due[i]] < 10) {
            printf("BAD: number %u came %lu times, which is too seldom\n", due[i], came[due[i]]);
            return 1;
        }
    }
    printf("the struct and the plain calls agree over %lu calls, %lu of them locked, %lu with a cost, %lu and %lu with a reply on "
           "port 0 and 1, %lu while a run was thrown away; with many bytes %lu of none, %lu of several that were all taken, %lu "
           "that stopped before the last\n",
           calls, locked_calls, costly_calls, replies[0], replies[1], thrown_calls, empty_calls, whole_calls, stopped_calls);
    return locked_calls < 10 || costly_calls < 10 || replies[0] < 10 || replies[1] < 10 || thrown_calls < 10 ||
           empty_calls < 10 || whole_calls < 10 || stopped_calls < 10;
}
