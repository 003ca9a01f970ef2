/* A seeded stream through the C face, for any processor: the same source, the same seed and the same sizes print the same lines
   wherever they run, or the functions of the archive do not do the same. Built with -DSEED=.. -DBYTES=.. -DBLOCKS=.. -DMANY=..: the
   seed, how many bytes of the line are given to units, how many blocks an FRAM has at most, and how many it has now and then.

   A board needs some 4 KB of stack for it.

   Units of many limits, straps, sizes and locks are set up in turn; bytes of commands of every code come on both ports, by turns,
   sound and with wrong CRCs, framing faults, escapes, long runs and noise; ports are sending or not; records, ports, limits and
   lengths are wrong now and then; the board alters EDAC memory between calls. After every call everything that it gives back goes
   into a hash, with the byte that it may have stored of a run, and all that is lent after every answer but 0. Packing, sums, joins and
   lists of files come in between. Each so many bytes a line tells the hash, and the last lines how often each answer came. */
#include "wheel.h"

#include <stdarg.h>
#include <stdio.h>
#include <stdlib.h>
#include <string.h>
#include <unistd.h>

enum { NUMBERS = 37, TOLD_EACH = BYTES / 20, FEND = 0xC0, FESC = 0xDB };

static uint8_t edac[WHEEL_EDAC], bootloader[MANY * WHEEL_FRAM_BLOCK], user[MANY * WHEEL_FRAM_BLOCK];
static uint16_t bootloader_sums[MANY], user_sums[MANY];
static struct wheel wheel = {.edac = edac, .bootloader = {bootloader, 0, bootloader_sums}, .user = {user, 0, user_sums}};
static uint8_t message[WHEEL_MESSAGE + 1], line[WHEEL_REPLY];

static uint32_t hash = 0x811C9DC5u;
static unsigned long taken, calls, replies[2], came[NUMBERS], costly, locked, thrown;
static unsigned long others[NUMBERS]; /* the answers of packing, joining and storing */
static unsigned long fit[2];          /* lists judged: unfit, fit */

/* As printf, which on a small board would take memory that the stack needs. */
static void print(const char *format, ...) {
    char text[160];
    va_list words;
    va_start(words, format);
    const int length = vsnprintf(text, sizeof text, format, words);
    va_end(words);
    if (length >= (int)sizeof text || write(1, text, (size_t)length) != length) {
        exit(1);
    }
}

/* C leaves it to the compiler which of two operands or arguments comes first, so no expression here asks for two numbers but by `?`. */
static uint32_t any(uint32_t below) {
    static uint64_t state = 0x9E3779B97F4A7C15u ^ SEED;
    state ^= state << 13;
    state ^= state >> 7;
    state ^= state << 17;
    return (uint32_t)(state >> 32) % below;
}

static int seldom(uint32_t times) { return any(times) == 0; }

/* Each word moves every bit of the hash that follows, and two hashes that differ stay so under the same words. */
static void word(uint32_t value) {
    hash = (hash << 5 | hash >> 27) ^ value;
    hash *= 0x9E3779B1u;
}

static void wide(uint64_t value) {
    word((uint32_t)value);
    word((uint32_t)(value >> 32));
}

/* By words of four bytes, low byte first on every processor. */
static void bytes(const uint8_t *at, size_t length) {
    size_t i = 0;
    for (; i + 4 <= length; i += 4) {
        word(at[i] | (uint32_t)at[i + 1] << 8 | (uint32_t)at[i + 2] << 16 | (uint32_t)at[i + 3] << 24);
    }
    for (; i < length; i++) {
        word(at[i]);
    }
}

static void sums(const uint16_t *at, size_t length) {
    for (size_t i = 0; i < length; i++) {
        word(at[i]);
    }
}

/* All that is lent. */
static void everything(void) {
    bytes(edac, sizeof edac);
    bytes(bootloader, wheel.bootloader.length);
    sums(bootloader_sums, wheel.bootloader.length / WHEEL_FRAM_BLOCK);
    bytes(user, wheel.user.length);
    sums(user_sums, wheel.user.length / WHEEL_FRAM_BLOCK);
    for (size_t i = 0; i < WHEEL_DIAGNOSTICS; i++) {
        word(wheel.diagnostics[i]);
    }
    for (int port = 0; port < 2; port++) {
        bytes(wheel.ports[port].message, WHEEL_MESSAGE);
        bytes(wheel.ports[port].reply, WHEEL_REPLY);
    }
}

/* What a call gives back. */
static void given(const struct wheel_stepped *now) {
    const struct wheel_unit *unit = &now->unit;
    wide(unit->bootloader_len);
    wide(unit->fram_len);
    wide(unit->count0);
    wide(unit->count1);
    word(unit->limit | (uint32_t)unit->strap << 16 | (uint32_t)unit->mode << 24);
    word(unit->place0 | (uint32_t)unit->place1 << 8 | (uint32_t)unit->locked << 16 | (uint32_t)now->answer << 24);
    wide(now->sent);
    word(now->port);
    word(now->cost);
    calls++;
    came[now->answer % NUMBERS]++;
    costly += now->cost != 0;
    locked += unit->locked != 0;
    thrown += unit->place0 == WHEEL_THROWN || unit->place1 == WHEEL_THROWN;
}

/* After a call with a byte on a port: what it may have stored, or everything. */
static void after(uint8_t port) {
    given(&wheel.now);
    const uint64_t count = port ? wheel.now.unit.count1 : wheel.now.unit.count0;
    if (wheel.now.answer != WHEEL_TAKEN) {
        everything();
        replies[wheel.now.port] += wheel.now.sent != 0;
    } else if (port < 2 && count > 0 && count <= WHEEL_MESSAGE) {
        word(wheel.ports[port].message[count - 1]);
    }
}

static void told(void) {
    static unsigned long next = TOLD_EACH;
    if (taken >= next) {
        everything();
        print("%lu bytes: %08lx\n", taken, (unsigned long)hash);
        next += TOLD_EACH;
#ifdef FAULT
        /* One wrong bit, once, for a test that lines differ then: in FRAM, in a count, or in a reply that was sent. */
        if (next == 4 * TOLD_EACH) {
            user[77] ^= FAULT == 0;
            wheel.diagnostics[WHEEL_DIAGNOSTICS - 1] ^= FAULT == 1;
            wheel.ports[1].reply[WHEEL_REPLY - 1] ^= FAULT == 2;
        }
#endif
    }
}

/* Ports are silent for the most part. */
static uint8_t sending(void) { return seldom(8) ? (uint8_t)any(256) : WHEEL_SILENT; }

/* The lengths of what is lent, of which a test makes one wrong. */
static void put_lengths(size_t *lengths, unsigned wrong) {
    const size_t right[10] = {WHEEL_EDAC,
                              wheel.bootloader.length,
                              wheel.bootloader.length / WHEEL_FRAM_BLOCK,
                              wheel.user.length,
                              wheel.user.length / WHEEL_FRAM_BLOCK,
                              WHEEL_DIAGNOSTICS,
                              WHEEL_MESSAGE,
                              WHEEL_REPLY,
                              WHEEL_MESSAGE,
                              WHEEL_REPLY};
    for (unsigned i = 0; i < 10; i++) {
        lengths[i] = right[i] - (i == wrong);
    }
}

/* The plain call with a byte. */
static struct wheel_stepped plain(struct wheel_unit unit, uint8_t port, uint8_t byte, const size_t *n) {
    const uint8_t sending0 = sending(), sending1 = sending();
    return wheel_step(unit, port, byte, sending0, sending1, edac, n[0], bootloader, n[1], bootloader_sums, n[2], user, n[3],
                      user_sums, n[4], wheel.diagnostics, n[5], wheel.ports[0].message, n[6], wheel.ports[0].reply, n[7],
                      wheel.ports[1].message, n[8], wheel.ports[1].reply, n[9]);
}

/* The same with bytes, all alike: how many were taken goes into the hash, and so does the call of none. */
static struct wheel_stepped plain_many(struct wheel_unit unit, uint8_t port, uint8_t byte, const size_t *n) {
    const uint8_t sending0 = sending(), sending1 = sending(), several[3] = {byte, byte, byte};
    const struct wheel_many many =
        wheel_steps(unit, port, several, any(4), sending0, sending1, edac, n[0], bootloader, n[1], bootloader_sums, n[2], user, n[3],
                    user_sums, n[4], wheel.diagnostics, n[5], wheel.ports[0].message, n[6], wheel.ports[0].reply, n[7],
                    wheel.ports[1].message, n[8], wheel.ports[1].reply, n[9]);
    wide(many.taken);
    return many.last;
}

/* A call in which something is wrong: a length, the port, or what no record of a unit says. It is refused and changes nothing, and
   the unit goes on from where it was. It is a function of its own, since its records would take stack of the calls that are not. */
__attribute__((noinline)) static void refused(void) {
    enum { LENGTHS = 10, PORT = LENGTHS, LIMIT, COUNT0, COUNT1, STRAP, ALL };
    const unsigned wrong = any(ALL);
    struct wheel_unit unit = wheel.now.unit;
    size_t lengths[10];
    put_lengths(lengths, wrong);
    unit.limit = wrong == LIMIT ? (uint16_t)(any(2) ? any(WHEEL_LIMIT_LEAST) : WHEEL_LIMIT_MOST + 1 + any(60000)) : unit.limit;
    unit.count0 = wrong == COUNT0 ? 1035 + ((uint64_t)any(3) << 32) : unit.count0;
    unit.count1 = wrong == COUNT1 ? 1035 + ((uint64_t)any(3) << 32) : unit.count1;
    unit.strap = wrong == STRAP ? (uint8_t)(8 + any(248)) : unit.strap;
    const uint8_t port = (uint8_t)(wrong == PORT ? 2 + any(254) : any(2)), byte = (uint8_t)any(256);
    const int many = any(2) != 0;
    const struct wheel_stepped now = many ? plain_many(unit, port, byte, lengths) : plain(unit, port, byte, lengths);
    given(&now);
    everything();
}

/* A byte of the line, by either call. Now and then with a record that no call gave back and that is believed. */
static void feed(uint8_t port, uint8_t byte) {
    if (seldom(4)) {
        struct wheel_unit unit = wheel.now.unit;
        size_t lengths[10];
        put_lengths(lengths, 10);
        if (seldom(512)) {
            unit.mode = (uint8_t)any(256);
            unit.place0 = (uint8_t)any(256);
            unit.place1 = (uint8_t)any(6);
            unit.locked = seldom(4) ? (uint8_t)any(256) : unit.locked;
            unit.count1 = any(1035);
        }
        wheel.now = plain(unit, port, byte, lengths);
    } else {
        const uint8_t sending0 = sending(), sending1 = sending();
        wheel_byte(&wheel, port, byte, sending0, sending1);
    }
    after(port);
    taken++;
    if (seldom(64)) {
        refused();
    }
    told();
}

/* Bytes of the line on a port up to the first that has an answer: how many. */
static size_t feed_some(uint8_t port, const uint8_t *at, size_t length) {
    const uint8_t sending0 = sending(), sending1 = sending();
    const size_t n = wheel_bytes(&wheel, port, at, length, sending0, sending1);
    after(port);
    bytes(wheel.ports[port].message, WHEEL_MESSAGE);
    word((uint32_t)n);
    taken += n;
    told();
    return n;
}

static void put(uint8_t *at, uint32_t number, size_t size) {
    for (size_t i = 0; i < size; i++) {
        at[i] = (uint8_t)(number >> 8 * i);
    }
}

/* An address in or near either FRAM: the first byte of a range that often fits. */
static uint32_t address(void) {
    const int first = any(2) != 0;
    const uint32_t length = (uint32_t)(first ? wheel.bootloader.length : wheel.user.length);
    const uint32_t start = first ? WHEEL_BOOTLOADER_FRAM_FIRST : WHEEL_USER_FRAM_FIRST;
    const uint32_t below = seldom(32) ? 4 : 0;
    return start - below + any(seldom(16) || length == 0 ? WHEEL_FRAM_MOST : length);
}

/* So many bytes: any, or many that are packed as two. */
static void fill(uint8_t *at, size_t length) {
    const unsigned kind = any(4);
    for (size_t i = 0; i < length; i++) {
        at[i] = (uint8_t)(kind == 0 ? FEND : kind == 1 && any(2) ? FESC : any(256));
    }
}

/* How long data is: mostly short, now and then up to the longest there is. */
static size_t size(void) { return seldom(10) ? any(WHEEL_LIMIT_MOST + 1) : any(48); }

/* A list of files: whole, or cut short. */
static size_t put_list(uint8_t *at) {
    const size_t most = size();
    size_t length = 0;
    fill(at, WHEEL_LIMIT_MOST);
    while (length + 6 <= most) {
        at[length] = (uint8_t)(seldom(4) ? 0 : any(256));
        length += at[length] == 0 ? 6 : 5;
    }
    return seldom(8) ? most : length;
}

/* The data of a command, which often can be done: its length, at most WHEEL_LIMIT_MOST. */
static size_t put_data(unsigned code, uint8_t *data) {
    const size_t length = size();
    uint32_t first;
    fill(data, length);
    switch (code) {
    case 0x01:
        put(data, seldom(16) ? WHEEL_INIT_LOCK : seldom(16) ? any(0x7FFFFFFFu) : 0x20050000u, 4);
        return seldom(6) ? 0 : seldom(8) ? 5 : 4;
    case 0x02:
        put(data, address(), 4);
        put(data + 4, (uint32_t)size(), 2);
        return 5 + any(2);
    case 0x03:
        put(data, address(), 4);
        return length < 4 ? 4 : length;
    case 0x04:
        for (size_t i = 0; i < length; i++) {
            data[i] = (uint8_t)(seldom(64) ? any(256) : any(WHEEL_DIAGNOSTICS));
        }
        return length;
    case 0x06:
        first = address();
        put(data, first, 4);
        put(data + 4, seldom(3) ? address() : first + any(1u << any(18)), 4);
        return 8;
    case 0x08:
        return put_list(data);
    case 0x09:
    case 0x0A:
        put(data, any(seldom(8) ? WHEEL_EDAC + 64 : WHEEL_EDAC), 2);
        if (code == 0x09) {
            put(data + 2, (uint32_t)size(), 2);
        }
        return code == 0x09 ? 3 + any(2) : length < 2 ? 2 : length;
    case 0x0B:
        for (size_t i = 0; i + 4 <= length; i += 4) {
            put(data + i, any(WHEEL_EDAC), 2);
            put(data + i + 2, 1 + any(seldom(16) ? 64 : 3), 2);
        }
        return length - (seldom(8) ? 0 : length % 4);
    default:
        return length;
    }
}

/* A command for the unit by the port on which it is heard, as the line carries it, in `into`, which takes `room` bytes: its length. */
static size_t make(uint8_t port, uint8_t *into, size_t room) {
    static const uint8_t heard[2][2] = {{WHEEL_0_ANSWERED_ON_1, WHEEL_0_ANSWERED_ON_0}, {WHEEL_1_ANSWERED_ON_1, WHEEL_1_ANSWERED_ON_0}};
    const unsigned code = wheel.now.unit.mode == WHEEL_BOOTLOADER && seldom(4) ? 0x01 : any(seldom(16) ? 32 : 12);
    const unsigned by = seldom(16) ? !port : port, answered = any(2), strap = seldom(16) ? any(8) : wheel.now.unit.strap;
    const unsigned poll = seldom(4) ? 0x00 : 0x80, bits = seldom(32) ? 0x60 : 0x00;
    message[0] = (uint8_t)(heard[by][answered] + strap);
    message[1] = (uint8_t)(any(4) ? 0x11 : FEND);
    message[2] = (uint8_t)(poll | bits | code);
    size_t end = 3 + put_data(code, message + 3);
    end = 2 * (end + 2) + 2 > room ? 3 : end;
    const uint16_t sum = wheel_crc(message, end) ^ (uint16_t)(seldom(16) ? 1 + any(65535) : 0);
    put(message + end, sum, 2);
    const struct wheel_packed packed = wheel_pack(message, end + 2, line, WHEEL_REPLY);
    others[packed.answer % NUMBERS]++;
    if (into != line) {
        memcpy(into, line, packed.sent);
    }
    return packed.sent;
}

/* What is said on a port: a command, often sound; else with a wrong byte in it, or noise, or a long run. A short command may come on
   the other port by turns. */
static void say(uint8_t port) {
    static const uint8_t wrongs[] = {0x55, FEND, FESC, 0xDC, 0xDD};
    static uint8_t beside[32];
    size_t besides = seldom(4) ? make(!port, beside, sizeof beside) : 0, at = 0;
    size_t length = make(port, line, WHEEL_REPLY);
    if (seldom(8)) {
        const uint8_t wrong = wrongs[any(5)];
        line[any((uint32_t)length)] = wrong;
    }
    if (seldom(24)) { /* noise */
        length = any(64);
        fill(line, length);
    }
    if (seldom(200)) { /* too long a run, and its end */
        length = WHEEL_REPLY;
        memset(line + 1, (int)any(192), WHEEL_REPLY - 2);
        line[0] = line[WHEEL_REPLY - 1] = FEND;
    }
    const int in_pieces = any(2) != 0;
    for (size_t i = 0; i < length;) {
        if (in_pieces) {
            const size_t left = length - i, piece = 1 + any(seldom(4) ? 300 : 20);
            i += feed_some(port, line + i, piece < left ? piece : left);
        } else {
            feed(port, line[i++]);
        }
        if (at < besides && any(2)) {
            feed(!port, beside[at++]);
        }
    }
    while (at < besides) {
        feed(!port, beside[at++]);
    }
    if (seldom(4)) { /* the board sets what it measures */
        const uint8_t measured = (uint8_t)any(256);
        edac[any(WHEEL_EDAC)] = measured;
    }
}

/* What needs no unit. */
static void between(void) {
    const size_t length = any(seldom(4) ? 8 : WHEEL_MESSAGE + 2), start = any(WHEEL_EDAC), summed = any((uint32_t)(WHEEL_EDAC - start));
    const size_t limit = seldom(8) ? any(2000) : WHEEL_LIMIT_MOST, most = seldom(64) || sizeof user < 700 ? sizeof user : 700;
    const uint32_t from = any(65536), to = any((uint32_t)most);
    word(wheel_crc(edac + start, summed));
    word(wheel_crc_from((uint16_t)from, user, to));
    const uint32_t length1 = seldom(8) ? 0xFFFFFFFFu - any(5) : any(1u << any(32)), length2 = any(1u << any(32));
    const struct wheel_part one = {(uint16_t)from, length1}, other = {(uint16_t)to, length2};
    const struct wheel_joined joined = wheel_join(one, other);
    word(joined.answer | (uint32_t)joined.part.sum << 16);
    word(joined.part.len);
    others[joined.answer % NUMBERS]++;
    fill(message, length);
    const struct wheel_packed packed = wheel_pack(message, length, line, WHEEL_REPLY - (seldom(8) ? 1 : 0));
    wide(packed.sent);
    word(packed.answer);
    bytes(line, WHEEL_REPLY);
    others[packed.answer % NUMBERS]++;
    const size_t listed = put_list(message);
    const uint8_t judged = wheel_judge_list(limit, message, listed);
    const uint8_t stored = wheel_store_list(limit, edac, WHEEL_EDAC - (seldom(8) ? 1 : 0), message, listed);
    word(judged | (uint32_t)stored << 8);
    bytes(edac, WHEEL_EDAC);
    fit[judged % 2]++;
    others[stored % NUMBERS]++;
}

/* A new unit, or a refusal. */
static void new_unit(void) {
    const uint32_t most = seldom(40) ? MANY : BLOCKS;
    wheel.bootloader.length = (1 + any(most)) * WHEEL_FRAM_BLOCK;
    wheel.user.length = (1 + any(most)) * WHEEL_FRAM_BLOCK;
    size_t n[10];
    put_lengths(n, seldom(4) ? any(10) : 10);
    const uint8_t strap = (uint8_t)(seldom(16) ? any(256) : any(8)), lock = (uint8_t)(seldom(4) ? any(256) : WHEEL_UNLOCKED);
    const uint64_t limit = seldom(16) ? any(70000) : any(2) ? WHEEL_LIMIT_MOST : WHEEL_LIMIT_LEAST + any(769);
    if (any(2)) {
        wheel_begin(&wheel, strap, limit, lock);
    } else {
        wheel.now = wheel_set_up(strap, limit, lock, edac, n[0], bootloader, n[1], bootloader_sums, n[2], user, n[3], user_sums, n[4],
                                 wheel.diagnostics, n[5], wheel.ports[0].message, n[6], wheel.ports[0].reply, n[7],
                                 wheel.ports[1].message, n[8], wheel.ports[1].reply, n[9]);
    }
    given(&wheel.now);
    everything();
    if (wheel.now.answer != WHEEL_TAKEN) {
        feed((uint8_t)any(2), FEND); /* which is refused, and so is all until the next set-up */
    }
}

int main(void) {
    static const unsigned due[] = {0, 1, 2, 3, 4, 5, 6, 7, 8, 9, 10, 20, 21, 22, 23, 24, 25, 26, 27, 29};
    static const unsigned dues[] = {WHEEL_TAKEN, WHEEL_REFUSED_SILENT, WHEEL_BAD_EDAC, WHEEL_BAD_BUFFERS, WHEEL_BAD_LENGTH, WHEEL_TOO_LONG};
    int bad = 0;
    fill(bootloader, sizeof bootloader);
    fill(user, sizeof user);
    feed(0, FEND); /* before any set-up */
    while (taken < BYTES) {
        if (wheel.now.unit.bootloader_len == 0 || seldom(20)) {
            new_unit();
        }
        say((uint8_t)any(2));
        if (seldom(4)) {
            between();
        }
    }
    everything();
    print("%lu bytes in all: %08lx\n", taken, (unsigned long)hash);
    for (size_t i = 0; i < sizeof due / sizeof due[0]; i++) {
        print("answer %u: %lu\n", due[i], came[due[i]]);
        bad |= came[due[i]] == 0;
    }
    for (size_t i = 0; i < sizeof dues / sizeof dues[0]; i++) {
        print("packing, joining and storing, answer %u: %lu\n", dues[i], others[dues[i]]);
        bad |= others[dues[i]] == 0;
    }
    print("lists unfit and fit: %lu, %lu\n", fit[0], fit[1]);
    print("calls hashed: %lu, locked %lu, with a cost %lu, while a run was thrown away %lu, replies on port 0 and 1 %lu, %lu\n", calls,
           locked, costly, thrown, replies[0], replies[1]);
    bad |= !fit[0] || !fit[1] || !locked || !costly || !thrown || !replies[0] || !replies[1];
    print(bad ? "BAD: something that is due never came\n" : "everything that is due came\n");
    return bad;
}
