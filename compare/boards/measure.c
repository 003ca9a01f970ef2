/* What the calls of a unit take on a Cortex-M4, in instructions and bytes of stack, on the emulated board mps2-an386. The emulator
   is told to let 1,024 ns pass for each instruction (-icount shift=10), and a timer of the board counts 25 MHz, 25.6 for each; so what
   lies between two readings is known to the instruction. The stack below the call is painted before it and looked at afterwards.

   A closing byte is the FEND of a message that already stands in a message buffer, as if it had been received. Of each the dearest is
   told: of the four addresses by which it can come and be answered, of which those that are answered on the other port throw a run
   away there, and of three bytes that fill data and memory, FEND and FESC, which are packed as two, and one that is not. It fails where
   an answer is not the one that is due. With -DFEW two calls alone are made, for a trace. */
#include "wheel.h"

#include <stdio.h>
#include <stdlib.h>
#include <string.h>

#define TIMER ((volatile uint32_t *)0x40000000u) /* control, value, reload */
enum { STRAP = 1, PAINTED = 2048, PAINT = 0x5AA5A55A };

static uint8_t edac[WHEEL_EDAC], bootloader[WHEEL_FRAM_MOST], user[WHEEL_FRAM_MOST], line[WHEEL_REPLY], data[WHEEL_LIMIT_MOST];
static uint16_t bootloader_sums[WHEEL_FRAM_MOST / WHEEL_FRAM_BLOCK], user_sums[WHEEL_FRAM_MOST / WHEEL_FRAM_BLOCK];
static struct wheel wheel;
static size_t given;     /* a length for what is measured */
static uint8_t by, next; /* a port and a byte */

/* What is measured: each a function of its own, so that the same is around all of them. What `nothing` takes is taken off. */
#define MEASURED __attribute__((noinline)) static
MEASURED unsigned nothing(void) { return 0; }
MEASURED unsigned byte(void) { return wheel_byte(&wheel, by, next, WHEEL_SILENT, WHEEL_SILENT); }
MEASURED unsigned some(void) { return wheel_bytes(&wheel, by, line, given, WHEEL_SILENT, WHEEL_SILENT) == given ? wheel.now.answer : 99; }
MEASURED unsigned set_up(void) { return wheel_begin(&wheel, STRAP, WHEEL_LIMIT_MOST, WHEEL_UNLOCKED); }
MEASURED unsigned sum(void) { return wheel_crc(user, given); }
MEASURED unsigned pack(void) { return wheel_pack(data, given, line, WHEEL_REPLY).answer; }
MEASURED unsigned judge(void) { return wheel_judge_list(WHEEL_LIMIT_MOST, data, given); }
MEASURED unsigned store(void) { return wheel_store_list(WHEEL_LIMIT_MOST, edac, WHEEL_EDAC, data, given); }
MEASURED unsigned join(void) {
    const struct wheel_part first = {0x1234, 0}, second = {0x5678, (uint32_t)given};
    return wheel_join(first, second).answer;
}

struct taken {
    uint32_t instructions, stack;
    unsigned answer;
};

/* What a call takes, with what is around it. The stack is painted right below this function's own. */
__attribute__((noinline)) static struct taken around(unsigned (*call)(void)) {
    volatile uint32_t *top;
    __asm__ volatile("mov %0, sp" : "=r"(top));
    for (volatile uint32_t *word = top - PAINTED; word < top; word++) {
        *word = PAINT;
    }
    const uint32_t start = TIMER[1];
    const unsigned answer = call();
    const uint32_t end = TIMER[1];
    volatile uint32_t *deepest = top - PAINTED;
    while (deepest < top && *deepest == PAINT) {
        deepest++;
    }
    const struct taken taken = {(uint32_t)(((uint64_t)(start - end) * 10 + 128) / 256), 4 * (uint32_t)(top - deepest), answer};
    return taken;
}

static struct taken call(unsigned (*function)(void)) {
    struct taken taken = around(function);
    taken.instructions -= around(nothing).instructions;
    return taken;
}

static void due(const char *name, unsigned came, unsigned answer) {
    if (came != answer) {
        printf("BAD %s: answer %u, not %u\n", name, came, answer);
        exit(1);
    }
}

static void tell(const char *name, struct taken taken, unsigned answer) {
    due(name, taken.answer, answer);
    printf("%s: %lu instructions, %lu bytes of stack\n", name, (unsigned long)taken.instructions, (unsigned long)taken.stack);
}

/* The message CRC bit by bit. */
static uint16_t crc(const uint8_t *bytes, size_t length) {
    uint16_t sum = 0xFFFF;
    for (size_t i = 0; i < length; i++) {
        sum ^= bytes[i];
        for (int bit = 0; bit < 8; bit++) {
            sum = (uint16_t)(sum & 1 ? (sum >> 1) ^ 0x8408 : sum >> 1);
        }
    }
    return sum;
}

/* A unit in the midst of a run on each port, with all memory full of a byte. */
static void begin(uint8_t fill, size_t length) {
    const struct wheel_unit unit = {.bootloader_len = length,
                                    .fram_len = length,
                                    .limit = WHEEL_LIMIT_MOST,
                                    .strap = STRAP,
                                    .mode = WHEEL_APPLICATION,
                                    .place0 = WHEEL_RUN,
                                    .place1 = WHEEL_RUN,
                                    .locked = WHEEL_UNLOCKED};
    wheel.edac = edac;
    wheel.bootloader = (struct wheel_fram){bootloader, length, bootloader_sums};
    wheel.user = (struct wheel_fram){user, length, user_sums};
    wheel.now.unit = unit;
    memset(edac, fill, sizeof edac);
    memset(bootloader, fill, length);
    memset(user, fill, length);
    memset(bootloader_sums, fill, length / WHEEL_FRAM_BLOCK * 2);
    memset(user_sums, fill, length / WHEEL_FRAM_BLOCK * 2);
    memset(wheel.diagnostics, fill, sizeof wheel.diagnostics);
    by = 0;
    next = 0xC0;
}

static void put(uint8_t *bytes, uint32_t number, size_t size) {
    for (size_t i = 0; i < size; i++) {
        bytes[i] = (uint8_t)(number >> 8 * i);
    }
}

/* A command, the length of its data, and the first values of the data; the rest of it is full of the byte that memory is. So a READ
   FILE has that byte as its file. */
struct command {
    const char *name;
    unsigned code;
    size_t length;
    uint32_t first, second; /* of four bytes each, or of two in EDAC memory */
    uint8_t mode;
    unsigned answer;
};

static uint8_t file; /* which a WRITE FILE has */

static void put_data(const struct command *command, uint8_t fill) {
    const size_t size = command->code >= 0x09 ? 2 : 4;
    memset(data, fill, sizeof data);
    if (command->answer == WHEEL_NACKED || command->code == 0x00 || command->code == 0x07) {
        return;
    }
    if (command->code == 0x04) {
        memset(data, WHEEL_DIAGNOSTICS - 1, command->length);
    } else if (command->code == 0x08) { /* 202 times a file of five bytes, 3 times file 0 of six */
        for (size_t i = 0, at = 0; i < 205; i++) {
            data[at] = i < 202 ? file : 0;
            at += i < 202 ? 5 : 6;
        }
    } else if (command->code == 0x0B) { /* 204 ranges of 1 byte, one of 4 */
        for (size_t at = 0; at < command->length; at += 4) {
            put(data + at, 0, 2); /* which takes a little more than an address that is packed as two */
            put(data + at + 2, at + 4 < command->length ? 1 : 4, 2);
        }
    } else {
        put(data, command->first, size);
        if (command->second) {
            put(data + size, command->second, size);
        }
    }
}

/* The closing byte of a command, by the address that is less than the strap's and the port that hears it. */
static struct taken closed_at(const struct command *command, uint8_t fill, uint8_t address, uint8_t port, size_t fram, unsigned (*function)(void)) {
    begin(fill, fram);
    put_data(command, fill);
    uint8_t *const message = wheel.ports[port].message;
    const size_t end = 3 + command->length;
    message[0] = address + STRAP;
    message[1] = fill;
    message[2] = (uint8_t)(0x80 + command->code);
    memcpy(message + 3, data, command->length);
    put(message + end, crc(message, end) ^ (uint16_t)(command->answer == WHEEL_BAD_CRC), 2);
    wheel.now.unit.mode = command->mode;
    wheel.now.unit.count0 = port == 0 ? end + 2 : 1;
    wheel.now.unit.count1 = port == 1 ? end + 2 : 1;
    by = port;
    line[0] = next;
    given = 1;
    const struct taken taken = call(function);
    due(command->name, taken.answer, command->answer);
    return taken;
}

static struct taken dearest;

static void closed_by(const struct command *command, size_t fram, const char *how, unsigned (*function)(void)) {
    static const uint8_t fills[] = {0xC0, 0xDB, 0x41};
    static const uint8_t ways[4][2] = {{WHEEL_0_ANSWERED_ON_1, 0}, {WHEEL_0_ANSWERED_ON_0, 0}, {WHEEL_1_ANSWERED_ON_1, 1}, {WHEEL_1_ANSWERED_ON_0, 1}};
    struct taken most = {0, 0, command->answer};
    uint8_t which = 0;
    for (int i = 0; i < 12; i++) {
        const struct taken taken = closed_at(command, fills[i / 4], ways[i % 4][0], ways[i % 4][1], fram, function);
        which = taken.instructions > most.instructions ? fills[i / 4] : which;
        most.instructions = taken.instructions > most.instructions ? taken.instructions : most.instructions;
        most.stack = taken.stack > most.stack ? taken.stack : most.stack;
    }
    printf("%s, the FEND that closes %s, bytes 0x%02X: %lu instructions, %lu bytes of stack\n", how, command->name, (unsigned)which,
           (unsigned long)most.instructions, (unsigned long)most.stack);
    dearest.instructions = most.instructions > dearest.instructions ? most.instructions : dearest.instructions;
    dearest.stack = most.stack > dearest.stack ? most.stack : dearest.stack;
}

static void closed(const struct command *command, size_t fram) {
    closed_by(command, fram, "wheel_byte", byte);
    closed_by(command, fram, "wheel_bytes", some);
}

#define AT WHEEL_USER_FRAM_FIRST
#define BOOT WHEEL_BOOTLOADER_FRAM_FIRST
enum { RUNS = WHEEL_APPLICATION };
static const struct command commands[] = {
    {"PING with 1,028 bytes", 0x00, 1028, 0, 0, RUNS, WHEEL_ACKED},
    {"INIT of the application", 0x01, 4, 0x20050000u, 0, WHEEL_BOOTLOADER, WHEEL_ACKED},
    {"INIT that locks", 0x01, 4, WHEEL_INIT_LOCK, 0, WHEEL_BOOTLOADER, WHEEL_ACKED},
    {"PEEK of 1,024 bytes", 0x02, 6, AT + 1, 1024, RUNS, WHEEL_ACKED},
    {"POKE of 1,024 bytes over five blocks", 0x03, 1028, AT + 1, 0, RUNS, WHEEL_ACKED},
    {"POKE of 1,024 bytes over five blocks of bootloader FRAM", 0x03, 1028, BOOT + 1, 0, RUNS, WHEEL_ACKED},
    {"DIAGNOSTIC of 205 channels", 0x04, 205, 0, 0, RUNS, WHEEL_ACKED},
    {"CRC of all of 65,536 bytes, cost 256", 0x06, 8, AT, AT + 65535, RUNS, WHEEL_ACKED},
    {"CRC of all but the first and last of 65,536 bytes, cost 764", 0x06, 8, AT + 1, AT + 65534, RUNS, WHEEL_ACKED},
    {"READ FILE of 205 times a file", 0x07, 205, 0, 0, RUNS, WHEEL_ACKED},
    {"READ EDAC of 1,024 bytes", 0x09, 4, 0x001, 1024, RUNS, WHEEL_ACKED},
    {"WRITE EDAC of 1,026 bytes from 0x001 on", 0x0A, 1028, 0x001, 0, RUNS, WHEEL_ACKED},
    {"GATHER of 204 ranges of 1 byte and one of 4", 0x0B, 820, 0, 0, RUNS, WHEEL_ACKED},
    {"INIT with 1,028 bytes, refused", 0x01, 1028, 0, 0, RUNS, WHEEL_NACKED},
    {"a code of no command with 1,028 bytes, refused", 0x1F, 1028, 0, 0, RUNS, WHEEL_NACKED},
    {"1,028 bytes with a wrong CRC", 0x00, 1028, 0, 0, RUNS, WHEEL_BAD_CRC},
};
static const struct command dear_crc = {"CRC of all but the first and last of 262,144 bytes, cost 1,532", 0x06, 8, AT + 1, AT + 262142, RUNS, WHEEL_ACKED};
static const struct command writes = {"WRITE FILE of 202 times the dearest file and 3 times file 0", 0x08, 1028, 0, 0, RUNS, WHEEL_ACKED};

/* Which file is the dearest to write, by one address, with FEND and with FESC. */
static void find_file(void) {
    uint32_t most = 0;
    uint8_t which = 0;
    for (unsigned each = 2; each < 512; each++) {
        file = (uint8_t)(each / 2);
        const uint32_t taken = closed_at(&writes, each % 2 ? 0xDB : 0xC0, WHEEL_0_ANSWERED_ON_1, 0, WHEEL_FRAM_LEAST, byte).instructions;
        which = taken > most ? file : which;
        most = taken > most ? taken : most;
    }
    file = which;
    printf("the dearest file to write: 0x%02X\n", (unsigned)file);
}

int main(void) {
    TIMER[2] = TIMER[1] = 0xFFFFFFFFu;
    TIMER[0] = 1;
    begin(0, 65536);
    next = 0x41;
    tell("wheel_byte, an ordinary byte", call(byte), WHEEL_TAKEN);
#ifdef FEW
    tell("wheel_byte, the FEND that closes a PING with 1,028 bytes", closed_at(&commands[0], 0x41, WHEEL_0_ANSWERED_ON_1, 0, 256, byte), WHEEL_ACKED);
    return 0;
#endif
    by = 1;
    tell("wheel_byte, an ordinary byte on port 1", call(byte), WHEEL_TAKEN);
    by = 0;
    memset(line, 0x41, sizeof line);
    static const size_t runs[] = {1, 11, 1001};
    for (size_t i = 0; i < sizeof runs / sizeof runs[0]; i++) {
        char name[48];
        begin(0, 65536);
        given = runs[i];
        snprintf(name, sizeof name, "wheel_bytes, %lu ordinary bytes", (unsigned long)given);
        tell(name, call(some), WHEEL_TAKEN);
    }
    begin(0, 65536);
    next = 0xDB;
    tell("wheel_byte, FESC", call(byte), WHEEL_TAKEN);
    next = 0xDC;
    tell("wheel_byte, TFEND after FESC", call(byte), WHEEL_TAKEN);
    begin(0, 65536);
    tell("wheel_byte, a FEND that closes an empty run", call(byte), WHEEL_TAKEN);
    for (size_t i = 0; i < sizeof commands / sizeof commands[0]; i++) {
        closed(&commands[i], 65536);
    }
    closed(&dear_crc, WHEEL_FRAM_MOST);
    find_file();
    closed(&writes, 65536);
    printf("the dearest of these: %lu instructions, %lu bytes of stack\n", (unsigned long)dearest.instructions, (unsigned long)dearest.stack);
    begin(0x55, 65536);
    tell("wheel_begin with 65,536 bytes of each FRAM", call(set_up), WHEEL_TAKEN);
    begin(0x55, WHEEL_FRAM_MOST);
    tell("wheel_begin with 262,144 bytes of each FRAM", call(set_up), WHEEL_TAKEN);
    static const size_t lengths[] = {3, 63, 64, 256, 1033, 65536};
    for (size_t i = 0; i < sizeof lengths / sizeof lengths[0]; i++) {
        given = lengths[i];
        char name[48];
        snprintf(name, sizeof name, "wheel_crc of %lu bytes", (unsigned long)given);
        tell(name, call(sum), crc(user, given));
    }
    given = 0xFFFFFFFFu;
    tell("wheel_join over a gap of 4,294,967,295", call(join), WHEEL_TAKEN);
    memset(data, 0xDB, sizeof data);
    given = 1028;
    tell("wheel_pack of 1,028 bytes 0xDB", call(pack), WHEEL_TAKEN);
    put_data(&writes, 0xDB);
    tell("wheel_judge_list of those 205 files", call(judge), 1);
    tell("wheel_store_list of the same", call(store), WHEEL_TAKEN);
    printf("struct wheel: %lu bytes of memory\n", (unsigned long)sizeof(struct wheel));
    return 0;
}
