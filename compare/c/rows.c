/* Which bytes of EDAC memory the line can write, found out from outside: each address alone by WRITE EDAC, then each file by WRITE
   FILE. Prints a letter for each address, R where the byte is kept and W where it is stored: a line for the 1,536 addresses by WRITE
   EDAC, and one for addresses 0x000 to 0x3FF by WRITE FILE. Which rows are read-only is not known here; compare/python/rows.py
   compares. */
#include "wheel.h"

#include <stdio.h>
#include <stdlib.h>
#include <string.h>

enum { STRAP = 1, WHEEL = WHEEL_0_ANSWERED_ON_1 + STRAP, HOST = 0x11, POLL = 0x80, ACK = 0x20 };
enum { INIT = 0x01, WRITE_FILE = 0x08, WRITE_EDAC = 0x0A };
enum { FILES = 256, FILE_BYTES = 4, MODE = 0x5C3 };
enum { MOST = 6 }; /* bytes of data: file 0's address, mode byte and four bytes */

static uint8_t edac[WHEEL_EDAC], bootloader[WHEEL_FRAM_LEAST], user[WHEEL_FRAM_LEAST];
static uint16_t bootloader_sums[1], user_sums[1];
static struct wheel wheel = {.edac = edac,
                             .bootloader = {bootloader, sizeof bootloader, bootloader_sums},
                             .user = {user, sizeof user, user_sums}};

/* The code and the address or file that are being tried, for a BAD line. */
static unsigned trying, trying_at;

static void same(const char *name, unsigned long came, unsigned long due) {
    if (came != due) {
        printf("BAD %s, command 0x%02x at 0x%03x: %lx, not %lx\n", name, trying, trying_at, came, due);
        exit(1);
    }
}

/* A message of these bytes, its CRC put on it, as the line carries it. */
static size_t packed(uint8_t to, uint8_t from, unsigned control, const uint8_t *data, size_t length, uint8_t *line) {
    uint8_t bytes[3 + MOST + 2] = {to, from, (uint8_t)control};
    memcpy(bytes + 3, data, length);
    const uint16_t sum = wheel_crc(bytes, 3 + length);
    bytes[3 + length] = (uint8_t)sum;
    bytes[3 + length + 1] = (uint8_t)(sum >> 8);
    const struct wheel_packed whole = wheel_pack(bytes, 3 + length + 2, line, WHEEL_REPLY);
    same("packing", whole.answer, WHEEL_TAKEN);
    return (size_t)whole.sent;
}

/* Sends a command byte by byte on port 0; it must be ACKed. */
static void ask(unsigned code, const uint8_t *data, size_t length) {
    static uint8_t line[WHEEL_REPLY];
    const size_t size = packed(WHEEL, HOST, POLL | code, data, length, line);
    for (size_t i = 0; i < size; i++) {
        const uint8_t answer = wheel_byte(&wheel, 0, line[i], WHEEL_SILENT, WHEEL_SILENT);
        same("answer", answer, i + 1 < size ? WHEEL_TAKEN : WHEEL_ACKED);
    }
}

/* The reply that was just given must be an ACK with this data. */
static void replied(unsigned code, const uint8_t *data, size_t length) {
    static uint8_t due[WHEEL_REPLY];
    uint8_t port;
    size_t sent;
    const uint8_t *reply = wheel_reply(&wheel, &port, &sent);
    same("port of the reply", port, 1);
    same("length of the reply", sent, packed(HOST, WHEEL, POLL | ACK | code, data, length, due));
    for (size_t i = 0; i < sent; i++) {
        same("byte of the reply", reply[i], due[i]);
    }
}

/* One command, with `head` and then a byte for each of the places, over memory that is `fill` everywhere. Each byte that is sent is
   another, and none is `fill`. Memory elsewhere must stay, and the reply show what memory holds. */
static void try_over(uint8_t fill, unsigned code, const uint8_t *head, size_t heads, const size_t *places, size_t count,
                     char *found) {
    uint8_t data[MOST];
    memcpy(data, head, heads);
    for (size_t i = 0; i < count; i++) {
        data[heads + i] = (uint8_t)(0xFF ^ fill ^ i);
    }
    memset(edac, fill, sizeof edac);
    ask(code, data, heads + count);
    for (size_t i = 0; i < count; i++) {
        const uint8_t held = edac[places[i]];
        if (held != fill) {
            same("byte stored", held, data[heads + i]);
        }
        found[i] = held == fill ? 'R' : 'W';
        data[heads + i] = held;
        edac[places[i]] = fill;
    }
    for (size_t at = 0; at < WHEEL_EDAC; at++) {
        same("byte elsewhere", edac[at], fill);
    }
    replied(code, data, heads + count);
}

/* Both ways, so that no byte is taken for kept or stored by its value; they must agree. `letters` has one for each address. */
static void try_places(unsigned code, const uint8_t *head, size_t heads, const size_t *places, size_t count, char *letters) {
    char low[MOST], high[MOST];
    try_over(0xFF, code, head, heads, places, count, low);
    try_over(0x00, code, head, heads, places, count, high);
    for (size_t i = 0; i < count; i++) {
        same("letter for another value", (unsigned)high[i], (unsigned)low[i]);
        letters[places[i]] = low[i];
    }
}

int main(void) {
    static const uint8_t application[4] = {0x00, 0x00, 0x05, 0x20};
    static char by_edac[WHEEL_EDAC + 1], by_file[WHEEL_EDAC + 1];
    same("set-up", wheel_begin(&wheel, STRAP, WHEEL_LIMIT_MOST, WHEEL_UNLOCKED), WHEEL_TAKEN);
    trying = INIT;
    ask(INIT, application, sizeof application);
    same("mode", wheel.now.unit.mode, WHEEL_APPLICATION);
    trying = WRITE_EDAC;
    for (size_t at = 0; at < WHEEL_EDAC; at++) {
        const uint8_t head[2] = {(uint8_t)at, (uint8_t)(at >> 8)};
        trying_at = (unsigned)at;
        try_places(WRITE_EDAC, head, 2, &at, 1, by_edac);
    }
    trying = WRITE_FILE;
    for (size_t file = 0; file < FILES; file++) {
        /* File 0 has the mode byte before its four bytes. To the unit it is a byte of EDAC memory: what a mode does is the
           board's. */
        const size_t first = FILE_BYTES * file, places[5] = {MODE, first, first + 1, first + 2, first + 3};
        const uint8_t head[1] = {(uint8_t)file};
        trying_at = (unsigned)file;
        try_places(WRITE_FILE, head, 1, file == 0 ? places : places + 1, file == 0 ? 5 : 4, by_file);
    }
    trying_at = 0;
    same("letter of the mode byte", (unsigned)by_file[MODE], (unsigned)by_edac[MODE]);
    printf("%s\n%.*s\n", by_edac, FILES * FILE_BYTES, by_file);
    return 0;
}
