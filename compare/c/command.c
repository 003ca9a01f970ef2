/* One call of a command, for an instruction count. `command fresh` is a CRC of 262,144 bytes with no kept sums; any other
   word is one command through carry_out. It fails where the answer, or the CRC, is another than was meant. The functions
   are those of `tools/instructions-command`. */
#include <stddef.h>
#include <stdint.h>
#include <stdio.h>
#include <string.h>

enum { ROOM = 1028, EDAC = 1536, FRAM = 262144, BLOCK = 256, DIAGNOSTICS = 31 };

uint16_t command_fresh(const uint8_t *bytes, size_t n);
size_t command_done(uint8_t code, const uint8_t *field, size_t n, uint8_t *edac, size_t edac_n, uint8_t *bootloader,
                    size_t bootloader_n, uint16_t *bootloader_sums, size_t bootloader_blocks, uint8_t *fram, size_t fram_n,
                    uint16_t *sums, size_t blocks, uint32_t *diagnostics, size_t values, uint8_t *reply, size_t room);

static uint8_t edac[EDAC], bootloader[BLOCK], fram[FRAM], field[ROOM], reply[ROOM];
static uint16_t bootloader_sums[1], sums[FRAM / BLOCK];
static uint32_t diagnostics[DIAGNOSTICS];
static size_t size;

/* The CRC bit by bit, so that no call but the one counted goes to the proved code. */
static uint16_t plain(const uint8_t *bytes, size_t n) {
    unsigned sum = 0xFFFF;
    for (size_t i = 0; i < n; i++) {
        sum ^= bytes[i];
        for (int bit = 0; bit < 8; bit++) {
            sum = sum & 1 ? sum >> 1 ^ 0x8408 : sum >> 1;
        }
    }
    return (uint16_t)sum;
}

static void add(unsigned byte) { field[size++] = (uint8_t)byte; }

static void add_address(uint32_t place) {
    for (int i = 0; i < 4; i++) {
        add((0x20040000 + place) >> 8 * i & 0xFF);
    }
}

static void add_files(int files, unsigned file) {
    for (int i = 0; i < files; i++) {
        add(file);
        for (int body = file == 0 ? 5 : 4; body > 0; body--) {
            add(0x5A);
        }
    }
}

static void add_ranges(int ranges, unsigned count) {
    for (int i = 0; i < ranges; i++) {
        add(0);
        add(0);
        add(count & 0xFF);
        add(count >> 8);
    }
}

static int done(unsigned code, size_t meant) {
    const size_t got = command_done((uint8_t)code, field, size, edac, EDAC, bootloader, BLOCK, bootloader_sums, 1, fram, FRAM,
                                    sums, FRAM / BLOCK, diagnostics, DIAGNOSTICS, reply, ROOM);
    printf("%zu\n", got);
    return got != meant;
}

/* The CRC command from `first` to `last`, which is included. */
static int crc(uint32_t first, uint32_t last) {
    add_address(first);
    add_address(last);
    const int failed = done(0x06, 10);
    return failed || (reply[8] | reply[9] << 8) != plain(fram + first, last - first + 1);
}

int main(int count, char **words) {
    if (count != 2) {
        return 1;
    }
    for (size_t i = 0; i < FRAM; i++) {
        fram[i] = (uint8_t)(i * 31 + i / 256);
    }
    for (size_t k = 0; k < FRAM / BLOCK; k++) {
        sums[k] = plain(fram + k * BLOCK, BLOCK);
    }
    const char *word = words[1];
    if (strcmp(word, "fresh") == 0) {
        return command_fresh(fram, FRAM) != plain(fram, FRAM);
    }
    if (strcmp(word, "crc") == 0) {
        return crc(0, FRAM - 1);
    }
    if (strcmp(word, "crc-inner") == 0) {
        return crc(1, FRAM - 2);
    }
    if (strcmp(word, "poke") == 0) {
        add_address(BLOCK - 1);
        for (int i = 0; i < 1024; i++) {
            add(0x5A);
        }
        return done(0x03, 1028);
    }
    if (strcmp(word, "files") == 0) {
        add_files(202, 0x5E);
        add_files(3, 0);
        return done(0x08, 1028);
    }
    if (strcmp(word, "files-0") == 0) {
        add_files(4, 0x5E);
        add_files(168, 0);
        return done(0x08, 1028);
    }
    if (strcmp(word, "edac") == 0) {
        add(1);
        add(0);
        for (int i = 0; i < 1026; i++) {
            add(0x5A);
        }
        return done(0x0A, 1028);
    }
    if (strcmp(word, "ranges") == 0) {
        add_ranges(204, 1);
        add_ranges(1, 4);
        return done(0x0B, 1028);
    }
    if (strcmp(word, "range") == 0) {
        add_ranges(1, 1024);
        return done(0x0B, 1028);
    }
    if (strcmp(word, "ranges-refused") == 0) {
        add_ranges(257, 1);
        return done(0x0B, 0);
    }
    return 1;
}
