/* One call of the C face, for an instruction count: `once crc LENGTH` over zeros, `once join LENGTH`, `once set_up LENGTH` with
   so much user FRAM and the least bootloader FRAM, `once both LENGTH` with so much of each, `once last CODE`, the FEND after the
   dearest message known of that command, on port 0 with its reply on port 1, where it throws a run away, `once ask 8` and `once
   write 8`, the list of that message judged and stored; `once user FIRST LAST COST` and `once boot FIRST LAST COST`, the FEND after
   a CRC command over those bytes of user or bootloader FRAM, each of 262,144, counted from its first, which costs that, by the same
   ports; and LENGTH calls: `once step LENGTH`, of ordinary bytes in a run. Bytes are handed over one by one, by wheel_step; with -DMANY
   all in one call, by wheel_steps. It fails where an answer or a cost is not the one that is due. */
#include "wheel.h"

#include <stdio.h>
#include <stdlib.h>
#include <string.h>

enum { STRAP = 1 };

/* What data and memory are full of: FESC, which is packed as two bytes and is the dearest to pack. */
#ifndef FILL
#define FILL 0xDB
#endif

/* Bytes on port 0, while neither port is sending: the answer to the last, or to the first that is not just taken. */
static unsigned fed(struct wheel *wheel, const uint8_t *bytes, size_t length) {
#ifdef MANY
    return wheel_bytes(wheel, 0, bytes, length, WHEEL_SILENT, WHEEL_SILENT) == length ? wheel->now.answer : WHEEL_BAD_BUFFERS;
#else
    for (size_t i = 0; i < length && (i == 0 || wheel->now.answer == WHEEL_TAKEN); i++) {
        wheel->now = wheel_step(wheel->now.unit, 0, bytes[i], WHEEL_SILENT, WHEEL_SILENT, wheel->edac, WHEEL_EDAC,
                                wheel->bootloader.bytes, wheel->bootloader.length, wheel->bootloader.sums,
                                wheel->bootloader.length / WHEEL_FRAM_BLOCK, wheel->user.bytes, wheel->user.length,
                                wheel->user.sums, wheel->user.length / WHEEL_FRAM_BLOCK, wheel->diagnostics, WHEEL_DIAGNOSTICS,
                                wheel->ports[0].message, WHEEL_MESSAGE, wheel->ports[0].reply, WHEEL_REPLY,
                                wheel->ports[1].message, WHEEL_MESSAGE, wheel->ports[1].reply, WHEEL_REPLY);
    }
    return wheel->now.answer;
#endif
}

/* The data of a command that costs much: its length. */
static size_t dear(unsigned long code, uint8_t *data) {
    static const uint8_t second[8] = {0x01, 0x00, 0x04, 0x20, 0xFE, 0xFF, 0x07, 0x20};
    size_t length = 0;
    memset(data, FILL, 1028);
    if (code == 0x03 || code == 0x06) { /* POKE over five blocks; CRC from the second byte to the last but one */
        memcpy(data, second, sizeof second);
        return code == 0x03 ? 1028 : 8;
    }
    if (code == 0x0A) { /* WRITE EDAC of 1,026 bytes from 0x001 on, over 38 read-only rows */
        data[0] = 1;
        data[1] = 0;
        return 1028;
    }
    if (code == 0x08) { /* WRITE FILE: 202 times DRIVE_FREQ, of the files that are found writable last, and 3 times file 0 */
        for (int i = 0; i < 205; i++) {
            data[length] = i < 202 ? 0x5E : 0;
            length += i < 202 ? 5 : 6;
        }
        return length;
    }
    for (int i = 0; i < 205; i++, length += 4) { /* GATHER: 204 ranges of 1 byte, one of 4 */
        data[length] = data[length + 1] = data[length + 3] = 0;
        data[length + 2] = i < 204 ? 1 : 4;
    }
    return length;
}

/* The message CRC bit by bit: the proved one would be counted. */
static uint16_t crc(const uint8_t *bytes, size_t length) {
    uint16_t sum = 0xFFFF;
    for (size_t i = 0; i < length; i++) {
        sum ^= bytes[i];
        for (int bit = 0; bit < 8; bit++) {
            sum = (uint16_t)(sum & 1 ? (sum >> 1) ^ 0x8408 : sum >> 1);
        }
    }
    return sum;
}

/* The address of a place in an FRAM that begins at `first`, as a command has it. */
static void place(uint8_t *bytes, unsigned long first, const char *word) {
    const unsigned long address = first + strtoul(word, NULL, 10);
    for (int i = 0; i < 4; i++) {
        bytes[i] = (uint8_t)(address >> 8 * i);
    }
}

int main(int count, char **words) {
    static uint8_t bytes[262144];
    const int range = count == 5 && (strcmp(words[1], "user") == 0 || strcmp(words[1], "boot") == 0);
    if (count != 3 && !range) {
        return 1;
    }
    const unsigned long number = range ? 6 : strtoul(words[2], NULL, 10);
    if (words[1][0] == 'c' && number <= sizeof bytes) {
        printf("%04x\n", wheel_crc(bytes, number));
    } else if (words[1][0] == 'j') {
        const struct wheel_part first = {0x1234, 0}, second = {0x5678, (uint32_t)number};
        printf("%04x\n", wheel_join(first, second).part.sum);
    } else if (words[1][0] == 'a') {
        return wheel_judge_list(WHEEL_LIMIT_MOST, bytes, dear(number, bytes)) != 1;
    } else if (words[1][0] == 'w') {
        static uint8_t edac[WHEEL_EDAC];
        return wheel_store_list(WHEEL_LIMIT_MOST, edac, WHEEL_EDAC, bytes, dear(number, bytes)) != WHEEL_TAKEN;
    } else if (number <= WHEEL_FRAM_MOST) {
        static uint8_t edac[WHEEL_EDAC], bootloader[WHEEL_FRAM_MOST], user[WHEEL_FRAM_MOST];
        static uint16_t bootloader_sums[WHEEL_FRAM_MOST / WHEEL_FRAM_BLOCK], user_sums[WHEEL_FRAM_MOST / WHEEL_FRAM_BLOCK];
        static struct wheel wheel = {.edac = edac,
                                     .bootloader = {bootloader, WHEEL_FRAM_LEAST, bootloader_sums},
                                     .user = {user, WHEEL_FRAM_LEAST, user_sums}};
        const struct wheel_unit unit = {.bootloader_len = WHEEL_FRAM_LEAST,
                                        .fram_len = WHEEL_FRAM_LEAST,
                                        .limit = WHEEL_LIMIT_MOST,
                                        .strap = STRAP,
                                        .mode = WHEEL_BOOTLOADER,
                                        .place0 = WHEEL_RUN,
                                        .place1 = WHEEL_RUN,
                                        .locked = WHEEL_UNLOCKED};
        wheel.now.unit = unit;
        if (strcmp(words[1], "set_up") == 0 || strcmp(words[1], "both") == 0) {
            wheel.user.length = number;
            wheel.bootloader.length = words[1][0] == 'b' ? number : WHEEL_FRAM_LEAST;
            return wheel_begin(&wheel, STRAP, WHEEL_LIMIT_MOST, WHEEL_UNLOCKED) != WHEEL_TAKEN;
        }
        if (range || strcmp(words[1], "last") == 0) {
            uint8_t *message = wheel.ports[0].message;
            const size_t end = 3 + dear(number, message + 3);
            if (range) { /* with as many of these bytes in the reply as the range allows */
                const unsigned long first = words[1][0] == 'u' ? WHEEL_USER_FRAM_FIRST : WHEEL_BOOTLOADER_FRAM_FIRST;
                place(message + 3, first, words[2]);
                place(message + 7, first, words[3]);
                message[1] = FILL;
                memset(user_sums, FILL, sizeof user_sums);
                memset(bootloader_sums, FILL, sizeof bootloader_sums);
                wheel.bootloader.length = WHEEL_FRAM_MOST;
                wheel.now.unit.bootloader_len = WHEEL_FRAM_MOST;
            }
            message[0] = WHEEL_0_ANSWERED_ON_1 + STRAP;
            message[2] = (uint8_t)(0x80 + number);
            message[end + 1] = (uint8_t)(crc(message, end) >> 8);
            message[end] = (uint8_t)crc(message, end);
            memset(edac, FILL, WHEEL_EDAC);
            wheel.user.length = WHEEL_FRAM_MOST;
            wheel.now.unit.fram_len = WHEEL_FRAM_MOST;
            wheel.now.unit.mode = WHEEL_APPLICATION;
            wheel.now.unit.count0 = end + 2;
            /* A run is open on the port of the reply, and is thrown away. */
            wheel.now.unit.count1 = 1;
            bytes[0] = 0xC0;
            return fed(&wheel, bytes, 1) != WHEEL_ACKED || wheel.now.port != 1 || (range && wheel.now.cost != strtoul(words[4], NULL, 10));
        }
        if (strcmp(words[1], "step") != 0) {
            return 1;
        }
        memset(bytes, 0x41, number);
        return fed(&wheel, bytes, number) != WHEEL_TAKEN || wheel.now.unit.count0 != number;
    } else {
        return 1;
    }
    return 0;
}
