/* A unit on a board, as small as it gets: sets one up with strap 1, which hears 0x41 on port 0, sends it P6 of 01 there byte by byte
   and prints the reply, which leaves on port 1. */
#include "wheel.h"

#include <stdio.h>

#ifndef FRAM
#define FRAM 65536 /* bytes of each FRAM: a multiple of WHEEL_FRAM_BLOCK */
#endif

static uint8_t edac[WHEEL_EDAC], bootloader[FRAM], user[FRAM];
static uint16_t bootloader_sums[sizeof bootloader / WHEEL_FRAM_BLOCK], user_sums[sizeof user / WHEEL_FRAM_BLOCK];
static struct wheel wheel = {.edac = edac,
                             .bootloader = {bootloader, sizeof bootloader, bootloader_sums},
                             .user = {user, sizeof user, user_sums}};

int main(void) {
    static const uint8_t ping[] = {0xC0, 0x41, 0x11, 0x80, 0xD8, 0x6D, 0xC0};
    if (wheel_begin(&wheel, 1, WHEEL_LIMIT_MOST, WHEEL_UNLOCKED) != WHEEL_TAKEN) {
        fprintf(stderr, "set-up refused: %u\n", (unsigned)wheel.now.answer);
        return 1;
    }
    for (size_t i = 0; i < sizeof ping; i++) {
        wheel_byte(&wheel, 0, ping[i], WHEEL_SILENT, WHEEL_SILENT);
        uint8_t port;
        size_t length;
        const uint8_t *reply = wheel_reply(&wheel, &port, &length);
        for (size_t k = 0; k < length; k++) {
            printf("%02X%s", (unsigned)reply[k], k + 1 < length ? " " : "\n");
        }
    }
    return wheel.now.answer != WHEEL_ACKED || wheel.now.port != 1;
}
