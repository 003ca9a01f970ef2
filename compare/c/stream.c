/* A wheel in C over the archive, for measuring: feeds standard input to port 0 of a unit with strap 1 and 65,536 bytes of each FRAM
   and writes the replies, on whichever port they leave. No port is ever said to be sending. A byte is a call of wheel_byte; with -DMANY
   the bytes up to an answer are one of wheel_bytes. */
#include "wheel.h"

#include <stdio.h>

static uint8_t edac[WHEEL_EDAC], bootloader[65536], user[65536], read[65536];
static uint16_t bootloader_sums[sizeof bootloader / WHEEL_FRAM_BLOCK], user_sums[sizeof user / WHEEL_FRAM_BLOCK];
static struct wheel wheel = {.edac = edac,
                             .bootloader = {bootloader, sizeof bootloader, bootloader_sums},
                             .user = {user, sizeof user, user_sums}};

int main(void) {
    if (wheel_begin(&wheel, 1, WHEEL_LIMIT_MOST, WHEEL_UNLOCKED) != WHEEL_TAKEN) {
        return 1;
    }
    for (size_t n; (n = fread(read, 1, sizeof read, stdin)) > 0;) {
        for (size_t i = 0; i < n;) {
#ifdef MANY
            i += wheel_bytes(&wheel, 0, read + i, n - i, WHEEL_SILENT, WHEEL_SILENT);
#else
            wheel_byte(&wheel, 0, read[i++], WHEEL_SILENT, WHEEL_SILENT);
#endif
            uint8_t port;
            size_t length;
            const uint8_t *reply = wheel_reply(&wheel, &port, &length);
            fwrite(reply, 1, length, stdout);
        }
    }
    return 0;
}
