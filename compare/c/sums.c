/* Reads up to 2,000 bytes and prints the sum of each first part of them, from none to all. */
#include "wheel.h"

#include <stdio.h>

int main(void) {
    static uint8_t bytes[2000];
    const size_t length = fread(bytes, 1, sizeof bytes, stdin);
    for (size_t n = 0; n <= length; n++) {
        printf("%04x\n", (unsigned)wheel_crc(bytes, n));
    }
    return 0;
}
