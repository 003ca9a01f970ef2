/* One call of the line, for an instruction count: `line feed LENGTH BYTE` feeds a FEND and then LENGTH bytes BYTE to a
   fresh receiver, `line pack LENGTH BYTE` packs LENGTH bytes BYTE. It fails where the count is wrong. The functions are
   those of `tools/instructions-line`. */
#include <stddef.h>
#include <stdint.h>
#include <stdio.h>
#include <stdlib.h>
#include <string.h>

size_t line_feed(uint16_t largest, const uint8_t *bytes, size_t n, uint8_t *message, size_t room);
size_t line_pack(const uint8_t *message, size_t n, uint8_t *reply, size_t room);

int main(int count, char **words) {
    enum { FEND = 0xC0, FESC = 0xDB, LARGEST = 1033 };
    static uint8_t bytes[1100], message[LARGEST], reply[2 * LARGEST + 2];
    if (count != 4) {
        return 1;
    }
    const size_t length = strtoul(words[2], NULL, 10);
    const uint8_t byte = (uint8_t)strtoul(words[3], NULL, 0);
    if (length > sizeof bytes - 1) {
        return 1;
    }
    bytes[0] = FEND;
    memset(bytes + 1, byte, length);
    size_t got, meant;
    if (words[1][0] == 'f') {
        got = line_feed(LARGEST, bytes, length + 1, message, sizeof message);
        meant = length > LARGEST ? LARGEST + 1 : length;
    } else {
        got = line_pack(bytes + 1, length, reply, sizeof reply);
        meant = (byte == FEND || byte == FESC ? 2 * length : length) + 2;
    }
    printf("%zu\n", got);
    return got != meant;
}
