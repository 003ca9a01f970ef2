/* The functions of include/wheel.h, in the C convention of the processor that this file is compiled for. Each hands its
 * arguments on to the proved function of its name, which takes a slice as an address and a length, a record of two numbers as
 * those two, and a longer record by its address, and returns what comes back. tools/archive links the two to one object.
 *
 * This file is not proved: it is what stands between the proved functions and C where the kit's own archive has a few lines
 * that its compiler writes. It relies on
 * - tools/module, which finds that the proved functions take what is declared here, and that no place in memory is used as an
 *   address and as a number, so that an address may have less than the 8 bytes of its place;
 * - the static asserts, that a record of C is, byte for byte, the record that was proved;
 * - the caller, as wheel.h says: what is lent is as long as it is said to be. Its length is a size_t here, which is made the
 *   64 bits that were proved by adding zeros. */
#include "wheel.h"

#define SAME(fact) _Static_assert(fact, #fact)
#define RECORD(type, size, align) SAME(sizeof(struct type) == size && _Alignof(struct type) == align)
#define FIELD(type, field, offset, width) \
    SAME(offsetof(struct type, field) == offset && sizeof(((struct type *)0)->field) == width)

SAME(__BYTE_ORDER__ == __ORDER_LITTLE_ENDIAN__ && __CHAR_BIT__ == 8);
SAME(_Alignof(uint16_t) == 2 && _Alignof(uint32_t) == 4 && _Alignof(uint64_t) == 8);
SAME(sizeof(size_t) == sizeof(void *) && (sizeof(void *) == 4 || sizeof(void *) == 8));
RECORD(wheel_unit, 40, 8);
FIELD(wheel_unit, bootloader_len, 0, 8);
FIELD(wheel_unit, fram_len, 8, 8);
FIELD(wheel_unit, count0, 16, 8);
FIELD(wheel_unit, count1, 24, 8);
FIELD(wheel_unit, limit, 32, 2);
FIELD(wheel_unit, strap, 34, 1);
FIELD(wheel_unit, mode, 35, 1);
FIELD(wheel_unit, place0, 36, 1);
FIELD(wheel_unit, place1, 37, 1);
FIELD(wheel_unit, locked, 38, 1);
RECORD(wheel_stepped, 56, 8);
FIELD(wheel_stepped, unit, 0, 40);
FIELD(wheel_stepped, sent, 40, 8);
FIELD(wheel_stepped, answer, 48, 1);
FIELD(wheel_stepped, port, 49, 1);
FIELD(wheel_stepped, cost, 52, 4);
RECORD(wheel_many, 64, 8);
FIELD(wheel_many, last, 0, 56);
FIELD(wheel_many, taken, 56, 8);
RECORD(wheel_packed, 16, 8);
FIELD(wheel_packed, sent, 0, 8);
FIELD(wheel_packed, answer, 8, 1);
RECORD(wheel_part, 8, 4);
FIELD(wheel_part, sum, 0, 2);
FIELD(wheel_part, len, 4, 4);
RECORD(wheel_joined, 12, 4);
FIELD(wheel_joined, answer, 0, 1);
FIELD(wheel_joined, part, 4, 8);

/* The proved functions: first where the record that comes back is to stand, then the arguments in order. Where a slice may be
 * written stands in the contract of each (crates/board_c), not in these types. */
#define LENT(type, name) const type *name, uint64_t name##_len
#define TEN_SLICES \
    LENT(uint8_t, edac), LENT(uint8_t, bootloader), LENT(uint16_t, bootloader_sums), LENT(uint8_t, fram), LENT(uint16_t, sums), \
        LENT(uint32_t, diagnostics), LENT(uint8_t, message0), LENT(uint8_t, reply0), LENT(uint8_t, message1), LENT(uint8_t, reply1)

uint16_t wheel_crc_proved(LENT(uint8_t, bytes));
uint16_t wheel_crc_from_proved(uint16_t start, LENT(uint8_t, bytes));
void wheel_join_proved(struct wheel_joined *joined, uint16_t first_sum, uint32_t first_len, uint16_t second_sum,
                       uint32_t second_len);
void wheel_set_up_proved(struct wheel_stepped *stepped, uint8_t strap, uint64_t limit, uint8_t locked, TEN_SLICES);
void wheel_steps_proved(struct wheel_many *many, const struct wheel_unit *unit, uint8_t port, LENT(uint8_t, bytes),
                        uint8_t sending0, uint8_t sending1, TEN_SLICES);
void wheel_pack_proved(struct wheel_packed *packed, LENT(uint8_t, message), LENT(uint8_t, reply));
uint8_t wheel_judge_list_proved(uint64_t limit, LENT(uint8_t, list));
uint8_t wheel_store_list_proved(uint64_t limit, LENT(uint8_t, edac), LENT(uint8_t, list));

/* What is lent as NAME and NAME_len. */
#define SLICE(name) name, name##_len
#define THE_TEN \
    SLICE(edac), SLICE(bootloader), SLICE(bootloader_sums), SLICE(fram), SLICE(sums), SLICE(diagnostics), SLICE(message0), \
        SLICE(reply0), SLICE(message1), SLICE(reply1)

uint16_t wheel_crc(const uint8_t *bytes, size_t bytes_len) { return wheel_crc_proved(SLICE(bytes)); }

uint16_t wheel_crc_from(uint16_t start, const uint8_t *bytes, size_t bytes_len) {
    return wheel_crc_from_proved(start, SLICE(bytes));
}

struct wheel_joined wheel_join(struct wheel_part first, struct wheel_part second) {
    struct wheel_joined joined;
    wheel_join_proved(&joined, first.sum, first.len, second.sum, second.len);
    return joined;
}

struct wheel_stepped wheel_set_up(uint8_t strap, uint64_t limit, uint8_t locked, const uint8_t *edac, size_t edac_len,
                                  const uint8_t *bootloader, size_t bootloader_len, uint16_t *bootloader_sums,
                                  size_t bootloader_sums_len, const uint8_t *fram, size_t fram_len, uint16_t *sums,
                                  size_t sums_len, uint32_t *diagnostics, size_t diagnostics_len, const uint8_t *message0,
                                  size_t message0_len, const uint8_t *reply0, size_t reply0_len, const uint8_t *message1,
                                  size_t message1_len, const uint8_t *reply1, size_t reply1_len) {
    struct wheel_stepped stepped;
    wheel_set_up_proved(&stepped, strap, limit, locked, THE_TEN);
    return stepped;
}

struct wheel_stepped wheel_step(struct wheel_unit unit, uint8_t port, uint8_t byte, uint8_t sending0, uint8_t sending1,
                                uint8_t *edac, size_t edac_len, uint8_t *bootloader, size_t bootloader_len,
                                uint16_t *bootloader_sums, size_t bootloader_sums_len, uint8_t *fram, size_t fram_len,
                                uint16_t *sums, size_t sums_len, uint32_t *diagnostics, size_t diagnostics_len,
                                uint8_t *message0, size_t message0_len, uint8_t *reply0, size_t reply0_len,
                                uint8_t *message1, size_t message1_len, uint8_t *reply1, size_t reply1_len) {
    return wheel_steps(unit, port, &byte, 1, sending0, sending1, edac, edac_len, bootloader, bootloader_len, bootloader_sums,
                       bootloader_sums_len, fram, fram_len, sums, sums_len, diagnostics, diagnostics_len, message0,
                       message0_len, reply0, reply0_len, message1, message1_len, reply1, reply1_len)
        .last;
}

struct wheel_many wheel_steps(struct wheel_unit unit, uint8_t port, const uint8_t *bytes, size_t bytes_len, uint8_t sending0,
                              uint8_t sending1, uint8_t *edac, size_t edac_len, uint8_t *bootloader, size_t bootloader_len,
                              uint16_t *bootloader_sums, size_t bootloader_sums_len, uint8_t *fram, size_t fram_len,
                              uint16_t *sums, size_t sums_len, uint32_t *diagnostics, size_t diagnostics_len,
                              uint8_t *message0, size_t message0_len, uint8_t *reply0, size_t reply0_len,
                              uint8_t *message1, size_t message1_len, uint8_t *reply1, size_t reply1_len) {
    struct wheel_many many;
    wheel_steps_proved(&many, &unit, port, SLICE(bytes), sending0, sending1, THE_TEN);
    return many;
}

struct wheel_packed wheel_pack(const uint8_t *message, size_t message_len, uint8_t *reply, size_t reply_len) {
    struct wheel_packed packed;
    wheel_pack_proved(&packed, SLICE(message), SLICE(reply));
    return packed;
}

uint8_t wheel_judge_list(uint64_t limit, const uint8_t *list, size_t list_len) {
    return wheel_judge_list_proved(limit, SLICE(list));
}

uint8_t wheel_store_list(uint64_t limit, uint8_t *edac, size_t edac_len, const uint8_t *list, size_t list_len) {
    return wheel_store_list_proved(limit, SLICE(edac), SLICE(list));
}
