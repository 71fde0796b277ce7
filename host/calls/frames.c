/* The fewest frames. */
#include "calls.h"

#include <string.h>

/* Five registers with their bytes: a row of three, one alone, and the last address of all. */
static const uint16_t registers[] = {0x0010, 0x0011, 0x0012, 0x0014, 0x7FFF};
static const uint8_t register_bytes[] = {1, 2, 3, 4, 5};

/* The orders that write them, descending and ascending. */
static const uint8_t descending_orders[] = {0, 9, 1, 0, 0x00, 0x12, 0, 3, 3, 2, 1, 0, 7, 1, 0, 0x00, 0x14, 0, 1, 4,
                                            0, 7, 1, 0, 0x7F, 0xFF, 0, 1, 5};
static const uint8_t ascending_orders[] = {0, 9, 1, 0, 0x00, 0x10, 0, 3, 1, 2, 3, 0, 7, 1, 0, 0x00, 0x14, 0, 1, 4,
                                           0, 7, 1, 0, 0x7F, 0xFF, 0, 1, 5};

/* Makes the orders of these registers in a buffer with so much room, and sees that they are these and the rest of it is as before. */
static uint32_t frames_into(uint64_t ascending, size_t addresses, size_t bytes, size_t room, const uint8_t *orders, uint64_t expected)
{
    uint8_t out[40];
    uint64_t length = 12345;
    uint32_t number;
    size_t i;

    memset(out, PATTERN, sizeof out);
    number = couplingnut_fewest_frames(ascending, registers, addresses, register_bytes, bytes, out, room, &length);
    for (i = (size_t)expected; i < sizeof out; i++) {
        if (out[i] != PATTERN) {
            return 100;
        }
    }
    return length == expected && memcmp(out, orders, (size_t)expected) == 0 ? number : 101;
}

void check_frames(void)
{
    const uint8_t *down = descending_orders, *up = ascending_orders;
    const size_t whole = sizeof descending_orders;

    check(frames_into(0, 5, 5, whole, down, whole) == 0, "descending orders are made, the data backwards, by rising start");
    check(frames_into(1, 5, 5, whole, up, whole) == 0, "ascending orders are made");
    check(frames_into(UINT64_MAX, 5, 5, 40, up, whole) == 0, "any number but 0 is ascending");
    check(frames_into(1, 3, 3, 40, up, 11) == 0, "a row is one order");
    check(frames_into(1, 5, 5, whole - 1, up, 0) == COUPLINGNUT_SHORT_OUT, "a byte less than the orders take is refused 11");
    check(frames_into(1, 5, 4, 0, up, 0) == COUPLINGNUT_BAD_REGISTERS, "a byte too few is refused 19, before 11");
    check(frames_into(1, 4, 5, 40, up, 0) == COUPLINGNUT_BAD_REGISTERS, "a byte too many is refused 19");
    check(frames_into(1, 0, 0, 40, up, 0) == COUPLINGNUT_BAD_REGISTERS, "an empty list is refused 19");
}

/* The number for two registers. */
static uint32_t pair_number(uint16_t first, uint16_t second)
{
    const uint16_t pair[2] = {first, second};
    uint8_t out[COUPLINGNUT_FRAMES_SIZE(2)];
    uint64_t length;

    return couplingnut_fewest_frames(1, pair, 2, register_bytes, 2, out, sizeof out, &length);
}

void check_registers(void)
{
    check(pair_number(0x0002, 0x0003) == 0, "0x0002 and 0x0003 may be listed");
    check(pair_number(0x000E, 0x0010) == 0, "the neighbours of 0x000F may be listed");
    check(pair_number(0x0003, 0x0003) == COUPLINGNUT_BAD_REGISTERS, "a register twice is refused 19");
    check(pair_number(0x0003, 0x0002) == COUPLINGNUT_BAD_REGISTERS, "falling addresses are refused 19");
    check(pair_number(0x0003, 0x8000) == COUPLINGNUT_BAD_REGISTERS, "0x8000 is refused 19");
    check(pair_number(0x0000, 0x0002) == COUPLINGNUT_BAD_REGISTERS, "0x0000 is refused 19");
    check(pair_number(0x0001, 0x0002) == COUPLINGNUT_BAD_REGISTERS, "0x0001 is refused 19");
    check(pair_number(0x000E, 0x000F) == COUPLINGNUT_BAD_REGISTERS, "0x000F is refused 19");
}

/* So many registers, each so many above the one before it: the number, or 100 if the orders take another number of bytes. */
static uint32_t many_number(size_t count, uint16_t apart, uint64_t expected)
{
    static uint16_t addresses[COUPLINGNUT_MOST_REGISTERS + 1];
    static uint8_t bytes[COUPLINGNUT_MOST_REGISTERS + 1];
    static uint8_t out[COUPLINGNUT_FRAMES_SIZE(COUPLINGNUT_MOST_REGISTERS)];
    uint64_t length;
    uint32_t number;
    size_t i;

    for (i = 0; i < count; i++) {
        addresses[i] = (uint16_t)(0x0010 + i * apart);
        bytes[i] = (uint8_t)i;
    }
    number = couplingnut_fewest_frames(0, addresses, count, bytes, count, out, sizeof out, &length);
    return length == expected ? number : 100;
}

void check_many_registers(void)
{
    check(many_number(1000, 1, 1008) == 0, "1,000 registers in a row are one order");
    check(many_number(1000, 2, 9000) == 0, "1,000 registers apart are 1,000 orders");
    check(many_number(1001, 1, 0) == COUPLINGNUT_BAD_REGISTERS, "1,001 registers are refused 19");
}
