/* The sender: one order, and a list of them. */
#include "calls.h"

#include <string.h>

/* Sends an order into a buffer with so much room, and sees that the samples are so many and the rest of it is as before. */
static uint32_t send_into(uint64_t direction, uint64_t settings, uint64_t start, uint64_t count, size_t data_length,
                          size_t room, uint64_t expected)
{
    static const uint8_t data[2] = {0x3C, 0x3C};
    struct couplingnut_order order = {direction, settings, start, count, data_length == 0 ? NULL : data, data_length};
    uint8_t out[100];
    uint64_t samples = 12345;
    uint32_t number;
    size_t i;

    memset(out, PATTERN, sizeof out);
    number = couplingnut_send_order(&order, room == 0 ? NULL : out, room, &samples);
    for (i = (size_t)expected; i < sizeof out; i++) {
        if (out[i] != PATTERN) {
            return 100;
        }
    }
    return samples == expected ? number : 101;
}

void check_send(void)
{
    const uint64_t wide = (uint64_t)1 << 32;

    check(send_into(0, 0, 0x000A, 1, 1, 51, 51) == 0, "a write fills a buffer of 51 bytes");
    check(send_into(0, 4, 0x000A, 2, 2, 100, 99) == 0, "99 samples leave the last of 100 bytes");
    check(send_into(1, 7, 0x7FFF, 2, 0, 99, 99) == 0, "a read has null data");
    check(send_into(2, 0, 0x000A, 1, 1, 51, 0) == 7, "direction 2 is refused 7");
    check(send_into(wide, 0, 0x000A, 1, 1, 51, 0) == 7, "a direction above 32 bits is refused 7");
    check(send_into(0, 8, 0x000A, 1, 1, 51, 0) == 7, "settings number 8 is refused 7");
    check(send_into(0, wide, 0x000A, 1, 1, 51, 0) == 7, "a settings number above 32 bits is refused 7");
    check(send_into(0, 0, 0x000A, 0, 0, 51, 0) == 8, "a write of nothing, its data null, is refused 8");
    check(send_into(0, 0, 0x000A, 1, 2, 51, 0) == 8, "a write with a byte too many is refused 8");
    check(send_into(1, 0, 0x000A, 1, 1, 51, 0) == 8, "a read with data is refused 8");
    check(send_into(1, 0, 0x000A, wide + 1, 0, 51, 0) == 8, "a count above 32 bits is refused 8");
    check(send_into(0, 0, 0x8000, 1, 1, 51, 0) == 9, "start 0x8000 is refused 9");
    check(send_into(0, 0, wide, 1, 1, 51, 0) == 9, "a start above 32 bits is refused 9");
    check(send_into(0, 4, 0x0001, 2, 2, 99, 0) == 10, "single instruction through 0x0001 is refused 10");
    check(send_into(0, 0, 0x000A, 1, 1, 50, 0) == 11, "a buffer one byte short is refused 11");
    check(send_into(0, 0, 0x000A, 1, 1, 0, 0) == 11, "a null buffer of length 0 is refused 11");
}

/* A list of a write of 0x3C to 0x000A and a read of 0x0004, as the library takes it. */
static const uint8_t two_orders[] = {0, 7, 1, 0, 0x00, 0x0A, 0, 1, 0x3C,  0, 6, 1, 1, 0x00, 0x04, 0, 1};

/* Sends the start of a list into a buffer with so much room, and sees that the samples are so many and the rest of it is as before. */
static uint32_t setup_into(uint64_t settings, const uint8_t *list, size_t length, size_t room, uint64_t expected)
{
    uint8_t out[200];
    uint64_t samples = 12345;
    uint32_t number;
    size_t i;

    memset(out, PATTERN, sizeof out);
    number = couplingnut_send_list(settings, length == 0 ? NULL : list, length, room == 0 ? NULL : out, room, &samples);
    for (i = (size_t)expected; i < sizeof out; i++) {
        if (out[i] != PATTERN) {
            return 100;
        }
    }
    return samples == expected ? number : 101;
}

/* The two orders are what couplingnut_list_order makes, and their recording is that of each joined. */
void check_joined(void)
{
    static const uint8_t data[1] = {0x3C};
    const struct couplingnut_order first = {COUPLINGNUT_WRITE, 0, 0x000A, 1, data, 1};
    const struct couplingnut_order second = {COUPLINGNUT_READ, 0, 0x0004, 1, NULL, 0};
    uint8_t list[sizeof two_orders];
    uint8_t joined[102];
    uint8_t out[102];
    uint64_t samples;
    size_t size = couplingnut_list_order(&first, list);

    check(size == COUPLINGNUT_LISTED_SIZE(1) && size + couplingnut_list_order(&second, list + size) == sizeof list &&
              memcmp(list, two_orders, sizeof list) == 0,
          "two orders are put into a list");
    check(couplingnut_send_order(&first, joined, 51, &samples) == 0 &&
              couplingnut_send_order(&second, joined + 51, 51, &samples) == 0 &&
              couplingnut_send_setup(0, list, sizeof list, out, sizeof out, &samples) == 0 &&
              memcmp(out, joined, sizeof out) == 0,
          "the recording of a list is those of its orders, joined");
}

void check_setup(void)
{
    uint8_t list[sizeof two_orders];

    check(setup_into(0, two_orders, sizeof two_orders, 102, 102) == 0, "two orders fill a buffer of 102 bytes");
    check(setup_into(0, two_orders, sizeof two_orders, 101, 0) == COUPLINGNUT_SHORT_OUT, "a byte less is refused 11");
    check(setup_into(UINT64_MAX, two_orders, 0, 0, 0) == 0, "an empty list is done, its settings not looked at");
    check(setup_into(0, two_orders, sizeof two_orders - 1, 102, 0) == COUPLINGNUT_BAD_LIST,
          "a list that ends inside an order is refused 14");
    check(setup_into(0, two_orders, 10, 102, 0) == COUPLINGNUT_BAD_LIST, "a byte after an order is refused 14");
    check(setup_into(8, two_orders, sizeof two_orders, 102, 0) == COUPLINGNUT_BAD_ORDER, "settings number 8 is refused 7");
    memcpy(list, two_orders, sizeof list);
    list[13] = 0x80;
    check(setup_into(0, list, sizeof list, 102, 0) == COUPLINGNUT_BAD_START, "start 0x8000 of the second order is refused 9");
    list[7] = 2;
    check(setup_into(0, list, sizeof list, 102, 0) == COUPLINGNUT_BAD_COUNT, "the first bad order gives the number");
    list[11] = 2;
    check(setup_into(0, list, sizeof list, 102, 0) == COUPLINGNUT_BAD_LIST, "another version is refused 14, before all else");
}

/* Reads of so many bytes together, sent with room for all that a list may give: the number, or 100 if the samples are not so many. */
static uint32_t reads_number(size_t orders, uint64_t bytes, uint64_t expected)
{
    static uint8_t list[70 * COUPLINGNUT_LISTED_SIZE(0)];
    static uint8_t out[COUPLINGNUT_MOST_SETUP];
    struct couplingnut_order order = {COUPLINGNUT_READ, 0, 0x0010, 0, NULL, 0};
    size_t length = 0;
    uint64_t samples;
    uint32_t number;
    size_t i;

    for (i = 0; i < orders; i++) {
        order.count = bytes / orders + (i < bytes % orders);
        length += couplingnut_list_order(&order, list + length);
    }
    number = couplingnut_send_setup(0, list, length, out, sizeof out, &samples);
    return samples == expected ? number : 100;
}

void check_long_setup(void)
{
    check(reads_number(64, 64, 64 * 51) == 0, "64 orders are sent");
    check(reads_number(65, 65, 0) == COUPLINGNUT_BAD_LIST, "65 are refused 14");
    check(reads_number(5, 4085, 65535) == 0, "65,535 samples in total are sent");
    check(reads_number(16, 4061, 65536) == 0, "65,536 samples in total are sent");
    check(reads_number(11, 4072, 0) == COUPLINGNUT_LONG_SETUP, "65,537 samples in total are refused 15");
}
