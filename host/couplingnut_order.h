/*
 * Couplingnut for C and C++: an order to the sender as one struct, orders put into a list, and calls that take a null pointer where the
 * length is 0. couplingnut.h includes it.
 */
#ifndef COUPLINGNUT_ORDER_H
#define COUPLINGNUT_ORDER_H

#include "couplingnut.h"

#ifdef __cplusplus
extern "C" {
#endif

/* An order to the sender. */
struct couplingnut_order {
    uint64_t direction;  /* COUPLINGNUT_WRITE or COUPLINGNUT_READ */
    uint64_t settings;   /* a sum of COUPLINGNUT_LSB_FIRST, _ASCENDING and _SINGLE_INSTRUCTION; to an older chip the first, or 0 */
    uint64_t start;      /* the first address, at most 0x7FFF; of an older chip at most the top */
    uint64_t count;      /* bytes written or read, 1 to 1,000 */
    const uint8_t *data; /* the bytes of a write; null will do for a read */
    size_t data_length;  /* count for a write, 0 for a read */
};

/* couplingnut_map_test, where map may be null if map_length is 0. */
static inline uint32_t couplingnut_map_number(const uint8_t *map, size_t map_length)
{
    const uint8_t none = 0;
    return couplingnut_map_test(map_length == 0 ? &none : map, map_length);
}

/* couplingnut_send, where data and out may be null if their lengths are 0. The other duties stay. */
static inline uint32_t couplingnut_send_order(const struct couplingnut_order *order, uint8_t *out, size_t out_length,
                                              uint64_t *samples)
{
    const uint8_t no_data = 0;
    uint8_t no_room = 0;
    return couplingnut_send(order->direction, order->settings, order->start, order->count,
                            order->data_length == 0 ? &no_data : order->data, order->data_length,
                            out_length == 0 ? &no_room : out, out_length, samples);
}

/* couplingnut_send_older, the same way. */
static inline uint32_t couplingnut_send_order_older(uint64_t top, const struct couplingnut_order *order, uint8_t *out,
                                                    size_t out_length, uint64_t *samples)
{
    const uint8_t no_data = 0;
    uint8_t no_room = 0;
    return couplingnut_send_older(top, order->direction, order->settings, order->start, order->count,
                                  order->data_length == 0 ? &no_data : order->data, order->data_length,
                                  out_length == 0 ? &no_room : out, out_length, samples);
}

/* couplingnut_send_setup, where list and out may be null if their lengths are 0. The other duties stay. */
static inline uint32_t couplingnut_send_list(uint64_t settings, const uint8_t *list, size_t list_length, uint8_t *out,
                                             size_t out_length, uint64_t *samples)
{
    const uint8_t no_list = 0;
    uint8_t no_room = 0;
    return couplingnut_send_setup(settings, list_length == 0 ? &no_list : list, list_length,
                                  out_length == 0 ? &no_room : out, out_length, samples);
}

/*
 * Puts an order into a list, but for its settings: COUPLINGNUT_LISTED_SIZE(order->data_length) bytes at `at`, which it gives back. The
 * form has a byte for the direction and two for the start, the count and the length; a larger number is cut to them.
 */
static inline size_t couplingnut_list_order(const struct couplingnut_order *order, uint8_t *at)
{
    size_t size = 6 + order->data_length;
    at[0] = (uint8_t)(size >> 8);
    at[1] = (uint8_t)size;
    at[2] = 1;
    at[3] = (uint8_t)order->direction;
    at[4] = (uint8_t)(order->start >> 8);
    at[5] = (uint8_t)order->start;
    at[6] = (uint8_t)(order->count >> 8);
    at[7] = (uint8_t)order->count;
    for (size_t i = 0; i < order->data_length; i++) {
        at[8 + i] = order->data[i];
    }
    return 2 + size;
}

#ifdef __cplusplus
}
#endif

#endif
