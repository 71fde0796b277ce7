/* The older clock chips. */
#include "calls.h"

#include <string.h>

/* A map of sixteen registers for an AD9508: control at 0x0000 and 0x0005, two plain ones at the top, the rest blank. */
static const uint8_t older_map[] = {
    0x00, 0x33, 1, 0x00, 0x10,
    4, 0, 0,  0, 0, 0,  0, 0, 0,  0, 0, 0,
    0, 0, 0,  4, 0, 0,  0, 0, 0,  0, 0, 0,
    0, 0, 0,  0, 0, 0,  0, 0, 0,  0, 0, 0,
    0, 0, 0,  0, 0, 0,  2, 0xFF, 0,  2, 0xFF, 0,
};

enum { TOP = 0x000F };

/* The samples of an order to it: a write of so many bytes, or a read, from a start on; the number, or 100 if the samples are not so many. */
static uint32_t older_into(uint64_t top, uint64_t direction, uint64_t settings, uint64_t start, uint64_t count, uint8_t *out,
                           size_t room, uint64_t expected)
{
    static const uint8_t data[4] = {0x3C, 0x5A, 0x77, 0x01};
    struct couplingnut_order order = {direction, settings, start, count, NULL, 0};
    uint64_t samples = 12345;
    uint32_t number;

    if (direction == COUPLINGNUT_WRITE) {
        order.data = data;
        order.data_length = (size_t)count;
    }
    number = couplingnut_send_order_older(top, &order, out, room, &samples);
    return samples == expected ? number : 100;
}

void check_older_send(void)
{
    uint8_t out[99];

    check(older_into(TOP, 0, 0, TOP, 2, out, 67, 67) == 0, "two bytes down from the top are sent to an older chip");
    check(out[3] == 0x00 && out[5] == 0x04, "their length bits are 01");
    check(older_into(TOP, 0, 0, TOP, 4, out, 99, 99) == 0 && out[3] == 0x04 && out[5] == 0x04, "four bytes stream");
    check(older_into(0x000E, 2, 8, TOP, 0, out, 0, 0) == COUPLINGNUT_BAD_TOP, "top 0x000E is refused 12, before all else");
    check(older_into(0x2000, 0, 0, TOP, 1, out, 51, 0) == COUPLINGNUT_BAD_TOP, "top 0x2000 is refused 12");
    check(older_into(UINT64_MAX, 0, 0, TOP, 1, out, 51, 0) == COUPLINGNUT_BAD_TOP, "a top above 32 bits is refused 12");
    check(older_into(TOP, 0, 2, TOP, 1, out, 51, 0) == COUPLINGNUT_BAD_ORDER, "settings number 2 is refused 7");
    check(older_into(TOP, 1, 0, TOP, 0, out, 51, 0) == COUPLINGNUT_BAD_COUNT, "a read of nothing is refused 8");
    check(older_into(TOP, 0, 1, TOP, 2, out, 67, 0) == COUPLINGNUT_BAD_START, "two bytes up from the top are refused 9");
    check(older_into(TOP, 1, 0, 0x0000, 2, out, 67, 0) == COUPLINGNUT_BAD_START, "two bytes down from 0 are refused 9");
    check(older_into(TOP, 0, 0, TOP, 1, out, 50, 0) == COUPLINGNUT_SHORT_OUT, "a buffer one byte short is refused 11");
}

static uint32_t open_older(struct recording *r, uint64_t top)
{
    memset(r, PATTERN, sizeof *r);
    return couplingnut_open_ad9508(top, older_map, sizeof older_map, &r->session, r->active, sizeof r->active, r->buffer,
                                   sizeof r->buffer);
}

static uint32_t read_older(struct recording *r, uint64_t top, const uint8_t *samples, size_t length)
{
    return couplingnut_read_ad9508(top, older_map, sizeof older_map, &r->session, r->active, sizeof r->active, r->buffer,
                                   sizeof r->buffer, r->words, 1, samples, length, r->records, sizeof r->records, &r->count);
}

void check_older_map(void)
{
    uint8_t other[sizeof older_map];

    check(couplingnut_map_test_ad9508(TOP, older_map, sizeof older_map) == COUPLINGNUT_DONE, "an older map passes");
    check(couplingnut_map_test_ad9508(TOP + 1, older_map, sizeof older_map) == COUPLINGNUT_BAD_TOP,
          "with a top that is not n - 1 it is refused 12");
    check(couplingnut_map_test_ad9557(TOP, older_map, sizeof older_map) == COUPLINGNUT_BAD_MAP_ENTRY,
          "the AD9557 asks for control at 0x0004");
    check(couplingnut_map_test(older_map, sizeof older_map) == COUPLINGNUT_BAD_MAP_ENTRY, "a newer chip refuses it with 3");
    memcpy(other, older_map, sizeof other);
    other[5 + 3 * 4] = 4;
    check(couplingnut_map_test_ad9557(TOP, other, sizeof other) == COUPLINGNUT_DONE &&
              couplingnut_map_test_ad9508(TOP, other, sizeof other) == COUPLINGNUT_BAD_MAP_ENTRY,
          "control there is the AD9557's alone");
    other[2] = 3;
    check(couplingnut_map_test_ad9557(0, other, sizeof other) == COUPLINGNUT_BAD_MAP_FORM, "a bad form is refused 2, before 12");
}

/* Two bytes down from the top, the select rising between them. */
void check_stall(void)
{
    static const uint8_t records[] = {1, 0x00, 0x0F, 0x3C, 0x3C, 1, 0x3C, 1, 0x00, 0x0E, 0x5A, 0x5A, 1, 0x5A};
    struct recording r;
    struct recording before;
    uint8_t samples[67];

    check(older_into(TOP, 0, 0, TOP, 2, samples, sizeof samples, 67) == 0 && open_older(&r, TOP) == COUPLINGNUT_DONE &&
              read_older(&r, TOP, samples, sizeof samples) == COUPLINGNUT_DONE && r.count == 2 &&
              memcmp(r.records, records, sizeof records) == 0 && r.session.bytes[3] == 0 && r.session.bytes[19] == 0,
          "two records of an older chip are read, and it is at rest");
    open_older(&r, TOP);
    check(read_older(&r, TOP, samples, 49) == COUPLINGNUT_DONE && r.count == 1 && r.session.bytes[19] == 1,
          "after the first byte one is left");
    check(read_older(&r, TOP, (const uint8_t *)"\1\1\1", 3) == COUPLINGNUT_DONE && r.count == 0 && r.session.bytes[3] == 2 &&
              r.session.bytes[1] == 1,
          "the select rises, and the run stalls");
    before = r;
    before.count = 0;
    check(read_into(&r, samples, 1, sizeof r.records) == COUPLINGNUT_BAD_SESSION && memcmp(&r, &before, sizeof r) == 0,
          "a stalled session is refused 1 by a newer chip");
    check(read_older(&r, TOP + 1, samples, 1) == COUPLINGNUT_BAD_TOP && memcmp(&r, &before, sizeof r) == 0,
          "another top is refused 12, and all is as it was");
    check(couplingnut_next_record_ad9508(TOP, older_map, sizeof older_map, &r.session, r.active, sizeof r.active, r.buffer,
                                         sizeof r.buffer, r.words, 1, samples + 48, 19, r.records, sizeof r.records, &r.count,
                                         &r.taken) == COUPLINGNUT_DONE &&
              r.count == 1 && r.taken == 17 && memcmp(r.records, records + 7, 7) == 0,
          "the select falls, and the run goes on");
    check(r.session.bytes[1] == 0 && r.session.bytes[3] == 0, "after its count it passes over");
}

void check_older_refusals(void)
{
    struct recording r;

    memset(&r, PATTERN, sizeof r);
    check(couplingnut_open_ad9557(TOP, older_map, sizeof older_map, &r.session, r.active, 16, r.buffer, 16) ==
                  COUPLINGNUT_BAD_MAP_ENTRY &&
              r.session.bytes[0] == 4 && r.active[0] == PATTERN,
          "opening as the other part is refused 3");
    check(couplingnut_open_ad9508(TOP + 1, older_map, sizeof older_map, &r.session, r.active, 15, r.buffer, 16) ==
              COUPLINGNUT_BAD_BANK,
          "a bank of 15 bytes is refused 4, before 12");
    check(open_older(&r, TOP + 1) == COUPLINGNUT_BAD_TOP && r.active[0] == PATTERN, "a wrong top is refused 12");
    open_older(&r, TOP);
    check(couplingnut_read_ad9557(TOP, older_map, sizeof older_map, &r.session, r.active, 16, r.buffer, 16, r.words, 1,
                                  (const uint8_t *)"\1", 1, r.records, 0, &r.count) == COUPLINGNUT_BAD_MAP_ENTRY &&
              couplingnut_next_record_ad9557(TOP, older_map, sizeof older_map, &r.session, r.active, 16, r.buffer, 16, r.words, 1,
                                             (const uint8_t *)"\1", 1, r.records, 0, &r.count,
                                             &r.taken) == COUPLINGNUT_BAD_MAP_ENTRY,
          "reading as the other part is refused 3");
}
