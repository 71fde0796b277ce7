/* Several chips on one wire. */
#include "calls.h"

#include <string.h>

/* Two chips in one memory, with two bytes between their ranges, and room for two records. */
struct pair {
    couplingnut_chip chips[2];
    uint8_t memory[66];
    uint8_t records[2 * COUPLINGNUT_SEVERAL_RECORD_SIZE];
    uint64_t count;
};

static void open_chip(struct pair *p, int chip, uint64_t start)
{
    couplingnut_chip *c = &p->chips[chip];

    c->contended = 0;
    c->active_start = start;
    c->buffer_start = start + 16;
    c->active_length = 16;
    c->buffer_length = 16;
    check(couplingnut_open(map, sizeof map, &c->session, p->memory + start, 16, p->memory + start + 16, 16) == COUPLINGNUT_DONE,
          "a chip is opened on its ranges");
}

/* The samples of one chip's wire as those of several: its CSB is the select of one, and the others' are high or low. */
static size_t wire(const uint8_t *samples, size_t length, uint8_t others, int chip, uint8_t *out)
{
    size_t i;

    for (i = 0; i < length; i++) {
        out[2 * i] = (uint8_t)(others | ((samples[i] & 1) << chip));
        out[2 * i + 1] = samples[i] & 0x0E;
    }
    return 2 * length;
}

static uint32_t read_pair(struct pair *p, size_t chips, const uint8_t *samples, size_t length, size_t room)
{
    return couplingnut_read_several(map, sizeof map, p->chips, chips, p->memory, sizeof p->memory, samples, length, p->records,
                                    room, &p->count);
}

static void open_pair(struct pair *p)
{
    memset(p, PATTERN, sizeof *p);
    open_chip(p, 0, 0);
    open_chip(p, 1, 34);
}

/* Whether the two bytes that C has after a chip's mark are as open_pair lent them. */
static int padding_stays(const couplingnut_chip *chip)
{
    const uint8_t *bytes = (const uint8_t *)chip;

    return bytes[COUPLINGNUT_SESSION_SIZE + 1] == PATTERN && bytes[COUPLINGNUT_SESSION_SIZE + 2] == PATTERN;
}

void check_several(void)
{
    struct pair p;
    uint8_t samples[100];
    uint8_t wired[200];
    size_t length = wire(samples, two_bytes(samples, sizeof samples), 0xFD, 1, wired);

    check(sizeof(couplingnut_chip) == 56, "a chip of several has the size that the library goes by");
    open_pair(&p);
    check(read_pair(&p, 2, wired, length, sizeof p.records) == COUPLINGNUT_DONE && p.count == 2,
          "two records are read of the second chip");
    check(p.records[0] == 1 && memcmp(p.records + 1, written, COUPLINGNUT_RECORD_SIZE) == 0 && p.records[8] == 1,
          "each begins with its number");
    check(p.memory[34 + 0x0A] == 0x3C && p.memory[0x0A] == 0 && p.memory[32] == PATTERN && p.memory[33] == PATTERN,
          "its register has the byte, and no other chip's; memory that is nobody's stays");
    check(padding_stays(&p.chips[1]), "the bytes between a chip's fields stay");
}

void check_contended(void)
{
    struct pair p;
    uint8_t samples[100];
    uint8_t wired[200];
    uint64_t count = 0;

    check(couplingnut_send(COUPLINGNUT_READ, 0, 0x000C, 1, map, 0, samples, sizeof samples, &count) == COUPLINGNUT_DONE,
          "a read is sent");
    open_pair(&p);
    check(read_pair(&p, 2, wired, wire(samples, (size_t)count, 0xFE, 0, wired), sizeof p.records) == COUPLINGNUT_DONE &&
              p.count == 1 && p.records[6] == 1,
          "a byte on the line that disagrees is told as 1");
    open_pair(&p);
    check(read_pair(&p, 2, wired, wire(samples, (size_t)count, 0xFC, 0, wired), sizeof p.records) == COUPLINGNUT_DONE &&
              p.count >= 1 && p.records[6] == 2,
          "with the other select low it is told as 2");
}

void check_several_refusals(void)
{
    struct pair p;
    struct pair before;
    uint8_t samples[100];
    uint8_t wired[200];
    size_t length = wire(samples, two_bytes(samples, sizeof samples), 0xFD, 1, wired);

    open_pair(&p);
    before = p;
    before.count = 0;
    check(read_pair(&p, 0, wired, length, sizeof p.records) == COUPLINGNUT_BAD_CHIPS && memcmp(&p, &before, sizeof p) == 0,
          "no chip is refused 17, and all is as it was");
    check(read_pair(&p, 2, wired, length, sizeof p.records - 1) == COUPLINGNUT_SHORT_RECORDS && memcmp(&p, &before, sizeof p) == 0,
          "room for one byte less is refused 6, and all is as it was");
    check(read_pair(&p, 2, wired, length - 1, sizeof p.records) == COUPLINGNUT_BAD_SAMPLES, "an odd number of bytes is refused 5");
    check(read_pair(&p, 1, wired, length, sizeof p.records) == COUPLINGNUT_BAD_SAMPLES, "the select of an absent chip low is refused 5");
    p.chips[0].contended = 1;
    check(read_pair(&p, 2, wired, length, sizeof p.records) == COUPLINGNUT_BAD_SESSION, "a mark at rest is refused 1");
    p.chips[0].active_start = UINT64_MAX;
    check(read_pair(&p, 2, wired, length, sizeof p.records) == COUPLINGNUT_BAD_CHIPS, "a range beyond all memory is refused 17, before 1");
}
