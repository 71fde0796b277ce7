/* Opening, reading, the next record, and what a reading leaves beside its records. */
#include "calls.h"

#include <string.h>

uint32_t open_map(struct recording *r)
{
    memset(r, PATTERN, sizeof *r);
    return couplingnut_open(map, sizeof map, &r->session, r->active, sizeof r->active, r->buffer, sizeof r->buffer);
}

uint32_t read_into(struct recording *r, const uint8_t *samples, size_t length, size_t room)
{
    return couplingnut_read(map, sizeof map, &r->session, r->active, sizeof r->active, r->buffer, sizeof r->buffer,
                            r->words, 1, samples, length, r->records, room, &r->count);
}

static uint32_t next_into(struct recording *r, const uint8_t *samples, size_t length, size_t room)
{
    return couplingnut_next_record(map, sizeof map, &r->session, r->active, sizeof r->active, r->buffer, sizeof r->buffer,
                                   r->words, 1, samples, length, r->records, room, &r->count, &r->taken);
}

const uint8_t written[2 * COUPLINGNUT_RECORD_SIZE] = {1, 0x00, 0x0A, 0x3C, 0x3C, 1, 0x3C, 1, 0x00, 0x09, 0x5A, 0x00, 1, 0x00};

size_t two_bytes(uint8_t *samples, size_t room)
{
    static const uint8_t data[2] = {0x3C, 0x5A};
    uint64_t count = 0;

    check(couplingnut_send(COUPLINGNUT_WRITE, 0, 0x000A, 2, data, sizeof data, samples, room, &count) == COUPLINGNUT_DONE,
          "a write of two bytes is sent");
    return (size_t)count;
}

void check_open(void)
{
    static const uint8_t opened[COUPLINGNUT_SESSION_SIZE] = {4, 1};
    struct recording r;

    check(open_map(&r) == COUPLINGNUT_DONE, "a good map is opened");
    check(memcmp(r.session.bytes, opened, sizeof opened) == 0, "the opened session is version 4, at rest with CSB high");
    check(r.active[0x0C] == 0x56 && r.buffer[0x0D] == 0x04, "both banks have the defaults");
    memset(&r, PATTERN, sizeof r);
    check(couplingnut_open(map, sizeof map, &r.session, r.active, 15, r.buffer, 16) == COUPLINGNUT_BAD_BANK &&
              memcmp(r.session.bytes, opened, sizeof opened) == 0 && r.active[0] == PATTERN && r.buffer[0] == PATTERN,
          "a bank of 15 bytes is refused 4, and only the session is written");
}

void check_read(void)
{
    struct recording r;
    struct recording before;
    uint8_t samples[100];
    size_t length = two_bytes(samples, sizeof samples);

    check(open_map(&r) == COUPLINGNUT_DONE && read_into(&r, samples, length, sizeof r.records) == COUPLINGNUT_DONE &&
              r.count == 2,
          "two records are read");
    check(memcmp(r.records, written, sizeof written) == 0 && r.records[sizeof written] == PATTERN,
          "they fill the start of the buffer");
    check(r.active[0x0A] == 0x3C && r.active[0x09] == 0, "the register has the byte, where its mask has ones");
    open_map(&r);
    before = r;
    before.count = 0;
    check(read_into(&r, samples, length, sizeof written - 1) == COUPLINGNUT_SHORT_RECORDS && memcmp(&r, &before, sizeof r) == 0,
          "room for one byte less is refused 6, and all is as it was");
    r.session.bytes[0] = 3;
    before = r;
    check(read_into(&r, samples, length, sizeof r.records) == COUPLINGNUT_BAD_SESSION && memcmp(&r, &before, sizeof r) == 0,
          "a session of version 3 is refused 1, and comes back as given");
}

/* The map in version 2 with the flag, and a buffered register at 0x0009 with default 0x11. */
static void flag_map(uint8_t *flagged, size_t room)
{
    static const uint8_t buffered[3] = {3, 0xFF, 0x11};
    uint64_t length = 0;

    check(couplingnut_to_version_2(map, sizeof map, flagged, room, &length) == COUPLINGNUT_DONE && length == room,
          "the map is made one of version 2");
    flagged[5] = 1;
    memcpy(flagged + 6 + 3 * 0x09, buffered, sizeof buffered);
}

/* Which registers were touched, through the reader. */
void check_touched_by_reading(void)
{
    uint8_t samples[100];
    struct recording r;
    struct recording before;
    size_t length = two_bytes(samples, sizeof samples);

    open_map(&r);
    check(couplingnut_touched_mark(r.words, 1) == COUPLINGNUT_DONE &&
              read_into(&r, samples, length, sizeof r.records) == COUPLINGNUT_DONE && r.words[0] == 0x600,
          "a write to 0x000A and 0x0009 touches just these, also where no bit moves");
    before = r;
    before.count = 0;
    check(couplingnut_read(map, sizeof map, &r.session, r.active, 16, r.buffer, 16, r.words, 0, samples, length, r.records,
                           sizeof r.records, &r.count) == COUPLINGNUT_BAD_WORDS &&
              memcmp(&r, &before, sizeof r) == 0,
          "no words for sixteen registers are refused 16, and all is as it was");
}

void check_rise(void)
{
    static const uint8_t data[1] = {0x22};
    uint8_t flagged[sizeof map + 1];
    uint8_t samples[51];
    struct recording r;
    uint64_t count = 0;

    flag_map(flagged, sizeof flagged);
    memset(&r, PATTERN, sizeof r);
    check(couplingnut_send(COUPLINGNUT_WRITE, 0, 0x0009, 1, data, 1, samples, sizeof samples, &count) == COUPLINGNUT_DONE &&
              couplingnut_open(flagged, sizeof flagged, &r.session, r.active, 16, r.buffer, 16) == COUPLINGNUT_DONE,
          "a write to a buffered register is sent, and the flagged map is opened");
    check(couplingnut_read(flagged, sizeof flagged, &r.session, r.active, 16, r.buffer, 16, r.words, 1, samples, 50, r.records,
                           sizeof r.records, &r.count) == COUPLINGNUT_DONE &&
              r.count == 1 && r.session.bytes[20] == 1 && r.active[0x09] == 0x11 && r.buffer[0x09] == 0x22,
          "before the select rises the session is armed, and the value waits");
    check(couplingnut_read(flagged, sizeof flagged, &r.session, r.active, 16, r.buffer, 16, r.words, 1, samples + 50, 1, r.records,
                           sizeof r.records, &r.count) == COUPLINGNUT_DONE &&
              r.count == 0 && r.session.bytes[20] == 0 && r.active[0x09] == 0x22,
          "as it rises the value comes in force, without a record");
    r.session.bytes[20] = 1;
    check(couplingnut_read(flagged, sizeof flagged, &r.session, r.active, 16, r.buffer, 16, r.words, 1, samples, 51, r.records,
                           sizeof r.records, &r.count) == COUPLINGNUT_BAD_SESSION,
          "a session that is armed at rest is refused 1");
}

void check_next(void)
{
    struct recording r;
    struct recording before;
    uint8_t samples[100];
    size_t length = two_bytes(samples, sizeof samples);

    open_map(&r);
    check(next_into(&r, samples, length, COUPLINGNUT_RECORD_SIZE) == COUPLINGNUT_DONE && r.count == 1 && r.taken == 49 &&
              memcmp(r.records, written, COUPLINGNUT_RECORD_SIZE) == 0,
          "the first record stands at sample 48");
    check(next_into(&r, samples + 49, length - 49, COUPLINGNUT_RECORD_SIZE) == COUPLINGNUT_DONE && r.count == 1 && r.taken == 16 &&
              memcmp(r.records, written + COUPLINGNUT_RECORD_SIZE, COUPLINGNUT_RECORD_SIZE) == 0,
          "the second at the sixteenth after it");
    before = r;
    before.count = 0;
    before.taken = 0;
    samples[length - 1] = 0x10;
    check(next_into(&r, samples + 65, length - 65, COUPLINGNUT_RECORD_SIZE) == COUPLINGNUT_BAD_SAMPLES &&
              memcmp(&r, &before, sizeof r) == 0,
          "a bad sample is refused 5, and all is as it was");
    samples[length - 1] = 0x01;
    check(next_into(&r, samples + 65, length - 65, 0) == COUPLINGNUT_DONE && r.count == 0 && r.taken == length - 65,
          "the rest gives no record, and needs no room");
}
