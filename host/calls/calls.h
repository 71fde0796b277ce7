/* What the files of this program share: see main.c. */
#ifndef CALLS_H
#define CALLS_H

#include "couplingnut.h"

enum { PATTERN = 0xEE, MAP_SIZE = 53 };

/* A good map of sixteen registers; check_map, the last that needs a good one, spoils it. */
extern uint8_t map[MAP_SIZE];

/* Prints that something holds, or ends the program. */
void check(int holds, const char *name);

/* A recording of sixteen registers with its session, its banks and room for records. */
struct recording {
    couplingnut_session session;
    uint8_t active[16];
    uint8_t buffer[16];
    uint8_t records[20];
    uint64_t words[1];
    uint64_t count;
    uint64_t taken;
};

uint32_t open_map(struct recording *r);
uint32_t read_into(struct recording *r, const uint8_t *samples, size_t length, size_t room);

/* The records of a write of 0x3C and 0x5A to 0x000A and 0x0009: 0x0009 has mask 0, so no bit moves. */
extern const uint8_t written[2 * COUPLINGNUT_RECORD_SIZE];

/* Sends that write, and gives the number of its samples. */
size_t two_bytes(uint8_t *samples, size_t room);

/* recordings.c */
void check_open(void);
void check_read(void);
void check_touched_by_reading(void);
void check_rise(void);
void check_next(void);

/* several.c */
void check_several(void);
void check_contended(void);
void check_several_refusals(void);

/* maps.c */
void check_convert(void);
void check_mend(void);
void check_map(void);

/* send.c */
void check_send(void);
void check_joined(void);
void check_setup(void);
void check_long_setup(void);

/* frames.c */
void check_frames(void);
void check_registers(void);
void check_many_registers(void);

/* touched.c */
void check_touched(void);
void check_mark(void);

/* older.c */
void check_older_send(void);
void check_older_map(void);
void check_stall(void);
void check_older_refusals(void);

#endif
