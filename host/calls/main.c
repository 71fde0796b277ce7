/*
 * The calls through the header, as a C or C++ program makes them: every number, null pointers with length 0, what a refusal
 * leaves, and the words. Prints a line for each check, and ends with status 1 at the first that fails.
 */
#include "calls.h"

#include <stdio.h>
#include <stdlib.h>
#include <string.h>

/* A good map of sixteen registers: length, version and n; then kind, mask and default of each, four to a line. */
uint8_t map[MAP_SIZE] = {
    0x00, 0x33, 1, 0x00, 0x10,
    4, 0, 0,  4, 0, 0,  2, 0xFF, 0,  1, 0, 1,
    1, 0, 1,  1, 0, 1,  1, 0, 1,  0, 0, 0,
    2, 0, 0,  2, 0, 0,  2, 0xFF, 0,  1, 0, 1,
    1, 0, 0x56,  1, 0, 0x04,  0, 0, 0,  4, 0, 0,
};

void check(int holds, const char *name)
{
    if (!holds) {
        fprintf(stderr, "calls: it does not hold that %s\n", name);
        exit(1);
    }
    printf("ok %s\n", name);
}

static void check_words(void)
{
    const char *none = couplingnut_message(UINT32_MAX - 1);
    uint32_t i;
    uint32_t j;
    int unlike = 1;

    for (i = 0; i <= 19; i++) {
        unlike = unlike && strcmp(couplingnut_message(i), none) != 0;
        for (j = 0; j < i; j++) {
            unlike = unlike && strcmp(couplingnut_message(i), couplingnut_message(j)) != 0;
        }
    }
    check(unlike, "each number has its own words");
    check(strcmp(couplingnut_message(UINT32_MAX), none) == 0, "a number that no call gives has words too");
}

int main(void)
{
    check_open();
    check_read();
    check_touched_by_reading();
    check_rise();
    check_several();
    check_contended();
    check_several_refusals();
    check_next();
    check_convert();
    check_mend();
    check_map();
    check_send();
    check_joined();
    check_setup();
    check_long_setup();
    check_frames();
    check_registers();
    check_many_registers();
    check_touched();
    check_mark();
    check_older_send();
    check_older_map();
    check_stall();
    check_older_refusals();
    check_words();
    return 0;
}
