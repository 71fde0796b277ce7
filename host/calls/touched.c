/* The words of touched registers. */
#include "calls.h"

#include <string.h>

/* As many words as may be lent, and one more. */
static uint64_t touched[COUPLINGNUT_MOST_WORDS + 1];

/* Sets the bits of these addresses in so many words, and no other; the words after them have every bit set. */
static void touch_only(size_t words, const uint16_t *addresses, size_t count)
{
    size_t i;

    memset(touched, 0xFF, sizeof touched);
    memset(touched, 0, words * sizeof touched[0]);
    for (i = 0; i < count; i++) {
        touched[addresses[i] / 64] |= (uint64_t)1 << addresses[i] % 64;
    }
}

/* How many bits of so many words are set, by the library; UINT64_MAX if it refuses. */
static uint64_t touched_count(size_t words)
{
    uint64_t count = 12345;

    return couplingnut_touched_count(touched, words, &count) == COUPLINGNUT_DONE ? count : UINT64_MAX;
}

/* The next one from an address on, the same way. */
static uint64_t touched_next(size_t words, uint64_t from)
{
    uint64_t address = 12345;

    return couplingnut_touched_next(touched, words, from, &address) == COUPLINGNUT_DONE ? address : UINT64_MAX;
}

void check_touched(void)
{
    static const uint16_t addresses[] = {0, 5, 63, 64, 200, 8191};
    const size_t most = COUPLINGNUT_MOST_WORDS;

    touch_only(most, addresses, 6);
    check(touched_count(most) == 6, "six touched registers are counted");
    check(touched_next(most, 0) == 0 && touched_next(most, 1) == 5 && touched_next(most, 5) == 5 && touched_next(most, 6) == 63,
          "the next one in a word is found, the start included");
    check(touched_next(most, 64) == 64 && touched_next(most, 65) == 200 && touched_next(most, 201) == 8191,
          "the next one in a later word is found");
    check(touched_next(most, 8191) == 8191 && touched_next(most, 8192) == 8192 && touched_next(most, UINT64_MAX) == 8192,
          "past the last there is none: 64 times the number of words");
    check(touched_count(4) == 5 && touched_next(4, 201) == 256, "words after those that are lent are not looked at");
    check(touched_count(0) == 0 && touched_next(0, 0) == 0 && touched_next(0, 1) == 0, "no words have no touched register");
    touch_only(2, addresses, 0);
    check(touched_count(2) == 0 && touched_next(2, 0) == 128, "untouched words have none either");
    touch_only(0, addresses, 0);
    check(touched_count(most) == 8192, "words with every bit set have 8,192");
}

/* Whether a mark clears so many words, and leaves those after them with every bit set. */
static int marked(size_t words)
{
    size_t i;
    int as_said = couplingnut_touched_mark(touched, words) == COUPLINGNUT_DONE;

    for (i = 0; i < sizeof touched / sizeof touched[0]; i++) {
        as_said = as_said && touched[i] == (i < words ? 0 : UINT64_MAX);
    }
    return as_said;
}

void check_mark(void)
{
    uint64_t told = 12345;
    uint64_t before[COUPLINGNUT_MOST_WORDS + 1];

    touch_only(0, NULL, 0);
    memcpy(before, touched, sizeof before);
    check(couplingnut_touched_mark(touched, COUPLINGNUT_MOST_WORDS + 1) == COUPLINGNUT_BAD_WORDS &&
              memcmp(touched, before, sizeof before) == 0,
          "a mark of 129 words is refused 16, and they are as they were");
    check(couplingnut_touched_count(touched, COUPLINGNUT_MOST_WORDS + 1, &told) == COUPLINGNUT_BAD_WORDS && told == 0,
          "a count of 129 words is refused 16, and tells 0");
    told = 12345;
    check(couplingnut_touched_next(touched, COUPLINGNUT_MOST_WORDS + 1, 7, &told) == COUPLINGNUT_BAD_WORDS && told == 0,
          "a search in 129 words is refused 16, and tells 0");
    check(marked(0), "a mark of no words clears nothing");
    check(marked(2), "a mark of two words clears them, and no other");
    check(marked(COUPLINGNUT_MOST_WORDS), "a mark of 128 words clears them all");
    check(COUPLINGNUT_TOUCHED_WORDS(63) == 1 && COUPLINGNUT_TOUCHED_WORDS(64) == 1 && COUPLINGNUT_TOUCHED_WORDS(65) == 2 &&
              COUPLINGNUT_TOUCHED_WORDS(8192) == COUPLINGNUT_MOST_WORDS,
          "a word is for 64 registers");
}
