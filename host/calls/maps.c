/* The map test, the converter and mending. */
#include "calls.h"

#include <string.h>

/* Both ways, from a map of version 1, into a buffer with so much room; the rest of it is as before. */
void check_convert(void)
{
    uint8_t flagged[60];
    uint8_t back[60];
    uint64_t length = 12345;

    memset(flagged, PATTERN, sizeof flagged);
    check(couplingnut_to_version_2(map, sizeof map, flagged, 53, &length) == COUPLINGNUT_SHORT_OUT && length == 0 &&
              flagged[0] == PATTERN,
          "53 bytes for a map of version 2 are refused 11, and nothing is written");
    check(couplingnut_to_version_2(map, sizeof map, flagged, 54, &length) == COUPLINGNUT_DONE && length == 54 &&
              flagged[54] == PATTERN,
          "a map of 53 bytes is one of 54 in version 2");
    check(flagged[1] == 0x34 && flagged[2] == 2 && flagged[5] == 0 && memcmp(flagged + 6, map + 5, 48) == 0,
          "its length is 4 + 3n, its flags are 0, and the entries follow");
    check(couplingnut_map_test(flagged, 54) == COUPLINGNUT_DONE, "it passes the map test");
    memset(back, PATTERN, sizeof back);
    check(couplingnut_to_version_1(flagged, 54, back, sizeof back, &length) == COUPLINGNUT_DONE && length == sizeof map &&
              memcmp(back, map, sizeof map) == 0 && back[53] == PATTERN,
          "back again, every byte is as it was");
    flagged[5] = 1;
    memset(back, PATTERN, sizeof back);
    check(couplingnut_to_version_1(flagged, 54, back, 0, &length) == COUPLINGNUT_FLAG_LOST && length == 0,
          "with bit 0 set there is no way back: 13, before 11");
    check(couplingnut_to_version_2(flagged, 54, back, sizeof back, &length) == COUPLINGNUT_DONE && length == 54 &&
              memcmp(back, flagged, 54) == 0,
          "a map of the wished version is copied, flag and all");
    flagged[5] = 2;
    check(couplingnut_to_version_2(flagged, 54, back, sizeof back, &length) == COUPLINGNUT_BAD_MAP_FORM && length == 0,
          "a reserved flag is refused 2");
}

/* A list of mending put back into the map that was mended, entry by entry. */
static void put_back(uint8_t *mended, size_t head, const uint8_t *list, uint64_t length)
{
    uint64_t at;

    for (at = 0; at < length; at += COUPLINGNUT_ALTERED_SIZE) {
        memcpy(mended + head + 3 * (size_t)(list[at] * 256 + list[at + 1]), list + at + 2, 3);
    }
}

/* Four slips, as mending lists them: at 0x0000, at a free place, at 0x0003, and in the vendor bytes. */
static const uint8_t altered[] = {
    0, 0x00, 2, 0, 0,  0, 0x02, 4, 1, 2,  0, 0x03, 7, 8, 9,  0, 0x0C, 1, 0, 0x65,
};

/* Puts them into a good map of version 2. */
static void mistype(uint8_t *typed)
{
    memcpy(typed + 6, altered + 2, 3);
    memcpy(typed + 6 + 3 * 0x02, altered + 7, 3);
    memcpy(typed + 6 + 3 * 0x03, altered + 12, 3);
    memcpy(typed + 6 + 3 * 0x0C, altered + 17, 3);
}

/* What becomes of the map with the slips, and the list of them. */
static void check_mended(const uint8_t *typed)
{
    uint8_t mended[60];
    uint8_t list[80];
    uint64_t length = 12345;

    memcpy(mended, typed, 54);
    memset(list, PATTERN, sizeof list);
    check(couplingnut_mend(mended, 54, list, sizeof altered - 1, &length) == COUPLINGNUT_SHORT_RECORDS && length == 0 &&
              memcmp(mended, typed, 54) == 0 && list[0] == PATTERN,
          "a list one byte short is refused 6, and nothing is written");
    check(couplingnut_mend(mended, 54, list, sizeof altered, &length) == COUPLINGNUT_DONE && length == sizeof altered &&
              memcmp(list, altered, sizeof altered) == 0 && list[sizeof altered] == PATTERN,
          "four slips are listed by rising address, as they were");
    check(couplingnut_map_test(mended, 54) == COUPLINGNUT_DONE && mended[5] == 1, "the mended map passes the map test, with its flag");
    check(mended[6 + 3 * 0x02] == 0 && mended[6 + 3 * 0x03] == 1 && mended[6 + 3 * 0x03 + 2] == 9 && mended[6 + 3 * 0x0C + 2] == 0x56,
          "control at a free place becomes blank, a read-only place keeps its default, and a vendor byte does not");
    put_back(mended, 6, list, length);
    check(memcmp(mended, typed, 54) == 0, "the list gives the old map back");
}

/* Spoils the map with the slips further. */
static void check_mend_numbers(uint8_t *typed)
{
    uint8_t list[80];
    uint64_t length = 12345;

    memset(typed + 6 + 3 * 0x04, 0xFF, 6);
    check(couplingnut_mend(typed, 54, list, 0, &length) == COUPLINGNUT_BAD_PRODUCT && length == 0,
          "product number 0xFFFF is refused 18, before 6");
    typed[5] = 2;
    check(couplingnut_mend(typed, 54, list, 0, &length) == COUPLINGNUT_BAD_MAP_FORM && length == 0,
          "a reserved flag is refused 2, before 18");
}

/* A map of version 2 with its flag set: good, and with the slips. */
void check_mend(void)
{
    uint8_t good[60];
    uint8_t typed[60];
    uint8_t list[80];
    uint64_t length = 12345;

    check(couplingnut_to_version_2(map, sizeof map, good, sizeof good, &length) == COUPLINGNUT_DONE, "a map to be mended is made");
    good[5] = 1;
    memcpy(typed, good, 54);
    memset(list, PATTERN, sizeof list);
    check(couplingnut_mend(typed, 54, list, sizeof list, &length) == COUPLINGNUT_DONE && length == 0 && list[0] == PATTERN &&
              memcmp(typed, good, 54) == 0,
          "a good map is left as it was, with an empty list");
    mistype(typed);
    check_mended(typed);
    check_mend_numbers(typed);
}

void check_map(void)
{
    check(couplingnut_map_number(map, sizeof map) == 0, "a good map passes");
    check(couplingnut_map_number(map, sizeof map - 1) == 2, "a map that lacks its last byte is refused 2");
    check(couplingnut_map_number(NULL, 0) == 2, "a null map of length 0 is refused 2");
    map[5] = 2;
    check(couplingnut_map_number(map, sizeof map) == 3, "a map with a plain register at 0x0000 is refused 3");
}
