/*
 * The bench program's reading, as busread.c calls it. The library is libtext_recording.a (`make build`), of the crate
 * text_recording_c; its code is proved.
 *
 * The calls read standard input and write standard output, and nothing else: a host puts the file that is to be read in the place of
 * standard input.
 */
#ifndef RECORDING_H
#define RECORDING_H

#include <stdbool.h>
#include <stddef.h>
#include <stdint.h>

/* How a reading ends. After a failure errno has the reason. */
enum {
    RECORDING_DONE = 0,
    RECORDING_REFUSED = 1,
    RECORDING_MAP_FAILED = 2,
    RECORDING_SAMPLES_FAILED = 3,
    RECORDING_OUTPUT_FAILED = 4
};

/* The bytes for the largest map, and one more by which a file is seen to be longer than its map. */
#define RECORDING_MAP_SPACE 24583

/*
 * Takes a map: its length field, and what that announces. Where the file is the map's own, a byte more is taken, if there is one, and
 * the map is then refused for it. Answers RECORDING_DONE or RECORDING_MAP_FAILED, and puts in *size how many bytes were taken. map has
 * RECORDING_MAP_SPACE bytes. The pointers are not null and differ.
 */
uint32_t couplingnut_read_map(bool own, uint8_t *map, uint64_t *size);

/*
 * Reads the samples of a newer chip's recording on a map that was taken, and writes document 01's text. Answers how it ended, and puts
 *   - in *number the number of a refusal, 1 to 5, or 0;
 *   - in *samples how many samples were read; on number 5 that is the number of the first bad one, counted from 0;
 *   - in *fell 1 where the select fell, else 0;
 *   - in *rose 1 where a clock edge came with the select low, else 0.
 * The pointers are not null and differ.
 */
uint32_t couplingnut_read_recording(const uint8_t *map, size_t size, uint64_t *number, uint64_t *samples, uint64_t *fell, uint64_t *rose);

/*
 * The same of the older clock chips AD9557 and AD9508, one call for each. The highest address of the part is the last one of the map.
 * The last line of the text has no `slow`.
 */
uint32_t couplingnut_read_recording_ad9557(const uint8_t *map, size_t size, uint64_t *number, uint64_t *samples, uint64_t *fell,
                                           uint64_t *rose);
uint32_t couplingnut_read_recording_ad9508(const uint8_t *map, size_t size, uint64_t *number, uint64_t *samples, uint64_t *fell,
                                           uint64_t *rose);

#endif
