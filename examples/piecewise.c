/*
 * An example host: reads a recording piece by piece, as it might come from an instrument, and prints each record with the sample at
 * whose end it stands.
 *
 *     cc piecewise.c $(pkg-config --cflags --libs couplingnut) -o piecewise
 *     ./piecewise scratch.map trace.samples
 */
#include <couplingnut.h>

#include <stdio.h>
#include <stdlib.h>

enum { PIECE = 4096, MOST_MAP = 5 + 3 * 8192 };

/* What is read: a map, and what goes from call to call. */
static uint8_t map[MOST_MAP + 1];
static size_t map_length;
static couplingnut_session session;
static uint8_t active[8192], buffer[8192];
static uint64_t words[COUPLINGNUT_MOST_WORDS];
static size_t registers;

/* Ends the program where a call was refused. */
static void accept(uint32_t number)
{
    if (number != 0) {
        fprintf(stderr, "piecewise: refused %u: %s\n", (unsigned)number, couplingnut_message(number));
        exit(1);
    }
}

/* Opens the map: the banks have as many bytes as it has registers, a number that stands in its bytes 3 and 4. */
static void open_map(FILE *file)
{
    map_length = fread(map, 1, sizeof map, file);
    accept(couplingnut_map_test(map, map_length));
    registers = (size_t)map[3] * 256 + map[4];
    accept(couplingnut_open(map, map_length, &session, active, registers, buffer, registers));
}

/* Reads one piece; first is the number of its first sample in the recording. */
static void read_piece(const uint8_t *samples, size_t length, unsigned long first)
{
    uint8_t record[COUPLINGNUT_RECORD_SIZE];
    uint64_t count, taken;
    size_t at;

    for (at = 0; at < length; at += (size_t)taken) {
        accept(couplingnut_next_record(map, map_length, &session, active, registers, buffer, registers, words,
                                       COUPLINGNUT_TOUCHED_WORDS(registers), samples + at, length - at, record, sizeof record, &count,
                                       &taken));
        if (count == 1) {
            printf("%lu: %c %02X%02X %02X %02X %u %02X\n", first + (unsigned long)(at + taken), "?WRC"[record[0]], record[1], record[2],
                   record[3], record[4], record[5], record[6]);
        }
    }
}

int main(int argc, char **argv)
{
    uint8_t samples[PIECE];
    unsigned long first = 0;
    size_t length;
    FILE *map_file = argc == 3 ? fopen(argv[1], "rb") : NULL;
    FILE *recording = argc == 3 ? fopen(argv[2], "rb") : NULL;

    if (map_file == NULL || recording == NULL) {
        fprintf(stderr, "usage: piecewise MAP SAMPLES\n");
        return 2;
    }
    open_map(map_file);
    while ((length = fread(samples, 1, sizeof samples, recording)) > 0) {
        read_piece(samples, length, first);
        first += length;
    }
    printf("scratch pad in force: %02X\n", active[0x000A]);
    return ferror(recording) ? 3 : 0;
}
