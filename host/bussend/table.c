/* A table of registers, sent with the fewest runs that write them. */
#include "bussend.h"

#include <stdio.h>
#include <stdlib.h>

/* A register of a table with its byte, and the line that it stands in. */
struct row {
    uint16_t address;
    uint8_t byte;
    size_t line;
};

/* The registers of a table, and the line of the one too many, if there is one. */
struct table {
    struct row *rows;
    size_t count;
    size_t room;
    size_t over;
};

/* Adds the register of a line to the table. */
static bool read_register(char **words, size_t most, void *into)
{
    struct table *table = into;
    uint64_t address;
    uint8_t byte;

    (void)most;
    if (words[1] == NULL || words[2] != NULL) {
        return wrong_words("a line of a table is ADDRESS BYTE");
    }
    if (!read_number("ADDRESS", words[0], &address) || !read_byte(words[1], &byte)) {
        return false;
    }
    if (address > UINT16_MAX) {
        return wrong("ADDRESS", words[0], "give an address, up to 0x7FFF");
    }
    if (table->count == table->room) {
        table->room = 2 * table->room + 64;
        table->rows = memory(table->rows, table->room * sizeof *table->rows);
    }
    if (table->count == COUPLINGNUT_MOST_REGISTERS) {
        table->over = place.line;
    }
    table->rows[table->count++] = (struct row){(uint16_t)address, byte, place.line};
    return true;
}

/* By address, and at one address by line. */
static int compare_rows(const void *one, const void *other)
{
    const struct row *a = one, *b = other;

    if (a->address != b->address) {
        return a->address < b->address ? -1 : 1;
    }
    return a->line < b->line ? -1 : 1;
}

/* Puts a table in order of addresses. A register that stands in it twice is told with both lines. */
static bool sort_table(struct table *table)
{
    if (table->count != 0) {
        qsort(table->rows, table->count, sizeof *table->rows, compare_rows);
    }
    for (size_t i = 1; i < table->count; i++) {
        const struct row *row = table->rows + i;
        if (row->address == row[-1].address) {
            place.line = row->line;
            say_place();
            fprintf(stderr, "register 0x%04X stands in line %zu too\n", (unsigned)row->address, row[-1].line);
            return false;
        }
    }
    return true;
}

/* The first line with a register that may not be listed or is one too many, 0 where there is none. The library is asked which it is. */
static size_t unlisted_line(const struct table *table)
{
    uint8_t out[COUPLINGNUT_FRAMES_SIZE(1)];
    uint64_t length;
    size_t line = table->over;

    for (size_t i = 0; i < table->count; i++) {
        const struct row *row = table->rows + i;
        if (couplingnut_fewest_frames(0, &row->address, 1, &row->byte, 1, out, sizeof out, &length) != 0 &&
            (line == 0 || row->line < line)) {
            line = row->line;
        }
    }
    return line;
}

/* The place after up to 64 orders of a list that begin at a place: a list that may be sent. */
static size_t cut_list(const uint8_t *list, size_t from, size_t length)
{
    size_t at = from;

    for (int orders = 0; orders < COUPLINGNUT_MOST_ORDERS && at < length; orders++) {
        at += 2 + (size_t)(list[at] * 256 + list[at + 1]);
    }
    return at;
}

/*
 * Sends orders, cut into lists of up to 64, as one recording. Those of 1,000 registers give at most 35 + 16 samples for each, 51,000:
 * no list comes near its limit, and the room of one list is enough for all.
 */
static int send_lists(uint64_t settings, const uint8_t *list, size_t length)
{
    static uint8_t out[COUPLINGNUT_MOST_SETUP];
    size_t sent = 0;
    uint64_t samples;

    for (size_t from = 0, end; from < length; from = end) {
        uint32_t number;
        end = cut_list(list, from, length);
        number = couplingnut_send_list(settings, list + from, end - from, out + sent, sizeof out - sent, &samples);
        if (number != 0) {
            return refused(number);
        }
        sent += (size_t)samples;
    }
    return write_out("the samples", out, sent);
}

/* Makes the fewest orders of a table in order, and sends them. */
static int send_fewest(uint64_t settings, const struct table *table)
{
    uint16_t *addresses = memory(NULL, (table->count + 1) * sizeof *addresses);
    uint8_t *bytes = memory(NULL, table->count + 1);
    static uint8_t list[COUPLINGNUT_FRAMES_SIZE(COUPLINGNUT_MOST_REGISTERS)];
    uint64_t length;
    uint32_t number;

    for (size_t i = 0; i < table->count; i++) {
        addresses[i] = table->rows[i].address;
        bytes[i] = table->rows[i].byte;
    }
    number = couplingnut_fewest_frames(settings & COUPLINGNUT_ASCENDING, addresses, table->count, bytes, table->count, list,
                                       sizeof list, &length);
    free(addresses);
    free(bytes);
    if (number != 0) {
        place.line = unlisted_line(table);
        return refused(number);
    }
    return send_lists(settings, list, (size_t)length);
}

int send_table(char **words)
{
    struct table table = {0};
    struct chosen chosen = {0};
    int status;

    if (!read_newer_options(&words, &chosen, "--fewest is for the newer chips: send the runs of an older one by one")) {
        return WRONG_WORDS;
    }
    if ((chosen.settings & COUPLINGNUT_SINGLE_INSTRUCTION) != 0) {
        wrong("OPTION", "--single", "the fewest runs are streaming");
        return WRONG_WORDS;
    }
    if (words[0] == NULL || words[1] != NULL) {
        wrong_words("--fewest has one TABLE");
        return WRONG_WORDS;
    }
    status = read_file(words[0], read_register, &table);
    if (status == DONE) {
        status = sort_table(&table) ? send_fewest(chosen.settings, &table) : WRONG_WORDS;
    }
    free(table.rows);
    return status;
}
