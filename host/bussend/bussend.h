/* What the files of bussend share: see main.c. */
#ifndef BUSSEND_H
#define BUSSEND_H

#include "couplingnut.h"

#include <stdbool.h>

/* How the program ends. */
enum { DONE = 0, REFUSED = 1, WRONG_WORDS = 2, FAILED = 3 };

extern const char usage[];

/* words.c: what is said and written, and numbers out of words. */

/* The line that is read of the list or table, and its name, null where the words are those of the command line. */
struct place {
    const char *file;
    size_t line;
};

extern struct place place;

/* Begins a line of standard error: who speaks, and of which line. */
void say_place(void);

/* Says what is wrong with a word. */
bool wrong(const char *name, const char *word, const char *advice);

/* Says what the command line or a line lacks or has too much of. */
bool wrong_words(const char *what);

/* Reads a whole word as a number of at most 64 bits. */
bool read_number(const char *name, const char *word, uint64_t *number);

/* Reads a word as a byte. */
bool read_byte(const char *word, uint8_t *byte);

/* Writes bytes to standard output, to the last one. */
int write_out(const char *what, const void *bytes, size_t count);

/* Says that the sender refused, and why. */
int refused(uint32_t number);

/* Memory of so many bytes, that of the given pointer or new; without any the program ends. */
void *memory(void *old, size_t size);

/* orders.c: options and orders out of words. */

/* What the options say: the settings number and, of an older chip, its part and its top. */
struct chosen {
    uint64_t settings;
    const char *part;
    const char *top_word;
    uint64_t top;
};

/* Reads the options of what is for the newer chips alone; the words say so where a part or a top is named. */
bool read_newer_options(char ***words, struct chosen *chosen, const char *what);

/* Reads words, which end with a null pointer, as an order; only the command line has options. There are more bytes than words. */
bool read_order(char **words, uint8_t *bytes, struct couplingnut_order *order, struct chosen *chosen);

/* lines.c: the lines of a file. */

/* What is done with the words of a line that has any; there are at most so many. */
typedef bool line_reader(char **words, size_t most, void *into);

/* Reads all lines of the file that a word names; - is standard input. */
int read_file(const char *name, line_reader *reader, void *into);

/* list.c */

/* Sends the list that the words after --list name. */
int send_file(char **words);

/* table.c */

/* Sends the table that the words after --fewest name. */
int send_table(char **words);

#endif
