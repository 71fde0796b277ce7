/* What bussend says and writes, and the numbers that it reads out of words. */
#include "bussend.h"

#include <errno.h>
#include <stdio.h>
#include <stdlib.h>
#include <string.h>

struct place place;

void say_place(void)
{
    fprintf(stderr, "bussend: ");
    if (place.file != NULL && place.line != 0) {
        fprintf(stderr, "%s:%zu: ", place.file, place.line);
    } else if (place.file != NULL) {
        fprintf(stderr, "%s: ", place.file);
    }
}

bool wrong(const char *name, const char *word, const char *advice)
{
    say_place();
    fprintf(stderr, "%s is \"%s\": %s\n", name, word, advice);
    return false;
}

bool wrong_words(const char *what)
{
    say_place();
    fprintf(stderr, "%s\n%s", what, place.file == NULL ? usage : "");
    return false;
}

/* The value of a digit, 16 for any other character. */
static unsigned digit_of(char c)
{
    if (c >= '0' && c <= '9') {
        return (unsigned)(c - '0');
    }
    if (c >= 'a' && c <= 'f') {
        return (unsigned)(c - 'a') + 10;
    }
    if (c >= 'A' && c <= 'F') {
        return (unsigned)(c - 'A') + 10;
    }
    return 16;
}

bool read_number(const char *name, const char *word, uint64_t *number)
{
    bool hex = word[0] == '0' && (word[1] == 'x' || word[1] == 'X');
    const char *digits = hex ? word + 2 : word;
    unsigned base = hex ? 16 : 10;
    uint64_t value = 0;

    if (*digits == '\0') {
        return wrong(name, word, "give decimal digits, or 0x and hex digits");
    }
    for (; *digits != '\0'; digits++) {
        unsigned digit = digit_of(*digits);
        if (digit >= base) {
            return wrong(name, word, "give decimal digits, or 0x and hex digits");
        }
        if (value > (UINT64_MAX - digit) / base) {
            return wrong(name, word, "give a number of at most 64 bits, below 18446744073709551616");
        }
        value = value * base + digit;
    }
    *number = value;
    return true;
}

bool read_byte(const char *word, uint8_t *byte)
{
    uint64_t number;

    if (!read_number("BYTE", word, &number)) {
        return false;
    }
    *byte = (uint8_t)number;
    return number <= 255 || wrong("BYTE", word, "give a byte, 0 to 255");
}

int write_out(const char *what, const void *bytes, size_t count)
{
    if (fwrite(bytes, 1, count, stdout) != count || fclose(stdout) != 0) {
        fprintf(stderr, "bussend: %s could not be written: %s\n", what, strerror(errno));
        return FAILED;
    }
    return DONE;
}

int refused(uint32_t number)
{
    say_place();
    fprintf(stderr, "refused %u: %s\n", (unsigned)number, couplingnut_message(number));
    return REFUSED;
}

void *memory(void *old, size_t size)
{
    void *new = realloc(old, size);

    if (new == NULL) {
        fprintf(stderr, "bussend: no memory for %s\n", place.file);
        exit(FAILED);
    }
    return new;
}
