/* The lines of a list or table, parted into words. */
#include "bussend.h"

#include <errno.h>
#include <stdio.h>
#include <stdlib.h>
#include <string.h>

/* Parts a line into words, up to a comment; a null pointer ends them. */
static void part_words(char *line, char **words)
{
    line[strcspn(line, "#")] = '\0';
    for (char *word = strtok(line, " \t\r\n"); word != NULL; word = strtok(NULL, " \t\r\n")) {
        *words++ = word;
    }
    *words = NULL;
}

/* Reads one line, and hands on its words if it has any. */
static bool read_line(char *line, size_t length, line_reader *reader, void *into)
{
    size_t most = length / 2 + 1;
    char **words = memory(NULL, (most + 1) * sizeof *words);
    bool good;

    if (memchr(line, '\0', length) != NULL) {
        good = wrong_words("a zero byte is no text");
    } else {
        part_words(line, words);
        good = *words == NULL || reader(words, most, into);
    }
    free(words);
    return good;
}

/* Reads all lines of an open file. */
static int read_lines(FILE *file, line_reader *reader, void *into)
{
    char *line = NULL;
    size_t room = 0;
    ssize_t length = 0;
    bool good = true;

    while (good && (length = getline(&line, &room, file)) >= 0) {
        place.line++;
        good = read_line(line, (size_t)length, reader, into);
    }
    free(line);
    if (good && ferror(file)) {
        fprintf(stderr, "bussend: %s could not be read: %s\n", place.file, strerror(errno));
        return FAILED;
    }
    return good ? DONE : WRONG_WORDS;
}

int read_file(const char *name, line_reader *reader, void *into)
{
    FILE *file = strcmp(name, "-") == 0 ? stdin : fopen(name, "r");
    int status;

    if (file == NULL) {
        fprintf(stderr, "bussend: %s could not be opened: %s\n", name, strerror(errno));
        return FAILED;
    }
    place.file = name;
    status = read_lines(file, reader, into);
    place.line = 0;
    fclose(file);
    return status;
}
