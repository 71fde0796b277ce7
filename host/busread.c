/*
 * busread: what passed on the bus, line by line, from a register map and the samples of a recording.
 *
 * Exit status: 0 done; 1 the map or a sample was refused; 2 the command line is wrong; 3 input or output failed. Standard error
 * says which. The reading itself is proved code (crates/text_recording_c); here are the command line, the files and the words alone.
 * COUPLINGNUT_VERSION comes from the build.
 */
#include "couplingnut.h"
#include "recording.h"

#include <errno.h>
#include <fcntl.h>
#include <inttypes.h>
#include <signal.h>
#include <stdbool.h>
#include <stdio.h>
#include <string.h>
#include <unistd.h>

enum { DONE = 0, REFUSED = 1, WRONG_WORDS = 2, FAILED = 3 };

static const char usage[] = "usage: busread [--part PART] [MAP [SAMPLES]]\n"
                            "       busread --help | --version\n"
                            "MAP and SAMPLES are files, or - for standard input. Without SAMPLES the samples come from standard\n"
                            "input, and without MAP the map comes before them. The records go to standard output.\n"
                            "PART is AD9557 or AD9508: the recording is of such an older clock chip, and MAP is its map.\n";

static const char standard_input[] = "standard input";

/* A reading of recording.h. */
typedef uint32_t reading_call(const uint8_t *map, size_t size, uint64_t *number, uint64_t *samples, uint64_t *fell, uint64_t *rose);

/* The parts that --part can name. */
static const struct {
    const char *name;
    reading_call *call;
} parts[] = {
    {"AD9557", couplingnut_read_recording_ad9557},
    {"AD9508", couplingnut_read_recording_ad9508},
};

/* What the command line asks for: how to read, and the words of MAP and SAMPLES. */
struct asked {
    reading_call *call;
    const char *files[2];
    size_t count;
};

/* What a reading tells beside how it ended. */
struct told {
    uint64_t number;
    uint64_t samples;
    uint64_t fell;
    uint64_t rose;
};

/* A file of the recording: the name for words about it, and the open file. */
struct source {
    const char *name;
    int file;
};

/* Says that a file failed, by errno. */
static int failed(const char *name)
{
    fprintf(stderr, "busread: %s: %s\n", name, strerror(errno));
    return FAILED;
}

/* Opens a file that a word names. */
static int open_source(const char *word, struct source *source)
{
    source->name = standard_input;
    source->file = STDIN_FILENO;
    if (strcmp(word, "-") == 0) {
        return DONE;
    }
    source->name = word;
    source->file = open(word, O_RDONLY | O_CLOEXEC);
    return source->file < 0 ? failed(word) : DONE;
}

/* Says which number was given, what that means and, of a bad sample, which one it is. */
static int say_refused(const struct told *told)
{
    fprintf(stderr, "busread: refused %" PRIu64 ": %s\n", told->number, couplingnut_message((uint32_t)told->number));
    if (told->number == 5) {
        fprintf(stderr, "busread: the bad sample is number %" PRIu64 " of the recording, counted from 0\n", told->samples);
    }
    return REFUSED;
}

/* Says why a recording has no record, where it can't have one. */
static int say_dead(const struct told *told)
{
    if (told->samples == 0) {
        fprintf(stderr, "busread: 0 records: the recording is empty\n");
    } else if (!told->fell) {
        fprintf(stderr, "busread: 0 records: the select never fell\n");
    } else if (!told->rose) {
        fprintf(stderr, "busread: 0 records: the clock never rose while selected\n");
    }
    return DONE;
}

/* Puts an open file in the place of standard input, which the proved code reads. */
static bool stand_in(int file)
{
    return file == STDIN_FILENO || dup2(file, STDIN_FILENO) == STDIN_FILENO;
}

/* Reads the samples on a map that was taken. */
static int read_samples(reading_call *call, const uint8_t *bytes, size_t size, const char *map, const char *samples)
{
    struct told told;

    switch (call(bytes, size, &told.number, &told.samples, &told.fell, &told.rose)) {
    case RECORDING_DONE:
        return say_dead(&told);
    case RECORDING_REFUSED:
        return say_refused(&told);
    case RECORDING_MAP_FAILED:
        return failed(map);
    case RECORDING_SAMPLES_FAILED:
        return failed(samples);
    default:
        return failed("standard output");
    }
}

/* Reads the recording of two open files, or of one. While the map's file stands in, a samples' file that is standard input is kept. */
static int read_recording(reading_call *call, const struct source *map, const struct source *samples)
{
    static uint8_t bytes[RECORDING_MAP_SPACE];
    bool own = map->file != samples->file;
    int file = samples->file;
    uint64_t size;

    if (own && file == STDIN_FILENO && (file = dup(file)) < 0) {
        return failed(samples->name);
    }
    if (!stand_in(map->file) || couplingnut_read_map(own, bytes, &size) != RECORDING_DONE) {
        return failed(map->name);
    }
    return stand_in(file) ? read_samples(call, bytes, (size_t)size, map->name, samples->name) : failed(samples->name);
}

/* Says what is wrong with the command line. */
static int wrong_words(const char *what, const char *word)
{
    fprintf(stderr, "busread: %s%s%s%s\n%s", what, word == NULL ? "" : " \"", word == NULL ? "" : word,
            word == NULL ? "" : "\"", usage);
    return WRONG_WORDS;
}

/* Prints a text that was asked for. */
static int print(const char *text)
{
    return fputs(text, stdout) < 0 || fclose(stdout) != 0 ? failed("standard output") : DONE;
}

/* Takes the name of a part, once. */
static int take_part(const char *name, struct asked *asked)
{
    if (asked->call != couplingnut_read_recording) {
        return wrong_words("--part is given twice", NULL);
    }
    for (size_t i = 0; i < sizeof parts / sizeof parts[0]; i++) {
        if (strcmp(name, parts[i].name) == 0) {
            asked->call = parts[i].call;
            return DONE;
        }
    }
    return wrong_words("--part is AD9557 or AD9508, and not", name);
}

/* Takes a file's word. */
static int take_file(const char *word, struct asked *asked)
{
    if (asked->count == sizeof asked->files / sizeof asked->files[0]) {
        return wrong_words("there are words after SAMPLES", NULL);
    }
    asked->files[asked->count++] = word;
    return DONE;
}

/* Takes the words of a command line, up to the first wrong one. */
static int take_words(char **words, struct asked *asked)
{
    static const char part[] = "--part=";
    int status = DONE;

    for (; *words != NULL && status == DONE; words++) {
        if (strcmp(*words, "--part") == 0 && words[1] == NULL) {
            status = wrong_words("there is no name after --part", NULL);
        } else if (strcmp(*words, "--part") == 0) {
            status = take_part(*++words, asked);
        } else if (strncmp(*words, part, sizeof part - 1) == 0) {
            status = take_part(*words + sizeof part - 1, asked);
        } else if ((*words)[0] == '-' && (*words)[1] != '\0') {
            status = wrong_words("there is no option", *words);
        } else {
            status = take_file(*words, asked);
        }
    }
    return status;
}

int main(int argc, char **argv)
{
    struct asked asked = {couplingnut_read_recording, {"-", "-"}, 0};
    struct source map;
    struct source samples;
    int status;

    /* A reader that has gone is then a write that fails. */
    signal(SIGPIPE, SIG_IGN);
    if (argc > 1 && strcmp(argv[1], "--help") == 0) {
        return print(usage);
    }
    if (argc > 1 && strcmp(argv[1], "--version") == 0) {
        return print("busread " COUPLINGNUT_VERSION "\n");
    }
    status = argc > 1 ? take_words(argv + 1, &asked) : DONE;
    if (status == DONE) {
        status = open_source(asked.files[0], &map);
    }
    if (status == DONE) {
        status = open_source(asked.files[1], &samples);
    }
    return status == DONE ? read_recording(asked.call, &map, &samples) : status;
}
