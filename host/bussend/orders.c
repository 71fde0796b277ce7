/* Options and orders out of words, of the command line or of a line of a list. */
#include "bussend.h"

#include <string.h>

/* The options, and what each adds to the settings number. */
static const struct {
    const char *word;
    uint64_t setting;
} options[] = {
    {"--lsb", COUPLINGNUT_LSB_FIRST},
    {"--ascending", COUPLINGNUT_ASCENDING},
    {"--single", COUPLINGNUT_SINGLE_INSTRUCTION},
};

/* The older chips. The samples are the same for all of them, so that a part is only looked up. */
static const char *const parts[] = {"AD9557", "AD9508"};

/* Takes an option that stands alone, and adds its setting. */
static bool take_setting(const char *word, struct chosen *chosen)
{
    for (size_t i = 0; i < sizeof options / sizeof options[0]; i++) {
        if (strcmp(word, options[i].word) == 0) {
            chosen->settings |= options[i].setting;
            return true;
        }
    }
    return wrong("OPTION", word, "give --lsb, --ascending or --single, or --part and --top");
}

/* Takes the word after --part. */
static bool take_part(const char *word, struct chosen *chosen)
{
    for (size_t i = 0; i < sizeof parts / sizeof parts[0]; i++) {
        if (strcmp(word, parts[i]) == 0) {
            chosen->part = parts[i];
            return true;
        }
    }
    return wrong("PART", word, "give AD9557 or AD9508");
}

/* Takes the word after --top. */
static bool take_top(const char *word, struct chosen *chosen)
{
    chosen->top_word = word;
    return read_number("TOP", word, &chosen->top);
}

/* Reads the options before the other words. */
static bool read_options(char ***words, struct chosen *chosen)
{
    for (; **words != NULL && (**words)[0] == '-' && (**words)[1] != '\0'; ++*words) {
        bool part = strcmp(**words, "--part") == 0;
        if (!part && strcmp(**words, "--top") != 0) {
            if (!take_setting(**words, chosen)) {
                return false;
            }
            continue;
        }
        if (*++*words == NULL) {
            return wrong_words(part ? "--part has a PART" : "--top has a TOP");
        }
        if (!(part ? take_part(**words, chosen) : take_top(**words, chosen))) {
            return false;
        }
    }
    return true;
}

/* Says whether the options go together: a part has a top, and its bit order alone; only a part has a top. */
static bool goes_together(const struct chosen *chosen)
{
    if ((chosen->part == NULL) != (chosen->top_word == NULL)) {
        return wrong_words("--part and --top go together");
    }
    if (chosen->part != NULL && chosen->settings > COUPLINGNUT_LSB_FIRST) {
        return wrong_words("an older chip has --lsb alone: with it the addresses go up, without it down");
    }
    return true;
}

bool read_newer_options(char ***words, struct chosen *chosen, const char *what)
{
    if (!read_options(words, chosen)) {
        return false;
    }
    return (chosen->part == NULL && chosen->top_word == NULL) || wrong_words(what);
}

/* Reads the bytes of a write: each word is one. */
static bool read_bytes(char **words, uint8_t *bytes, struct couplingnut_order *order)
{
    order->data = bytes;
    for (; *words != NULL; words++) {
        if (!read_byte(*words, bytes + order->data_length++)) {
            return false;
        }
    }
    order->count = order->data_length;
    return true;
}

/* Reads the count of a read, the last word. */
static bool read_count(char **words, struct couplingnut_order *order)
{
    if (words[0] == NULL) {
        return wrong_words("COUNT is missing");
    }
    if (words[1] != NULL) {
        return wrong_words("a read has nothing after COUNT");
    }
    return read_number("COUNT", words[0], &order->count);
}

bool read_order(char **words, uint8_t *bytes, struct couplingnut_order *order, struct chosen *chosen)
{
    bool reads = *words != NULL && strcmp(*words, "read") == 0;

    if (!reads && (*words == NULL || strcmp(*words, "write") != 0)) {
        return wrong_words("the first word is write or read");
    }
    order->direction = reads ? COUPLINGNUT_READ : COUPLINGNUT_WRITE;
    words++;
    if (place.file == NULL && !(read_options(&words, chosen) && goes_together(chosen))) {
        return false;
    }
    order->settings = chosen->settings;
    if (*words == NULL) {
        return wrong_words("START is missing");
    }
    if (!read_number("START", *words, &order->start)) {
        return false;
    }
    return reads ? read_count(words + 1, order) : read_bytes(words + 1, bytes, order);
}
