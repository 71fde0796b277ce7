/* A list of orders, sent as one recording. */
#include "bussend.h"

#include <stdlib.h>

/* The orders of a list as the library takes them, how many they are, and the lines of the first ones: those of all that a list may
 * have, and of the one too many. */
struct setup {
    uint8_t *bytes;
    size_t length;
    size_t room;
    size_t orders;
    size_t lines[COUPLINGNUT_MOST_ORDERS + 1];
};

/* Puts an order at the end of the list. */
static bool add_order(struct setup *setup, const struct couplingnut_order *order)
{
    size_t size = COUPLINGNUT_LISTED_SIZE(order->data_length);

    if (order->start > UINT16_MAX || order->count > UINT16_MAX || order->data_length > UINT16_MAX - 6) {
        return wrong_words("START and COUNT have 16 bits in a list, and a run at most 1,000 bytes");
    }
    if (setup->room - setup->length < size) {
        setup->room = 2 * setup->room + size;
        setup->bytes = memory(setup->bytes, setup->room);
    }
    setup->length += couplingnut_list_order(order, setup->bytes + setup->length);
    if (setup->orders <= COUPLINGNUT_MOST_ORDERS) {
        setup->lines[setup->orders] = place.line;
    }
    setup->orders++;
    return true;
}

/* Adds the order of a line to the list. */
static bool read_listed(char **words, size_t most, void *into)
{
    struct couplingnut_order order = {0};
    uint8_t *bytes = memory(NULL, most);
    struct chosen none = {0};
    bool good = read_order(words, bytes, &order, &none) && add_order(into, &order);

    free(bytes);
    return good;
}

/* The line of the order that a number speaks of, 0 where it speaks of the whole list. The sender is asked which order it is. */
static size_t line_of(const struct setup *setup, uint64_t settings, uint32_t number)
{
    static uint8_t out[COUPLINGNUT_MOST_SAMPLES];
    const uint8_t *at = setup->bytes;

    if (number == COUPLINGNUT_BAD_LIST) {
        return setup->lines[COUPLINGNUT_MOST_ORDERS];
    }
    for (size_t i = 0; i < setup->orders; i++) {
        uint64_t samples;
        size_t size = 2 + (size_t)(at[0] * 256 + at[1]);
        if (couplingnut_send(at[3], settings, (uint64_t)(at[4] * 256 + at[5]), (uint64_t)(at[6] * 256 + at[7]), at + 8,
                             size - 8, out, sizeof out, &samples) != 0) {
            return setup->lines[i];
        }
        at += size;
    }
    return 0;
}

/* Has the sender carry out the orders of a list. */
static int send_list(const struct setup *setup, uint64_t settings)
{
    static uint8_t out[COUPLINGNUT_MOST_SETUP];
    uint64_t samples;
    uint32_t number = couplingnut_send_list(settings, setup->bytes, setup->length, out, sizeof out, &samples);

    if (number != 0) {
        place.line = line_of(setup, settings, number);
        return refused(number);
    }
    return write_out("the samples", out, (size_t)samples);
}

int send_file(char **words)
{
    struct setup setup = {0};
    struct chosen chosen = {0};
    int status;

    if (!read_newer_options(&words, &chosen, "--list is for the newer chips: send the runs of an older one by one")) {
        return WRONG_WORDS;
    }
    if (words[0] == NULL || words[1] != NULL) {
        wrong_words("--list has one FILE");
        return WRONG_WORDS;
    }
    status = read_file(words[0], read_listed, &setup);
    if (status == DONE) {
        status = send_list(&setup, chosen.settings);
    }
    free(setup.bytes);
    return status;
}
