/*
 * bussend: the samples of one read or write run, of a whole list of them, or of the fewest that write a table of registers, one byte
 * each, on standard output.
 *
 * Exit status: 0 done; 1 the order, the list or the table was refused; 2 the command line or a line of the list or table is wrong; 3 it
 * could not be read or the samples not written. Standard error says which; with 1 and 2 nothing was written. COUPLINGNUT_VERSION comes
 * from the build.
 */
#include "bussend.h"

#include <signal.h>
#include <stdio.h>
#include <stdlib.h>
#include <string.h>

const char usage[] = "usage: bussend write [--lsb] [--ascending] [--single] START [BYTE..]\n"
                     "       bussend read [--lsb] [--ascending] [--single] START COUNT\n"
                     "       bussend write|read --part PART --top TOP [--lsb] START ..\n"
                     "       bussend --list [--lsb] [--ascending] [--single] FILE\n"
                     "       bussend --fewest [--lsb] [--ascending] TABLE\n"
                     "       bussend --help | --version\n"
                     "Numbers are decimal, or hexadecimal after 0x. The samples go to standard output.\n"
                     "PART is an older chip, AD9557 or AD9508, and TOP the highest address that it has.\n"
                     "A line of FILE is an order, write START [BYTE..] or read START COUNT; # begins a comment.\n"
                     "A line of TABLE is a register and its byte, ADDRESS BYTE; the fewest streaming writes are sent.\n";

static const char version[] = "bussend " COUPLINGNUT_VERSION "\n";

/* Has the sender carry out an order, to a newer chip or to the part that is chosen. */
static int send_order(const struct couplingnut_order *order, const struct chosen *chosen)
{
    static uint8_t out[COUPLINGNUT_MOST_SAMPLES];
    uint64_t samples;
    uint32_t number = chosen->part == NULL ? couplingnut_send_order(order, out, sizeof out, &samples)
                                           : couplingnut_send_order_older(chosen->top, order, out, sizeof out, &samples);

    return number != 0 ? refused(number) : write_out("the samples", out, (size_t)samples);
}

int main(int argc, char **argv)
{
    struct couplingnut_order order = {0};
    struct chosen chosen = {0};
    uint8_t *bytes = malloc((size_t)argc + 1);
    int status = WRONG_WORDS;

    /* A reader that has gone is then a write that fails. */
    signal(SIGPIPE, SIG_IGN);
    if (bytes == NULL) {
        fprintf(stderr, "bussend: no memory for the bytes\n");
        return FAILED;
    }
    if (argc > 1 && strcmp(argv[1], "--help") == 0) {
        free(bytes);
        return write_out("the help", usage, sizeof usage - 1);
    }
    if (argc > 1 && strcmp(argv[1], "--version") == 0) {
        free(bytes);
        return write_out("the version", version, sizeof version - 1);
    }
    if (argc > 1 && strcmp(argv[1], "--list") == 0) {
        free(bytes);
        return send_file(argv + 2);
    }
    if (argc > 1 && strcmp(argv[1], "--fewest") == 0) {
        free(bytes);
        return send_table(argv + 2);
    }
    if (read_order(argv + (argc > 0), bytes, &order, &chosen)) {
        status = send_order(&order, &chosen);
    }
    free(bytes);
    return status;
}
