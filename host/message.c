/*
 * The words for document 01's numbers: what is wrong, and what to do. The programs and the library share them.
 */
#include "couplingnut.h"

static const char not_given[] = "no call gives this number";

/* By number. Each says what is wrong; after the semicolon, what to do. */
static const char *const messages[] = {
    "done",
    "the session is not sound; hand in the one that opening or the last call gave",
    "the map's length, version, number of registers or flags are wrong, or the input ended inside the map; make the map again, "
    "and check that only the samples follow it",
    "an entry of the map breaks a rule; correct its kind, mask or default, or what 0x0000 to 0x000F must be, and name the part if "
    "it is an AD9557 or AD9508",
    "a bank is not as long as the map has registers; lend two banks of as many bytes",
    "a sample has one of bits 4 to 7 set, or there are more than 65,536 in a call; record the four lines on bits 0 to 3 "
    "and clear the rest",
    "the records, or the list of what mending alters, need more room than was lent; lend seven bytes for every three samples, and "
    "seven more, or for a list five for each register of the map",
    "the direction is above 1, or the settings number above 7; 0 writes and 1 reads, and settings are 1, 2 and 4, added; an older "
    "chip has 1 alone",
    "the count is not 1 to 1,000, or the data is not as long as it says; split the run, and give a read no data",
    "the start address is above 0x7FFF, or a run to an older chip passes 0 or its top; addresses have 15 bits, and an older run goes "
    "down, or up with lowest bit first: shorten it, or start it elsewhere",
    "a single-instruction write has 0x0000 or 0x0001 anywhere but last; end the run with that byte, or write it on its own",
    "the outgoing buffer is too short; lend 35 + 16 bytes for each byte of the run, or 3 + 48 with single instruction; for a "
    "map 5 + 3 for each register, or 6 + 3 in version 2; for the fewest frames 9 for each register",
    "the top of an older chip is below 0x000F or above 0x1FFF, or is not the map's last address; name the highest address that the "
    "part has, and a map with an entry for each address up to it",
    "the map has a flag set, which version 1 has no place for; keep it in version 2, or clear the flag",
    "the list ends inside an order, an order of it has a length below 6 or another version than 1, or there are more than 64; "
    "write the lengths again, or cut the list in two",
    "the orders give more than 65,536 samples in total; cut the list in two",
    "the words for touched registers are not as many as the map needs, or more than 128; lend as many as it has registers, divided by "
    "64 and rounded up",
    "there is no chip or there are more than eight, or ranges of the bank memory overlap or leave it; hand in one to eight chips, and give "
    "each two ranges of its own inside the memory",
    "the product number of the map is 0x0000 or 0xFFFF, which mending can't guess; put the right one at 0x0004 (low byte) and 0x0005",
    "the list has no register or more than 1,000, they do not rise, one is above 0x7FFF or a control register, or there is not a byte "
    "for each; sort the registers, cut the list in two, and write 0x0000, 0x0001 and 0x000F by orders of their own",
};

const char *couplingnut_message(uint32_t number)
{
    if (number >= sizeof messages / sizeof messages[0]) {
        return not_given;
    }
    return messages[number];
}
