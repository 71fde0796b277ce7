/*
 * Couplingnut for C and C++: a reader and a sender for the serial control interface (ADI-SPI) of a chip.
 *
 * The reader takes sampled levels of the four lines and the map of the chip's registers, and tells what passed: a record for
 * each byte written or read and for each piece broken off, and what every register then holds. The sender makes the samples of
 * one read or write run.
 *
 * The library is libcouplingnut.a (`make library`), for x86-64 Linux. Its code is proved: for every input each call
 * ends, answers as written here, and touches no memory but what it was lent. It keeps nothing between calls, so any thread may
 * call it at any time.
 *
 * How a recording is read:
 *
 *     couplingnut_session session;
 *     uint8_t active[16], buffer[16];    (a byte for each register of the map)
 *     uint64_t words[1] = {0};           (a bit for each register: those that were touched)
 *     uint8_t records[COUPLINGNUT_RECORDS_SIZE(4096)];
 *     uint64_t count;
 *
 *     couplingnut_open(map, map_length, &session, active, 16, buffer, 16);
 *     for each piece of at most 4,096 samples:
 *         couplingnut_read(map, map_length, &session, active, 16, buffer, 16, words, 1, piece, piece_length,
 *                          records, sizeof records, &count);
 *         (`count` records of 7 bytes stand at the start of `records`)
 *
 * THE MAP is bytes that say what registers the chip has: 2 bytes, how many bytes follow them; 1 byte, the version, 1 or 2;
 * 2 bytes, the number n of registers, 16 to 8,192; in version 2 a flag byte, 0 or 1; then for each register, from address 0 on,
 * 3 bytes: kind (0 blank, 1 read-only, 2 plain, 3 buffered, 4 control), mask of the bits that can be written, default. Numbers
 * of 2 bytes have the high byte first. With bit 0 of the flags set the end of a frame in which a whole byte went to a buffered
 * register puts every buffered register in force, as a transfer does; no record is made of it.
 *
 * THE BANKS are two pieces of memory of n bytes each that the caller keeps. `active` holds what is in force, `buffer` what was
 * written to buffered registers and waits for a transfer. Between the calls on one recording nobody else writes them.
 *
 * A SAMPLE is a byte: bit 0 CSB, bit 1 SCLK, bit 2 SDIO, bit 3 SDO; bits 4 to 7 are zero.
 *
 * A RECORD is 7 bytes: its kind (1 write, 2 read, 3 broken off); the address, high byte first; then
 *     of a write:      the byte written; what the register holds after it (0 with effect 0); the effect: 0 none, 1 the register
 *                      changed, 2 its buffer did, 3 settings, 4 a transfer, 5 a soft reset
 *     of a read:       the byte due from the register; the byte on the line; 0 if they are equal, else 1
 *     if broken off:   how many bits were there; 0 in an instruction, 1 in data; 0
 * and last, of a write with effect 1 or 2, the bits in which the register's byte, or its buffer's, differs from the one before it;
 * 0 in all others.
 *
 * Each call gives back a number, the lowest that applies (of the converter 13 before 11, of mending 18 before 6, of the fewest frames 19
 * before 11; 12 after 4, and in the sender first); they are listed below.
 *
 * SEVERAL CHIPS, up to eight with a select each, are read by one call. A sample is then two bytes: the selects, bit i that of chip i, low
 * selects, those of absent chips high; and the lines, SCLK, SDIO and SDO in bits 1 to 3, the rest zero. Each chip has a session and two
 * ranges, its banks, of one memory. A record is 8 bytes: the chip's place in the list, 0 to 7, and the record as above. Where the select of
 * another chip was low at one of the eight edges of a byte that was read, its record says 2 instead of 0 or 1: both may have driven the
 * line, so that its byte shows nothing of the register. All else of a chip is as if it had been read alone, its select as CSB.
 *
 * THE OLDER CHIPS. All of the above is about the newer chips. Two older clock chips, the AD9557 and the AD9508, speak an older form of
 * the interface. They have calls of their own, whose names end with the part, and that take its highest address, the top, first. What is
 * different with them:
 *   - An instruction has a direction, two length bits and 13 address bits. Lengths 0, 1 and 2 mean a run of 1, 2 and 3 bytes; 3 means that
 *     the run streams. Highest bit first the addresses go down, lowest first up.
 *   - A run ends after its count, at address 0 going down and at the top going up; one that starts above the top has no byte at all. The
 *     bits that follow are passed over until the select rises: no record, and nothing is broken off.
 *   - Before each byte of a counted run the select may rise; the run stalls, and goes on as the select falls. While streaming, or inside a
 *     byte or an instruction, a rise ends the frame, as on newer chips.
 *   - Control registers are 0x0000 (bit 6: lowest bit first, from the next instruction on), 0x0005 (bit 0: a transfer) and, on the AD9557,
 *     0x0004 (bit 0: reads give the buffer of a buffered register). They read as that one bit, 0x0005 as 0. There is no soft reset. Data
 *     is read from SDIO, and there is no single instruction.
 *   - The map has an entry for each address up to the top, so n = top + 1. Control stands at exactly those places; every other place may
 *     have any other kind. Both versions are read; the flag does nothing.
 */
#ifndef COUPLINGNUT_H
#define COUPLINGNUT_H

#include <stddef.h>
#include <stdint.h>

#ifdef __cplusplus
extern "C" {
#endif

/* Has the compiler warn of a pointer that is plainly null. */
#ifdef __GNUC__
#define COUPLINGNUT_NOT_NULL __attribute__((nonnull))
#else
#define COUPLINGNUT_NOT_NULL
#endif

/* The numbers that calls give back: done, or why not. couplingnut_message has words for each. */
enum couplingnut_number {
    COUPLINGNUT_DONE = 0,
    COUPLINGNUT_BAD_SESSION = 1,        /* the bytes are no session, or one that no samples could go on from; or a mark where none can be */
    COUPLINGNUT_BAD_MAP_FORM = 2,       /* the map's length, version, n or flags are wrong, or it has fewer than 5 bytes */
    COUPLINGNUT_BAD_MAP_ENTRY = 3,      /* a register of the map breaks a rule */
    COUPLINGNUT_BAD_BANK = 4,           /* a bank isn't n bytes */
    COUPLINGNUT_BAD_SAMPLES = 5,        /* more than 65,536 samples, or one with a spare bit set; of several chips also an odd number
                                           of bytes, or the select of an absent chip low */
    COUPLINGNUT_SHORT_RECORDS = 6,      /* the records, or the list of what mending alters, need more bytes than are lent */
    COUPLINGNUT_BAD_ORDER = 7,          /* the direction is above 1, or the settings number above 7 (to an older chip above 1) */
    COUPLINGNUT_BAD_COUNT = 8,          /* the count isn't 1 to 1,000, or the data isn't as long as it says (a read has none) */
    COUPLINGNUT_BAD_START = 9,          /* the start address is above 0x7FFF; to an older chip: the run leaves 0 to the top */
    COUPLINGNUT_BAD_SINGLE = 10,        /* a single-instruction write with 0x0000 or 0x0001 anywhere but last */
    COUPLINGNUT_SHORT_OUT = 11,         /* the outgoing buffer is too short */
    COUPLINGNUT_BAD_TOP = 12,           /* an older chip's top is below 0x000F, above 0x1FFF, or with a map not n - 1 */
    COUPLINGNUT_FLAG_LOST = 13,         /* a map with a flag set has no version 1 */
    COUPLINGNUT_BAD_LIST = 14,          /* a list ends inside an order, or has one of another form, or more than 64 */
    COUPLINGNUT_LONG_SETUP = 15,        /* the orders of a list give more than 65,536 samples in total */
    COUPLINGNUT_BAD_WORDS = 16,         /* the words of touched registers: for a reader not n / 64 rounded up; for their own calls more than 128 */
    COUPLINGNUT_BAD_CHIPS = 17,         /* no chip or more than eight, or ranges that overlap or leave the memory */
    COUPLINGNUT_BAD_PRODUCT = 18,       /* the product number of a map to be mended is 0x0000 or 0xFFFF */
    COUPLINGNUT_BAD_REGISTERS = 19      /* no register or more than 1,000, not strictly rising, one above 0x7FFF or a control
                                           register, or another number of bytes than addresses */
};

/* How many bytes a record has, and how many hold the records of so many samples, whatever they are. */
enum { COUPLINGNUT_RECORD_SIZE = 7 };
#define COUPLINGNUT_RECORDS_SIZE(samples) (COUPLINGNUT_RECORD_SIZE * (((samples) + 2) / 3))

/* No map has more bytes. */
enum { COUPLINGNUT_MOST_MAP = 24582 };

/* How many bytes an altered entry has in mending's list; a map of n registers never needs more than n times as many. */
enum { COUPLINGNUT_ALTERED_SIZE = 5 };

/* No call of the reader takes more samples. */
enum { COUPLINGNUT_MOST_READ = 65536 };

/*
 * Where a recording stands between two calls: nothing but these bytes, so it can be copied, compared and stored. Opening makes
 * the first one. Version 4 of the layout, a byte for each field but the two numbers of 2 bytes, high byte first:
 *
 *      0         the version, 4
 *      1, 2      the last CSB and SCLK
 *      3         the phase: 0 rest, 1 instruction, 2 data
 *      4         how many bits of the present instruction or byte are taken
 *      5, 6      their value
 *      7, 8      the address
 *      9         the direction: 0 write, 1 read
 *     10 to 14   the settings: LSB first, ascending, SDO active, single instruction, buffer readback
 *     15 to 18   the first four of them as the present instruction uses them
 *     19         of an older chip in data: how many bytes of its run are left, the one under way included: 1 to 3, or 4 where it streams;
 *                else 0
 *     20         armed: 1 where the end of the frame under way moves the buffered registers (map flag 1); a newer chip's alone
 *
 * Flags are 0 or 1. Bytes with another version, phase or flag are no session.
 *
 * An older chip has two more places to stand. It passes bits over: phase 0 with byte 1 (the last CSB) 0. And it stalls: phase 2 with byte 1
 * at 1. A stalled session is a good one, and no mistake of the reader: the select rose inside a counted run, and the chip goes on with
 * that run as the select falls. So the next frame is read as the rest of it, and not as a new instruction. Whoever stops a counted run
 * on the way and wants to begin anew has to send the bytes that are left first. A newer chip's call refuses both with 1, and so does
 * any call a session in data that its chip can't have; at rest and in an instruction a session fits every chip.
 */
#define COUPLINGNUT_SESSION_SIZE 21
typedef struct couplingnut_session {
    uint8_t bytes[COUPLINGNUT_SESSION_SIZE];
} couplingnut_session;

/*
 * One of several chips: its session, its mark, and where its banks are in the one memory of all. Opening a chip is couplingnut_open on its
 * two ranges, with the mark 0. The mark is 1 while bits of a read byte are taken and another select was low at the edge of one of them, else
 * 0; leave it to the calls.
 */
typedef struct couplingnut_chip {
    couplingnut_session session;
    uint8_t contended;
    uint64_t active_start;
    uint64_t active_length;
    uint64_t buffer_start;
    uint64_t buffer_length;
} couplingnut_chip;

enum { COUPLINGNUT_MOST_CHIPS = 8 };

/* How many bytes a record of several chips has, and how many hold the records of so many chips and samples, whatever they are. */
enum { COUPLINGNUT_SEVERAL_RECORD_SIZE = 8 };
#define COUPLINGNUT_SEVERAL_RECORDS_SIZE(chips, samples) (COUPLINGNUT_SEVERAL_RECORD_SIZE * (chips) * (((samples) + 2) / 3))

/* The direction of an order. */
enum { COUPLINGNUT_WRITE = 0, COUPLINGNUT_READ = 1 };

/* The settings number of an order is the sum of those that the chip has set. */
enum { COUPLINGNUT_LSB_FIRST = 1, COUPLINGNUT_ASCENDING = 2, COUPLINGNUT_SINGLE_INSTRUCTION = 4 };

/* The highest address that an older chip can have: at least and at most. */
enum { COUPLINGNUT_LEAST_TOP = 0x000F, COUPLINGNUT_MOST_TOP = 0x1FFF };

/* No order takes more samples: 3 + 48 * 1,000, for 1,000 bytes with single instruction. Streaming takes 35 + 16 * count. */
enum { COUPLINGNUT_MOST_SAMPLES = 48003 };

/* A list has no more orders, and gives no more samples in total: a recording that one call of the reader takes. */
enum { COUPLINGNUT_MOST_ORDERS = 64, COUPLINGNUT_MOST_SETUP = 65536 };

/* How many bytes an order with so much data has in a list. */
#define COUPLINGNUT_LISTED_SIZE(data_length) (8 + (data_length))

/* No more registers are taken for the fewest frames, and no orders of so many take more bytes. */
enum { COUPLINGNUT_MOST_REGISTERS = 1000 };
#define COUPLINGNUT_FRAMES_SIZE(registers) (COUPLINGNUT_LISTED_SIZE(1) * (registers))

/* How many words have a bit for each of so many registers, and for the most that a map can have. */
#define COUPLINGNUT_TOUCHED_WORDS(registers) (((registers) + 63) / 64)
enum { COUPLINGNUT_MOST_WORDS = 128 };

/*
 * What the library exports.
 *
 * The caller owes, for each call:
 *   - Each pointer with a length after it points to as many bytes, addresses, words or chips as the length says. It is not null, also where
 *     that length is 0. Addresses, words and chips are aligned as their type asks.
 *   - session points to a session, and count, taken, samples, length and address to a number each. They are not null.
 *   - What isn't const overlaps nothing else that is passed, and nobody else uses it during the call; nobody writes what is.
 * Nothing else: every value of every byte and number is allowed, and tested before it is cut to a smaller type.
 *
 * A refusal (any number but 0) puts 0 in *count, *taken, *samples, *length and *address, and leaves all else that was lent as it was.
 * Only opening puts the opened session into *session even then.
 */

/* Tests a register map: 0, 2 or 3. */
COUPLINGNUT_NOT_NULL
uint32_t couplingnut_map_test(const uint8_t *map, size_t map_length);

/*
 * Puts the map, as one of version 1 or 2, at the start of out, how many bytes it is in *length: 0, 2, 3 or 11, and to version 1
 * also 13, which comes before 11. The rest of out is unchanged. A map of the wished version is copied; version 2 is made with
 * flags 0.
 */
COUPLINGNUT_NOT_NULL
uint32_t couplingnut_to_version_1(const uint8_t *map, size_t map_length, uint8_t *out, size_t out_length, uint64_t *length);

COUPLINGNUT_NOT_NULL
uint32_t couplingnut_to_version_2(const uint8_t *map, size_t map_length, uint8_t *out, size_t out_length, uint64_t *length);

/*
 * Corrects a map of right form in its own bytes, so that the map test accepts it: 0, 2, 18 or 6, in this order. Places that are fixed get
 * what is asked of them; there the read-only ones but the vendor bytes, and the scratch pad, keep their defaults. Elsewhere unknown kinds
 * and control entries become blank, and masks and defaults that must be 0 are cleared. The head, flags included, is never altered. Each
 * entry altered stands at the start of list, by rising address: 2 bytes, the address, high byte first, and the 3 bytes that it had;
 * *length says how many bytes that is, and the rest of list is unchanged. So a good map stays as it was, with *length 0, and the list
 * tells how to get the old map back. The rules are those of the map test: another chip's map is bent to them.
 */
COUPLINGNUT_NOT_NULL
uint32_t couplingnut_mend(uint8_t *map, size_t map_length, uint8_t *list, size_t list_length, uint64_t *length);

/* Puts the default of each register in both banks, and the opened session into *session: 0, or 2 to 4. */
COUPLINGNUT_NOT_NULL
uint32_t couplingnut_open(const uint8_t *map, size_t map_length, couplingnut_session *session, uint8_t *active,
                          size_t active_length, uint8_t *buffer, size_t buffer_length);

/*
 * Reads samples, which go on from *session: 0, or 1 to 6, or 16, which comes after 4. *session and the banks become what the samples
 * lead to, and each register that is written gets its bit in the words, COUPLINGNUT_TOUCHED_WORDS(n) of them (see the mark). The records
 * stand at the start of `records` in order of time, and *count says how many; the rest of it is unchanged. A recording may be
 * cut into pieces anywhere.
 */
COUPLINGNUT_NOT_NULL
uint32_t couplingnut_read(const uint8_t *map, size_t map_length, couplingnut_session *session, uint8_t *active,
                          size_t active_length, uint8_t *buffer, size_t buffer_length, uint64_t *words,
                          size_t words_length, const uint8_t *samples, size_t samples_length, uint8_t *records,
                          size_t records_length, uint64_t *count);

/*
 * Reads samples up to and with the first that gives a record, or all of them: 0, or 1 to 6, or 16. It leaves what couplingnut_read of
 * just those samples leaves; *count is 0 or 1, and *taken says how many samples were read. With *count 1 the record stands at
 * sample *taken - 1, and the next call goes on at sample *taken. Number 5 looks at all samples handed in, 6 at the one record.
 */
COUPLINGNUT_NOT_NULL
uint32_t couplingnut_next_record(const uint8_t *map, size_t map_length, couplingnut_session *session, uint8_t *active,
                                 size_t active_length, uint8_t *buffer, size_t buffer_length, uint64_t *words,
                                 size_t words_length, const uint8_t *samples, size_t samples_length, uint8_t *records,
                                 size_t records_length, uint64_t *count, uint64_t *taken);

/*
 * Reads the samples of several newer chips with one map: 0, 17, or 1 to 6; 17 comes first. Each chip's session and mark, and its ranges of
 * the memory, become what the samples lead to; the rest of the memory is unchanged. The records stand at the start of `records`, by sample
 * and then by chip, and *count says how many. Ranges share no byte, a chip's own two neither; each is n bytes. The samples are
 * samples_length / 2 of two bytes. There are no words of touched registers.
 */
COUPLINGNUT_NOT_NULL
uint32_t couplingnut_read_several(const uint8_t *map, size_t map_length, couplingnut_chip *chips, size_t chips_length,
                                  uint8_t *memory, size_t memory_length, const uint8_t *samples, size_t samples_length,
                                  uint8_t *records, size_t records_length, uint64_t *count);

/* Puts the samples of an order at the start of out, their count in *samples: 0, or 7 to 11. The rest of out is unchanged. */
COUPLINGNUT_NOT_NULL
uint32_t couplingnut_send(uint64_t direction, uint64_t settings, uint64_t start, uint64_t count, const uint8_t *data,
                          size_t data_length, uint8_t *out, size_t out_length, uint64_t *samples);

/*
 * Sends a whole setup: puts the samples of up to 64 orders, each sent after the one before it, at the start of out, and their count in
 * *samples: 0, 7 to 11, 14 or 15. The rest of out is unchanged. `settings` is one number for all of them. An order of the list is
 * 2 bytes, how many follow them (6 and the data); 1 byte, the version, 1; 1 byte, the direction; 2 bytes, the start address; 2 bytes,
 * the count; then the data, as for couplingnut_send. Numbers of 2 bytes have the high byte first. 14 comes before all else; 7 to 10 are
 * those of the first bad order; 15 comes before 11. An empty list gives no samples, with any settings number.
 */
COUPLINGNUT_NOT_NULL
uint32_t couplingnut_send_setup(uint64_t settings, const uint8_t *list, size_t list_length, uint8_t *out, size_t out_length,
                                uint64_t *samples);

/*
 * Makes the fewest streaming write orders, in one direction, that write each listed register once with its byte and no other: puts them
 * at the start of out, as couplingnut_send_setup takes them, by rising start, and how many bytes they are in *length: 0, 19 or 11. The
 * rest of out is unchanged. `ascending` is 0 for descending runs, which start at the highest register of a row and have its bytes
 * backwards; anything else is ascending. Send them with a settings number of that direction, without single instruction. There are as
 * many bytes as addresses; these rise strictly, up to 0x7FFF, without the control registers 0x0000, 0x0001 and 0x000F. More than 64
 * orders can come of it: a list is then cut between two orders.
 */
COUPLINGNUT_NOT_NULL
uint32_t couplingnut_fewest_frames(uint64_t ascending, const uint16_t *addresses, size_t addresses_length, const uint8_t *bytes,
                                   size_t bytes_length, uint8_t *out, size_t out_length, uint64_t *length);

/*
 * The same for the older chips; `top` is the highest address that the part has. Each leaves what its newer call leaves, by the older
 * chip's rules. A refusal may also be 12: in the map test after 3, in the others after 4. The same part and top go with one recording from
 * its opening to its end.
 */
COUPLINGNUT_NOT_NULL
uint32_t couplingnut_map_test_ad9557(uint64_t top, const uint8_t *map, size_t map_length);

COUPLINGNUT_NOT_NULL
uint32_t couplingnut_map_test_ad9508(uint64_t top, const uint8_t *map, size_t map_length);

COUPLINGNUT_NOT_NULL
uint32_t couplingnut_open_ad9557(uint64_t top, const uint8_t *map, size_t map_length, couplingnut_session *session,
                                 uint8_t *active, size_t active_length, uint8_t *buffer, size_t buffer_length);

COUPLINGNUT_NOT_NULL
uint32_t couplingnut_open_ad9508(uint64_t top, const uint8_t *map, size_t map_length, couplingnut_session *session,
                                 uint8_t *active, size_t active_length, uint8_t *buffer, size_t buffer_length);

COUPLINGNUT_NOT_NULL
uint32_t couplingnut_read_ad9557(uint64_t top, const uint8_t *map, size_t map_length, couplingnut_session *session,
                                 uint8_t *active, size_t active_length, uint8_t *buffer, size_t buffer_length,
                                 uint64_t *words, size_t words_length, const uint8_t *samples, size_t samples_length,
                                 uint8_t *records, size_t records_length, uint64_t *count);

COUPLINGNUT_NOT_NULL
uint32_t couplingnut_read_ad9508(uint64_t top, const uint8_t *map, size_t map_length, couplingnut_session *session,
                                 uint8_t *active, size_t active_length, uint8_t *buffer, size_t buffer_length,
                                 uint64_t *words, size_t words_length, const uint8_t *samples, size_t samples_length,
                                 uint8_t *records, size_t records_length, uint64_t *count);

COUPLINGNUT_NOT_NULL
uint32_t couplingnut_next_record_ad9557(uint64_t top, const uint8_t *map, size_t map_length, couplingnut_session *session,
                                        uint8_t *active, size_t active_length, uint8_t *buffer, size_t buffer_length,
                                        uint64_t *words, size_t words_length, const uint8_t *samples, size_t samples_length,
                                        uint8_t *records, size_t records_length, uint64_t *count, uint64_t *taken);

COUPLINGNUT_NOT_NULL
uint32_t couplingnut_next_record_ad9508(uint64_t top, const uint8_t *map, size_t map_length, couplingnut_session *session,
                                        uint8_t *active, size_t active_length, uint8_t *buffer, size_t buffer_length,
                                        uint64_t *words, size_t words_length, const uint8_t *samples, size_t samples_length,
                                        uint8_t *records, size_t records_length, uint64_t *count, uint64_t *taken);

/*
 * Sends an order to an older chip; the samples are the same for either part: 0, 12, or 7, 8, 9 or 11. `settings` is 0, or
 * COUPLINGNUT_LSB_FIRST: the addresses then go up, else down. Up to 3 bytes are a counted run, more stream; it takes 35 + 16 * count
 * samples. 12 comes first.
 */
COUPLINGNUT_NOT_NULL
uint32_t couplingnut_send_older(uint64_t top, uint64_t direction, uint64_t settings, uint64_t start, uint64_t count,
                                const uint8_t *data, size_t data_length, uint8_t *out, size_t out_length, uint64_t *samples);

/*
 * The touched registers are kept as a bit each in words that the caller lends: address a is bit a mod 64, from the lowest, of word
 * a / 64. These calls take any number of words up to 128, and all bits of them, whatever registers a map has: 0, or 16 for more words.
 *
 * A mark clears every bit.
 */
COUPLINGNUT_NOT_NULL
uint32_t couplingnut_touched_mark(uint64_t *words, size_t words_length);

/* Puts how many bits are set in *count. */
COUPLINGNUT_NOT_NULL
uint32_t couplingnut_touched_count(const uint64_t *words, size_t words_length, uint64_t *count);

/* Puts the first address from `from` on, that one included, whose bit is set in *address, or 64 times the number of words if none is. */
COUPLINGNUT_NOT_NULL
uint32_t couplingnut_touched_next(const uint64_t *words, size_t words_length, uint64_t from, uint64_t *address);

/* What a number says and what to do, in words, for those listed above; never null. Its code is host/message.c. */
const char *couplingnut_message(uint32_t number);

#ifdef __cplusplus
}
#endif

/* An order as one struct, and lists of orders. */
#include "couplingnut_order.h"

#endif
