/*
 * SPDX-License-Identifier: BSL-1.0
 *
 * Timed cellar networks: the answers in words.
 *
 * Each call writes what one of the verified programs prints, byte for byte:
 * the words of a verdict, of a schedule, of a run. Link with
 * libtimed_network_words.a, which `bash tools/archive` puts to
 * target/staticlib. It needs no other archive, and may be linked beside
 * libtimed_network.a: the two share no name. Of the C library it calls memcpy
 * and memset.
 *
 * What holds for every call here: it always returns, whatever the bytes are,
 * and it keeps nothing from one call to the next. A table that is refused is
 * no refusal of the call: its text says so, and begins with "refused ". A text
 * is ASCII, ends with a line feed, and has no zero byte behind it.
 *
 * What the caller sees to: a pointer leads to as many bytes or numbers as its
 * length says (2^63 - 1 bytes at most), and with length 0 is not used; the
 * bytes lent for the text overlap nothing else that is lent; offsets are
 * aligned. The stack that a call takes stands in docs/LINKING.md: a text, but
 * the listing, is made on the stack before it is laid over the bytes lent.
 */
#ifndef TIMED_NETWORK_WORDS_H
#define TIMED_NETWORK_WORDS_H

#include <stddef.h>
#include <stdint.h>

/*
 * Enough bytes to lend, for any table and any numbers: no text is longer, so
 * that no call that is lent so many answers 13.
 */
#define TIMED_NETWORK_WORDS_VERDICT_ENOUGH 164930
#define TIMED_NETWORK_WORDS_SCHEDULE_ENOUGH 78874
#define TIMED_NETWORK_WORDS_CHART_ENOUGH 552
#define TIMED_NETWORK_WORDS_SPREAD_ENOUGH 170
#define TIMED_NETWORK_WORDS_REASONS_ENOUGH 6000
#define TIMED_NETWORK_WORDS_RUN_ENOUGH 225700
#define TIMED_NETWORK_WORDS_SIMULATION_ENOUGH 300
#define TIMED_NETWORK_WORDS_REFUSAL_ENOUGH 170

#ifdef __cplusplus
extern "C" {
#endif

/*
 * The answer of every call here. 16 bytes.
 *
 * number: 0, or 13 where fewer bytes are lent than the text has. With 13 no
 *         lent byte is written.
 * size:   how many bytes the text has, with 13 too: so a call that is lent
 *         nothing tells how many to lend. With 0 these bytes are written, at
 *         the front of those lent, and those behind stay.
 */
typedef struct timed_network_words_numbers {
    uint8_t number;
    size_t size;
} timed_network_words_numbers;

/*
 * A table's verdict where nodes may wake so many ticks apart, as
 * `verdict_printer SPREAD` prints it: accepted, or the refusal with its
 * question, where the check stopped, and which windows met. Spread 0: they
 * wake together.
 */
timed_network_words_numbers
timed_network_words_verdict(const uint8_t *table, size_t length, uint32_t spread,
                            uint8_t *text, size_t text_length);

/*
 * A table's schedule, a line a passage, as `schedule_printer` prints it.
 */
timed_network_words_numbers
timed_network_words_schedule(const uint8_t *table, size_t length,
                             uint8_t *text, size_t text_length);

/*
 * A table's schedule as a chart, a row a component, as `chart_printer` prints
 * it.
 */
timed_network_words_numbers
timed_network_words_chart(const uint8_t *table, size_t length,
                          uint8_t *text, size_t text_length);

/*
 * The largest spread at which a table is accepted, as `spread_printer` prints
 * it.
 */
timed_network_words_numbers
timed_network_words_spread(const uint8_t *table, size_t length,
                           uint8_t *text, size_t text_length);

/*
 * Why a component took the edge that it passes over at a tick, and no other,
 * as `reason_printer COMPONENT TICK` prints it.
 */
timed_network_words_numbers
timed_network_words_reasons(const uint8_t *table, size_t length,
                            uint32_t component, uint32_t tick,
                            uint8_t *text, size_t text_length);

/*
 * A run of a table's programs under a list of choices, as
 * `trial_run TABLE CHOICES SPREAD OFFSETS` prints it. Spread 0 and no offset:
 * the nodes start together.
 */
timed_network_words_numbers
timed_network_words_run(const uint8_t *table, size_t length,
                        const uint8_t *choices, size_t choices_length,
                        uint32_t spread,
                        const uint32_t *offsets, size_t offsets_length,
                        uint8_t *text, size_t text_length);

/*
 * Simulated runs with drawn work times, as `simulate_runs LO HI RUNS SEED`
 * prints them.
 */
timed_network_words_numbers
timed_network_words_simulation(const uint8_t *table, size_t length,
                               uint32_t lo, uint32_t hi, uint32_t runs,
                               uint32_t seed,
                               uint8_t *text, size_t text_length);

/*
 * A refusal of any call of timed_network.h, by its number and component: the
 * words that the programs have for it, with the question and whom it concerns.
 */
timed_network_words_numbers
timed_network_words_refusal(uint8_t number, uint8_t component,
                            uint8_t *text, size_t text_length);

/*
 * A program's listing, a statement a line, as `program_listing` prints it: of
 * any bytes, of which the first 65536 are read. No number of bytes is enough for
 * every program: a damaged one's blocks may overlap, and its listing may have
 * gigabytes, which are counted before a byte is written. So lend nothing first,
 * where the program may be damaged.
 */
timed_network_words_numbers
timed_network_words_listing(const uint8_t *program, size_t length,
                            uint8_t *text, size_t text_length);

#ifdef __cplusplus
}
#endif

#endif
