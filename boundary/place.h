/*
 * Memory lent to the library so that a byte read or written outside of it is
 * noticed, and the generator of the random cases.
 */
#ifndef PLACE_H
#define PLACE_H

#include <stddef.h>
#include <stdint.h>

/*
 * Where lent bytes stand.
 *
 * AT_END:   their last byte is the last before a page that allows no access.
 * AT_START: their first byte is the first behind such a page.
 * ON_HEAP:  in a block of malloc of exactly their length.
 */
enum where { AT_END, AT_START, ON_HEAP, PLACES };

/* Pages between two that allow no access, and a block of the heap. */
struct place {
    uint8_t *pages;
    size_t size;
    uint8_t *pattern;
    uint8_t *heap;
    uint8_t *lent;
    size_t length;
    enum where where;
};

/* A place for up to `capacity` bytes, rounded up to whole pages. */
struct place place_new(size_t capacity);

/*
 * Lends bytes to be read. In pages they can only be read. No bytes: the
 * pointer leads to a page without access, or is NULL (AT_START).
 */
const uint8_t *place_input(struct place *place, enum where where,
                           const uint8_t *bytes, size_t length);

/* Ends the loan; the bytes must be the ones handed in. */
void place_input_done(struct place *place, const uint8_t *bytes);

/* Lends memory to be written, filled with a pattern. */
uint8_t *place_output(struct place *place, enum where where, size_t length);

/*
 * Ends the loan. All bytes, around the lent ones too, must have the pattern
 * but the first `written` of the lent ones, which are copied to `result`.
 */
void place_output_done(struct place *place, size_t written, uint8_t *result);

/* What is being tried, for the message of a failure. */
void trying(const char *call, const char *name);

/* Ends the program with a message and status 1. */
void fail(const char *what);

/* Makes a fault of memory end the program with a message and status 1. */
void catch_faults(void);

/* xorshift64*: the same numbers on each machine. */
void random_start(uint64_t seed);
uint64_t random_number(void);

/* A number from 0 to count - 1; count must not be 0. */
size_t random_below(size_t count);

#endif
