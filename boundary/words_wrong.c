/*
 * Wrong versions of the calls of timed_network_words.h, put in front of the
 * library's by the linker (--wrap): the environment's WRONG says which. Each has
 * one fault, and the trial of words.c must find it.
 */
#include <stdlib.h>

#include "words.h"

#define CALL(name)                                                                             \
    __typeof__(timed_network_words_##name) __real_timed_network_words_##name,                  \
        __wrap_timed_network_words_##name

CALL(verdict);
CALL(schedule);
CALL(chart);
CALL(spread);
CALL(reasons);
CALL(run);
CALL(simulation);
CALL(refusal);
CALL(listing);

static int wrong(int fault) {
    const char *asked = getenv("WRONG");
    return asked != NULL && atoi(asked) == fault;
}

/* A text laid over the bytes lent in a wrong way. */
static answer laid(answer found, uint8_t *text, size_t room) {
    if (wrong(1) && found.number == 13 && room > 0)
        text[0] ^= 1; /* a byte is written after 13 */
    if (wrong(2) && found.number == 13)
        found.size = 0; /* with 13 the size is not told */
    if (wrong(3) && found.number == 0 && room > found.size)
        text[found.size] ^= 1; /* a byte is written behind the text */
    if (wrong(4) && found.number == 13 && room + 1 == found.size)
        found.number = 0; /* one byte too few is accepted */
    if (wrong(5) && found.number == 0 && room == found.size)
        found.number = 13; /* a text that fills the bytes lent is refused */
    if (wrong(6) && found.number == 0 && found.size > 1)
        text[found.size - 2] ^= 1; /* another letter */
    if (wrong(7) && room > 0 && room + 1 == found.size)
        text[room] = 0; /* a byte is written behind the bytes lent */
    return found;
}

answer __wrap_timed_network_words_verdict(const uint8_t *table, size_t length, uint32_t spread,
                                          uint8_t *text, size_t room) {
    if (wrong(8))
        spread = 0; /* the spread is not handed on */
    if (wrong(9))
        length -= length > 0; /* the last byte is not handed on */
    return laid(__real_timed_network_words_verdict(table, length, spread, text, room), text, room);
}

answer __wrap_timed_network_words_schedule(const uint8_t *table, size_t length, uint8_t *text,
                                           size_t room) {
    if (wrong(10))
        length = 0; /* the table is not handed on */
    return laid(__real_timed_network_words_schedule(table, length, text, room), text, room);
}

answer __wrap_timed_network_words_chart(const uint8_t *table, size_t length, uint8_t *text,
                                        size_t room) {
    if (wrong(11))
        length = 0; /* the table is not handed on */
    return laid(__real_timed_network_words_chart(table, length, text, room), text, room);
}

answer __wrap_timed_network_words_spread(const uint8_t *table, size_t length, uint8_t *text,
                                         size_t room) {
    if (wrong(12))
        length = 0; /* the table is not handed on */
    return laid(__real_timed_network_words_spread(table, length, text, room), text, room);
}

answer __wrap_timed_network_words_reasons(const uint8_t *table, size_t length,
                                          uint32_t component, uint32_t tick, uint8_t *text,
                                          size_t room) {
    if (wrong(13))
        component = 0; /* the component is not handed on */
    if (wrong(14))
        tick = 0; /* the tick is not handed on */
    return laid(__real_timed_network_words_reasons(table, length, component, tick, text, room),
                text, room);
}

answer __wrap_timed_network_words_run(const uint8_t *table, size_t length,
                                      const uint8_t *choices, size_t choices_length,
                                      uint32_t spread, const uint32_t *offsets,
                                      size_t offsets_length, uint8_t *text, size_t room) {
    if (wrong(15))
        choices_length = 0; /* the choices are not handed on */
    if (wrong(16))
        spread = 0; /* the spread is not handed on */
    if (wrong(17))
        offsets_length = 0; /* the offsets are not handed on */
    return laid(__real_timed_network_words_run(table, length, choices, choices_length, spread,
                                               offsets, offsets_length, text, room),
                text, room);
}

answer __wrap_timed_network_words_simulation(const uint8_t *table, size_t length, uint32_t lo,
                                             uint32_t hi, uint32_t runs, uint32_t seed,
                                             uint8_t *text, size_t room) {
    if (wrong(18))
        lo = 0; /* the least work is not handed on */
    if (wrong(19))
        hi = lo; /* the most work is not handed on */
    if (wrong(20))
        runs = 1; /* the number of runs is not handed on */
    if (wrong(21))
        seed = 1; /* the seed is not handed on */
    return laid(__real_timed_network_words_simulation(table, length, lo, hi, runs, seed, text,
                                                      room),
                text, room);
}

answer __wrap_timed_network_words_refusal(uint8_t number, uint8_t component, uint8_t *text,
                                          size_t room) {
    if (wrong(22))
        number = 1; /* the number is not handed on */
    if (wrong(23))
        component = 255; /* the component is not handed on */
    return laid(__real_timed_network_words_refusal(number, component, text, room), text, room);
}

answer __wrap_timed_network_words_listing(const uint8_t *program, size_t length, uint8_t *text,
                                          size_t room) {
    if (wrong(24))
        length -= length > 0; /* the last byte is not handed on */
    return laid(__real_timed_network_words_listing(program, length, text, room), text, room);
}
