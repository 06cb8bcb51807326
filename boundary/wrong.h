/* What the wrong versions of the calls share; wrong.c says what they are. */
#ifndef WRONG_H
#define WRONG_H

#include "../include/timed_network.h"

/* A call, as the library has it and as it is put in front of it; both are of the header's type. */
#define CALL(name)                                                                             \
    __typeof__(timed_network_##name) __real_timed_network_##name, __wrap_timed_network_##name

/* Whether this is the fault that is asked for. */
int wrong(int fault);

/* Reads a byte. */
void touch(const uint8_t *at);

/* Puts wrong finish ticks into so many observations. */
void spoil_finishes(uint8_t *observations, size_t size, const uint32_t *offsets,
                    size_t offsets_length);

/* Whether a run with so many bytes lent is let pass, since there are 32 for each passage. */
int asks_for_32_bytes(const uint8_t *table, size_t length, size_t lent);

#endif
