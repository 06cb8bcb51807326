/* The proved calls on parts, on damaged parts and on registers of any value: the same numbers are drawn on every machine, every field after every
 * call goes into a hash. Nothing here divides, so that it is the same code on a processor that cannot. */
#ifndef EVENTS_H
#define EVENTS_H

#include "timed_node_calls.h"

/* Tries a part; told is handed each hash. */
void try_part(const uint8_t *part, uint32_t length, void (*told)(uint32_t));

/* How many calls there were, then those answered fine, early, unexpected and late, and how often a node listened. */
void tell_counts(void (*told)(uint32_t));

#endif
