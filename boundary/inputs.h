/* Random tables, choices, offsets, pairs, simulations, programs, most of them close to good ones. */
#ifndef INPUTS_H
#define INPUTS_H

#include "stored.h"

/* What the makers write into, and the trials too. */
extern uint8_t table_bytes[MAX_TABLE];
extern uint8_t choices_bytes[MAX_CHOICES + 1];
extern uint8_t program_bytes[MAX_PROGRAM];

struct bytes of(uint8_t *at, size_t length);

/* States the length of a table in its header, where there is one. */
void state_length(uint8_t *table, size_t length);

/*
 * A table of the stored ones, as it is or with some bytes changed, cut or
 * longer; or any bytes behind a header. Written to table_bytes.
 */
struct bytes random_table(void);

/*
 * Adds choices that a run mostly allows, and sometimes any byte, behind the
 * first `from` of choices_bytes. How many there are now.
 */
size_t random_choices(struct bytes table, size_t from, size_t more);

/*
 * A spread and offsets for the nodes of a table, most of them small; sometimes
 * one that is too large, and fewer or more offsets than there are nodes.
 */
struct waking random_waking(struct bytes table);

/*
 * Pairs for a table, most of them of its components and ticks and sorted by tick;
 * sometimes with a number left over.
 */
struct numbers random_pairs(struct bytes table);

/* Few runs with short work, most of them; now and then other numbers. */
struct experiment random_experiment(void);

/* A horizon: most about that of a table, the greatest number, or any. */
uint32_t random_horizon(struct bytes table);

/*
 * The first `length` bytes of `program` with one byte changed and some cut
 * off; or other bytes. Written to program_bytes.
 */
struct bytes random_program(size_t length);

/* The number of a node, sometimes of none. */
uint8_t random_node(void);

#endif
