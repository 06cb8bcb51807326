/* What the tests of a node share: a table with its program, numbers that are drawn, and what was counted. */
#ifndef TESTS_H
#define TESTS_H

#include "timed_network.h"
#include "timed_node.h"

/* A table that was accepted, and its program. */
typedef struct network {
    uint8_t table[8192], program[24576];
    size_t length;
    uint8_t count, clocks[8], variables[8];
    uint32_t horizon, spread;
    timed_network_part_numbers at[8];
} network;

/* What was done, for the last line; a difference fails the whole. */
typedef struct counts {
    unsigned long tables, parts, runs, apart, observations, messages, timeouts, early, late, unexpected, past, damaged, refused, wide, differences;
} counts;
extern counts counted;

/* Says a difference, with the table if there is one, and counts it. */
void differ(const char *what, const network *n);

/* A number below, drawn. */
uint32_t draw(uint32_t below);

static inline const uint8_t *part_of(const network *n, uint8_t i) { return n->program + n->at[i].start; }

/* One run of the network through the calls of timed_node.h, held to timed_network_run_apart. */
void try_run(const network *n, uint32_t spread);

/* Calls that do not fit, each on a copy of the node. */
void try_wrong_calls(const timed_node *node, uint32_t now, uint32_t horizon);

/* Each part with damaged bytes, next to memory without access. */
void try_damaged(const network *n, unsigned rounds);

/* A node whose tick passes 2^32. */
void try_wide(const network *n);

/* The checksum, and memory.c's two functions. */
void try_rest(void);

#endif
