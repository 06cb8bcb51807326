/*
 * One node that runs: the part of a program that belongs to a node, carried out
 * on the node's own processor (docs/NODE.md).
 *
 * Freestanding C99: no heap, no C library but memcpy and memset (memory.c has
 * them), no recursion, nothing that can be written but the struct below. The
 * part stays where it is, in flash. A node is driven by events:
 * timed_node_next tells what it waits for, the firmware waits as it likes and
 * then says what happened.
 *
 * All ticks are ticks of the node's own clock, which starts at 0 when the node
 * starts. Tick t is the time from t times the tick's length on, up to and
 * without t + 1 times it.
 */
#ifndef TIMED_NODE_H
#define TIMED_NODE_H

#include "timed_node_calls.h"

#ifdef __cplusplus
extern "C" {
#endif

/* What a node waits for: the answers of timed_node_next. */
enum timed_node_wants {
    TIMED_NODE_SLEEP,  /* tick timed_node_from; then timed_node_woke */
    TIMED_NODE_WORK,   /* the work of timed_node_edge; then timed_node_done */
    TIMED_NODE_SEND,   /* a message out on timed_node_channels; then timed_node_done */
    TIMED_NODE_LISTEN, /* a message on one of timed_node_channels, or tick timed_node_until */
    TIMED_NODE_OVER,   /* nothing more: the horizon is reached */
    TIMED_NODE_STOPPED /* nothing more: see timed_node_error */
};

/* The answers of the calls. Those from TIMED_NODE_HORIZON on are the last: the
 * node does nothing more. */
enum timed_node_answer {
    TIMED_NODE_OK,
    TIMED_NODE_EARLY,      /* not before timed_node_from (a timeout: timed_node_until) */
    TIMED_NODE_UNEXPECTED, /* the node does not wait for this, or not on this channel */
    TIMED_NODE_HORIZON,    /* the horizon is reached: the node is over */
    TIMED_NODE_LATE,       /* the tick was missed: nothing is promised from here on */
    TIMED_NODE_NO_EDGE,    /* no edge can be taken: the table would have been refused */
    TIMED_NODE_RANGE,      /* a variable leaves -32,768 to 32,767 */
    TIMED_NODE_BAD_PART    /* these bytes are no node's part; see timed_node_place */
};

/* A node: 128 bytes where a pointer has 32 bits, aligned to 8. To be read
 * through the calls below. */
typedef struct timed_node {
    timed_node_running running; /* written by the proved calls alone */
    const uint8_t *part;
    uint32_t horizon;
    uint16_t length;
    uint8_t number;
    uint8_t error;
} timed_node;

/*
 * Starts a node at its own tick 0: it goes on to its first sleep.
 *
 * number:       the node's, for its observations.
 * part, length: as `vanillatarn part` gives them; at most 65,535 bytes. They
 *               have to stay readable and unchanged.
 * horizon:      the program's, or 0 to run without end (only for a table of
 *               which `vanillatarn period` says that everything comes again).
 *
 * TIMED_NODE_OK, TIMED_NODE_BAD_PART, TIMED_NODE_NO_EDGE or TIMED_NODE_RANGE.
 * Whatever the bytes are, nothing outside of them is read, and the call
 * returns; but bytes that are damaged need not be found: compare
 * timed_node_checksum before.
 */
enum timed_node_answer timed_node_start(timed_node *node, uint8_t number,
                                        const uint8_t *part, size_t length,
                                        uint32_t horizon);

/* The checksum of a part (CRC-32, as of gzip and Ethernet), which
 * `vanillatarn part --c` writes beside the bytes. */
uint32_t timed_node_checksum(const uint8_t *part, size_t length);

/* What the node waits for. Asking changes nothing. */
enum timed_node_wants timed_node_next(const timed_node *node);

/* The window of the edge taken: its first and its last tick. */
uint32_t timed_node_from(const timed_node *node);
uint32_t timed_node_until(const timed_node *node);

/* The edge taken, and the location that it leaves. */
uint8_t timed_node_edge(const timed_node *node);
uint8_t timed_node_location(const timed_node *node);

/* The channel of a send, those of a listen: bit c for channel c. Else 0. */
uint16_t timed_node_channels(const timed_node *node);

/* A variable, as it was when the location was entered; 0 for an absent one. */
int16_t timed_node_value(const timed_node *node, uint8_t variable);

/* Why the node stopped, TIMED_NODE_OK if it has not; and the byte of the part
 * that it stands at. */
enum timed_node_answer timed_node_error(const timed_node *node);
size_t timed_node_place(const timed_node *node);

/*
 * What happened, and at which tick of the node's own clock. TIMED_NODE_EARLY and
 * TIMED_NODE_UNEXPECTED leave the node as it is: it waits for the same as before.
 */
enum timed_node_answer timed_node_woke(timed_node *node, uint32_t now);
enum timed_node_answer timed_node_done(timed_node *node, uint32_t now);
enum timed_node_answer timed_node_received(timed_node *node, uint32_t now, uint8_t channel);
enum timed_node_answer timed_node_timed_out(timed_node *node, uint32_t now);

/* Writes the observation of the sleep that was finished last, 36 bytes
 * (docs/FORMATS.md). To be called between timed_node_woke and what follows it. */
void timed_node_observe(const timed_node *node, uint8_t observation[36]);

#ifdef __cplusplus
}
#endif

#endif
