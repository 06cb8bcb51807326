/*
 * What main_loop.c asks of a board: these ten functions are the firmware's
 * own. docs/NODE.md says of each what it has to keep to.
 */
#ifndef BOARD_H
#define BOARD_H

#include "timed_node.h"

/* Starts the clock: the node's own tick 0 begins when this returns. */
void board_start(void);

/* The tick of the node's own clock: the time since board_start divided by the
 * tick's length, rounded down. It never goes back. */
uint32_t board_tick(void);

/* Waits for the next interrupt; at the latest the next tick's brings one. */
void board_wait(void);

/* An observation, 36 bytes, to be kept or handed on; may do nothing. */
void board_report(const uint8_t observation[36]);

/* The last call: the node is over (TIMED_NODE_HORIZON), or it stopped. */
void board_stop(enum timed_node_answer answer, const timed_node *node);

/* Listens on these channels (bit c for channel c). What came before is not
 * heard: the receiver's buffer is emptied. */
void radio_on(uint16_t channels);
void radio_off(void);

/* The channel of a message that came since radio_on and was not asked for yet,
 * or -1. */
int radio_heard(void);

/* Sends a message on this channel (one bit), and returns when it is out. */
void radio_send(uint16_t channel);

/* The application's work of this edge, done when it returns. */
void application_work(uint8_t edge);

#endif
