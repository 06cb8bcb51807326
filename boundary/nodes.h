/* One node whose registers are lent: its start, its steps, its messages. */
#ifndef NODES_H
#define NODES_H

#include "inputs.h"

/*
 * The nodes of a stored run, each driven by itself under the choices that the
 * run carried out: what they show must be the run's observations.
 */
void nodes_run(enum where where, const struct stored *stored);

/* Parts of 65,535 bytes, which are taken, and of one more, which are not. */
void nodes_long(enum where where);

/* Any registers in any bytes, a few steps and messages. */
void nodes_random(enum where where, struct bytes part);

#endif
