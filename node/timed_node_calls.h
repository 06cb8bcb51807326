/*
 * The proved calls of one node (crate timed_node), and what they write: on a
 * small processor the module of these calls, retargeted (node/proved), on
 * x86-64 Linux libtimed_node.a. timed_node.h is what a firmware calls.
 *
 * Every number has the width that the proofs speak of, on every processor: a
 * length and a tick have 64 bits. Where a field lies elsewhere than the proved
 * code has it, this does not compile: so on i386, where a number of 64 bits is
 * aligned to 4.
 *
 * What the caller sees to: a length is below 2^31, and that many bytes are
 * readable; a timed_node_running is aligned to 8 and overlaps no part; each bool
 * of it is true or false.
 */
#ifndef TIMED_NODE_CALLS_H
#define TIMED_NODE_CALLS_H

#include <stdbool.h>
#include <stddef.h>
#include <stdint.h>

#ifdef __cplusplus
extern "C" {
#endif

typedef struct timed_node_trial {
    uint16_t ready;
    bool ended;
    uint16_t end;
    bool good;
} timed_node_trial;

typedef struct timed_node_kept {
    bool some;
    uint8_t edge;
    uint16_t ready;
    uint16_t end;
} timed_node_kept;

/* The registers of timed_network_step (include/timed_network.h). */
typedef struct timed_node_registers {
    uint64_t pc;
    uint8_t location;
    uint64_t clocks[4];
    int16_t values[4];
    uint64_t t;
    uint16_t n;
    uint16_t d;
    uint8_t edge;
    bool taken;
    uint8_t goes;
    timed_node_trial tried;
    timed_node_kept kept;
    uint64_t sleeps;
} timed_node_registers;

/* A node: its registers, the tick at which its last work finished, how many
 * clocks and variables it has, and the answer to what it was told last. */
typedef struct timed_node_running {
    timed_node_registers registers;
    uint64_t finished;
    uint8_t clocks;
    uint8_t variables;
    uint8_t answer;
} timed_node_running;

/* What happened. */
enum timed_node_event {
    TIMED_NODE_EVENT_AWAKE,
    TIMED_NODE_EVENT_WORK_DONE,
    TIMED_NODE_EVENT_MESSAGE_OUT,
    TIMED_NODE_EVENT_MESSAGE_RECEIVED,
    TIMED_NODE_EVENT_NOTHING_CAME
};

/* The answers in timed_node_running. */
enum timed_node_told {
    TIMED_NODE_TOLD_FINE,
    TIMED_NODE_TOLD_EARLY,
    TIMED_NODE_TOLD_UNEXPECTED,
    TIMED_NODE_TOLD_LATE
};

/* The node at its first sleep. */
timed_node_running timed_node_begun(const uint8_t *part, uint64_t length,
                                    uint8_t clocks, uint8_t variables);

/* The node is told what happened, and at which tick of its own clock. */
void timed_node_happened(timed_node_running *running, const uint8_t *part,
                         uint64_t length, uint8_t what, uint8_t channel,
                         uint64_t tick);

/* Whether a node that stands at that byte of its part listens on a channel. */
bool timed_node_listens(const uint8_t *part, uint64_t length, uint64_t at,
                        uint8_t channel);

/* The places of all fields. */
#define TIMED_NODE_AT(type, field, place) \
    typedef char timed_node_##type##_##field##_at[offsetof(timed_node_##type, field) == (place) ? 1 : -1]
#define TIMED_NODE_SIZE(type, size) \
    typedef char timed_node_##type##_size[sizeof(timed_node_##type) == (size) ? 1 : -1]
TIMED_NODE_AT(trial, ready, 0);
TIMED_NODE_AT(trial, ended, 2);
TIMED_NODE_AT(trial, end, 4);
TIMED_NODE_AT(trial, good, 6);
TIMED_NODE_SIZE(trial, 8);
TIMED_NODE_AT(kept, some, 0);
TIMED_NODE_AT(kept, edge, 1);
TIMED_NODE_AT(kept, ready, 2);
TIMED_NODE_AT(kept, end, 4);
TIMED_NODE_SIZE(kept, 6);
TIMED_NODE_AT(registers, pc, 0);
TIMED_NODE_AT(registers, location, 8);
TIMED_NODE_AT(registers, clocks, 16);
TIMED_NODE_AT(registers, values, 48);
TIMED_NODE_AT(registers, t, 56);
TIMED_NODE_AT(registers, n, 64);
TIMED_NODE_AT(registers, d, 66);
TIMED_NODE_AT(registers, edge, 68);
TIMED_NODE_AT(registers, taken, 69);
TIMED_NODE_AT(registers, goes, 70);
TIMED_NODE_AT(registers, tried, 72);
TIMED_NODE_AT(registers, kept, 80);
TIMED_NODE_AT(registers, sleeps, 88);
TIMED_NODE_SIZE(registers, 96);
TIMED_NODE_AT(running, registers, 0);
TIMED_NODE_AT(running, finished, 96);
TIMED_NODE_AT(running, clocks, 104);
TIMED_NODE_AT(running, variables, 105);
TIMED_NODE_AT(running, answer, 106);
TIMED_NODE_SIZE(running, 112);

#ifdef __cplusplus
}
#endif

#endif
