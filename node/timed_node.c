/*
 * One node that runs, over the proved calls: see timed_node.h. What is here is
 * not proved: the horizon, the widening of a tick, the observation's bytes, how
 * many clocks there are, the checksum, and what names a stop. No line of it
 * chooses an edge, moves a clock or decides on early and late.
 */
#include "timed_node.h"

/* The ops of statements that a node can stand at (docs/FORMATS.md). */
enum { SLEEP = 0, ADD = 2, DONE = 3, SEND = 4, LISTEN = 5, AGE = 7, ZERO = 8, TAKE = 16, NONE = 255 };

/* A byte of the part, 255 past its end. */
static uint8_t byte_at(const timed_node *node, size_t at) {
    return at < node->length ? node->part[at] : (uint8_t)NONE;
}

/* The op that the node stands at. */
static uint8_t op_of(const timed_node *node) {
    uint64_t pc = node->running.registers.pc;
    return node->length >= 4 && pc <= (uint64_t)node->length - 4 ? node->part[(size_t)pc] : (uint8_t)NONE;
}

static enum timed_node_answer stop(timed_node *node, enum timed_node_answer error) {
    node->error = (uint8_t)error;
    return error;
}

static uint64_t until_of(const timed_node *node) {
    return node->running.registers.t + node->running.registers.d;
}

/* Whether the node is at a sleep; else why not. A node is ahead of its window's
 * end: a location that it would enter at the horizon or later need not have an
 * edge. */
static enum timed_node_answer settled(timed_node *node) {
    uint8_t op = op_of(node);
    if (op == SLEEP)
        return TIMED_NODE_OK;
    if (op == TAKE && node->horizon != 0 && until_of(node) >= node->horizon) {
        node->error = (uint8_t)TIMED_NODE_HORIZON;
        return TIMED_NODE_OK;
    }
    if (op == TAKE)
        return stop(node, TIMED_NODE_NO_EDGE);
    return stop(node, op == ADD ? TIMED_NODE_RANGE : TIMED_NODE_BAD_PART);
}

/* How many clocks the node has: so many ages and zeros has its last edge,
 * before its enter and its choose. */
static uint8_t clocks_of(const timed_node *node) {
    uint8_t count = 0, op;
    while (count < 4 && node->length >= 16u + 4u * count) {
        op = byte_at(node, (size_t)node->length - 12 - 4u * count);
        if (op != AGE && op != ZERO)
            break;
        count++;
    }
    return count;
}

enum timed_node_answer timed_node_start(timed_node *node, uint8_t number, const uint8_t *part, size_t length, uint32_t horizon) {
    node->part = part;
    node->length = length <= 65535 ? (uint16_t)length : (uint16_t)0;
    node->horizon = horizon;
    node->number = number;
    node->error = (uint8_t)TIMED_NODE_OK;
    node->running = timed_node_begun(part, node->length, clocks_of(node), 4);
    if (node->length < 6 || byte_at(node, 0) * 256 + byte_at(node, 1) != node->length)
        return stop(node, TIMED_NODE_BAD_PART);
    return settled(node);
}

uint32_t timed_node_checksum(const uint8_t *part, size_t length) {
    uint32_t sum = 0xffffffffu;
    size_t i;
    uint8_t bit;
    for (i = 0; i < length; i++) {
        sum ^= part[i];
        for (bit = 0; bit < 8; bit++)
            sum = (sum >> 1) ^ ((sum & 1u) != 0 ? 0xedb88320u : 0u);
    }
    return ~sum;
}

enum timed_node_wants timed_node_next(const timed_node *node) {
    uint8_t op = op_of(node);
    if (node->error != TIMED_NODE_OK)
        return node->error == TIMED_NODE_HORIZON ? TIMED_NODE_OVER : TIMED_NODE_STOPPED;
    if (op == SLEEP)
        return node->horizon != 0 && node->running.registers.t >= node->horizon ? TIMED_NODE_OVER : TIMED_NODE_SLEEP;
    if (op <= DONE)
        return TIMED_NODE_WORK;
    return op == SEND ? TIMED_NODE_SEND : op == LISTEN ? TIMED_NODE_LISTEN : TIMED_NODE_STOPPED;
}

uint32_t timed_node_from(const timed_node *node) { return (uint32_t)node->running.registers.t; }
uint32_t timed_node_until(const timed_node *node) { return (uint32_t)until_of(node); }
uint8_t timed_node_edge(const timed_node *node) { return node->running.registers.edge; }
uint8_t timed_node_location(const timed_node *node) { return node->running.registers.location; }
enum timed_node_answer timed_node_error(const timed_node *node) { return (enum timed_node_answer)node->error; }
size_t timed_node_place(const timed_node *node) { return (size_t)node->running.registers.pc; }

int16_t timed_node_value(const timed_node *node, uint8_t variable) {
    return variable < 4 ? node->running.registers.values[variable] : (int16_t)0;
}

uint16_t timed_node_channels(const timed_node *node) {
    enum timed_node_wants wants = timed_node_next(node);
    uint64_t pc = node->running.registers.pc;
    uint16_t channels = 0;
    uint8_t c;
    if (wants == TIMED_NODE_SEND)
        return (uint16_t)(1u << (byte_at(node, (size_t)pc + 1) & 15));
    for (c = 0; wants == TIMED_NODE_LISTEN && c < 16; c++)
        if (timed_node_listens(node->part, node->length, pc, c))
            channels = (uint16_t)(channels | 1u << c);
    return channels;
}

/* The tick nearest to the window that has these lower 32 bits. */
static uint64_t tick_of(const timed_node *node, uint32_t now) {
    uint64_t t = node->running.registers.t;
    uint32_t ahead = now - (uint32_t)t, behind = (uint32_t)t - now;
    if (ahead < 0x80000000u)
        return t + ahead;
    return t > behind ? t - behind : 0;
}

static enum timed_node_answer tell(timed_node *node, enum timed_node_event what, uint8_t channel, uint32_t now) {
    if (node->error != TIMED_NODE_OK)
        return (enum timed_node_answer)node->error;
    if (timed_node_next(node) == TIMED_NODE_OVER || (node->horizon != 0 && now >= node->horizon))
        return stop(node, TIMED_NODE_HORIZON);
    timed_node_happened(&node->running, node->part, node->length, (uint8_t)what, channel, tick_of(node, now));
    switch (node->running.answer) {
    case TIMED_NODE_TOLD_FINE:
        if (what != TIMED_NODE_EVENT_AWAKE)
            return settled(node);
        return timed_node_next(node) == TIMED_NODE_STOPPED ? stop(node, TIMED_NODE_BAD_PART) : TIMED_NODE_OK;
    case TIMED_NODE_TOLD_EARLY:
        return TIMED_NODE_EARLY;
    case TIMED_NODE_TOLD_LATE:
        return stop(node, TIMED_NODE_LATE);
    default:
        return TIMED_NODE_UNEXPECTED;
    }
}

enum timed_node_answer timed_node_woke(timed_node *node, uint32_t now) {
    return tell(node, TIMED_NODE_EVENT_AWAKE, 0, now);
}

enum timed_node_answer timed_node_done(timed_node *node, uint32_t now) {
    return tell(node, timed_node_next(node) == TIMED_NODE_SEND ? TIMED_NODE_EVENT_MESSAGE_OUT : TIMED_NODE_EVENT_WORK_DONE, 0, now);
}

enum timed_node_answer timed_node_received(timed_node *node, uint32_t now, uint8_t channel) {
    return tell(node, TIMED_NODE_EVENT_MESSAGE_RECEIVED, channel, now);
}

enum timed_node_answer timed_node_timed_out(timed_node *node, uint32_t now) {
    return tell(node, TIMED_NODE_EVENT_NOTHING_CAME, 0, now);
}

static void put32(uint8_t *at, uint32_t number) {
    at[0] = (uint8_t)(number >> 24);
    at[1] = (uint8_t)(number >> 16 & 255u);
    at[2] = (uint8_t)(number >> 8 & 255u);
    at[3] = (uint8_t)(number & 255u);
}

void timed_node_observe(const timed_node *node, uint8_t observation[36]) {
    const timed_node_registers *r = &node->running.registers;
    uint8_t i;
    observation[0] = node->number;
    observation[1] = r->edge;
    observation[2] = r->location;
    observation[3] = 0;
    put32(observation + 4, (uint32_t)r->t);
    for (i = 0; i < 4; i++) {
        put32(observation + 8 + 4 * i, i < node->running.clocks ? (uint32_t)(r->clocks[i] + r->n) : 0);
        observation[24 + 2 * i] = (uint8_t)((uint16_t)r->values[i] >> 8);
        observation[25 + 2 * i] = (uint8_t)((uint16_t)r->values[i] & 255u);
    }
    put32(observation + 32, (uint32_t)node->running.finished);
}
