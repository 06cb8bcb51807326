/* Calls that do not fit what a node waits for. Each is made on a copy, and has to leave the node as it is unless it is the last. */
#include <string.h>
#include "tests.h"

/* A call of timed_node.h: which, at which tick, on which channel. */
enum call { WOKE, DONE, TIMED_OUT, RECEIVED };

static enum timed_node_answer made(timed_node *node, enum call call, uint32_t now, uint8_t channel) {
    switch (call) {
    case WOKE: return timed_node_woke(node, now);
    case DONE: return timed_node_done(node, now);
    case TIMED_OUT: return timed_node_timed_out(node, now);
    default: return timed_node_received(node, now, channel);
    }
}

/* Whether two nodes are the same in everything but the answer to the last call. */
static bool same(const timed_node *a, const timed_node *b) {
    timed_node c = *a;
    c.running.answer = b->running.answer;
    return memcmp(&c, b, sizeof c) == 0;
}

/* The call has this answer; EARLY and UNEXPECTED leave the node as it is, after another one it does nothing more. */
static void expect(const timed_node *node, enum call call, uint32_t now, uint8_t channel, enum timed_node_answer answer, unsigned long *count) {
    timed_node copy;
    enum timed_node_wants over = answer == TIMED_NODE_HORIZON ? TIMED_NODE_OVER : TIMED_NODE_STOPPED;
    memcpy(&copy, node, sizeof copy);
    (*count)++;
    if (made(&copy, call, now, channel) != answer)
        differ("the answer to a wrong call", NULL);
    if (answer < TIMED_NODE_HORIZON) {
        if (!same(&copy, node))
            differ("a wrong call changed the node", NULL);
        return;
    }
    if (timed_node_next(&copy) != over || timed_node_error(&copy) != answer || made(&copy, call, now, channel) != answer
        || timed_node_channels(&copy) != 0)
        differ("a node goes on after its last answer", NULL);
}

/* The calls of another kind than the node waits for. */
static void expect_unexpected(const timed_node *node, uint32_t now, enum timed_node_wants wants) {
    uint8_t channel;
    if (wants != TIMED_NODE_SLEEP)
        expect(node, WOKE, now, 0, TIMED_NODE_UNEXPECTED, &counted.unexpected);
    if (wants != TIMED_NODE_WORK && wants != TIMED_NODE_SEND)
        expect(node, DONE, now, 0, TIMED_NODE_UNEXPECTED, &counted.unexpected);
    if (wants != TIMED_NODE_LISTEN)
        expect(node, TIMED_OUT, now, 0, TIMED_NODE_UNEXPECTED, &counted.unexpected);
    for (channel = 0; channel < 20; channel++)
        if (wants != TIMED_NODE_LISTEN || channel > 15 || (timed_node_channels(node) >> channel & 1) == 0)
            expect(node, RECEIVED, now, channel, TIMED_NODE_UNEXPECTED, &counted.unexpected);
}

/* The call that the node waits for, a tick after its last one. */
static void expect_late(const timed_node *node, uint32_t horizon, enum call call, uint32_t last, uint8_t channel) {
    if (last + 1 < horizon)
        expect(node, call, last + 1, channel, TIMED_NODE_LATE, &counted.late);
}

void try_wrong_calls(const timed_node *node, uint32_t now, uint32_t horizon) {
    enum timed_node_wants wants = timed_node_next(node);
    uint32_t from = timed_node_from(node), until = timed_node_until(node);
    uint8_t channel = 0;
    if (wants == TIMED_NODE_OVER || now >= horizon)
        return;
    expect(node, WOKE, horizon, 0, TIMED_NODE_HORIZON, &counted.past);
    expect_unexpected(node, now, wants);
    if (wants == TIMED_NODE_SLEEP) {
        if (now < from)
            expect(node, WOKE, now, 0, TIMED_NODE_EARLY, &counted.early);
        expect_late(node, horizon, WOKE, from, 0);
    } else if (wants == TIMED_NODE_LISTEN) {
        while ((timed_node_channels(node) >> channel & 1) == 0)
            channel++;
        if (now < until)
            expect(node, TIMED_OUT, now, 0, TIMED_NODE_EARLY, &counted.early);
        if (from > 0)
            expect(node, RECEIVED, from - 1, channel, TIMED_NODE_EARLY, &counted.early);
        expect_late(node, horizon, TIMED_OUT, until, 0);
        expect_late(node, horizon, RECEIVED, until, channel);
    } else {
        if (from > 0)
            expect(node, DONE, from - 1, 0, TIMED_NODE_EARLY, &counted.early);
        expect_late(node, horizon, DONE, until, 0);
    }
}
