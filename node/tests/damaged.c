/*
 * Parts with damaged bytes, cut short or too long, from the start on or while the
 * node runs. Each stands between memory without access, so that a read outside
 * of it ends the test, in the proved code too; and each call has to return.
 */
#define _DEFAULT_SOURCE 1
#include <string.h>
#include <sys/mman.h>
#include "tests.h"

enum { ROOM = 69632, PAGE = 4096 };

/* So many bytes right before memory without access, or right behind it. */
static uint8_t *room_for(size_t length, bool behind) {
    static uint8_t *room = NULL;
    if (room == NULL) {
        room = (uint8_t *)mmap(NULL, ROOM + 2 * PAGE, PROT_READ | PROT_WRITE, MAP_PRIVATE | MAP_ANONYMOUS, -1, 0);
        if (room == (uint8_t *)MAP_FAILED || mprotect(room, PAGE, PROT_NONE) != 0 || mprotect(room + PAGE + ROOM, PAGE, PROT_NONE) != 0) {
            differ("no memory without access", NULL);
            return NULL;
        }
    }
    return behind ? room + PAGE : room + PAGE + ROOM - length;
}

static void damage(uint8_t *bytes, size_t length) {
    size_t place = draw(4) == 0 ? draw(length < 40 ? (uint32_t)length : 40) : draw((uint32_t)length);
    switch (draw(4)) {
    case 0: bytes[place] = (uint8_t)draw(256); break;
    case 1: bytes[place] = (uint8_t)(bytes[place] ^ 1u << draw(8)); break;
    case 2: bytes[place] = (uint8_t)(bytes[place] + (draw(2) ? 1 : 255)); break;
    default: bytes[place] = (uint8_t)draw(20); break;
    }
}

/* Some event, mostly near the window. */
static enum timed_node_answer any_event(timed_node *node) {
    uint32_t now = draw(3) != 0 ? timed_node_from(node) : draw(8) != 0 ? timed_node_until(node) : draw(70000);
    switch (timed_node_next(node)) {
    case TIMED_NODE_SLEEP: return timed_node_woke(node, now);
    case TIMED_NODE_LISTEN: return draw(2) != 0 ? timed_node_timed_out(node, timed_node_until(node)) : timed_node_received(node, now, (uint8_t)draw(17));
    default: return draw(8) != 0 ? timed_node_done(node, now) : timed_node_woke(node, now);
    }
}

/* A node's answers agree with each other, whatever its part is. */
static void hold_together(const timed_node *node, enum timed_node_answer answer, const network *n) {
    enum timed_node_wants wants = timed_node_next(node);
    uint8_t observation[36];
    bool last = timed_node_error(node) != TIMED_NODE_OK;
    timed_node_observe(node, observation);
    if ((answer >= TIMED_NODE_HORIZON && timed_node_error(node) != answer) || (last && wants < TIMED_NODE_OVER)
        || (timed_node_channels(node) != 0 && wants != TIMED_NODE_SEND && wants != TIMED_NODE_LISTEN))
        differ("the answers of a node with a damaged part", n);
}

static void try_part(const network *n, uint8_t i) {
    size_t length = n->at[i].length, long_ = length, k;
    uint32_t how = draw(6);
    uint8_t *bytes;
    timed_node node;
    enum timed_node_answer answer;
    if (how == 0)
        long_ = draw((uint32_t)length + 1);
    if (how == 1)
        long_ = length + draw(9);
    bytes = room_for(long_, draw(2) != 0);
    if (bytes == NULL)
        return;
    for (k = 0; k < long_; k++)
        bytes[k] = k < length ? part_of(n, i)[k] : (uint8_t)draw(256);
    for (k = how > 2 && long_ > 0 ? 1 + draw(3) : 0; k > 0; k--)
        damage(bytes, long_);
    counted.damaged++;
    answer = timed_node_start(&node, i, bytes, long_, draw(2) != 0 ? n->horizon : 0);
    if (long_ < 6 && answer != TIMED_NODE_BAD_PART)
        differ("a part of less than 6 bytes is taken", n);
    if (long_ != length && how <= 1 && answer != TIMED_NODE_BAD_PART)
        differ("a part of another length is taken", n);
    counted.refused += answer != TIMED_NODE_OK;
    for (k = 0; k < 40; k++) {
        if (how == 2 && k % 4 == 3)
            damage(bytes, long_);
        hold_together(&node, answer, n);
        answer = any_event(&node);
    }
}

void try_damaged(const network *n, unsigned rounds) {
    uint8_t i;
    for (; rounds > 0; rounds--)
        for (i = 0; i < n->count; i++)
            try_part(n, i);
}

/* What fits, made at the last tick that it may be; a tick before, where a sleep or a timeout is early, and a tick after. */
static enum timed_node_answer at_last_tick(timed_node *node, enum timed_node_answer (*call)(timed_node *, uint32_t), uint32_t last, bool early) {
    timed_node copy;
    memcpy(&copy, node, sizeof copy);
    if ((early && call(&copy, last - 1) != TIMED_NODE_EARLY) || call(&copy, last + 1) != TIMED_NODE_LATE)
        differ("early and late near 2^32", NULL);
    return call(node, last);
}

/* A node without a horizon, as after many ticks: its window passes 2^32, and its answers are as before. Where its table ends it may stop. */
void try_wide(const network *n) {
    timed_node node;
    enum timed_node_answer answer = timed_node_start(&node, 0, part_of(n, 0), n->at[0].length, 0);
    int i;
    node.running.registers.t += 0xffffff00u;
    for (i = 0; i < 100 && answer == TIMED_NODE_OK; i++)
        switch (timed_node_next(&node)) {
        case TIMED_NODE_SLEEP: answer = at_last_tick(&node, timed_node_woke, timed_node_from(&node), true); break;
        case TIMED_NODE_LISTEN: answer = at_last_tick(&node, timed_node_timed_out, timed_node_until(&node), true); break;
        default: answer = at_last_tick(&node, timed_node_done, timed_node_until(&node), false); break;
        }
    counted.wide += node.running.registers.t > 0xffffffffu;
    if (answer != TIMED_NODE_OK && answer != TIMED_NODE_NO_EDGE && answer != TIMED_NODE_RANGE)
        differ("a node near 2^32", n);
}
