/*
 * One run of a network: each node is driven by the calls of timed_node.h, at
 * finish ticks and offsets that are drawn among those allowed. Beside it stand
 * the registers of each node in the library's own calls, which tell the choices
 * that these ticks make; timed_network_run_apart has to carry out all of them,
 * and to give the same observations, byte for byte.
 */
#include <string.h>
#include "tests.h"

enum { TICK = 255, SLEEP = 0 };

static uint8_t choices[TIMED_NETWORK_MAX_CHOICES], seen[36 * 1024], wanted[36 * 1024];
static timed_node nodes[8];
static timed_network_node_registers beside[8];
static size_t used, made;

/* A run: the network, when each node wakes, the common tick, and how often in a hundred a work ends before its last tick. */
typedef struct run {
    const network *n;
    uint32_t offsets[8], tick, chance;
} run;

static void choose(uint8_t choice) {
    if (used < sizeof choices)
        choices[used++] = choice;
}

static void step_beside(const run *r, uint8_t i) {
    timed_network_step(&beside[i], part_of(r->n, i), r->n->at[i].length, r->n->clocks[i], r->n->variables[i]);
}

/* The choices with which a node goes on to its next sleep. */
static void go_on_beside(const run *r, uint8_t i) {
    timed_network_node_registers before;
    while (part_of(r->n, i)[beside[i].pc] != SLEEP) {
        before = beside[i];
        step_beside(r, i);
        if (memcmp(&before, &beside[i], sizeof before) == 0)
            return;
        choose(i);
    }
}

static bool wake(const run *r, uint8_t i, uint32_t now) {
    if (now != timed_node_from(&nodes[i]))
        return false;
    if (timed_node_woke(&nodes[i], now) != TIMED_NODE_OK || made >= 1024) {
        differ("a node does not wake", r->n);
        return false;
    }
    timed_node_observe(&nodes[i], seen + 36 * made++);
    choose(i);
    step_beside(r, i);
    return true;
}

/* A work is done: now or later, at its last tick at the latest. */
static bool finish(const run *r, uint8_t i, uint32_t now) {
    if (now < timed_node_until(&nodes[i]) && draw(100) >= r->chance)
        return false;
    if (timed_node_done(&nodes[i], now) != TIMED_NODE_OK) {
        differ("a work is not taken", r->n);
        return false;
    }
    go_on_beside(r, i);
    return true;
}

static bool time_out(const run *r, uint8_t i, uint32_t now) {
    if (now < timed_node_until(&nodes[i]))
        return false;
    if (timed_node_timed_out(&nodes[i], now) != TIMED_NODE_OK) {
        differ("a timeout is not taken", r->n);
        return false;
    }
    counted.timeouts++;
    go_on_beside(r, i);
    return true;
}

/* The node that listens on a channel, or the number of nodes. */
static uint8_t listener(const run *r, uint8_t sender, uint16_t channel) {
    uint8_t j;
    for (j = 0; j < r->n->count; j++)
        if (j != sender && r->offsets[j] <= r->tick && timed_node_next(&nodes[j]) == TIMED_NODE_LISTEN
            && (timed_node_channels(&nodes[j]) & channel) != 0)
            break;
    return j;
}

static bool send(const run *r, uint8_t i, uint32_t now) {
    uint16_t bit = timed_node_channels(&nodes[i]);
    uint8_t channel = 0, j;
    if (now < timed_node_until(&nodes[i]) && draw(100) >= r->chance)
        return false;
    j = listener(r, i, bit);
    while (channel < 15 && (bit >> channel & 1) == 0)
        channel++;
    if (j == r->n->count || timed_node_done(&nodes[i], now) != TIMED_NODE_OK
        || timed_node_received(&nodes[j], r->tick - r->offsets[j], channel) != TIMED_NODE_OK) {
        differ("a message is not taken", r->n);
        return false;
    }
    choose(i);
    step_beside(r, i);
    timed_network_take_message(&beside[j], part_of(r->n, j), r->n->at[j].length, channel);
    go_on_beside(r, i);
    go_on_beside(r, j);
    counted.messages++;
    return true;
}

/* A node does what it has to or may at its own tick; whether something moved. */
static bool act(const run *r, uint8_t i) {
    uint32_t now = r->tick - r->offsets[i];
    if (draw(16) == 0)
        try_wrong_calls(&nodes[i], now, r->n->horizon);
    switch (timed_node_next(&nodes[i])) {
    case TIMED_NODE_SLEEP: return wake(r, i, now);
    case TIMED_NODE_WORK: return finish(r, i, now);
    case TIMED_NODE_LISTEN: return time_out(r, i, now);
    case TIMED_NODE_SEND: return send(r, i, now);
    default: return false;
    }
}

/* All that happens during one tick, the nodes in an order that is drawn. */
static void one_tick(const run *r) {
    bool moved;
    uint8_t k, i, first;
    for (i = 0; i < r->n->count; i++)
        if (r->offsets[i] == r->tick)
            go_on_beside(r, i);
    do {
        moved = false;
        first = (uint8_t)draw(r->n->count);
        for (k = 0; k < r->n->count; k++) {
            i = (uint8_t)((first + k) % r->n->count);
            if (r->offsets[i] <= r->tick && act(r, i))
                moved = true;
        }
    } while (moved);
    choose(TICK);
}

static void start(run *r, uint32_t spread) {
    uint8_t i;
    used = made = 0;
    r->chance = draw(3) == 0 ? 100 : draw(3) == 0 ? 0 : draw(60);
    for (i = 0; i < r->n->count; i++) {
        r->offsets[i] = draw(spread + 1);
        if (timed_node_start(&nodes[i], i, part_of(r->n, i), r->n->at[i].length, r->n->horizon) != TIMED_NODE_OK)
            differ("a part of an accepted table does not start", r->n);
        if (nodes[i].running.clocks != r->n->clocks[i])
            differ("another number of clocks", r->n);
        beside[i] = timed_network_start(part_of(r->n, i), r->n->at[i].length);
    }
}

/* At the end no node waits for a tick at the horizon or behind it. */
static void hold_over(const network *n) {
    uint8_t i;
    for (i = 0; i < n->count; i++)
        if (timed_node_next(&nodes[i]) == TIMED_NODE_SLEEP && timed_node_from(&nodes[i]) >= n->horizon)
            differ("a node goes on at the horizon", n);
}

void try_run(const network *n, uint32_t spread) {
    run r;
    timed_network_run_numbers answer;
    r.n = n;
    counted.runs++;
    counted.apart += spread > 0;
    start(&r, spread);
    for (r.tick = 0; r.tick < n->horizon; r.tick++)
        one_tick(&r);
    hold_over(n);
    answer = timed_network_run_apart(n->table, n->length, choices, used, spread, r.offsets, n->count, wanted, sizeof wanted);
    counted.observations += made;
    if (answer.number != 0 || answer.end != TIMED_NETWORK_END_HORIZON || answer.used != used || answer.size != made
        || memcmp(seen, wanted, 36 * made) != 0)
        differ("the run", n);
}
