/*
 * The main loop of a node's firmware. board.h is the firmware's own; part.h is
 * what `vanillatarn part --c PROGRAM NODE -o part.h` writes.
 */
#include "board.h"
#include "part.h"

/* Whether tick a lies before tick b; right across the overflow of 32 bits. */
static bool before(uint32_t a, uint32_t b) { return (uint32_t)(a - b) >= 0x80000000u; }

static enum timed_node_answer start(timed_node *node) {
    if (timed_node_checksum(timed_node_part, TIMED_NODE_PART_LENGTH) != TIMED_NODE_PART_CHECKSUM)
        return TIMED_NODE_BAD_PART;
    return timed_node_start(node, TIMED_NODE_PART_NUMBER, timed_node_part, TIMED_NODE_PART_LENGTH, TIMED_NODE_PART_HORIZON);
}

/* The node's tick has come: it wakes, its observation is told, and where it is to listen the radio goes on. */
static enum timed_node_answer wake(timed_node *node, uint32_t now) {
    uint8_t observation[36];
    enum timed_node_answer answer = timed_node_woke(node, now);
    if (answer != TIMED_NODE_OK)
        return answer;
    timed_node_observe(node, observation);
    board_report(observation);
    if (timed_node_next(node) == TIMED_NODE_LISTEN)
        radio_on(timed_node_channels(node));
    return TIMED_NODE_OK;
}

/* The node listens: a message, the end of its window, or nothing yet. */
static enum timed_node_answer listen(timed_node *node, uint32_t now) {
    enum timed_node_answer answer;
    int channel = radio_heard();
    if (channel >= 0) {
        answer = timed_node_received(node, board_tick(), (uint8_t)channel);
        if (answer == TIMED_NODE_OK)
            radio_off();
        return answer;
    }
    if (before(now, timed_node_until(node))) {
        board_wait();
        return TIMED_NODE_OK;
    }
    radio_off();
    return timed_node_timed_out(node, now);
}

/* What the node waits for next. The tick is read after a work, and after a message is out, not before. */
static enum timed_node_answer step(timed_node *node) {
    uint32_t now = board_tick();
    switch (timed_node_next(node)) {
    case TIMED_NODE_SLEEP:
        if (!before(now, timed_node_from(node)))
            return wake(node, now);
        board_wait();
        return TIMED_NODE_OK;
    case TIMED_NODE_WORK:
        application_work(timed_node_edge(node));
        return timed_node_done(node, board_tick());
    case TIMED_NODE_SEND:
        radio_send(timed_node_channels(node));
        return timed_node_done(node, board_tick());
    case TIMED_NODE_LISTEN:
        return listen(node, now);
    case TIMED_NODE_OVER:
        return TIMED_NODE_HORIZON;
    default:
        return timed_node_error(node);
    }
}

int main(void) {
    static timed_node node;
    enum timed_node_answer answer = start(&node);
    board_start();
    while (answer < TIMED_NODE_HORIZON)
        answer = step(&node);
    board_stop(answer, &node);
    return 0;
}
