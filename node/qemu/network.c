/* All nodes of a table on one bare Cortex-M, each through the calls of timed_node.h; the tick is a counter, the radio a variable. Each does
 * everything as early as it may. */
#include "bare.h"
#include "parts.h"
#include "timed_node.h"

static timed_node nodes[NODES];
static uint32_t most_stack;

void systick(void) {}

static void report(const uint8_t *observation) {
    int i;
    for (i = 0; i < 36; i++)
        print_hex(observation[i], 2);
    print("\n");
}

/* Whoever listens on the channel has the message. */
static bool heard(unsigned sender, uint16_t channel, uint32_t now) {
    unsigned j;
    uint8_t c = 0;
    while ((channel >> c & 1) == 0)
        c++;
    for (j = 0; j < NODES; j++)
        if (j != sender && timed_node_next(&nodes[j]) == TIMED_NODE_LISTEN && (timed_node_channels(&nodes[j]) & channel) != 0)
            return timed_node_received(&nodes[j], now, c) == TIMED_NODE_OK;
    return false;
}

/* What a node waits for happens, if it may now. */
static enum timed_node_answer act(timed_node *node, unsigned i, uint32_t now) {
    switch (timed_node_next(node)) {
    case TIMED_NODE_SLEEP: return timed_node_woke(node, now);
    case TIMED_NODE_WORK: return timed_node_done(node, now);
    case TIMED_NODE_SEND: return heard(i, timed_node_channels(node), now) ? timed_node_done(node, now) : TIMED_NODE_EARLY;
    case TIMED_NODE_LISTEN: return timed_node_timed_out(node, now);
    default: return TIMED_NODE_EARLY;
    }
}

static bool moved(unsigned i, uint32_t now) {
    uint8_t observation[36];
    enum timed_node_wants wants = timed_node_next(&nodes[i]);
    enum timed_node_answer answer;
    uint32_t stack;
    paint();
    answer = act(&nodes[i], i, now);
    stack = deepest();
    if (stack > most_stack)
        most_stack = stack;
    if (answer > TIMED_NODE_HORIZON)
        print("STOPPED\n");
    if (answer != TIMED_NODE_OK)
        return false;
    if (wants == TIMED_NODE_SLEEP) {
        timed_node_observe(&nodes[i], observation);
        report(observation);
    }
    return true;
}

int main(void) {
    uint32_t now;
    unsigned i;
    bool any;
    for (i = 0; i < NODES; i++)
        if (timed_node_start(&nodes[i], (uint8_t)i, parts[i].part, parts[i].length, HORIZON) != TIMED_NODE_OK)
            print("BAD PART\n");
    for (now = 0; now < HORIZON; now++)
        do
            for (any = false, i = 0; i < NODES; i++)
                while (moved(i, now))
                    any = true;
        while (any);
    print("over\n");
    print("stack ");
    print_hex(most_stack, 4);
    print("\n");
    return 0;
}
