/* For Frama-C's Eva: a part of LENGTH unknown bytes, which change between the calls; every sequence of calls, with every tick and channel; the
 * proved calls give back any node. */
#include <__fc_builtin.h>
#include "../timed_node.c"

static uint8_t part[LENGTH];
volatile int goes_on;

timed_node_running timed_node_begun(const uint8_t *p, uint64_t length, uint8_t clocks, uint8_t variables) {
    timed_node_running any;
    (void)p, (void)length, (void)clocks, (void)variables;
    Frama_C_make_unknown((char *)&any, sizeof any);
    return any;
}

void timed_node_happened(timed_node_running *running, const uint8_t *p, uint64_t length, uint8_t what, uint8_t channel, uint64_t tick) {
    (void)p, (void)length, (void)what, (void)channel, (void)tick;
    Frama_C_make_unknown((char *)running, sizeof *running);
}

bool timed_node_listens(const uint8_t *p, uint64_t length, uint64_t at, uint8_t channel) {
    (void)p, (void)length, (void)at, (void)channel;
    return Frama_C_interval(0, 1) != 0;
}

static uint8_t any_byte(void) { return (uint8_t)Frama_C_interval(0, 255); }

int main(void) {
    timed_node node;
    uint8_t observation[36];
    Frama_C_make_unknown((char *)part, LENGTH);
    (void)timed_node_checksum(part, LENGTH < 100 ? LENGTH : 100);
    (void)timed_node_start(&node, any_byte(), part, LENGTH, Frama_C_unsigned_int_interval(0, 4294967295u));
    while (goes_on) {
        uint32_t now = Frama_C_unsigned_int_interval(0, 4294967295u);
        Frama_C_make_unknown((char *)part, LENGTH);
        switch (Frama_C_interval(0, 7)) {
        case 0: (void)timed_node_woke(&node, now); break;
        case 1: (void)timed_node_done(&node, now); break;
        case 2: (void)timed_node_received(&node, now, any_byte()); break;
        case 3: (void)timed_node_timed_out(&node, now); break;
        case 4: timed_node_observe(&node, observation); break;
        case 5: (void)timed_node_channels(&node); break;
        case 6: (void)timed_node_value(&node, any_byte()); break;
        default: (void)timed_node_next(&node), (void)timed_node_from(&node), (void)timed_node_until(&node), (void)timed_node_edge(&node); break;
        }
        (void)timed_node_location(&node), (void)timed_node_place(&node), (void)timed_node_error(&node);
    }
    return 0;
}
