#include <string.h>

#include "wrong.h"

CALL(schedule);

enum { OBSERVATION = TIMED_NETWORK_OBSERVATION, FINISH_TICK = 32, NODES = 256 };

static uint32_t read_four(const uint8_t *at) {
    return (uint32_t)at[0] << 24 | (uint32_t)at[1] << 16 | (uint32_t)at[2] << 8 | at[3];
}

static void write_four(uint8_t *at, uint32_t number) {
    for (int i = 0; i < 4; i++)
        at[i] = (uint8_t)(number >> (24 - 8 * i));
}

/* What a wrong version writes for the right finish tick; the node's observation before had another. */
static uint32_t spoilt(const uint8_t *observation, uint32_t right, uint32_t before,
                       uint32_t offset) {
    int first = right == TIMED_NETWORK_NO_WORK;
    if (wrong(115) && first)
        return 0; /* 0 for the first */
    if (wrong(116))
        return TIMED_NETWORK_NO_WORK; /* no finish tick ever */
    if (wrong(117))
        return right >> 24 | (right >> 8 & 0xff00) | (right & 0xff00) << 8 |
               right << 24; /* the lowest byte first */
    if (wrong(118) && !first)
        return right + 1; /* a tick later */
    if (wrong(119) && !first)
        return before; /* that of the passage before the previous one */
    if (wrong(120) && !first)
        return right + offset; /* by the common clock */
    if (wrong(121) && !first)
        return read_four(observation + 4); /* the tick of this sleep */
    return right;
}

void spoil_finishes(uint8_t *observations, size_t size, const uint32_t *offsets,
                    size_t offsets_length) {
    uint32_t before[NODES];
    memset(before, 0xff, sizeof before);
    for (size_t i = 0; i < size; i++) {
        uint8_t *observation = observations + OBSERVATION * i, node = observation[0];
        uint32_t right = read_four(observation + FINISH_TICK);
        uint32_t offset = node < offsets_length ? offsets[node] : 0;
        write_four(observation + FINISH_TICK,
                   spoilt(observation, right, before[node], offset));
        before[node] = right;
    }
}

int asks_for_32_bytes(const uint8_t *table, size_t length, size_t lent) {
    static uint32_t list[TIMED_NETWORK_SCHEDULE_ENOUGH];
    size_t passages =
        __real_timed_network_schedule(table, length, list, TIMED_NETWORK_SCHEDULE_ENOUGH).size;
    return wrong(122) && lent >= FINISH_TICK * passages;
}
