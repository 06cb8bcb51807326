#include "wrong.h"

CALL(reasons);

/* Exchanges two reasons of all edges told. */
static void exchange(uint8_t *told, size_t size, uint8_t one, uint8_t other) {
    for (size_t i = 0; i < size; i++) {
        uint8_t *reason = &told[3 * i + 1];
        *reason = *reason == one ? other : *reason == other ? one : *reason;
    }
}

timed_network_reason_numbers __wrap_timed_network_reasons(const uint8_t *table, size_t length,
                                                          uint32_t component, uint32_t tick,
                                                          uint8_t *told, size_t told_length) {
    if (wrong(100))
        component = (uint8_t)component; /* cuts the component to 8 bits */
    if (wrong(101))
        tick = (uint16_t)tick; /* cuts the tick to 16 bits */
    timed_network_reason_numbers answer =
        __real_timed_network_reasons(table, length, component, tick, told, told_length);
    if (wrong(102))
        touch(table + length); /* reads the byte behind the table */
    if (wrong(103) && length > 0)
        touch(table - 1); /* reads the byte before it */
    if (wrong(104) && answer.number == 0 && 3 * (size_t)answer.size < told_length)
        told[3 * answer.size] = 255; /* writes past the result */
    if (wrong(105) && answer.number == 13 && told_length > 0)
        told[0] = 0; /* writes where too little is lent */
    if (wrong(106) && answer.number == 21 && told_length == 0)
        answer.number = 13; /* 13 before 21 */
    if (wrong(107) && answer.number == 21)
        answer.component = 0; /* names a component with refusal 21 */
    if (wrong(108) && answer.number == 0 && tick > 0)
        answer.passage += 1; /* the passage behind it in the schedule */
    if (wrong(109) && answer.number == 0)
        exchange(told, answer.size, 3, 4); /* later for numbered higher */
    if (wrong(110) && answer.number == 0)
        exchange(told, answer.size, 0, 4); /* another edge is taken */
    if (wrong(111) && answer.number == 0 && told[1] == 1)
        told[2] = 255; /* no number of the data bound that fails */
    if (wrong(112) && answer.number == 0 && told[1] == 1 && told[2] > 0)
        told[2] -= 1; /* the data bound before it */
    if (wrong(113) && answer.size > 1)
        answer.size -= 1; /* one edge too few */
    if (wrong(114) && answer.number == 0 && told_length == 3 * (size_t)answer.size) {
        answer.number = 13; /* refuses exactly as many bytes as are needed */
        answer.passage = answer.size = 0;
    }
    return answer;
}
