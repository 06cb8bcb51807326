#include "wrong.h"

CALL(simulate);
CALL(simulate_from);

/* What is wrong with the numbers of both calls before they are handed on. */
static void change(uint32_t *lo, uint32_t *hi, uint32_t *runs) {
    if (wrong(123))
        *runs = (uint16_t)*runs; /* cuts the runs to 16 bits */
    if (wrong(124))
        *hi = (uint16_t)*hi, *lo = (uint16_t)*lo; /* cuts the work times to 16 bits */
    if (wrong(125) && *runs == 10001)
        *runs = 10000; /* takes one run more than there may be */
    if (wrong(126) && *hi == 60001)
        *hi = 60000; /* takes one tick of work more than there may be */
    if (wrong(127) && *lo > *hi && *lo <= 60000)
        *hi = *lo; /* takes a lo above hi */
    if (wrong(128) && *runs == 0)
        *runs = 1; /* one run where none is asked for */
    if (wrong(129) && *hi > *lo && *hi <= 60000)
        *hi -= 1; /* never works for hi ticks */
}

/* What is wrong with the answers of both. */
static timed_network_simulation_numbers changed(timed_network_simulation_numbers answer) {
    if (wrong(130) && answer.number >= 22)
        answer.component = 0; /* names a component with refusals 22 and 23 */
    if (wrong(131) && answer.number != 0)
        answer.state = TIMED_NETWORK_SEED; /* a generator after a refusal */
    if (wrong(132) && answer.late > 0)
        answer.late -= 1; /* one late run too few */
    if (wrong(133) && answer.late > 0)
        answer.nodes[7] += 1; /* counts a late run for node 7 too */
    if (wrong(134) && answer.nodes[1] > 0)
        answer.nodes[0] += answer.nodes[1], answer.nodes[1] = 0; /* counts node 1 as node 0 */
    if (wrong(135) && answer.number == 0)
        answer.state ^= 1; /* another generator */
    return answer;
}

timed_network_simulation_numbers __wrap_timed_network_simulate(const uint8_t *table,
                                                               size_t length, uint32_t lo,
                                                               uint32_t hi, uint32_t runs) {
    change(&lo, &hi, &runs);
    timed_network_simulation_numbers answer =
        __real_timed_network_simulate(table, length, lo, hi, runs);
    if (wrong(136))
        touch(table + length); /* reads the byte behind the table */
    if (wrong(137) && length > 0)
        *(volatile uint8_t *)table = *table; /* writes to it, the same byte */
    return changed(answer);
}

timed_network_simulation_numbers
__wrap_timed_network_simulate_from(const uint8_t *table, size_t length, uint32_t lo,
                                   uint32_t hi, uint32_t runs, uint32_t seed) {
    change(&lo, &hi, &runs);
    if (wrong(138) && seed == 0)
        seed = TIMED_NETWORK_SEED; /* takes seed 0 for the fixed one */
    if (wrong(139) && seed != 0)
        seed = TIMED_NETWORK_SEED; /* takes every seed for the fixed one */
    timed_network_simulation_numbers answer =
        __real_timed_network_simulate_from(table, length, lo, hi, runs, seed);
    if (wrong(140) && length > 0)
        touch(table - 1); /* reads the byte before the table */
    if (wrong(141) && answer.number == 22 && runs == 0)
        answer.number = 23; /* 23 before 22 */
    return changed(answer);
}
