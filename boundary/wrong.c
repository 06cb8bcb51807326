/*
 * Wrong versions of the calls, to see that the trial finds them. The
 * linker puts these in front of the library's own (--wrap). The variable
 * WRONG names the fault; with 0 or none there is no fault.
 */
#include <stdlib.h>

#include "wrong.h"

CALL(check);
CALL(schedule);
CALL(translate);
CALL(part);
CALL(run);
CALL(passages);
CALL(meetings);
CALL(start);
CALL(step);
CALL(take_message);
CALL(timing_chart);
CALL(plan);
CALL(edge_choice);
CALL(check_spread);
CALL(largest_spread);
CALL(meetings_spread);
CALL(run_apart);
CALL(refusal_place);
CALL(refused_opening);

int wrong(int fault) {
    static int chosen = -1;
    if (chosen < 0) {
        const char *word = getenv("WRONG");
        chosen = word == NULL ? 0 : atoi(word);
    }
    return chosen == fault;
}

void touch(const uint8_t *at) {
    (void)*(const volatile uint8_t *)at;
}

timed_network_verdict_numbers __wrap_timed_network_check(const uint8_t *table, size_t length) {
    timed_network_verdict_numbers answer = __real_timed_network_check(table, length);
    if (wrong(1))
        touch(table + length); /* reads the byte behind the table */
    if (wrong(2) && length > 0)
        touch(table - 1); /* reads the byte before it */
    if (wrong(3) && length > 0)
        *(volatile uint8_t *)table = *table; /* writes to it, the same byte */
    if (wrong(4) && answer.number == 1)
        answer.component = 0; /* names a component with refusal 1 */
    return answer;
}

timed_network_call_numbers __wrap_timed_network_schedule(const uint8_t *table, size_t length,
                                                         uint32_t *list, size_t list_length) {
    timed_network_call_numbers answer =
        __real_timed_network_schedule(table, length, list, list_length);
    if (wrong(5) && list_length > 0)
        list[list_length] = 1; /* writes the number behind the list */
    if (wrong(6) && answer.number == 0 && 7 * answer.size < list_length)
        list[7 * answer.size] = 255; /* writes past the result */
    if (wrong(7) && answer.number != 0 && list_length > 0)
        list[0] = 0; /* writes after a refusal */
    if (wrong(8) && answer.number == 0 && 7 * answer.size == list_length) {
        answer.number = 13; /* refuses a list of exactly the needed length */
        answer.size = 0;
    }
    return answer;
}

timed_network_call_numbers __wrap_timed_network_translate(const uint8_t *table, size_t length,
                                                          uint8_t *program,
                                                          size_t program_length) {
    if (wrong(9) && length == 0)
        touch(table); /* reads a table of no bytes */
    timed_network_call_numbers answer =
        __real_timed_network_translate(table, length, program, program_length);
    if (wrong(10) && program_length > 0)
        program[-1] = 0; /* writes the byte before the program */
    if (wrong(11) && answer.number == 0)
        answer.size += 1; /* says one byte too many */
    return answer;
}

timed_network_part_numbers __wrap_timed_network_part(const uint8_t *program,
                                                     size_t program_length, uint8_t node) {
    timed_network_part_numbers answer =
        __real_timed_network_part(program, program_length, node);
    if (wrong(12) && program_length < 6)
        touch(program + 5); /* reads the header without its length */
    if (wrong(13) && answer.length > 0)
        answer.start = program_length; /* gives a part outside */
    return answer;
}

timed_network_run_numbers __wrap_timed_network_run(const uint8_t *table, size_t length,
                                                   const uint8_t *choices,
                                                   size_t choices_length, uint8_t *observations,
                                                   size_t observations_length) {
    timed_network_run_numbers answer = __real_timed_network_run(
        table, length, choices, choices_length, observations, observations_length);
    if (wrong(14))
        touch(choices + choices_length); /* reads the choice behind the last */
    if (wrong(15) && answer.number == 13 && observations_length > 0)
        observations[0] = 0; /* writes where too little is lent */
    if (wrong(16) && answer.number == 0)
        observations[TIMED_NETWORK_OBSERVATION * answer.size] = 7; /* one observation more */
    if (wrong(17) && answer.end == 3)
        answer.used += 1; /* counts a choice that is not allowed */
    if (answer.number == 13 && asks_for_32_bytes(table, length, observations_length))
        answer.number = 0; /* counts 32 bytes for each passage */
    spoil_finishes(observations, answer.size, NULL, 0);
    return answer;
}

timed_network_call_numbers __wrap_timed_network_passages(const uint8_t *table, size_t length,
                                                         timed_network_passage *list,
                                                         size_t list_length) {
    timed_network_call_numbers answer =
        __real_timed_network_passages(table, length, list, list_length);
    if (wrong(18) && answer.number == 0 && answer.size < list_length)
        list[answer.size].end = 0; /* writes past the result */
    if (wrong(19) && answer.number == 0)
        list[0].message ^= 1; /* another message */
    return answer;
}

timed_network_meetings_numbers __wrap_timed_network_meetings(const uint8_t *table,
                                                             size_t length, uint32_t *list,
                                                             size_t list_length) {
    timed_network_meetings_numbers answer =
        __real_timed_network_meetings(table, length, list, list_length);
    if (wrong(20) && list_length > 0)
        list[list_length] = 1; /* writes the number behind the list */
    if (wrong(21) && answer.number == 13 && list_length > 0)
        list[0] = 0; /* writes where the list is too short */
    if (wrong(22) && answer.number == 13)
        answer.concerned = 255; /* tells no component where the list is too short */
    if (wrong(23) && answer.size > 1)
        answer.size -= 1; /* says one passage too few */
    if (wrong(24) && answer.size > 1)
        list[7] = list[0]; /* lists a passage of the component at fault */
    if (wrong(25) && answer.refusal == 0 && list_length == 0)
        answer.number = 13; /* asks for a list where nothing is listed */
    if (wrong(26))
        touch(table + length); /* reads the byte behind the table */
    return answer;
}

timed_network_node_registers __wrap_timed_network_start(const uint8_t *part, size_t length) {
    timed_network_node_registers node = __real_timed_network_start(part, length);
    if (wrong(27))
        touch(part + length); /* reads the byte behind the part */
    if (wrong(28) && length > 0)
        *(volatile uint8_t *)part = *part; /* writes to it, the same byte */
    if (wrong(29))
        node.tried.good = false; /* begins without a trial */
    if (wrong(30))
        node.kept.edge = 1; /* a register that is not 0 */
    return node;
}

void __wrap_timed_network_step(timed_network_node_registers *node, const uint8_t *part,
                               size_t length, uint8_t clocks, uint8_t variables) {
    timed_network_node_registers before = *node;
    __real_timed_network_step(node, part, length, clocks, variables);
    if (wrong(31))
        ((uint8_t *)node)[sizeof *node] = 1; /* writes behind the registers */
    if (wrong(32))
        ((uint8_t *)node)[-1] = 1; /* writes before them */
    if (wrong(33))
        touch(part + length); /* reads the byte behind the part */
    if (wrong(34) && clocks < 4)
        node->clocks[3] += 1; /* changes a clock that the node does not have */
    if (wrong(35) && variables > 4)
        node->pc += 4; /* goes on with more variables than there are places for */
    if (wrong(36) && node->sleeps != before.sleeps)
        node->goes ^= 1; /* a sleep changes a register that it does not name */
    if (wrong(37) && length == 65535)
        *node = before; /* leaves a part of the greatest length */
    if (wrong(38) && node->t != before.t)
        node->n += 1; /* another ready delay of the edge taken */
}

void __wrap_timed_network_take_message(timed_network_node_registers *node, const uint8_t *part,
                                       size_t length, uint8_t channel) {
    timed_network_node_registers before = *node;
    __real_timed_network_take_message(node, part, length, channel);
    if (wrong(39))
        ((uint8_t *)node)[sizeof *node] = 1; /* writes behind the registers */
    if (wrong(40) && length > 0)
        touch(part - 1); /* reads the byte before the part */
    if (wrong(41))
        node->taken = true; /* takes every message */
    if (wrong(42) && node->pc != before.pc)
        node->goes ^= 1; /* goes to another location */
    if (wrong(43) && node->pc != before.pc)
        node->pc = before.pc + 4; /* does not skip the pairs */
}

timed_network_call_numbers __wrap_timed_network_timing_chart(const uint8_t *table,
                                                             size_t length, uint8_t *chart,
                                                             size_t chart_length) {
    timed_network_call_numbers answer =
        __real_timed_network_timing_chart(table, length, chart, chart_length);
    if (wrong(44) && answer.number == 0 && answer.size < chart_length)
        chart[answer.size] = 0; /* writes past the result */
    if (wrong(45) && answer.number == 13 && chart_length > 0)
        chart[0] = 'C'; /* writes where too little is lent */
    return answer;
}

timed_network_call_numbers __wrap_timed_network_plan(uint32_t probes, uint32_t slot,
                                                     uint32_t guard, uint32_t period,
                                                     uint8_t *table, size_t length) {
    timed_network_call_numbers answer =
        __real_timed_network_plan(probes, slot, guard, period, table, length);
    if (wrong(46) && answer.number == 0 && answer.size < length)
        table[answer.size] = 0; /* writes past the result */
    if (wrong(47) && answer.number == 13 && length > 0)
        table[0] = 1; /* writes where too little is lent */
    if (wrong(48) && answer.number == 18 && length == 0)
        answer.number = 13; /* 13 before 18 */
    if (wrong(49) && answer.number == 0)
        table[16] -= 1; /* a bound one tick too low */
    return answer;
}

timed_network_edge_choice_numbers
__wrap_timed_network_edge_choice(const uint8_t *table, size_t length,
                                 timed_network_entry_numbers entry) {
    if (wrong(50))
        entry.component = 0; /* asks for component 0 whatever is asked */
    timed_network_edge_choice_numbers answer =
        __real_timed_network_edge_choice(table, length, entry);
    if (wrong(51) && length > 0)
        touch(table - 1); /* reads the byte before the table */
    if (wrong(52) && answer.taken && answer.ready > 0)
        answer.looked -= 1; /* counts one too few where none is ready at once */
    if (wrong(53) && answer.taken && answer.ready == 0 && answer.looked < 32)
        answer.looked += 1; /* looks at one more */
    return answer;
}

timed_network_verdict_numbers
__wrap_timed_network_check_spread(const uint8_t *table, size_t length, uint32_t spread) {
    if (wrong(54))
        touch(table + length); /* reads the byte behind the table */
    if (wrong(55) && spread == 1001)
        spread = 1000; /* takes a spread of 1,001 */
    if (wrong(56) && spread > 65535)
        spread = (uint16_t)spread; /* cuts the spread to 16 bits */
    timed_network_verdict_numbers answer =
        __real_timed_network_check_spread(table, length, spread);
    if (wrong(57) && answer.number == 19)
        answer.component = 0; /* names a component with refusal 19 */
    if (wrong(58) && spread == 0 && answer.number == 16)
        answer.number = 11; /* another verdict at spread 0 */
    return answer;
}

timed_network_spread_numbers __wrap_timed_network_largest_spread(const uint8_t *table,
                                                                 size_t length) {
    timed_network_spread_numbers answer = __real_timed_network_largest_spread(table, length);
    if (wrong(59) && length > 0)
        touch(table - 1); /* reads the byte before the table */
    if (wrong(60) && answer.number == 0 && answer.spread > 0)
        answer.spread -= 1; /* one tick too few */
    if (wrong(61) && answer.number == 0)
        answer.spread += 1; /* one tick too many */
    if (wrong(62) && answer.number != 0)
        answer.spread = 1; /* a spread of a refused table */
    return answer;
}

timed_network_meetings_numbers
__wrap_timed_network_meetings_spread(const uint8_t *table, size_t length, uint32_t spread,
                                     uint32_t *list, size_t list_length) {
    timed_network_meetings_numbers answer =
        __real_timed_network_meetings_spread(table, length, spread, list, list_length);
    if (wrong(63) && list_length > 0)
        list[list_length] = 1; /* writes the number behind the list */
    if (wrong(64) && answer.number == 13 && list_length > 0)
        list[0] = 0; /* writes where the list is too short */
    if (wrong(65) && answer.refusal == 16 && answer.size > 1)
        list[11] -= spread; /* lists a listener that starts earlier than it does */
    if (wrong(66) && answer.refusal == 10 && answer.size > 1)
        list[11] += 2000; /* lists a send that is not near */
    if (wrong(67) && spread > 0 && answer.refusal != 19)
        answer.refusal = 0; /* accepts the table at a spread */
    return answer;
}

timed_network_run_numbers
__wrap_timed_network_run_apart(const uint8_t *table, size_t length, const uint8_t *choices,
                               size_t choices_length, uint32_t spread, const uint32_t *offsets,
                               size_t offsets_length, uint8_t *observations,
                               size_t observations_length) {
    if (wrong(68))
        touch((const uint8_t *)(offsets + offsets_length)); /* reads the offset behind the last */
    if (wrong(69) && offsets_length > 0)
        touch((const uint8_t *)offsets - 1); /* reads the byte before them */
    if (wrong(70) && offsets_length > 0)
        *(volatile uint32_t *)offsets = *offsets; /* writes to them, the same number */
    if (wrong(71) && offsets_length > 8)
        offsets_length = 0; /* takes more offsets than nodes for none */
    if (wrong(72) && offsets_length == 0)
        offsets_length = 1; /* reads an offset where there is none */
    timed_network_run_numbers answer =
        __real_timed_network_run_apart(table, length, choices, choices_length, spread, offsets,
                                       offsets_length, observations, observations_length);
    if (wrong(73) && answer.number == 20)
        answer.number = 14; /* another refusal of an offset */
    if (wrong(74) && answer.number == 20 && observations_length > 0)
        observations[0] = 0; /* writes after that refusal */
    if (wrong(75) && answer.number == 0)
        observations[TIMED_NETWORK_OBSERVATION * answer.size] = 7; /* one observation more */
    if (wrong(76) && answer.size > 0 && offsets_length > 0)
        observations[7] += (uint8_t)offsets[0]; /* the common tick in an observation */
    if (wrong(77) && answer.number == 19)
        answer.tick = 1; /* a refused run with a tick */
    spoil_finishes(observations, answer.size, offsets, offsets_length);
    return answer;
}

timed_network_place_numbers __wrap_timed_network_refusal_place(const uint8_t *table,
                                                               size_t length) {
    timed_network_place_numbers answer = __real_timed_network_refusal_place(table, length);
    if (wrong(78))
        touch(table + length); /* reads the byte behind the table */
    if (wrong(79) && length > 0)
        touch(table - 1); /* reads the byte before it */
    if (wrong(80) && answer.number == 0)
        answer.component = 0; /* names a component without a refusal */
    if (wrong(81) && answer.number == 5 && answer.width == 2)
        answer.offset += 1; /* the second byte of the number at fault */
    if (wrong(82) && answer.number == 5)
        answer.start += answer.offset, answer.offset = 0; /* the number for its part */
    if (wrong(83) && answer.part == TIMED_NETWORK_PART_PAIR)
        answer.part = TIMED_NETWORK_PART_CHANNEL; /* a receive's pair for a send's channel */
    if (wrong(84) && answer.limit > answer.least)
        answer.limit -= 1; /* the most that is allowed for the limit */
    if (wrong(85) && answer.number == 4 && answer.width == 0)
        answer.value += 1; /* one byte more than there is */
    if (wrong(86))
        answer.unbounded = false; /* not even 65,535 */
    if (wrong(87) && answer.number == 6)
        answer.index -= 1; /* the pair before */
    if (wrong(88) && answer.number == 6)
        answer.number = 5, answer.limit = 0; /* a channel twice is out of range */
    return answer;
}

timed_network_opening_numbers __wrap_timed_network_refused_opening(const uint8_t *table,
                                                                   size_t length) {
    timed_network_opening_numbers answer = __real_timed_network_refused_opening(table, length);
    if (wrong(89))
        touch(table + length); /* reads the byte behind the table */
    if (wrong(90) && length > 0)
        touch(table - 1); /* reads the byte before it */
    if (wrong(91) && answer.number == 0)
        answer.entry.component = 0; /* an entry without a refusal */
    if (wrong(92) && answer.number == 7)
        answer.passage -= 1; /* the last passage that opened */
    if (wrong(93) && answer.number == 8)
        answer.blocked = answer.leaving, answer.windowless = 0; /* all blocked by data */
    if (wrong(94) && answer.number == 9)
        answer.update += 1; /* the update behind the first */
    if (wrong(95) && answer.number == 9)
        answer.leaving = 1; /* counts edges where one is taken */
    if (wrong(96) && answer.number != 0)
        answer.tick += 1; /* one tick later */
    if (wrong(97) && answer.number == 8 && answer.passage > 0)
        answer.entry.clocks[0] = 0; /* as if each location were entered with a clock of 0 */
    if (wrong(98) && answer.number == 9)
        answer.entry.values[0] += 1; /* a variable after an update */
    if (wrong(99) && answer.passage > 0)
        answer.entry.location = 0; /* the initial location */
    return answer;
}
