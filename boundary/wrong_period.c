#include "wrong.h"

CALL(period);
CALL(run_to);
CALL(schedule);

enum { OBSERVATION = TIMED_NETWORK_OBSERVATION };

static uint32_t own_horizon(const uint8_t *table) { return 256u * table[5] + table[6]; }

timed_network_period_numbers __wrap_timed_network_period(const uint8_t *table, size_t length) {
    timed_network_period_numbers answer = __real_timed_network_period(table, length);
    uint32_t ticks = answer.to - answer.from;
    if (wrong(208))
        touch(table + length); /* reads the byte behind the table */
    if (wrong(209) && answer.found && answer.from > 0) {
        answer.from = 0; /* everything comes again from the start on */
        answer.to = ticks;
    }
    if (wrong(210) && answer.found && answer.from > 0)
        answer.to = ticks; /* the period in the place of the second tick */
    if (wrong(211) && answer.number != 0)
        answer.found = true; /* a refused table has a pair */
    if (wrong(212) && answer.number == 0 && !answer.found)
        answer.to = own_horizon(table); /* the horizon where there is none */
    if (wrong(213) && answer.number != 0)
        answer.component = 0; /* names component 0 always */
    if (wrong(214) && answer.found)
        answer.found = false, answer.from = answer.to = 0; /* never finds one */
    if (wrong(215) && answer.found && answer.to + ticks < own_horizon(table)) {
        answer.from += ticks; /* the pair after the first */
        answer.to += ticks;
    }
    if (wrong(216) && answer.found && answer.to + ticks < own_horizon(table))
        answer.to += ticks; /* two periods for one */
    if (wrong(217) && length > 0)
        *(volatile uint8_t *)table = *table; /* writes to the table, the same byte */
    return answer;
}

/* The horizon that a wrong version goes by. */
static uint32_t changed(const uint8_t *table, size_t length, uint32_t horizon) {
    int whole = length > 6 && __real_timed_network_period(table, length).number == 0;
    uint32_t own = whole ? own_horizon(table) : horizon;
    if (wrong(218) && horizon == 0)
        return own; /* 0 is the table's own */
    if (wrong(219) && horizon > own && !__real_timed_network_period(table, length).found)
        return own; /* runs to the table's own where there is no pair */
    if (wrong(220) && horizon > own)
        return own; /* ends at the table's own always */
    if (wrong(221))
        return (uint16_t)horizon; /* cuts the horizon to 16 bits */
    if (wrong(222) && horizon > 1)
        return horizon - 1; /* ends a tick earlier */
    return horizon;
}

/* What is wrong with the answer of a run that takes place. */
static timed_network_run_to_numbers spoil(timed_network_run_to_numbers answer) {
    if (wrong(223) && answer.end == 0)
        answer.end = 1; /* choices used up at the horizon */
    if (wrong(224) && answer.used > 0)
        answer.used--; /* one choice less */
    if (wrong(225) && answer.end != 2)
        answer.node = 0; /* names a node that is not late */
    if (wrong(226))
        answer.used = (uint8_t)answer.used; /* cuts the choices to a byte */
    if (wrong(227) && answer.size > 0)
        answer.size--; /* an observation too few */
    return answer;
}

static timed_network_run_to_numbers refused(uint8_t number) {
    timed_network_run_to_numbers answer = {number, 255, 0, 255, 0, 0, 0};
    return answer;
}

/* The refusals that a wrong version gives, or 0. */
static uint8_t wrongly(const uint8_t *table, size_t length, uint32_t horizon,
                       size_t choices_length, size_t lent, uint8_t number) {
    static uint32_t list[TIMED_NETWORK_SCHEDULE_ENOUGH];
    if (wrong(228) && number == 29 && lent == 0)
        return 13; /* 13 before 29 */
    if (wrong(229) && number == 13)
        return 29; /* 29 for what does not fit */
    if ((number != 0 && number != 13) || length < 7)
        return 0;
    size_t rows =
        __real_timed_network_schedule(table, length, list, TIMED_NETWORK_SCHEDULE_ENOUGH).size;
    if (wrong(230) && number == 0 && horizon == own_horizon(table))
        return 29; /* refuses the table's own horizon */
    if (wrong(231) && number == 0 && choices_length > TIMED_NETWORK_MAX_CHOICES)
        return 14; /* 14 applies */
    if (wrong(232) && number == 0 && lent < OBSERVATION * rows)
        return 13; /* counts the table's own passages where they are more */
    if (wrong(233) && number == 0 && lent >= OBSERVATION && lent < OBSERVATION * (rows + 1))
        return 13; /* refuses exactly as many bytes as are needed */
    return 0;
}

timed_network_run_to_numbers
__wrap_timed_network_run_to(const uint8_t *table, size_t length, const uint8_t *choices,
                            size_t choices_length, uint32_t horizon, uint8_t *observations,
                            size_t observations_length) {
    timed_network_run_to_numbers answer = __real_timed_network_run_to(
        table, length, choices, choices_length, changed(table, length, horizon), observations,
        observations_length);
    size_t written = OBSERVATION * (size_t)answer.size;
    uint8_t number = wrongly(table, length, horizon, choices_length, observations_length,
                             answer.number);
    if (number != 0)
        answer = refused(number);
    if (answer.number == 0)
        answer = spoil(answer);
    if (wrong(234))
        touch(table + length); /* reads the byte behind the table */
    if (wrong(235))
        touch(choices + choices_length); /* reads the byte behind the choices */
    if (wrong(236) && choices_length > 0)
        touch(choices - 1); /* reads the byte before them */
    if (wrong(237) && choices_length > 0)
        *(volatile uint8_t *)choices = *choices; /* writes to them, the same byte */
    if (wrong(238) && answer.number == 0 && written < observations_length)
        observations[written] = 0; /* writes past the result */
    if (wrong(239) && answer.number != 0 && observations_length > 0)
        observations[0] = 1; /* writes after a refusal */
    if (wrong(240) && answer.number == 29)
        answer.component = 0; /* names a component with refusal 29 */
    if (wrong(241) && answer.number != 0)
        answer.node = 0; /* names a node after a refusal */
    return answer;
}
