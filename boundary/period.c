#include "calls.h"

#include <string.h>

static struct place table_place, choices_place, observations_place;

void period_start(void) {
    table_place = place_new(MAX_TABLE);
    choices_place = place_new(MAX_CHOICES + 1);
    observations_place = place_new(MAX_OBSERVATIONS);
}

static uint32_t own_horizon(struct bytes table) {
    return 256u * table.at[5] + table.at[6];
}

/* How many of the rows in `list` are entered before a tick. */
static size_t rows_before(size_t rows, uint32_t tick) {
    size_t count = 0;
    while (count < rows && list[FIELDS * count + 3] < tick)
        count++;
    return count;
}

/* A row of the schedule, as another one `ticks` later; the message may be another. */
static int comes_again(const uint32_t *row, const uint32_t *later, uint32_t ticks) {
    return row[0] == later[0] && row[1] == later[1] && row[2] == later[2] &&
           row[3] + ticks == later[3] && row[4] + ticks == later[4] &&
           row[5] + ticks == later[5];
}

/* All components enter at both ticks, and from the second on the rows are those from the first on. */
static void try_pair(struct bytes table, size_t rows, uint32_t from, uint32_t to) {
    size_t first = rows_before(rows, from), second = rows_before(rows, to);
    if (from >= to || to >= own_horizon(table))
        fail("a pair that cannot be");
    for (size_t c = 0; c < table.at[3]; c++)
        if (first + c >= rows || list[FIELDS * (first + c)] != c ||
            list[FIELDS * (first + c) + 3] != from || second + c >= rows ||
            list[FIELDS * (second + c)] != c || list[FIELDS * (second + c) + 3] != to)
            fail("not all components enter at both ticks");
    for (size_t i = first; i + (second - first) < rows; i++)
        if (!comes_again(&list[FIELDS * i], &list[FIELDS * (i + second - first)], to - from))
            fail("the rows do not come again");
}

timed_network_period_numbers guarded_period(enum where where, struct bytes table) {
    const uint8_t *in = place_input(&table_place, where, table.at, table.length);
    timed_network_period_numbers answer = timed_network_period(in, table.length);
    made[PERIOD]++;
    place_input_done(&table_place, table.at);
    timed_network_verdict_numbers verdict = guarded_check(where, table);
    if (answer.number != verdict.number || answer.component != verdict.component)
        fail("another refusal than that of the check");
    if (answer.number != 0 && answer.found)
        fail("a refused table has a pair");
    if (!answer.found && (answer.from | answer.to) != 0)
        fail("there is no pair, and it has numbers");
    if (answer.found)
        try_pair(table, guarded_schedule(where, table, MAX_LIST).size, answer.from, answer.to);
    return answer;
}

/* How many passages the schedule of an accepted table to a horizon has; all fit a size_t. */
static size_t passages_to(enum where where, struct bytes table,
                          const timed_network_period_numbers *pair, uint32_t horizon) {
    size_t rows = guarded_schedule(where, table, MAX_LIST).size;
    if (horizon <= own_horizon(table))
        return rows_before(rows, horizon);
    uint32_t period = pair->to - pair->from, ticks = horizon - pair->from;
    size_t round = rows_before(rows, pair->to) - rows_before(rows, pair->from);
    return rows_before(rows, pair->from + ticks % period) + ticks / period * round;
}

/* The refusal that is expected: the check's, then 29, then 13. */
static timed_network_verdict_numbers expected_refusal(enum where where, struct bytes table,
                                                      uint32_t horizon, size_t lent) {
    timed_network_period_numbers pair = guarded_period(where, table);
    timed_network_verdict_numbers verdict = {pair.number, pair.component};
    if (verdict.number != 0)
        return verdict;
    if (horizon == 0 || (horizon > own_horizon(table) && !pair.found))
        verdict.number = 29;
    else if (lent / OBSERVATION < passages_to(where, table, &pair, horizon))
        verdict.number = 13;
    return verdict;
}

/* What holds for every run to a horizon. */
static void try_run_to(timed_network_run_to_numbers answer, struct bytes choices,
                       uint32_t horizon, size_t lent) {
    if (answer.end > 3 || (answer.end == 2 ? answer.node >= 8 : answer.node != 255))
        fail("there is no such end");
    if (answer.used > choices.length || answer.tick > answer.used || answer.tick > horizon)
        fail("more choices or ticks than were handed in");
    if (answer.size > lent / OBSERVATION)
        fail("more observations than there is room for");
    if (answer.number != 0 && (answer.end | answer.tick | answer.used | answer.size))
        fail("a refused run has numbers");
    if (answer.number == 0 && (answer.end == 0) != (answer.tick == horizon && answer.end != 2))
        fail("a run ends elsewhere than at its horizon");
}

/*
 * The run without a horizon, where it takes place, and this one are alike up to the
 * earlier of both horizons; to the table's own they are the same.
 */
static void try_beside(enum where where, struct bytes table, struct bytes choices,
                       uint32_t horizon, timed_network_run_to_numbers answer) {
    static uint8_t shown[MAX_OBSERVATIONS];
    size_t size = (size_t)answer.size;
    memcpy(shown, observations, size * OBSERVATION);
    timed_network_run_numbers ran = guarded_run(where, table, choices, MAX_OBSERVATIONS);
    if (ran.number != 0)
        return;
    size_t both = size < ran.size ? size : ran.size;
    if (memcmp(shown, observations, both * OBSERVATION) != 0)
        fail("another run to a horizon than without one");
    if (horizon <= own_horizon(table) ? size > ran.size : size < ran.size)
        fail("a run to an earlier horizon shows more");
    if (horizon == own_horizon(table) &&
        (answer.end != ran.end || answer.node != ran.node || answer.tick != ran.tick ||
         answer.used != ran.used || size != ran.size))
        fail("another run to the table's own horizon than without one");
    memcpy(observations, shown, size * OBSERVATION);
}

timed_network_run_to_numbers guarded_run_to(enum where where, struct bytes table,
                                            struct bytes choices, uint32_t horizon,
                                            size_t lent) {
    const uint8_t *in = place_input(&table_place, where, table.at, table.length);
    const uint8_t *chosen = place_input(&choices_place, where, choices.at, choices.length);
    uint8_t *out = place_output(&observations_place, where, lent);
    timed_network_run_to_numbers answer = timed_network_run_to(
        in, table.length, chosen, choices.length, horizon, out, lent);
    made[RUN_TO]++;
    try_run_to(answer, choices, horizon, lent);
    place_input_done(&table_place, table.at);
    place_input_done(&choices_place, choices.at);
    place_output_done(&observations_place, (size_t)answer.size * OBSERVATION, observations);
    timed_network_verdict_numbers expected = expected_refusal(where, table, horizon, lent);
    if (answer.number != expected.number || answer.component != expected.component)
        fail("another refusal than that of the check, of the horizon and of what is lent");
    if (answer.number == 0)
        try_beside(where, table, choices, horizon, answer);
    return answer;
}

void lend_for_run_to(enum where where, struct bytes table, struct bytes choices,
                     uint32_t horizon, long more) {
    timed_network_period_numbers pair = guarded_period(where, table);
    uint32_t own = own_horizon(table);
    if (pair.number != 0 || horizon == 0 || (horizon > own && !pair.found))
        horizon = own;
    size_t needed = OBSERVATION * passages_to(where, table, &pair, horizon);
    long sum = (needed > MAX_OBSERVATIONS ? MAX_OBSERVATIONS : (long)needed) + more;
    size_t lent = sum < 0 ? 0 : (size_t)sum > MAX_OBSERVATIONS ? MAX_OBSERVATIONS : (size_t)sum;
    if (guarded_run_to(where, table, choices, horizon, lent).number !=
        (lent < needed ? 13 : 0))
        fail("observations to a horizon are refused or taken wrongly");
}
