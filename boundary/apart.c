#include "calls.h"

static struct place table_place, choices_place, offsets_place, observations_place;

void apart_start(void) {
    table_place = place_new(MAX_TABLE);
    choices_place = place_new(MAX_CHOICES + 1);
    offsets_place = place_new(MAX_OFFSETS * sizeof(uint32_t));
    observations_place = place_new(MAX_OBSERVATIONS);
}

/*
 * What holds for every verdict at a spread: 19 is said of a spread that there
 * is not, and then of nothing else, but after 1 to 3. At 0 it is the check.
 */
timed_network_verdict_numbers guarded_check_spread(enum where where, struct bytes table,
                                                   uint32_t spread) {
    const uint8_t *in = place_input(&table_place, where, table.at, table.length);
    timed_network_verdict_numbers answer = timed_network_check_spread(in, table.length, spread);
    made[CHECK_SPREAD]++;
    place_input_done(&table_place, table.at);
    int header = answer.number >= 1 && answer.number <= 3;
    if (!header && (spread > MAX_SPREAD) != (answer.number == 19))
        fail("a spread is taken or refused wrongly");
    if (answer.number != 19)
        try_verdict(answer.number, answer.component, 12);
    else if (answer.component != 255)
        fail("a spread concerns no component");
    if (spread == 0) {
        timed_network_verdict_numbers check = guarded_check(where, table);
        if (answer.number != check.number || answer.component != check.component)
            fail("another verdict at spread 0 than that of the check");
    }
    return answer;
}

/* The largest spread is accepted, and the next one is not. */
timed_network_spread_numbers guarded_largest_spread(enum where where, struct bytes table) {
    const uint8_t *in = place_input(&table_place, where, table.at, table.length);
    timed_network_spread_numbers answer = timed_network_largest_spread(in, table.length);
    made[LARGEST_SPREAD]++;
    place_input_done(&table_place, table.at);
    timed_network_verdict_numbers check = guarded_check(where, table);
    if (answer.number != check.number || answer.component != check.component)
        fail("another verdict than that of the check");
    if (answer.number != 0 ? answer.spread != 0 : answer.spread > MAX_SPREAD)
        fail("there is no such spread");
    if (answer.number == 0 &&
        (guarded_check_spread(where, table, answer.spread).number != 0 ||
         guarded_check_spread(where, table, answer.spread + 1).number == 0))
        fail("not the largest spread");
    return answer;
}

/* Whether the offset of a node that the table has is above the spread. */
static int is_above(struct bytes table, const struct waking *waking) {
    for (size_t i = 0; i < waking->count && i < table.at[3]; i++)
        if (waking->offsets[i] > waking->spread)
            return 1;
    return 0;
}

/* The run is refused as the check at its spread is, then with 13, 14 or 20. */
static void try_refusal(enum where where, struct bytes table, struct bytes choices,
                        const struct waking *waking, timed_network_run_numbers answer) {
    timed_network_verdict_numbers verdict = guarded_check_spread(where, table, waking->spread);
    if (verdict.number != 0) {
        if (answer.number != verdict.number || answer.component != verdict.component)
            fail("another refusal than that of the check at the spread");
        return;
    }
    if (answer.component != 255)
        fail("there is no such component");
    int expected = choices.length > MAX_CHOICES ? 14 : is_above(table, waking) ? 20 : 0;
    if (answer.number != 13 && answer.number != expected)
        fail("an offset is taken or refused wrongly");
}

timed_network_run_numbers guarded_run_apart(enum where where, struct bytes table,
                                            struct bytes choices, const struct waking *waking,
                                            size_t lent) {
    const uint8_t *in = place_input(&table_place, where, table.at, table.length);
    const uint8_t *chosen =
        place_input(&choices_place, where, choices.at, choices.length);
    const uint8_t *offsets =
        place_input(&offsets_place, where, (const uint8_t *)waking->offsets,
                    waking->count * sizeof waking->offsets[0]);
    uint8_t *out = place_output(&observations_place, where, lent);
    timed_network_run_numbers answer = timed_network_run_apart(
        in, table.length, chosen, choices.length, waking->spread,
        (const uint32_t *)(const void *)offsets, waking->count, out, lent);
    made[RUN_APART]++;
    try_run(answer, choices);
    place_input_done(&table_place, table.at);
    place_input_done(&choices_place, choices.at);
    place_input_done(&offsets_place, (const uint8_t *)waking->offsets);
    place_output_done(&observations_place, (size_t)answer.size * OBSERVATION,
                      observations);
    try_refusal(where, table, choices, waking, answer);
    return answer;
}
