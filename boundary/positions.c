#include "calls.h"

uint8_t answered[MAX_ANSWERED];

static struct place table_place, pairs_place, answers_place;

void positions_start(void) {
    table_place = place_new(MAX_TABLE);
    pairs_place = place_new(MAX_NUMBERS * sizeof(uint32_t));
    answers_place = place_new(MAX_ANSWERED + 8);
}

/* The refusal of the first bad pair: 21, then 24; 0 for none. */
static uint8_t bad_pair(struct bytes table, struct numbers pairs) {
    uint32_t horizon = 256u * table.at[5] + table.at[6], before = 0;
    for (size_t i = 0; i + 1 < pairs.length; i += 2) {
        if (pairs.at[i] >= table.at[3] || pairs.at[i + 1] >= horizon)
            return 21;
        if (pairs.at[i + 1] < before)
            return 24;
        before = pairs.at[i + 1];
    }
    return 0;
}

/* The refusal that is expected: the check's, then that of the pairs, then 13. */
static timed_network_verdict_numbers expected_refusal(enum where where, struct bytes table,
                                                      struct numbers pairs, size_t lent) {
    timed_network_verdict_numbers verdict = guarded_check(where, table);
    if (verdict.number == 0)
        verdict.number = bad_pair(table, pairs);
    if (verdict.number == 0 && lent / POSITION < pairs.length / 2)
        verdict.number = 13;
    return verdict;
}

/* The answer to a pair: the last row of its component that is entered by the tick. */
static void try_position(size_t rows, const uint32_t *pair, const uint8_t *answer) {
    size_t row = rows;
    for (size_t i = 0; i < rows; i++)
        if (list[FIELDS * i] == pair[0] && list[FIELDS * i + 3] <= pair[1])
            row = i;
    if (row == rows || row != 256u * answer[0] + answer[1])
        fail("another passage than that of the schedule");
    if (answer[2] != (pair[1] >= list[FIELDS * row + 4]))
        fail("the tick lies elsewhere in its passage");
}

/* As many passages are read as are entered by the last tick, none for no pairs. */
static void try_read(size_t rows, struct numbers pairs, uint32_t read) {
    size_t entered = 0;
    for (size_t i = 0; pairs.length > 1 && i < rows; i++)
        entered += list[FIELDS * i + 3] <= pairs.at[(pairs.length / 2) * 2 - 1];
    if (read != entered)
        fail("another number of passages is read");
}

timed_network_position_numbers guarded_positions(enum where where, struct bytes table,
                                                 struct numbers pairs, size_t lent) {
    const uint8_t *in = place_input(&table_place, where, table.at, table.length);
    const uint8_t *asked = place_input(&pairs_place, where, (const uint8_t *)pairs.at,
                                       pairs.length * sizeof pairs.at[0]);
    uint8_t *out = place_output(&answers_place, where, lent);
    timed_network_position_numbers answer =
        timed_network_positions(in, table.length, (const uint32_t *)(const void *)asked,
                                pairs.length, out, lent);
    made[POSITIONS]++;
    place_input_done(&table_place, table.at);
    place_input_done(&pairs_place, (const uint8_t *)pairs.at);
    size_t count = answer.number == 0 ? pairs.length / 2 : 0;
    place_output_done(&answers_place, count * POSITION, answered);
    timed_network_verdict_numbers expected = expected_refusal(where, table, pairs, lent);
    if (answer.number != expected.number || answer.component != expected.component)
        fail("another refusal than that of the check and of the pairs");
    if (answer.number != 0 && answer.read != 0)
        fail("refused pairs have passages read");
    if (answer.number == 0) {
        size_t rows = guarded_schedule(where, table, MAX_LIST).size;
        try_read(rows, pairs, answer.read);
        for (size_t i = 0; i < count; i++)
            try_position(rows, pairs.at + 2 * i, answered + POSITION * i);
    }
    return answer;
}

void lend_for_positions(enum where where, struct bytes table, struct numbers pairs,
                        long more) {
    long sum = (long)(POSITION * (pairs.length / 2)) + more;
    size_t lent = sum < 0 ? 0 : (size_t)sum > MAX_ANSWERED ? MAX_ANSWERED : (size_t)sum;
    guarded_positions(where, table, pairs, lent);
}
