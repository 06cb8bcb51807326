#include "calls.h"

uint8_t told[MAX_TOLD];

static struct place table_place, told_place;

void reasons_start(void) {
    table_place = place_new(MAX_TABLE);
    told_place = place_new(MAX_LIST);
}

/* The refusal that is expected where enough is lent: the check's, then 21. */
static timed_network_verdict_numbers expected_refusal(enum where where, struct bytes table,
                                                      struct question question) {
    timed_network_verdict_numbers verdict = guarded_check(where, table);
    if (verdict.number == 0 && (question.component >= table.at[3] ||
                                question.tick >= 256u * table.at[5] + table.at[6]))
        verdict.number = 21;
    return verdict;
}

/* What holds for every edge told: a reason that there is, and one alone is the schedule's. */
static void try_edges(const uint32_t *row, size_t size) {
    size_t taken = 0;
    for (size_t i = 0; i < size; i++) {
        const uint8_t *edge = told + REASON * i;
        if (edge[0] >= MAX_EDGES || (i > 0 && edge[0] <= edge[-REASON]))
            fail("the edges are not in their order");
        if (edge[1] > 4 || (edge[1] == 1 ? edge[2] >= 4 : edge[2] != 255))
            fail("there is no such reason");
        if ((edge[1] == 0) != (edge[0] == row[1]) || (edge[1] == 4 && edge[0] < row[1]))
            fail("another edge is taken than that of the schedule");
        taken += edge[1] == 0;
    }
    if (taken != 1)
        fail("not exactly one edge is taken");
}

/* The passage is one of the schedule's, of that component, at that tick. */
static void try_passage(enum where where, struct bytes table, struct question question,
                        timed_network_reason_numbers answer) {
    timed_network_call_numbers planned = guarded_schedule(where, table, MAX_LIST);
    if (answer.passage >= planned.size || answer.size == 0 || answer.size > MAX_EDGES)
        fail("there is no such passage");
    const uint32_t *row = list + (size_t)FIELDS * answer.passage;
    if (row[0] != question.component || row[3] > question.tick || question.tick >= row[5])
        fail("the component is not in that passage at that tick");
    try_edges(row, answer.size);
}

timed_network_reason_numbers guarded_reasons(enum where where, struct bytes table,
                                             struct question question, size_t lent) {
    const uint8_t *in = place_input(&table_place, where, table.at, table.length);
    uint8_t *out = place_output(&told_place, where, lent);
    timed_network_reason_numbers answer = timed_network_reasons(
        in, table.length, question.component, question.tick, out, lent);
    made[REASONS]++;
    if (answer.number != 0 && (answer.passage != 0 || answer.size != 0))
        fail("a refused question has numbers");
    if (answer.size > MAX_EDGES)
        fail("so many edges cannot be told");
    place_input_done(&table_place, table.at);
    place_output_done(&told_place, (size_t)answer.size * REASON, told);
    timed_network_verdict_numbers expected = expected_refusal(where, table, question);
    if (answer.number == 13 ? expected.number != 0 : answer.number != expected.number)
        fail("another refusal than that of the check and of the question");
    if (answer.component != expected.component)
        fail("another component than that of the check");
    if (answer.number == 0)
        try_passage(where, table, question, answer);
    return answer;
}

void lend_for_reasons(enum where where, struct bytes table, struct question question,
                      long more) {
    timed_network_reason_numbers ample = guarded_reasons(where, table, question, MAX_TOLD);
    size_t needed = (size_t)ample.size * REASON;
    long sum = (long)needed + more;
    size_t lent = sum < 0 ? 0 : (size_t)sum > MAX_TOLD ? MAX_TOLD : (size_t)sum;
    uint8_t expected = ample.number != 0 ? ample.number : lent < needed ? 13 : 0;
    if (guarded_reasons(where, table, question, lent).number != expected)
        fail("bytes for reasons are refused or taken wrongly");
}
