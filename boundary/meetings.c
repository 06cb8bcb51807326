#include "calls.h"

uint32_t met[MAX_MET];

static struct place table_place, met_place;

void meetings_start(void) {
    table_place = place_new(MAX_TABLE);
    met_place = place_new(sizeof met);
}

/* Two windows, as rows of the schedule, are at most so many ticks apart. */
static int are_near(const uint32_t *row, const uint32_t *other, uint32_t spread) {
    return row[4] <= other[5] + spread && other[4] <= row[5] + spread;
}

/* Whether so many passages are listed as the refusal takes. */
static int met_size_fits(uint8_t refusal, size_t size) {
    switch (refusal) {
    case 10:
        return size >= 2;
    case 11:
        return size == 1;
    case 12:
    case 15:
        return size >= 3;
    default:
        return size == 2;
    }
}

/*
 * 16: the listener does not start more than the spread earlier; 17: it does,
 * and does not end more than it later.
 */
static void try_listener(uint8_t refusal, const uint32_t *send, const uint32_t *receive,
                         uint32_t spread) {
    int early = receive[4] + spread < send[4];
    if (refusal == 16 && early)
        fail("the listener starts earlier");
    if (refusal == 17 && (!early || receive[5] > send[5] + spread))
        fail("the listener starts late, or ends later");
}

/*
 * What is listed after refusal 10 to 12 or 15 to 17: the passage at fault, of
 * the component concerned, then passages of others that are near to it, in the
 * order of the schedule; as many as the refusal takes.
 */
static void try_met(const timed_network_meetings_numbers *answer, uint32_t spread) {
    uint8_t refusal = answer->refusal;
    if (!met_size_fits(refusal, answer->size) || met[0] != answer->concerned)
        fail("not the passage at fault, or another count of those that it meets");
    if (refusal >= 16)
        try_listener(refusal, met, &met[FIELDS], spread);
    for (size_t i = 1; i < answer->size; i++) {
        const uint32_t *row = &met[FIELDS * i];
        if (row[0] == met[0] || row[0] >= 8 || !are_near(met, row, spread))
            fail("a passage is listed that does not meet the one at fault");
        if (i > 1 && row[3] < row[3 - FIELDS])
            fail("the passages that meet are not in their order");
    }
}

/* The verdict is held to that of the check, what is listed to its number. */
static void try_meetings(timed_network_meetings_numbers answer,
                         timed_network_verdict_numbers verdict, uint32_t spread) {
    if (answer.refusal != verdict.number || answer.concerned != verdict.component)
        fail("another verdict than that of the check");
    if ((answer.number != 0 && answer.number != 13) || answer.component != 255)
        fail("there is no such answer");
    int met_some = (answer.refusal >= 10 && answer.refusal <= 12) ||
                   (answer.refusal >= 15 && answer.refusal <= 17);
    if (answer.number == 13 ? answer.size != 0 || !met_some : !met_some && answer.size != 0)
        fail("the size cannot be");
    if (met_some && answer.number == 0)
        try_met(&answer, spread);
}

timed_network_meetings_numbers guarded_meetings(enum where where, struct bytes table,
                                                size_t lent) {
    const uint8_t *in = place_input(&table_place, where, table.at, table.length);
    uint8_t *out = place_output(&met_place, where, lent * sizeof met[0]);
    timed_network_meetings_numbers answer =
        timed_network_meetings(in, table.length, (uint32_t *)(void *)out, lent);
    made[MEETINGS]++;
    place_input_done(&table_place, table.at);
    place_output_done(&met_place, (size_t)answer.size * FIELDS * sizeof met[0],
                      (uint8_t *)met);
    try_meetings(answer, guarded_check(where, table), 0);
    return answer;
}

timed_network_meetings_numbers guarded_meetings_spread(enum where where, struct bytes table,
                                                       uint32_t spread, size_t lent) {
    const uint8_t *in = place_input(&table_place, where, table.at, table.length);
    uint8_t *out = place_output(&met_place, where, lent * sizeof met[0]);
    timed_network_meetings_numbers answer =
        timed_network_meetings_spread(in, table.length, spread, (uint32_t *)(void *)out, lent);
    made[MEETINGS_SPREAD]++;
    place_input_done(&table_place, table.at);
    place_output_done(&met_place, (size_t)answer.size * FIELDS * sizeof met[0],
                      (uint8_t *)met);
    try_meetings(answer, guarded_check_spread(where, table, spread), spread);
    return answer;
}
