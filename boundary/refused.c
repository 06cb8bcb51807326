#include "calls.h"

static struct place table_place;

void refused_start(void) {
    table_place = place_new(MAX_TABLE);
}

/* The number of so many bytes at a place of the table, the highest first. */
static uint32_t number_at(struct bytes table, size_t at, uint32_t width) {
    return width == 1 ? table.at[at] : 256u * table.at[at] + table.at[at + 1];
}

/* Whether a part of this kind belongs to an edge, and whether it is one of several. */
static int of_edge(uint8_t part) {
    return part == TIMED_NETWORK_PART_BUDGET ||
           (part >= TIMED_NETWORK_PART_EDGE_HEAD && part <= TIMED_NETWORK_PART_PAIR);
}

static int is_one_of(uint8_t part) {
    return part == TIMED_NETWORK_PART_LOCATION ||
           (of_edge(part) && part != TIMED_NETWORK_PART_EDGE_HEAD &&
            part != TIMED_NETWORK_PART_BUDGET);
}

/* Whether a pair before this one has its channel. */
static int is_listed_before(struct bytes table, const timed_network_place_numbers *place) {
    for (size_t i = 1; i <= place->index; i++)
        if (table.at[place->start - 2 * i] == place->value)
            return 1;
    return 0;
}

/* What is told stands in the table, and is not allowed there. */
static void try_fault(struct bytes table, const timed_network_place_numbers *place) {
    size_t at = (size_t)place->start + place->offset;
    if (at + place->width > table.length)
        fail("the place lies outside the table");
    if (place->width > 2 || (place->width == 0 && place->number != 4))
        fail("no number has that width");
    if (place->width > 0 && place->value != number_at(table, at, place->width))
        fail("another number stands there");
    int allowed = (place->value >= place->least && place->value < place->limit) ||
                  (place->unbounded && place->value == 65535);
    if (place->number == 6 ? !allowed || !is_listed_before(table, place) : allowed)
        fail("the number is allowed there");
}

static int is_no_place(const timed_network_place_numbers *place) {
    return place->number == 0 && place->component == 255 && place->part == 0 &&
           place->edge == 0 && place->index == 0 && !place->unbounded && place->start == 0 &&
           place->offset == 0 && place->width == 0 && place->value == 0 && place->least == 0 &&
           place->limit == 0;
}

/* What holds for every place of a refusal: it is that of the check, in a part that there is. */
static void try_place(struct bytes table, timed_network_verdict_numbers verdict,
                      const timed_network_place_numbers *place) {
    if (verdict.number < 4 || verdict.number > 6) {
        if (!is_no_place(place))
            fail("a place without such a refusal");
        return;
    }
    if (place->number != verdict.number || place->component != verdict.component)
        fail("another refusal than that of the check");
    if (place->part < TIMED_NETWORK_PART_COMPONENT_LENGTH ||
        place->part > TIMED_NETWORK_PART_BUDGET)
        fail("there is no such part");
    if (of_edge(place->part) ? place->edge >= MAX_EDGES : place->edge != 255)
        fail("there is no such edge");
    if (is_one_of(place->part) ? place->index >= 16 : place->index != 255)
        fail("there is no such location, bound or item");
    if (place->unbounded &&
        (place->part != TIMED_NETWORK_PART_CLOCK_BOUND || place->offset != 3))
        fail("only the high of a clock bound may be none");
    try_fault(table, place);
}

timed_network_place_numbers guarded_refusal_place(enum where where, struct bytes table) {
    const uint8_t *in = place_input(&table_place, where, table.at, table.length);
    timed_network_place_numbers answer = timed_network_refusal_place(in, table.length);
    made[REFUSAL_PLACE]++;
    place_input_done(&table_place, table.at);
    try_place(table, guarded_check(where, table), &answer);
    return answer;
}

/* Whether an entry has no clock and no variable above 0. */
static int is_still(const timed_network_entry_numbers *entry) {
    for (size_t i = 0; i < 4; i++)
        if (entry->clocks[i] != 0 || entry->values[i] != 0)
            return 0;
    return 1;
}

static int is_no_opening(const timed_network_opening_numbers *opening) {
    return opening->number == 0 && opening->component == 255 && opening->leaving == 0 &&
           opening->blocked == 0 && opening->windowless == 0 && opening->edge == 255 &&
           opening->update == 255 && opening->passage == 0 && opening->tick == 0 &&
           opening->entry.component == 255 && opening->entry.location == 0 &&
           is_still(&opening->entry);
}

/* Why no edge is a candidate, with 8 alone; which update of the edge taken, with 9 alone. */
static void try_reasons(enum where where, struct bytes table,
                        const timed_network_opening_numbers *opening) {
    timed_network_edge_choice_numbers choice =
        guarded_edge_choice(where, table, opening->entry);
    if (choice.number != 0 || (opening->number != 7 && choice.taken != (opening->number == 9)))
        fail("the edge choice says something else of the entry");
    if (opening->number == 8 ? opening->leaving != opening->blocked + opening->windowless ||
                                   opening->leaving > MAX_EDGES
                             : opening->leaving + opening->blocked + opening->windowless != 0)
        fail("the edges cannot be so many");
    if (opening->number == 9 ? opening->edge != choice.edge || opening->update >= 4
                             : opening->edge != 255 || opening->update != 255)
        fail("there is no such update");
}

/* What holds for every refused opening: it is the check's, of a passage that there can be. */
static void try_opening(enum where where, struct bytes table,
                        const timed_network_opening_numbers *opening) {
    timed_network_verdict_numbers verdict = guarded_check(where, table);
    if (verdict.number < 7 || verdict.number > 9) {
        if (!is_no_opening(opening))
            fail("an opening without such a refusal");
        return;
    }
    if (opening->number != verdict.number || opening->component != verdict.component ||
        opening->entry.component != verdict.component)
        fail("another refusal than that of the check");
    if (opening->number == 7 ? opening->passage != MAX_PASSAGES
                             : opening->passage >= MAX_PASSAGES)
        fail("there is no such passage");
    if (opening->tick > number_at(table, 5, 2))
        fail("the opening lies behind the horizon");
    try_reasons(where, table, opening);
}

timed_network_opening_numbers guarded_refused_opening(enum where where, struct bytes table) {
    const uint8_t *in = place_input(&table_place, where, table.at, table.length);
    timed_network_opening_numbers answer = timed_network_refused_opening(in, table.length);
    made[REFUSED_OPENING]++;
    place_input_done(&table_place, table.at);
    try_opening(where, table, &answer);
    return answer;
}
