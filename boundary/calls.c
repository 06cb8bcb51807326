#include "calls.h"

#include <string.h>

#include "site.h"

const char *const call_names[CALLS] = {
    "check",        "schedule",  "timing_chart",   "plan",
    "edge_choice",  "translate", "part",           "run",
    "check_spread", "run_apart", "refusal_place",  "refused_opening",
    "reasons",      "positions", "simulate",       "simulate_from",
    "uppaal",       "period",    "run_to",         "airtime",
    "site",         "site_put",  "site_take",      "passages",
    "meetings",     "largest_spread", "meetings_spread", "start",
    "step",         "take_message"};
unsigned long made[CALLS];
uint32_t list[MAX_LIST];
uint8_t chart[MAX_CHART];
uint8_t plan[MAX_PLAN];
uint8_t program[MAX_PROGRAM];
uint8_t observations[MAX_OBSERVATIONS];
timed_network_passage passages[MAX_PASSAGES];

static struct place table_place, choices_place, bytes_place, part_place;
static struct place list_place, chart_place, plan_place, program_place;
static struct place observations_place;
static struct place passages_place, node_place;

void calls_start(void) {
    table_place = place_new(MAX_TABLE);
    choices_place = place_new(MAX_CHOICES + 1);
    bytes_place = place_new(MAX_PART);
    part_place = place_new(MAX_PART + 1);
    list_place = place_new(sizeof list);
    chart_place = place_new(MAX_LIST);
    plan_place = place_new(MAX_LIST);
    program_place = place_new(MAX_PROGRAM);
    observations_place = place_new(MAX_OBSERVATIONS);
    passages_place = place_new(sizeof passages);
    node_place = place_new(sizeof(timed_network_node_registers));
    meetings_start();
    apart_start();
    refused_start();
    reasons_start();
    positions_start();
    simulation_start();
    uppaal_start();
    period_start();
    site_start();
}

void try_verdict(uint8_t number, uint8_t component, uint8_t most) {
    int unheard = number >= 15 && number <= 17 && most >= 11;
    if (number > most && !unheard)
        fail("there is no such refusal");
    int none = number <= 3 || (number >= 13 && !unheard);
    if (none ? component != 255 : component >= 8)
        fail("there is no such component");
}

static void try_call(timed_network_call_numbers answer, size_t most) {
    try_verdict(answer.number, answer.component, 13);
    if (answer.number == 0 ? answer.size > most : answer.size != 0)
        fail("the size cannot be");
}

timed_network_verdict_numbers guarded_check(enum where where, struct bytes table) {
    const uint8_t *in = place_input(&table_place, where, table.at, table.length);
    timed_network_verdict_numbers answer = timed_network_check(in, table.length);
    made[CHECK]++;
    place_input_done(&table_place, table.at);
    try_verdict(answer.number, answer.component, 12);
    return answer;
}

timed_network_call_numbers guarded_schedule(enum where where, struct bytes table, size_t lent) {
    const uint8_t *in = place_input(&table_place, where, table.at, table.length);
    uint8_t *out = place_output(&list_place, where, lent * sizeof list[0]);
    timed_network_call_numbers answer =
        timed_network_schedule(in, table.length, (uint32_t *)(void *)out, lent);
    made[SCHEDULE]++;
    try_call(answer, MAX_PASSAGES);
    place_input_done(&table_place, table.at);
    place_output_done(&list_place, answer.size * FIELDS * sizeof list[0],
                      (uint8_t *)list);
    return answer;
}

/* A row of a chart: its frame, and nothing but what a cell may show. */
static int is_chart_row(const uint8_t *row, size_t component) {
    if (row[0] != 'C' || row[1] != '0' + component || row[2] != ':' || row[3] != ' ')
        return 0;
    for (size_t i = 4; i < CHART_ROW - 1; i++)
        if (row[i] == 0 || strchr(" .WRS", row[i]) == NULL)
            return 0;
    return row[CHART_ROW - 1] == '\n';
}

/* A chart has a row for each component of the table. */
timed_network_call_numbers guarded_timing_chart(enum where where, struct bytes table,
                                                size_t lent) {
    const uint8_t *in = place_input(&table_place, where, table.at, table.length);
    uint8_t *out = place_output(&chart_place, where, lent);
    timed_network_call_numbers answer = timed_network_timing_chart(in, table.length, out, lent);
    made[TIMING_CHART]++;
    try_call(answer, MAX_CHART);
    place_input_done(&table_place, table.at);
    place_output_done(&chart_place, answer.size, chart);
    if (answer.number == 0 && answer.size != (size_t)CHART_ROW * table.at[3])
        fail("another number of rows than of components");
    for (size_t i = 0; i < answer.size / CHART_ROW; i++)
        if (!is_chart_row(chart + CHART_ROW * i, i))
            fail("a row of the chart cannot be");
    return answer;
}

/* Every plan written is a table that the check accepts. */
timed_network_call_numbers guarded_plan(enum where where, struct slots slots, size_t lent) {
    uint8_t *out = place_output(&plan_place, where, lent);
    timed_network_call_numbers answer =
        timed_network_plan(slots.probes, slots.slot, slots.guard, slots.period, out, lent);
    made[PLAN]++;
    if (answer.number != 0 && answer.number != 13 && answer.number != 18)
        fail("there is no such refusal of a plan");
    if (answer.component != 255)
        fail("a plan concerns no component");
    if (answer.number == 0 ? answer.size != 29 + 55 * slots.probes : answer.size != 0)
        fail("the size cannot be");
    place_output_done(&plan_place, answer.size, plan);
    if (answer.number == 0) {
        struct bytes table = {plan, answer.size};
        if (guarded_check(where, table).number != 0)
            fail("a plan is not accepted");
    }
    return answer;
}

/*
 * What holds for every edge choice: the edge taken is one of those looked at,
 * and the last of them where it is ready with no delay.
 */
timed_network_edge_choice_numbers guarded_edge_choice(enum where where, struct bytes table,
                                                      timed_network_entry_numbers entry) {
    const uint8_t *in = place_input(&table_place, where, table.at, table.length);
    timed_network_edge_choice_numbers answer =
        timed_network_edge_choice(in, table.length, entry);
    made[EDGE_CHOICE]++;
    place_input_done(&table_place, table.at);
    try_verdict(answer.number, answer.component, 6);
    if (!answer.taken && (answer.edge | answer.ready | answer.end))
        fail("no edge is taken, and it has numbers");
    if (answer.taken && (answer.ready >= answer.end || answer.edge >= answer.looked))
        fail("an edge is taken that cannot be");
    if (answer.taken && answer.ready == 0 && answer.looked != answer.edge + 1u)
        fail("edges were looked at behind one that is ready at once");
    if (answer.looked > MAX_EDGES || (answer.number != 0 && (answer.taken || answer.looked)))
        fail("so many edges cannot have been looked at");
    return answer;
}

timed_network_call_numbers guarded_translate(enum where where, struct bytes table,
                                             size_t lent) {
    const uint8_t *in = place_input(&table_place, where, table.at, table.length);
    uint8_t *out = place_output(&program_place, where, lent);
    timed_network_call_numbers answer = timed_network_translate(in, table.length, out, lent);
    made[TRANSLATE]++;
    try_call(answer, MAX_PROGRAM);
    place_input_done(&table_place, table.at);
    place_output_done(&program_place, answer.size, program);
    return answer;
}

timed_network_part_numbers guarded_part(enum where where, struct bytes bytes, uint8_t node) {
    const uint8_t *in = place_input(&bytes_place, where, bytes.at, bytes.length);
    timed_network_part_numbers answer = timed_network_part(in, bytes.length, node);
    made[PART]++;
    place_input_done(&bytes_place, bytes.at);
    if (answer.start > bytes.length || answer.length > bytes.length - answer.start)
        fail("the part runs out of the bytes");
    return answer;
}

void try_run(timed_network_run_numbers answer, struct bytes choices) {
    if (answer.end > 3 || (answer.end == 2 ? answer.node >= 8 : answer.node != 255))
        fail("there is no such end");
    if (answer.used > choices.length || answer.tick > answer.used)
        fail("more choices or ticks than were handed in");
    if (answer.size > MAX_PASSAGES)
        fail("more observations than passages");
    if (answer.number != 0 && (answer.end | answer.tick | answer.used | answer.size))
        fail("a refused run has numbers");
}

timed_network_run_numbers guarded_run(enum where where, struct bytes table,
                                      struct bytes choices, size_t lent) {
    const uint8_t *in = place_input(&table_place, where, table.at, table.length);
    const uint8_t *chosen =
        place_input(&choices_place, where, choices.at, choices.length);
    uint8_t *out = place_output(&observations_place, where, lent);
    timed_network_run_numbers answer =
        timed_network_run(in, table.length, chosen, choices.length, out, lent);
    made[RUN]++;
    try_verdict(answer.number, answer.component, 14);
    try_run(answer, choices);
    place_input_done(&table_place, table.at);
    place_input_done(&choices_place, choices.at);
    place_output_done(&observations_place, (size_t)answer.size * OBSERVATION,
                      observations);
    return answer;
}

/* The seven numbers that the schedule has of a passage. */
static int same_passage(const timed_network_passage *passage, const uint32_t *row) {
    return passage->component == row[0] && passage->edge == row[1] &&
           passage->location == row[2] && passage->entry == row[3] &&
           passage->ready == row[4] && passage->end == row[5] &&
           passage->message == row[6];
}

/* The answer and the passages are held to those of the schedule. */
timed_network_call_numbers guarded_passages(enum where where, struct bytes table, size_t lent) {
    const uint8_t *in = place_input(&table_place, where, table.at, table.length);
    uint8_t *out = place_output(&passages_place, where, lent * sizeof passages[0]);
    timed_network_call_numbers answer =
        timed_network_passages(in, table.length, (timed_network_passage *)(void *)out, lent);
    made[PASSAGES]++;
    try_call(answer, MAX_PASSAGES);
    place_input_done(&table_place, table.at);
    place_output_done(&passages_place, answer.size * sizeof passages[0],
                      (uint8_t *)passages);
    timed_network_call_numbers planned = guarded_schedule(where, table, FIELDS * lent);
    if (answer.number != planned.number || answer.component != planned.component ||
        answer.size != planned.size)
        fail("another answer than that of the schedule");
    for (size_t i = 0; i < answer.size; i++)
        if (!same_passage(&passages[i], &list[FIELDS * i]))
            fail("another passage than that of the schedule");
    return answer;
}

timed_network_node_registers guarded_start(enum where where, struct bytes part) {
    const uint8_t *in = place_input(&part_place, where, part.at, part.length);
    timed_network_node_registers node = timed_network_start(in, part.length);
    made[START]++;
    place_input_done(&part_place, part.at);
    return node;
}

void guarded_step(enum where where, timed_network_node_registers *node, struct bytes part,
                  uint8_t clocks, uint8_t variables) {
    const uint8_t *in = place_input(&part_place, where, part.at, part.length);
    uint8_t *out = place_output(&node_place, where, sizeof *node);
    memcpy(out, node, sizeof *node);
    timed_network_step((timed_network_node_registers *)(void *)out, in, part.length, clocks,
                       variables);
    made[STEP]++;
    place_input_done(&part_place, part.at);
    place_output_done(&node_place, sizeof *node, (uint8_t *)node);
}

void guarded_take_message(enum where where, timed_network_node_registers *node,
                          struct bytes part, uint8_t channel) {
    const uint8_t *in = place_input(&part_place, where, part.at, part.length);
    uint8_t *out = place_output(&node_place, where, sizeof *node);
    memcpy(out, node, sizeof *node);
    timed_network_take_message((timed_network_node_registers *)(void *)out, in, part.length,
                               channel);
    made[TAKE_MESSAGE]++;
    place_input_done(&part_place, part.at);
    place_output_done(&node_place, sizeof *node, (uint8_t *)node);
}
