/*
 * Tries the exported calls on tables and programs with every buffer next to
 * memory that allows no access.
 *
 *   boundary ROOT ROUNDS SEED
 *
 * First the cases of vectors/ and corpus/ with their answers, each run also
 * with its nodes driven one at a time; then lent memory of every length about
 * the one needed, plans of all counts of probes among them; then tables cut at
 * every length; then random rounds from the seed, sites of random bytes among
 * them. Ends at the first fault, with status 1.
 */
#include <stdio.h>
#include <stdlib.h>
#include <string.h>

#include "nodes.h"
#include "site.h"

static const struct stored *find(const char *name, enum call request) {
    for (size_t i = 0; i < case_count; i++)
        if (cases[i].request == request && strcmp(cases[i].name, name) == 0)
            return &cases[i];
    fail("a case is missing");
    return NULL;
}

static void same(int condition, const char *what) {
    if (!condition)
        fail(what);
}

/* All nodes wake at tick 0. */
static const struct waking together;

/* A component and a tick, most of them in a table, or the first that is not. */
static struct question any_question(struct bytes table) {
    size_t components = table.length > 3 ? table.at[3] : 0;
    size_t horizon = table.length > 6 ? 256u * table.at[5] + table.at[6] : 0;
    struct question question = {(uint32_t)random_below(components + 1),
                                (uint32_t)random_below(horizon + 1)};
    if (random_below(16) == 0)
        question.component = (uint32_t)random_number();
    if (random_below(16) == 0)
        question.tick = (uint32_t)random_number();
    return question;
}

/* The calls that write, with as much lent as they need plus `more`. */
static void lend(enum where where, struct bytes table, struct bytes choices, long more) {
    size_t rows = guarded_schedule(where, table, MAX_LIST).size;
    size_t length = guarded_translate(where, table, MAX_PROGRAM).size;
    size_t chart_length = guarded_timing_chart(where, table, MAX_CHART).size;
    size_t needed[5] = {FIELDS * rows, length, OBSERVATION * rows, rows, chart_length};
    size_t most[5] = {MAX_LIST, MAX_PROGRAM, MAX_OBSERVATIONS, MAX_PASSAGES, MAX_LIST};
    size_t lent[5];
    for (int i = 0; i < 5; i++) {
        long sum = (long)needed[i] + more;
        lent[i] = sum < 0 ? 0 : (size_t)sum > most[i] ? most[i] : (size_t)sum;
    }
    same(guarded_schedule(where, table, lent[0]).number == (lent[0] < needed[0] ? 13 : 0),
         "a list is refused or taken wrongly");
    same(guarded_translate(where, table, lent[1]).number == (lent[1] < needed[1] ? 13 : 0),
         "program bytes are refused or taken wrongly");
    same(guarded_run(where, table, choices, lent[2]).number == (lent[2] < needed[2] ? 13 : 0),
         "observations are refused or taken wrongly");
    same(guarded_run_apart(where, table, choices, &together, lent[2]).number ==
             (lent[2] < needed[2] ? 13 : 0),
         "observations of nodes that wake apart are refused or taken wrongly");
    same(guarded_passages(where, table, lent[3]).number == (lent[3] < needed[3] ? 13 : 0),
         "a list of passages is refused or taken wrongly");
    same(guarded_timing_chart(where, table, lent[4]).number ==
             (lent[4] < needed[4] ? 13 : 0),
         "bytes for a chart are refused or taken wrongly");
    lend_for_reasons(where, table, any_question(table), more);
    lend_for_positions(where, table, random_pairs(table), more);
    lend_for_uppaal(where, table, more);
    lend_for_run_to(where, table, choices, random_horizon(table), more);
}

static void stored_cases(void) {
    for (size_t i = 0; i < case_count; i++)
        for (int where = 0; where < PLACES; where++)
            stored_try(&cases[i], (enum where)where);
}

static void single_nodes(void) {
    for (int where = 0; where < PLACES; where++) {
        for (size_t i = 0; i < case_count; i++)
            if (cases[i].request == RUN)
                nodes_run((enum where)where, &cases[i]);
        nodes_long((enum where)where);
    }
}

static void lent_lengths(void) {
    struct bytes none = {NULL, 0};
    for (size_t i = 0; i < case_count; i++) {
        if (cases[i].request != SCHEDULE || strncmp(cases[i].answer, "refused", 7) == 0)
            continue;
        trying("lent lengths", cases[i].name);
        int example = strcmp(cases[i].name, "probe_and_hub") == 0;
        for (long more = example ? -290 : -2; more <= 2; more++)
            for (int where = 0; where < PLACES; where++)
                lend((enum where)where, cases[i].table, none, more);
    }
}

/* The same for meetings: nothing is listed, so no list is too short, unless 10 to 12 or 15 to 17 refuses. */
static void lend_for_meetings(enum where where, struct bytes table, long more) {
    size_t needed = FIELDS * guarded_meetings(where, table, MAX_MET).size;
    long sum = (long)needed + more;
    size_t lent = sum < 0 ? 0 : (size_t)sum > MAX_MET ? MAX_MET : (size_t)sum;
    same(guarded_meetings(where, table, lent).number == (lent < needed ? 13 : 0),
         "a list for meetings is refused or taken wrongly");
}

/* The same at a spread. */
static void lend_at_spread(enum where where, struct bytes table, uint32_t spread, long more) {
    size_t needed = FIELDS * guarded_meetings_spread(where, table, spread, MAX_MET).size;
    long sum = (long)needed + more;
    size_t lent = sum < 0 ? 0 : (size_t)sum > MAX_MET ? MAX_MET : (size_t)sum;
    same(guarded_meetings_spread(where, table, spread, lent).number ==
             (lent < needed ? 13 : 0),
         "a list for meetings at a spread is refused or taken wrongly");
}

static void lent_at_spreads(void) {
    for (size_t i = 0; i < case_count; i++) {
        if (cases[i].request != CHECK_SPREAD)
            continue;
        trying("lent lengths at a spread", cases[i].name);
        for (long more = -22; more <= 2; more += more < -2 ? 4 : 1)
            for (int where = 0; where < PLACES; where++)
                lend_at_spread((enum where)where, cases[i].table, cases[i].waking.spread,
                               more);
        for (int where = 0; where < PLACES; where++)
            guarded_largest_spread((enum where)where, cases[i].table);
    }
}

static void lent_for_meetings(void) {
    for (size_t i = 0; i < case_count; i++) {
        if (cases[i].request != CHECK)
            continue;
        trying("lent lengths for meetings", cases[i].name);
        int some = strncmp(cases[i].answer, "refused 1", 9) == 0 && cases[i].answer[9] != ' ';
        for (long more = some ? -30 : 0; more <= 2; more++)
            for (int where = 0; where < PLACES; where++)
                lend_for_meetings((enum where)where, cases[i].table, more);
    }
}

/* Bytes of every length for a plan of these numbers, which need not be in range. */
static void lend_for_plan(enum where where, struct slots slots, long more) {
    timed_network_call_numbers ample = guarded_plan(where, slots, MAX_LIST);
    size_t needed = ample.number == 0 ? ample.size : 0;
    long sum = (long)needed + more;
    size_t lent = sum < 0 ? 0 : (size_t)sum;
    same(guarded_plan(where, slots, lent).number ==
             (ample.number != 0 ? 18 : lent < needed ? 13 : 0),
         "bytes for a plan are refused or taken wrongly");
}

static void lent_for_plans(void) {
    trying("lent lengths for plans", "");
    for (uint32_t probes = 0; probes <= 8; probes++) {
        struct slots slots = {probes, 40, 5, 500};
        for (long more = -420; more <= 2; more += more < -2 ? 19 : 1)
            for (int where = 0; where < PLACES; where++)
                lend_for_plan((enum where)where, slots, more);
    }
}

/* Any number, most of them in the range that ends here or next to it. */
static uint32_t near_range(size_t most) {
    return (uint32_t)(random_below(8) ? random_below(most + 2) : random_number());
}

static void random_plan(enum where where) {
    struct slots slots = {near_range(7), near_range(random_below(2) ? 9 : 1000),
                          near_range(random_below(2) ? 9 : 1000), near_range(30000)};
    lend_for_plan(where, slots, (long)random_below(5) - 2);
}

/* The edge choice at any entry, most with small numbers. */
static void any_entry(enum where where, struct bytes table, uint8_t refusal) {
    timed_network_entry_numbers entry;
    memset(&entry, 0, sizeof entry);
    size_t most = random_below(4) == 0 ? 256 : 3;
    entry.component = (uint8_t)random_below(most);
    entry.location = (uint8_t)random_below(most);
    for (int i = 0; i < 4; i++) {
        entry.clocks[i] = (uint32_t)(random_below(8) == 0 ? UINT32_MAX : random_below(12));
        entry.values[i] = (int16_t)(random_below(8) == 0 ? INT16_MIN : random_below(5));
    }
    timed_network_edge_choice_numbers answer = guarded_edge_choice(where, table, entry);
    same(answer.number == (refusal <= 6 ? refusal : 0), "another refusal than that of the check");
}

/* The calls for nodes that wake apart; without a spread and offsets the run. */
static void apart_calls(enum where where, struct bytes table, struct bytes choices,
                        size_t lent) {
    static uint8_t shown[MAX_OBSERVATIONS];
    struct waking waking = random_waking(table);
    guarded_check_spread(where, table, waking.spread);
    guarded_meetings_spread(where, table, waking.spread, lent);
    guarded_run_apart(where, table, choices, &waking, lent);
    if (random_below(8) == 0)
        guarded_largest_spread(where, table);
    if (random_below(4) == 0) {
        timed_network_run_numbers ran = guarded_run(where, table, choices, lent);
        size_t size = (size_t)ran.size * OBSERVATION;
        memcpy(shown, observations, size);
        timed_network_run_numbers apart =
            guarded_run_apart(where, table, choices, &together, lent);
        same(memcmp(&ran, &apart, sizeof ran) == 0 && memcmp(shown, observations, size) == 0,
             "another run together than without a spread");
    }
}

static void all_calls(enum where where, struct bytes table, struct bytes choices,
                      size_t lent) {
    timed_network_verdict_numbers verdict = guarded_check(where, table);
    timed_network_call_numbers planned = guarded_schedule(where, table, lent);
    timed_network_call_numbers translated = guarded_translate(where, table, lent);
    timed_network_run_numbers ran = guarded_run(where, table, choices, lent);
    guarded_passages(where, table, lent / FIELDS);
    timed_network_call_numbers charted = guarded_timing_chart(where, table, lent);
    guarded_meetings(where, table, lent);
    apart_calls(where, table, choices, lent);
    any_entry(where, table, verdict.number);
    guarded_refusal_place(where, table);
    guarded_refused_opening(where, table);
    guarded_reasons(where, table, any_question(table), lent % (MAX_TOLD + 1));
    guarded_positions(where, table, random_pairs(table), lent % (MAX_ANSWERED + 1));
    simulate_in_all_ways(where, table, random_experiment());
    guarded_uppaal(where, table, lent);
    guarded_run_to(where, table, choices, random_horizon(table), lent);
    guarded_airtime(where, table);
    if (verdict.number != 0) {
        same(planned.number == verdict.number && translated.number == verdict.number &&
                 ran.number == verdict.number && charted.number == verdict.number,
             "another refusal than that of the check");
        same(planned.component == verdict.component &&
                 translated.component == verdict.component &&
                 ran.component == verdict.component &&
                 charted.component == verdict.component,
             "another component than that of the check");
    }
}

/* Each table cut at each length, as it is and with the length stated. */
static void cuts(void) {
    for (size_t i = 0; i < case_count; i++) {
        struct bytes table = cases[i].table;
        if (cases[i].request != SCHEDULE || table.length > 400)
            continue;
        trying("a cut table", cases[i].name);
        for (size_t length = 0; length <= table.length; length++) {
            if (length > 0)
                memcpy(table_bytes, table.at, length);
            for (int where = 0; where < PLACES; where++)
                all_calls((enum where)where, of(table_bytes, length), of(NULL, 0), 500);
            state_length(table_bytes, length);
            all_calls(AT_END, of(table_bytes, length), of(NULL, 0), 500);
        }
    }
}

/* The program of the worked example cut at each length, and every node. */
static void cut_programs(void) {
    const struct stored *example = find("probe and hub", TRANSLATE);
    trying("a cut program", example->name);
    size_t length = guarded_translate(AT_END, example->table, MAX_PROGRAM).size;
    memcpy(program_bytes, program, length);
    for (size_t cut = 0; cut <= length; cut++)
        for (unsigned node = 0; node < 256; node += node < 9 ? 1 : 13)
            for (int where = 0; where < PLACES; where++)
                guarded_part((enum where)where, of(program_bytes, cut), (uint8_t)node);
    for (size_t cut = 0; cut + 6 <= length; cut++)
        for (int where = 0; where < PLACES; where++)
            nodes_random((enum where)where, of(program_bytes + 6, cut));
}

/* As many choices as a run takes, and one more. The table has eight passages. */
static void many_choices(void) {
    enum { NEEDED = 8 * OBSERVATION };
    struct bytes table = find("probe_and_hub", CHECK)->table;
    memset(choices_bytes, 0, sizeof choices_bytes);
    for (int where = 0; where < PLACES; where++) {
        trying("many choices", "probe_and_hub");
        timed_network_run_numbers taken =
            guarded_run((enum where)where, table, of(choices_bytes, MAX_CHOICES), NEEDED);
        same(taken.number == 0 && taken.end == 3, "a million choices");
        timed_network_run_numbers refused =
            guarded_run((enum where)where, table, of(choices_bytes, MAX_CHOICES + 1), NEEDED);
        same(refused.number == 14, "a million choices and one");
        timed_network_run_to_numbers ran = guarded_run_to(
            (enum where)where, table, of(choices_bytes, MAX_CHOICES + 1), 20, NEEDED);
        same(ran.number == 0 && ran.end == 3, "a million choices and one to a horizon");
        struct waking above = {0, {1}, 1};
        refused = guarded_run_apart((enum where)where, table,
                                    of(choices_bytes, MAX_CHOICES), &above, NEEDED);
        same(refused.number == 20, "a million choices and an offset");
        refused = guarded_run_apart((enum where)where, table,
                                    of(choices_bytes, MAX_CHOICES + 1), &above, NEEDED);
        same(refused.number == 14, "a million choices and one, and an offset");
        struct waking nine = {0, {1}, 9};
        refused =
            guarded_run_apart((enum where)where, table, of(choices_bytes, 1), &nine, NEEDED);
        same(refused.number == 20, "an offset and one more than there can be nodes");
    }
}

/* A run carried on: a choice that is not allowed, or a late tick, is given up. */
static void grown_run(enum where where, struct bytes table) {
    size_t length = 0;
    for (int turn = 0; turn < 200; turn++) {
        length = random_choices(table, length, 1 + random_below(20));
        timed_network_run_numbers ran =
            guarded_run(where, table, of(choices_bytes, length), MAX_OBSERVATIONS);
        if (ran.number != 0 || ran.end == 0)
            return;
        length = ran.used - (ran.end == 2);
    }
}

static void rounds(unsigned long count) {
    unsigned long accepted = 0, grown = 0;
    char name[40];
    for (unsigned long round = 0; round < count; round++) {
        snprintf(name, sizeof name, "round %lu", round);
        trying("random", name);
        enum where where = (enum where)random_below(PLACES);
        struct bytes table = random_table();
        size_t chosen = random_choices(table, 0, random_below(300));
        all_calls(where, table, of(choices_bytes, chosen), random_below(MAX_LIST));
        size_t length = 0;
        if (guarded_check(where, table).number == 0) {
            accepted++;
            lend(where, table, of(choices_bytes, chosen), (long)random_below(5) - 2);
            length = guarded_translate(where, table, MAX_PROGRAM).size;
            if (random_below(4) == 0) {
                grown++;
                grown_run(where, table);
            }
        }
        lend_for_meetings(where, table, (long)random_below(5) - 2);
        random_plan(where);
        sites_random(where, table);
        struct bytes bytes = random_program(length);
        timed_network_part_numbers part = guarded_part(where, bytes, random_node());
        nodes_random(where, of(bytes.at + part.start, part.length));
        nodes_random(where, bytes);
    }
    printf("boundary: %lu random rounds, %lu tables accepted, %lu runs carried on\n",
           count, accepted, grown);
}

int main(int count, char **words) {
    if (count != 4) {
        fputs("usage: boundary ROOT ROUNDS SEED\n", stderr);
        return 2;
    }
    catch_faults();
    random_start(strtoull(words[3], NULL, 10));
    calls_start();
    stored_read(words[1]);
    stored_cases();
    single_nodes();
    lent_lengths();
    lent_for_meetings();
    lent_at_spreads();
    lent_for_plans();
    cuts();
    cut_programs();
    many_choices();
    unsigned long before = 0, all = 0;
    for (int i = 0; i < CALLS; i++)
        before += made[i];
    rounds(strtoul(words[2], NULL, 10));
    for (int i = 0; i < CALLS; i++)
        all += made[i];
    printf("boundary: %zu stored cases; %lu calls with them, %lu with random bytes:",
           case_count, before, all - before);
    for (int i = 0; i < CALLS; i++)
        printf("%s %s %lu", i == 0 ? "" : ",", call_names[i], made[i]);
    printf("\n");
    return 0;
}
