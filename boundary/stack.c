/*
 * How much stack each call takes.
 *
 *   stack ROOT              prints a line a call: its name, the bytes measured
 *   stack ROOT BYTES...     the same; then makes every call again with as
 *                           little stack as said, a number for each call in
 *                           the order printed. Status 1 if one takes more.
 *
 * Each stored case is called in a thread whose stack was filled with a
 * pattern; what is counted is the distance from the stack pointer before the
 * call to the lowest byte that lost the pattern. A node's calls are made at
 * each statement of its part. With little stack: in a thread of its own for
 * each call, in front of a page without access.
 *
 * A call that tries the header first and refuses a table with 1 to 3 has
 * looked at its first bytes alone and may not have taken the stack of the
 * rows: status 1 if it took more than EARLY bytes, or if no stored table is
 * refused so.
 */
#define _DEFAULT_SOURCE
#include <stdio.h>
#include <stdlib.h>
#include <string.h>
#include <sys/mman.h>

#include "stack.h"
#include "stored.h"

/* The stack that is measured. */
enum { WIDE = 200 * 1024 };

/* The most bytes for a refusal with one of the first numbers, and how many there are. */
enum { EARLY = 512, EARLY_NUMBERS = 3 };

/* The calls that try the header first and take the stack of the rows behind it. */
static const int header_first[] = {CHECK,     CHECK_SPREAD, SCHEDULE,       RUN,
                                   RUN_APART, MEETINGS,     MEETINGS_SPREAD};
enum { HEADER_FIRST = sizeof header_first / sizeof header_first[0] };

static uint8_t *wide;
static size_t deepest[CALLS];
static size_t early[CALLS][EARLY_NUMBERS + 1];
static size_t named[CALLS];
static int chosen;
static timed_network_node_registers node;
static timed_network_verdict_numbers verdict;
static timed_network_call_numbers called;
static timed_network_part_numbers placed;
static timed_network_run_numbers ran;
static timed_network_meetings_numbers meetings;
static timed_network_spread_numbers largest;
static timed_network_edge_choice_numbers edge_choice;
static timed_network_place_numbers refusal_place;
static timed_network_opening_numbers refused_opening;
static timed_network_reason_numbers reasons;
static timed_network_position_numbers positions;
static timed_network_simulation_numbers simulation;
static timed_network_period_numbers period;
static timed_network_run_to_numbers ran_to;
static timed_network_airtime_numbers airtime;
static timed_network_networks networks;

/* What is lent to a call. For a node's calls `bytes` is its part. */
struct lent {
    struct bytes bytes, choices;
    uint8_t number;
    struct slots slots;
    struct waking waking;
    struct question question;
    struct numbers pairs;
    struct experiment experiment;
    uint32_t horizon;
};

/* Apart from the others, whose frame would else hold what is passed in memory. */
__attribute__((noinline)) static void call_run_apart(const struct lent *lent) {
    const struct waking *waking = &lent->waking;
    ran = timed_network_run_apart(lent->bytes.at, lent->bytes.length, lent->choices.at,
                                  lent->choices.length, waking->spread, waking->offsets,
                                  waking->count, observations, MAX_OBSERVATIONS);
}

/* Apart from the others, whose frame would else hold the entry that is passed. */
__attribute__((noinline)) static void call_edge_choice(const uint8_t *bytes, size_t length) {
    timed_network_entry_numbers entry = {0, 0, {0, 0, 0, 0}, {0, 0, 0, 0}};
    edge_choice = timed_network_edge_choice(bytes, length, entry);
}

/* Apart from the others, whose frame would else hold the answer. */
__attribute__((noinline)) static void call_refusal_place(const uint8_t *bytes, size_t length) {
    refusal_place = timed_network_refusal_place(bytes, length);
}

__attribute__((noinline)) static void call_refused_opening(const uint8_t *bytes,
                                                           size_t length) {
    refused_opening = timed_network_refused_opening(bytes, length);
}

__attribute__((noinline)) static void call_reasons(const struct lent *lent) {
    reasons = timed_network_reasons(lent->bytes.at, lent->bytes.length,
                                    lent->question.component, lent->question.tick, told,
                                    MAX_TOLD);
}

__attribute__((noinline)) static void call_positions(const struct lent *lent) {
    positions =
        timed_network_positions(lent->bytes.at, lent->bytes.length, lent->pairs.at,
                                lent->pairs.length, answered, MAX_ANSWERED);
}

__attribute__((noinline)) static void call_simulate(const struct lent *lent) {
    const struct experiment *experiment = &lent->experiment;
    simulation = timed_network_simulate(lent->bytes.at, lent->bytes.length, experiment->lo,
                                        experiment->hi, experiment->runs);
}

__attribute__((noinline)) static void call_simulate_from(const struct lent *lent) {
    const struct experiment *experiment = &lent->experiment;
    simulation =
        timed_network_simulate_from(lent->bytes.at, lent->bytes.length, experiment->lo,
                                    experiment->hi, experiment->runs, experiment->seed);
}

__attribute__((noinline)) static void call_uppaal(const uint8_t *bytes, size_t length) {
    called = timed_network_uppaal(bytes, length, network_text, MAX_TEXT);
}

__attribute__((noinline)) static void call_period(const uint8_t *bytes, size_t length) {
    period = timed_network_period(bytes, length);
}

__attribute__((noinline)) static void call_run_to(const struct lent *lent) {
    ran_to = timed_network_run_to(lent->bytes.at, lent->bytes.length, lent->choices.at,
                                  lent->choices.length, lent->horizon, observations,
                                  MAX_OBSERVATIONS);
}

__attribute__((noinline)) static void call_site(uint32_t limit) {
    networks = timed_network_site(limit);
}

static void call(int request, const struct lent *lent) {
    const uint8_t *bytes = lent->bytes.at;
    size_t length = lent->bytes.length;
    switch (request) {
    case CHECK:
        verdict = timed_network_check(bytes, length);
        break;
    case SCHEDULE:
        called = timed_network_schedule(bytes, length, list, MAX_LIST);
        break;
    case TIMING_CHART:
        called = timed_network_timing_chart(bytes, length, chart, MAX_CHART);
        break;
    case PLAN:
        called = timed_network_plan(lent->slots.probes, lent->slots.slot, lent->slots.guard,
                                    lent->slots.period, plan, MAX_PLAN);
        break;
    case EDGE_CHOICE:
        call_edge_choice(bytes, length);
        break;
    case TRANSLATE:
        called = timed_network_translate(bytes, length, program, MAX_PROGRAM);
        break;
    case PART:
        placed = timed_network_part(bytes, length, lent->number);
        break;
    case RUN:
        ran = timed_network_run(bytes, length, lent->choices.at, lent->choices.length,
                                observations, MAX_OBSERVATIONS);
        break;
    case CHECK_SPREAD:
        verdict = timed_network_check_spread(bytes, length, lent->waking.spread);
        break;
    case RUN_APART:
        call_run_apart(lent);
        break;
    case REFUSAL_PLACE:
        call_refusal_place(bytes, length);
        break;
    case REFUSED_OPENING:
        call_refused_opening(bytes, length);
        break;
    case REASONS:
        call_reasons(lent);
        break;
    case POSITIONS:
        call_positions(lent);
        break;
    case SIMULATE:
        call_simulate(lent);
        break;
    case SIMULATE_FROM:
        call_simulate_from(lent);
        break;
    case UPPAAL:
        call_uppaal(bytes, length);
        break;
    case PERIOD:
        call_period(bytes, length);
        break;
    case RUN_TO:
        call_run_to(lent);
        break;
    case AIRTIME:
        airtime = timed_network_airtime(bytes, length);
        break;
    case SITE:
        call_site(UINT32_MAX);
        break;
    case SITE_PUT:
        networks.horizons[0] = 0;
        timed_network_site_put(&networks, bytes, length, 0);
        break;
    case SITE_TAKE:
        networks.horizons[0] = 1;
        timed_network_site_take(&networks, 0);
        break;
    case PASSAGES:
        called = timed_network_passages(bytes, length, passages, MAX_PASSAGES);
        break;
    case MEETINGS:
        meetings = timed_network_meetings(bytes, length, met, MAX_MET);
        break;
    case LARGEST_SPREAD:
        largest = timed_network_largest_spread(bytes, length);
        break;
    case MEETINGS_SPREAD:
        meetings = timed_network_meetings_spread(bytes, length, lent->waking.spread, met,
                                                 MAX_MET);
        break;
    case START:
        node = timed_network_start(bytes, length);
        break;
    case STEP:
        timed_network_step(&node, bytes, length, 4, 4);
        break;
    case TAKE_MESSAGE:
        timed_network_take_message(&node, bytes, length, lent->number);
        break;
    }
}

/* Fills the stack below the stack pointer, calls, and looks how far it went. */
static size_t depth(int request, const struct lent *lent) {
    uint8_t *here;
    __asm__ volatile("mov %%rsp, %0" : "=r"(here));
    stack_fill(wide, here);
    call(request, lent);
    return stack_taken(wide, here);
}

static size_t only_call(int request, const struct lent *lent) {
    call(request, lent);
    return 0;
}

/* How a call is made, and what it took. */
typedef size_t measure(int request, const struct lent *lent);

static void note(int request, size_t found) {
    if (found > deepest[request])
        deepest[request] = found;
}

/* Notes what a call took on a table that is refused with one of the first numbers. */
static void note_early(int request, const struct bytes *table, size_t found) {
    uint8_t number = timed_network_check(table->at, table->length).number;
    if (number <= EARLY_NUMBERS && found > early[request][number])
        early[request][number] = found;
}

/* Whether a call took a stack for each of these numbers, and a small one. */
static bool early_is_small(int request) {
    bool small = true;
    for (int number = 1; number <= EARLY_NUMBERS; number++) {
        size_t found = early[request][number];
        if (found == 0 || found > EARLY) {
            fprintf(stderr, "%s, refused with %d: %zu bytes of stack, not 1 to %d\n",
                    call_names[request], number, found, EARLY);
            small = false;
        }
    }
    return small;
}

/* A node's call at the start, and then at each statement of its part. */
static void each_statement(int request, measure *measure, struct lent *lent) {
    uint8_t *part = lent->bytes.at;
    if (request == START) {
        note(request, measure(request, lent));
        return;
    }
    size_t first = 6 + 2u * ((size_t)part[2] + part[3]);
    for (size_t at = first; at + 4 <= lent->bytes.length; at += 4) {
        memset(&node, 0, sizeof node);
        node.pc = at;
        node.kept.some = true;
        lent->number = part[at] == 5 ? part[at + 5] : 0;
        note(request, measure(request, lent));
    }
}

/* A node's call, with the part of each node of a stored table. */
static void each_part(int request, measure *measure, const struct stored *stored) {
    timed_network_call_numbers made_of =
        timed_network_translate(stored->table.at, stored->table.length, program, MAX_PROGRAM);
    for (uint8_t c = 0; made_of.number == 0 && c < 8; c++) {
        timed_network_part_numbers part = timed_network_part(program, made_of.size, c);
        struct lent lent;
        memset(&lent, 0, sizeof lent);
        lent.bytes.at = program + part.start;
        lent.bytes.length = part.length;
        if (part.length > 0)
            each_statement(request, measure, &lent);
    }
}

static void each_case(int request, measure *measure) {
    for (size_t i = 0; i < case_count; i++) {
        const struct stored *stored = &cases[i];
        struct lent lent = {stored->table,  stored->choices,  stored->node,
                            stored->slots,  stored->waking,   stored->question,
                            stored->pairs,  stored->experiment,
                            stored->request == RUN_TO ? stored->horizon : 1};
        if (request < START) {
            size_t found = measure(request, &lent);
            note(request, found);
            note_early(request, &stored->table, found);
        } else if (stored->request == TRANSLATE)
            each_part(request, measure, stored);
    }
}

static void *measured(void *nothing) {
    struct lent lent;
    memset(&lent, 0, sizeof lent);
    lent.bytes = cases[0].table;
    call(RUN, &lent); /* memcpy and memset are found now, not below */
    for (int request = 0; request < CALLS; request++)
        each_case(request, depth);
    return nothing;
}

static void *narrow(void *nothing) {
    each_case(chosen, only_call);
    return nothing;
}

int main(int count, char **words) {
    if (count != 2 && count != 2 + CALLS) {
        fputs("usage: stack ROOT [BYTES...]\n", stderr);
        return 2;
    }
    stored_read(words[1]);
    wide = mmap(NULL, WIDE, PROT_READ | PROT_WRITE, MAP_PRIVATE | MAP_ANONYMOUS, -1, 0);
    if (wide == MAP_FAILED)
        fail("no memory");
    trying("stack", "measured");
    in_thread(measured, wide, WIDE);
    int status = 0;
    for (int i = 0; i < HEADER_FIRST; i++)
        if (!early_is_small(header_first[i]))
            status = 1;
    for (int i = 0; i < CALLS; i++) {
        printf("%s %zu\n", call_names[i], deepest[i]);
        named[i] = count == 2 ? WIDE : strtoul(words[2 + i], NULL, 10);
        if (deepest[i] > named[i])
            status = 1;
    }
    fflush(stdout);
    for (chosen = 0; status == 0 && chosen < CALLS; chosen++) {
        trying("as little stack as said", call_names[chosen]);
        in_thread(narrow, NULL, named[chosen] + BESIDE);
    }
    return status;
}
