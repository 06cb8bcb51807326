/* The calls with every buffer in a place of its own, each answer tried. */
#ifndef CALLS_H
#define CALLS_H

#include "../include/timed_network.h"
#include "place.h"

enum {
    FIELDS = 7,
    MAX_EDGES = 32,
    MAX_PASSAGES = 1024,
    MAX_LIST = FIELDS * MAX_PASSAGES,
    MAX_MET = FIELDS * (MAX_PASSAGES + 1),
    CHART_ROW = 69,
    MAX_CHART = 8 * CHART_ROW,
    MAX_PLAN = 414,
    REASON = 3,
    MAX_TOLD = REASON * MAX_EDGES,
    POSITION = 3,
    MAX_NUMBERS = 4096,
    MAX_ANSWERED = POSITION * MAX_NUMBERS / 2,
    MAX_TEXT = TIMED_NETWORK_UPPAAL_ENOUGH,
    MAX_TABLE = 12288,
    MAX_PROGRAM = 24576,
    MAX_PART = 65535,
    OBSERVATION = TIMED_NETWORK_OBSERVATION,
    MAX_OBSERVATIONS = OBSERVATION * MAX_PASSAGES,
    MAX_CHOICES = 1000000,
    MAX_SPREAD = 1000,
    MAX_OFFSETS = 64,
    MAX_NODES = 8,
    MAX_WORK = 60000,
    MAX_RUNS = 10000
};

struct bytes {
    uint8_t *at;
    size_t length;
};

struct numbers {
    uint32_t *at;
    size_t length;
};

/* How nodes wake: the bound on their offsets, and so many of these. */
struct waking {
    uint32_t spread;
    uint32_t offsets[MAX_OFFSETS];
    size_t count;
};

/* What a plan is made from: probes, slot, guard, period. */
struct slots {
    uint32_t probes, slot, guard, period;
};

/* What the reasons are asked about. */
struct question {
    uint32_t component, tick;
};

/* What simulated runs are made with; the seed, unless it is the fixed one. */
struct experiment {
    uint32_t lo, hi, runs, seed;
    int seeded;
};

/* The exported calls; vectors ask for those up to SITE. */
enum call {
    CHECK,
    SCHEDULE,
    TIMING_CHART,
    PLAN,
    EDGE_CHOICE,
    TRANSLATE,
    PART,
    RUN,
    CHECK_SPREAD,
    RUN_APART,
    REFUSAL_PLACE,
    REFUSED_OPENING,
    REASONS,
    POSITIONS,
    SIMULATE,
    SIMULATE_FROM,
    UPPAAL,
    PERIOD,
    RUN_TO,
    AIRTIME,
    SITE,
    SITE_PUT,
    SITE_TAKE,
    PASSAGES,
    MEETINGS,
    LARGEST_SPREAD,
    MEETINGS_SPREAD,
    START,
    STEP,
    TAKE_MESSAGE,
    CALLS
};
extern const char *const call_names[CALLS];

/* Calls made so far. */
extern unsigned long made[CALLS];

/* What the last call that writes has written, without what was lent past it. */
extern uint32_t list[MAX_LIST];
extern uint8_t chart[MAX_CHART];
extern uint8_t plan[MAX_PLAN];
extern uint8_t told[MAX_TOLD];
extern uint8_t answered[MAX_ANSWERED];
extern uint8_t network_text[MAX_TEXT + 1];
extern uint8_t program[MAX_PROGRAM];
extern uint8_t observations[MAX_OBSERVATIONS];
extern timed_network_passage passages[MAX_PASSAGES];
extern uint32_t met[MAX_MET];

void calls_start(void);
void meetings_start(void);
void apart_start(void);
void refused_start(void);
void reasons_start(void);
void positions_start(void);
void simulation_start(void);
void uppaal_start(void);
void period_start(void);

/*
 * What holds for every verdict: 0 to `most`, the last number of the call, or,
 * where 11 is among them, 15 to 17, which stand in its place.
 */
void try_verdict(uint8_t number, uint8_t component, uint8_t most);

/* What holds for every run. */
void try_run(timed_network_run_numbers answer, struct bytes choices);

/* Each call, its buffers at the place named, as long as said. */
timed_network_verdict_numbers guarded_check(enum where where, struct bytes table);
timed_network_call_numbers guarded_schedule(enum where where, struct bytes table, size_t lent);
timed_network_call_numbers guarded_timing_chart(enum where where, struct bytes table,
                                                size_t lent);
timed_network_call_numbers guarded_plan(enum where where, struct slots slots, size_t lent);
timed_network_edge_choice_numbers guarded_edge_choice(enum where where, struct bytes table,
                                                      timed_network_entry_numbers entry);
timed_network_call_numbers guarded_translate(enum where where, struct bytes table, size_t lent);
timed_network_part_numbers guarded_part(enum where where, struct bytes bytes, uint8_t node);
timed_network_run_numbers guarded_run(enum where where, struct bytes table,
                                      struct bytes choices, size_t lent);
timed_network_call_numbers guarded_passages(enum where where, struct bytes table, size_t lent);
timed_network_meetings_numbers guarded_meetings(enum where where, struct bytes table,
                                                size_t lent);
timed_network_meetings_numbers guarded_meetings_spread(enum where where, struct bytes table,
                                                       uint32_t spread, size_t lent);
timed_network_verdict_numbers guarded_check_spread(enum where where, struct bytes table,
                                                   uint32_t spread);
timed_network_spread_numbers guarded_largest_spread(enum where where, struct bytes table);
timed_network_run_numbers guarded_run_apart(enum where where, struct bytes table,
                                            struct bytes choices, const struct waking *waking,
                                            size_t lent);
timed_network_place_numbers guarded_refusal_place(enum where where, struct bytes table);
timed_network_opening_numbers guarded_refused_opening(enum where where, struct bytes table);
timed_network_reason_numbers guarded_reasons(enum where where, struct bytes table,
                                             struct question question, size_t lent);
timed_network_position_numbers guarded_positions(enum where where, struct bytes table,
                                                 struct numbers pairs, size_t lent);
timed_network_simulation_numbers guarded_simulate(enum where where, struct bytes table,
                                                  struct experiment experiment);
timed_network_call_numbers guarded_uppaal(enum where where, struct bytes table, size_t lent);
timed_network_period_numbers guarded_period(enum where where, struct bytes table);
timed_network_run_to_numbers guarded_run_to(enum where where, struct bytes table,
                                            struct bytes choices, uint32_t horizon,
                                            size_t lent);
timed_network_node_registers guarded_start(enum where where, struct bytes part);
void guarded_step(enum where where, timed_network_node_registers *node, struct bytes part,
                  uint8_t clocks, uint8_t variables);
void guarded_take_message(enum where where, timed_network_node_registers *node,
                          struct bytes part, uint8_t channel);

/* The positions of pairs with as many bytes lent as they need plus `more`. */
void lend_for_positions(enum where where, struct bytes table, struct numbers pairs,
                        long more);

/* Simulated runs at once, in two pieces, and with the fixed seed given. */
void simulate_in_all_ways(enum where where, struct bytes table,
                          struct experiment experiment);

/* The reasons with as many bytes lent as they need plus `more`. */
void lend_for_reasons(enum where where, struct bytes table, struct question question,
                      long more);

/* Runs to a horizon with as many bytes lent as they need plus `more`. */
void lend_for_run_to(enum where where, struct bytes table, struct bytes choices,
                     uint32_t horizon, long more);

/* The text for UPPAAL with as many bytes lent as it needs plus `more`. */
void lend_for_uppaal(enum where where, struct bytes table, long more);

#endif
