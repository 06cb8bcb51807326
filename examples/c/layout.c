/*
 * The header's structs have the places and sizes that the archive writes, and
 * its constants are those of the documents. Nothing runs: what does not hold
 * does not compile. C99 and later, C++98 and later.
 */
#include "timed_network.h"

#include <stddef.h>

/* A fact, at the place where it stands. */
#define JOINED(a, b) a##b
#define NAMED(a, b) JOINED(a, b)
#define FACT(holds) typedef char NAMED(fact_, __LINE__)[(holds) ? 1 : -1]
#define AT(type, field, place, bytes) \
    FACT(offsetof(type, field) == (place) && sizeof(((type *)0)->field) == (bytes))
#define SIZE(type, bytes) FACT(sizeof(type) == (bytes))

SIZE(timed_network_verdict_numbers, 2);
AT(timed_network_verdict_numbers, number, 0, 1);
AT(timed_network_verdict_numbers, component, 1, 1);

SIZE(timed_network_spread_numbers, 8);
AT(timed_network_spread_numbers, number, 0, 1);
AT(timed_network_spread_numbers, component, 1, 1);
AT(timed_network_spread_numbers, spread, 4, 4);

SIZE(timed_network_call_numbers, 8);
AT(timed_network_call_numbers, number, 0, 1);
AT(timed_network_call_numbers, component, 1, 1);
AT(timed_network_call_numbers, size, 4, 4);

SIZE(timed_network_part_numbers, 16);
AT(timed_network_part_numbers, start, 0, 8);
AT(timed_network_part_numbers, length, 8, 8);

SIZE(timed_network_run_numbers, 16);
AT(timed_network_run_numbers, number, 0, 1);
AT(timed_network_run_numbers, component, 1, 1);
AT(timed_network_run_numbers, end, 2, 1);
AT(timed_network_run_numbers, node, 3, 1);
AT(timed_network_run_numbers, tick, 4, 4);
AT(timed_network_run_numbers, used, 8, 4);
AT(timed_network_run_numbers, size, 12, 4);

SIZE(timed_network_run_to_numbers, 24);
AT(timed_network_run_to_numbers, number, 0, 1);
AT(timed_network_run_to_numbers, component, 1, 1);
AT(timed_network_run_to_numbers, end, 2, 1);
AT(timed_network_run_to_numbers, node, 3, 1);
AT(timed_network_run_to_numbers, tick, 4, 4);
AT(timed_network_run_to_numbers, used, 8, 8);
AT(timed_network_run_to_numbers, size, 16, 8);

SIZE(timed_network_period_numbers, 12);
AT(timed_network_period_numbers, number, 0, 1);
AT(timed_network_period_numbers, component, 1, 1);
AT(timed_network_period_numbers, found, 2, 1);
AT(timed_network_period_numbers, from, 4, 4);
AT(timed_network_period_numbers, to, 8, 4);

SIZE(timed_network_passage, TIMED_NETWORK_PASSAGE_BYTES);
AT(timed_network_passage, component, 0, 1);
AT(timed_network_passage, edge, 1, 1);
AT(timed_network_passage, location, 2, 1);
AT(timed_network_passage, message, 3, 1);
AT(timed_network_passage, entry, 4, 4);
AT(timed_network_passage, ready, 8, 4);
AT(timed_network_passage, end, 12, 4);

SIZE(timed_network_meetings_numbers, 8);
AT(timed_network_meetings_numbers, number, 0, 1);
AT(timed_network_meetings_numbers, component, 1, 1);
AT(timed_network_meetings_numbers, refusal, 2, 1);
AT(timed_network_meetings_numbers, concerned, 3, 1);
AT(timed_network_meetings_numbers, size, 4, 4);

SIZE(bool, 1);
SIZE(timed_network_entry_numbers, 28);
AT(timed_network_entry_numbers, component, 0, 1);
AT(timed_network_entry_numbers, location, 1, 1);
AT(timed_network_entry_numbers, clocks, 4, 16);
AT(timed_network_entry_numbers, values, 20, 8);

SIZE(timed_network_edge_choice_numbers, 16);
AT(timed_network_edge_choice_numbers, number, 0, 1);
AT(timed_network_edge_choice_numbers, component, 1, 1);
AT(timed_network_edge_choice_numbers, taken, 2, 1);
AT(timed_network_edge_choice_numbers, edge, 3, 1);
AT(timed_network_edge_choice_numbers, ready, 4, 4);
AT(timed_network_edge_choice_numbers, end, 8, 4);
AT(timed_network_edge_choice_numbers, looked, 12, 4);

SIZE(timed_network_reason_numbers, 12);
AT(timed_network_reason_numbers, number, 0, 1);
AT(timed_network_reason_numbers, component, 1, 1);
AT(timed_network_reason_numbers, passage, 4, 4);
AT(timed_network_reason_numbers, size, 8, 4);

SIZE(timed_network_position_numbers, 8);
AT(timed_network_position_numbers, number, 0, 1);
AT(timed_network_position_numbers, component, 1, 1);
AT(timed_network_position_numbers, read, 4, 4);

SIZE(timed_network_simulation_numbers, 44);
AT(timed_network_simulation_numbers, number, 0, 1);
AT(timed_network_simulation_numbers, component, 1, 1);
AT(timed_network_simulation_numbers, late, 4, 4);
AT(timed_network_simulation_numbers, nodes, 8, 32);
AT(timed_network_simulation_numbers, state, 40, 4);

SIZE(timed_network_airtime_numbers, 8);
AT(timed_network_airtime_numbers, number, 0, 1);
AT(timed_network_airtime_numbers, component, 1, 1);
AT(timed_network_airtime_numbers, horizon, 2, 2);
AT(timed_network_airtime_numbers, airtime, 4, 4);

SIZE(timed_network_networks, 48);
AT(timed_network_networks, limit, 0, 4);
AT(timed_network_networks, horizons, 4, 8);
AT(timed_network_networks, airtimes, 12, 16);
AT(timed_network_networks, in_use, 32, 8);
AT(timed_network_networks, number, 40, 1);
AT(timed_network_networks, component, 41, 1);

SIZE(timed_network_place_numbers, 32);
AT(timed_network_place_numbers, number, 0, 1);
AT(timed_network_place_numbers, component, 1, 1);
AT(timed_network_place_numbers, part, 2, 1);
AT(timed_network_place_numbers, edge, 3, 1);
AT(timed_network_place_numbers, index, 4, 1);
AT(timed_network_place_numbers, unbounded, 5, 1);
AT(timed_network_place_numbers, start, 8, 4);
AT(timed_network_place_numbers, offset, 12, 4);
AT(timed_network_place_numbers, width, 16, 4);
AT(timed_network_place_numbers, value, 20, 4);
AT(timed_network_place_numbers, least, 24, 4);
AT(timed_network_place_numbers, limit, 28, 4);

SIZE(timed_network_opening_numbers, 44);
AT(timed_network_opening_numbers, number, 0, 1);
AT(timed_network_opening_numbers, component, 1, 1);
AT(timed_network_opening_numbers, leaving, 2, 1);
AT(timed_network_opening_numbers, blocked, 3, 1);
AT(timed_network_opening_numbers, windowless, 4, 1);
AT(timed_network_opening_numbers, edge, 5, 1);
AT(timed_network_opening_numbers, update, 6, 1);
AT(timed_network_opening_numbers, passage, 8, 4);
AT(timed_network_opening_numbers, tick, 12, 4);
AT(timed_network_opening_numbers, entry, 16, 28);

SIZE(timed_network_node_trial, 8);
AT(timed_network_node_trial, ready, 0, 2);
AT(timed_network_node_trial, ended, 2, 1);
AT(timed_network_node_trial, end, 4, 2);
AT(timed_network_node_trial, good, 6, 1);

SIZE(timed_network_node_kept, 6);
AT(timed_network_node_kept, some, 0, 1);
AT(timed_network_node_kept, edge, 1, 1);
AT(timed_network_node_kept, ready, 2, 2);
AT(timed_network_node_kept, end, 4, 2);

SIZE(timed_network_node_registers, 96);
AT(timed_network_node_registers, pc, 0, 8);
AT(timed_network_node_registers, location, 8, 1);
AT(timed_network_node_registers, clocks, 16, 32);
AT(timed_network_node_registers, values, 48, 8);
AT(timed_network_node_registers, t, 56, 8);
AT(timed_network_node_registers, n, 64, 2);
AT(timed_network_node_registers, d, 66, 2);
AT(timed_network_node_registers, edge, 68, 1);
AT(timed_network_node_registers, taken, 69, 1);
AT(timed_network_node_registers, goes, 70, 1);
AT(timed_network_node_registers, tried, 72, 8);
AT(timed_network_node_registers, kept, 80, 6);
AT(timed_network_node_registers, sleeps, 88, 8);

FACT(TIMED_NETWORK_MAX_TABLE == 8192);
FACT(TIMED_NETWORK_MAX_PASSAGES == 1024);
FACT(TIMED_NETWORK_FIELDS == 7);
FACT(TIMED_NETWORK_PASSAGE_BYTES == 16);
FACT(TIMED_NETWORK_MAX_PLAN == 29 + 55 * 7);
FACT(TIMED_NETWORK_MAX_PROGRAM == 24576);
FACT(TIMED_NETWORK_OBSERVATION == 36);
FACT(TIMED_NETWORK_NO_WORK == 0xffffffffu);
FACT(TIMED_NETWORK_MAX_CHOICES == 1000000);
FACT(TIMED_NETWORK_MAX_SPREAD == 1000);
FACT(TIMED_NETWORK_MAX_BUDGET == 60000);
FACT(TIMED_NETWORK_MAX_RUNS == 10000 && TIMED_NETWORK_MAX_WORK == 60000);
FACT(TIMED_NETWORK_SEED == 2463534242u);
FACT(TIMED_NETWORK_SCHEDULE_ENOUGH == TIMED_NETWORK_FIELDS * TIMED_NETWORK_MAX_PASSAGES);
FACT(TIMED_NETWORK_MEETINGS_ENOUGH == TIMED_NETWORK_FIELDS * (TIMED_NETWORK_MAX_PASSAGES + 1));
FACT(TIMED_NETWORK_CHART_ENOUGH == TIMED_NETWORK_CHART_ROW * TIMED_NETWORK_MAX_COMPONENTS);
FACT(TIMED_NETWORK_OBSERVATIONS_ENOUGH == TIMED_NETWORK_OBSERVATION * TIMED_NETWORK_MAX_PASSAGES);
FACT(TIMED_NETWORK_REFUSED_CHOICES == 14);
FACT(TIMED_NETWORK_REFUSED_LISTENER_SHORT == 17);
FACT(TIMED_NETWORK_REFUSED_PLAN == 18);
FACT(TIMED_NETWORK_REFUSED_SPREAD == 19);
FACT(TIMED_NETWORK_REFUSED_OFFSET == 20);
FACT(TIMED_NETWORK_REFUSED_QUESTION == 21);
FACT(TIMED_NETWORK_REFUSED_SEED == 22);
FACT(TIMED_NETWORK_REFUSED_SIMULATION == 23);
FACT(TIMED_NETWORK_REFUSED_ORDER == 24 && TIMED_NETWORK_POSITION == 3);
FACT(TIMED_NETWORK_REFUSED_BUDGETS == 25);
FACT(TIMED_NETWORK_UPPAAL_ENOUGH == 8 * (500 + 32 * 9500) + 116);
FACT(TIMED_NETWORK_REFUSED_SITE_PLACE == 26);
FACT(TIMED_NETWORK_REFUSED_HORIZON == 27);
FACT(TIMED_NETWORK_REFUSED_AIRTIME == 28);
FACT(TIMED_NETWORK_REFUSED_RUN_HORIZON == 29);
FACT(TIMED_NETWORK_PLACES == 4);
FACT(TIMED_NETWORK_TAKEN == 0 && TIMED_NETWORK_HIGHER_NUMBER == 4);
FACT(TIMED_NETWORK_REASON == 3 && TIMED_NETWORK_REASONS_ENOUGH == 96);
FACT(TIMED_NETWORK_END_NOT_ALLOWED == 3);
FACT(TIMED_NETWORK_PART_COMPONENT_LENGTH == 1 && TIMED_NETWORK_PART_TABLE_END == 11);
FACT(TIMED_NETWORK_PART_BUDGET == 12);

#if TIMED_NETWORK_VERSION_NUMBER < 300
#error "a preprocessor cannot compare the version"
#endif
