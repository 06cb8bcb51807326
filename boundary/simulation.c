#include "calls.h"

static struct place table_place;

void simulation_start(void) {
    table_place = place_new(MAX_TABLE);
}

/* The refusal that is expected: the check's, then 22, then 23. */
static timed_network_verdict_numbers expected_refusal(enum where where, struct bytes table,
                                                      struct experiment experiment) {
    timed_network_verdict_numbers verdict = guarded_check(where, table);
    if (verdict.number != 0)
        return verdict;
    if (experiment.seeded && experiment.seed == 0)
        verdict.number = 22;
    else if (experiment.lo > experiment.hi || experiment.hi > MAX_WORK ||
             experiment.runs == 0 || experiment.runs > MAX_RUNS)
        verdict.number = 23;
    return verdict;
}

/* The counts of the table's nodes add up to that of all, and no other node has one. */
static void try_counts(struct bytes table, struct experiment experiment,
                       timed_network_simulation_numbers answer) {
    uint32_t sum = 0;
    for (size_t i = 0; i < MAX_NODES; i++) {
        sum += answer.nodes[i];
        if (i >= table.at[3] && answer.nodes[i] != 0)
            fail("a node that there is not was late");
    }
    if (sum != answer.late || answer.late > experiment.runs)
        fail("the late runs of the nodes do not add up");
    if (answer.state == 0)
        fail("the generator stands still");
}

timed_network_simulation_numbers guarded_simulate(enum where where, struct bytes table,
                                                  struct experiment experiment) {
    const uint8_t *in = place_input(&table_place, where, table.at, table.length);
    uint32_t lo = experiment.lo, hi = experiment.hi, runs = experiment.runs;
    timed_network_simulation_numbers answer =
        experiment.seeded
            ? timed_network_simulate_from(in, table.length, lo, hi, runs, experiment.seed)
            : timed_network_simulate(in, table.length, lo, hi, runs);
    made[experiment.seeded ? SIMULATE_FROM : SIMULATE]++;
    place_input_done(&table_place, table.at);
    timed_network_verdict_numbers expected = expected_refusal(where, table, experiment);
    if (answer.number != expected.number || answer.component != expected.component)
        fail("another refusal than that of the check and of the numbers");
    if (answer.number == 0) {
        try_counts(table, experiment, answer);
        return answer;
    }
    if (answer.late != 0 || answer.state != 0)
        fail("a refused simulation has numbers");
    for (size_t i = 0; i < MAX_NODES; i++)
        if (answer.nodes[i] != 0)
            fail("a refused simulation has counts of nodes");
    return answer;
}

/* The same in two pieces: the second goes on from the generator that the first left. */
static void try_pieces(enum where where, struct bytes table, struct experiment experiment,
                       timed_network_simulation_numbers all) {
    struct experiment piece = experiment;
    piece.runs = experiment.runs / 2;
    timed_network_simulation_numbers first = guarded_simulate(where, table, piece);
    piece.runs = experiment.runs - piece.runs;
    piece.seeded = 1;
    piece.seed = first.state;
    timed_network_simulation_numbers second = guarded_simulate(where, table, piece);
    if (first.late + second.late != all.late || second.state != all.state)
        fail("runs in pieces come to something else");
    for (size_t i = 0; i < MAX_NODES; i++)
        if (first.nodes[i] + second.nodes[i] != all.nodes[i])
            fail("runs in pieces have other late nodes");
}

void simulate_in_all_ways(enum where where, struct bytes table,
                          struct experiment experiment) {
    timed_network_simulation_numbers all = guarded_simulate(where, table, experiment);
    if (all.number != 0)
        return;
    if (experiment.runs > 1)
        try_pieces(where, table, experiment, all);
    if (!experiment.seeded) {
        experiment.seeded = 1;
        experiment.seed = TIMED_NETWORK_SEED;
        timed_network_simulation_numbers same = guarded_simulate(where, table, experiment);
        if (same.late != all.late || same.state != all.state)
            fail("the fixed seed that is given is another one");
    }
}
