/*
 * SPDX-License-Identifier: BSL-1.0
 *
 * Timed cellar networks: the exported calls.
 *
 * A table is a string of bytes, laid out as document 01 says under "The
 * table". Link with libtimed_network.a, which `bash tools/archive` puts to
 * target/staticlib.
 *
 * What holds for every call here: it always returns, whatever the bytes are,
 * and it keeps nothing from one call to the next. Memory that is lent is
 * written only where the call says so. After a refusal it is as it was; so are
 * a node's registers where a statement or a message is not taken, and so is a
 * site but for what it says of the last call.
 *
 * What the caller sees to: a pointer leads to as many bytes or numbers as its
 * length says (2^63 - 1 bytes at most); what is lent to be written overlaps
 * nothing else that is lent; a list of uint32_t or of passages, a node's
 * registers and a site are aligned as their type is, what is not aligned is not
 * allowed.
 * Bytes may start anywhere. The stack that a call takes stands in
 * docs/LINKING.md.
 */
#ifndef TIMED_NETWORK_H
#define TIMED_NETWORK_H

#include <stdbool.h>
#include <stddef.h>
#include <stdint.h>

/*
 * The version of this header and its archive, as words and as a number that
 * grows: 10,000 x major + 100 x minor + patch.
 */
#define TIMED_NETWORK_VERSION "0.15.0"
#define TIMED_NETWORK_VERSION_NUMBER 1500

/*
 * Limits and sizes. "Enough" is what a buffer needs for any table.
 */
#define TIMED_NETWORK_MAX_TABLE 8192                    /* bytes of a table */
#define TIMED_NETWORK_MAX_COMPONENTS 8                  /* components of a table */
#define TIMED_NETWORK_MAX_PASSAGES 1024                 /* passages of a schedule */
#define TIMED_NETWORK_FIELDS 7                          /* numbers of a passage in a list */
#define TIMED_NETWORK_PASSAGE_BYTES 16                  /* bytes of a passage struct */
#define TIMED_NETWORK_SCHEDULE_ENOUGH (7 * 1024)        /* numbers of a schedule */
#define TIMED_NETWORK_MEETINGS_ENOUGH (7 * 1025)        /* numbers of meetings */
#define TIMED_NETWORK_CHART_ROW 69                      /* bytes of a chart's row */
#define TIMED_NETWORK_CHART_ENOUGH (69 * 8)             /* bytes of a chart */
#define TIMED_NETWORK_REASON 3                          /* bytes of an edge's reason */
#define TIMED_NETWORK_REASONS_ENOUGH (3 * 32)           /* bytes of a question's */
#define TIMED_NETWORK_POSITION 3                        /* bytes of a pair's answer */
#define TIMED_NETWORK_UPPAAL_ENOUGH 2436116             /* bytes of a text for UPPAAL */
#define TIMED_NETWORK_MAX_PLAN 414                      /* bytes of a plan: enough */
#define TIMED_NETWORK_MAX_PROGRAM 24576                 /* bytes of a program: enough */
#define TIMED_NETWORK_OBSERVATION 36                    /* bytes of an observation */
#define TIMED_NETWORK_OBSERVATIONS_ENOUGH (36 * 1024)   /* bytes of a run's */
#define TIMED_NETWORK_NO_WORK 4294967295u               /* no finish tick */
#define TIMED_NETWORK_MAX_CHOICES 1000000               /* choices of a run */
#define TIMED_NETWORK_MAX_SPREAD 1000                   /* ticks of a spread */
#define TIMED_NETWORK_MAX_BUDGET 60000                  /* ticks of an edge's budget */
#define TIMED_NETWORK_MAX_RUNS 10000                    /* runs of a simulation */
#define TIMED_NETWORK_MAX_WORK 60000                    /* ticks of work in one */
#define TIMED_NETWORK_SEED 2463534242u                  /* where its generator starts */
#define TIMED_NETWORK_PLACES 4                          /* places of a site */
#define TIMED_NETWORK_TICK 255                          /* the choice that is a tick */
#define TIMED_NETWORK_NONE 255                          /* no component, message, node */

/* What the number of an answer means; each is explained below. */
enum timed_network_number {
    TIMED_NETWORK_ACCEPTED = 0,
    TIMED_NETWORK_REFUSED_VERSION = 1,
    TIMED_NETWORK_REFUSED_LENGTH = 2,
    TIMED_NETWORK_REFUSED_HEADER = 3,
    TIMED_NETWORK_REFUSED_LAYOUT = 4,
    TIMED_NETWORK_REFUSED_RANGE = 5,
    TIMED_NETWORK_REFUSED_CHANNEL_TWICE = 6,
    TIMED_NETWORK_REFUSED_PASSAGES = 7,
    TIMED_NETWORK_REFUSED_NO_EDGE = 8,
    TIMED_NETWORK_REFUSED_UPDATE = 9,
    TIMED_NETWORK_REFUSED_SENDS_MEET = 10,
    TIMED_NETWORK_REFUSED_NO_LISTENER = 11,
    TIMED_NETWORK_REFUSED_CROWDED = 12,
    TIMED_NETWORK_REFUSED_LENT = 13,
    TIMED_NETWORK_REFUSED_CHOICES = 14,
    TIMED_NETWORK_REFUSED_SEVERAL_LISTENERS = 15,
    TIMED_NETWORK_REFUSED_LISTENER_LATE = 16,
    TIMED_NETWORK_REFUSED_LISTENER_SHORT = 17,
    TIMED_NETWORK_REFUSED_PLAN = 18,
    TIMED_NETWORK_REFUSED_SPREAD = 19,
    TIMED_NETWORK_REFUSED_OFFSET = 20,
    TIMED_NETWORK_REFUSED_QUESTION = 21,
    TIMED_NETWORK_REFUSED_SEED = 22,
    TIMED_NETWORK_REFUSED_SIMULATION = 23,
    TIMED_NETWORK_REFUSED_ORDER = 24,
    TIMED_NETWORK_REFUSED_BUDGETS = 25,
    TIMED_NETWORK_REFUSED_SITE_PLACE = 26,
    TIMED_NETWORK_REFUSED_HORIZON = 27,
    TIMED_NETWORK_REFUSED_AIRTIME = 28,
    TIMED_NETWORK_REFUSED_RUN_HORIZON = 29
};

/* What the end of a run means; see timed_network_run_numbers. */
enum timed_network_end {
    TIMED_NETWORK_END_HORIZON = 0,
    TIMED_NETWORK_END_USED_UP = 1,
    TIMED_NETWORK_END_LATE = 2,
    TIMED_NETWORK_END_NOT_ALLOWED = 3
};

/* Why an edge is taken, or not; see timed_network_reasons. */
enum timed_network_reason {
    TIMED_NETWORK_TAKEN = 0,
    TIMED_NETWORK_DATA_BOUND = 1,
    TIMED_NETWORK_NO_WINDOW = 2,
    TIMED_NETWORK_READY_LATER = 3,
    TIMED_NETWORK_HIGHER_NUMBER = 4
};

/* What a part of a table is; see timed_network_place_numbers. */
enum timed_network_table_part {
    TIMED_NETWORK_PART_COMPONENT_LENGTH = 1, /* the two bytes of a component's length */
    TIMED_NETWORK_PART_COMPONENT_HEAD = 2,   /* its first 7 bytes, the length among them */
    TIMED_NETWORK_PART_LOCATION = 3,         /* 3 bytes */
    TIMED_NETWORK_PART_EDGE_HEAD = 4,        /* an edge's first 7 bytes */
    TIMED_NETWORK_PART_CLOCK_BOUND = 5,      /* 5 bytes */
    TIMED_NETWORK_PART_DATA_BOUND = 6,       /* 5 bytes */
    TIMED_NETWORK_PART_UPDATE = 7,           /* of an internal edge, 4 bytes */
    TIMED_NETWORK_PART_CHANNEL = 8,          /* of a send, 1 byte */
    TIMED_NETWORK_PART_PAIR = 9,             /* of a receive, 2 bytes */
    TIMED_NETWORK_PART_COMPONENT_END = 10,   /* what is left over behind its last edge */
    TIMED_NETWORK_PART_TABLE_END = 11,       /* and behind the last component */
    TIMED_NETWORK_PART_BUDGET = 12           /* of an edge in version 3, 2 bytes */
};

#ifdef __cplusplus
extern "C" {
#endif

/*
 * A verdict on a table, as two numbers.
 *
 * number: 0 if the table is accepted. Otherwise it is refused, and this is the
 * number of the first check that is not passed, numbered as in document 01:
 *
 *   1  the first byte, the version, is neither 1, 2 nor 3 (also: there is no
 *      byte at all)
 *   2  the stated length is not the length handed in, or is not from 7 to 8,192
 *   3  components, channels or horizon are out of range, or in versions 2 and 3
 *      a band is above 3, or the table is too short for its bands
 *   4  a part does not fit its component, or bytes are left over
 *   5  a number is out of its range, or a reset mask has a bit without a clock,
 *      or a budget is above 60,000
 *   6  a receive edge lists a channel twice
 *   7  a passage opens while 1,024 passages are open or closed
 *   8  a passage opens and no edge is a candidate (also: every window is shorter
 *      than its budget)
 *   9  an update of the edge taken leaves -32,768 to 32,767
 *  10  two send windows of different components on one band share a tick (in
 *      version 1 all channels are on one band)
 *  11  a send window shares a tick with no receive window of another component
 *      that names its channel
 *  12  a receive window shares a tick with two send windows of other
 *      components on its channels
 *  15  a send window shares a tick with several such receive windows as in 11
 *  16  with a single one, which does not start earlier
 *  17  with a single one, which starts earlier, but does not end later
 *
 * 15 to 17 stand in the place of 11 (document 02): they are asked after 10 and
 * before 12, and earlier versions of this library said 11 for all four. 13, 14
 * and 18 to 29 refuse a call and say nothing about a table.
 *
 * component: the number of the component concerned, counted from 0. For 4 to 6
 * the one that was being read, for 7 to 9 the one that was opening a passage,
 * for 10, 11 and 15 to 17 that of the first send at fault in the order of the
 * schedule, for 12 that of the first receive at fault. 255 if the table is
 * accepted, and with 1, 2 and 3.
 */
typedef struct timed_network_verdict_numbers {
    uint8_t number;
    uint8_t component;
} timed_network_verdict_numbers;

/*
 * Tries a table with checks 1 to 12 of document 01. Accepted means that all
 * twelve are passed.
 *
 * table:  the first of `length` bytes that can be read.
 * length: how many bytes there are. It may be 0; then the pointer is not read,
 *         and the answer is refusal 1.
 *
 * Nothing is written, and no byte behind the last one is read.
 */
timed_network_verdict_numbers
timed_network_check(const uint8_t *table, size_t length);

/*
 * Tries a table for nodes that wake apart (document 02, wish 6): at a spread.
 *
 * table, length: as for timed_network_check.
 * spread:        how many ticks the nodes may wake apart, 0 to 1,000.
 *
 * In checks 10 and 12, and for the listeners counted in 11, two windows count
 * as sharing a tick if from the end of the one to the start of the other there
 * are at most `spread` ticks. The single listener has to start more than
 * `spread` ticks earlier (else 16) and to end more than `spread` ticks later
 * (else 17). At spread 0 this is timed_network_check. A table that is accepted
 * at a spread is accepted at every smaller one.
 *
 * Refused with 1 to 3 as timed_network_check refuses, then with one number
 * more, component 255:
 *
 *  19  the spread is above 1,000
 *
 * then with 4 to 12 and 15 to 17. Nothing is written.
 */
timed_network_verdict_numbers
timed_network_check_spread(const uint8_t *table, size_t length,
                           uint32_t spread);

/*
 * The answer of timed_network_largest_spread.
 *
 * number, component: the verdict on the table, as timed_network_check gives it.
 * spread:            the largest spread, 0 to 1,000; 0 after a refusal.
 */
typedef struct timed_network_spread_numbers {
    uint8_t number;
    uint8_t component;
    uint32_t spread;
} timed_network_spread_numbers;

/*
 * The largest spread at which timed_network_check_spread accepts a table: it
 * does at every spread up to that, and at none above.
 *
 * table, length: as for timed_network_check.
 *
 * Refused with 1 to 12 as timed_network_check refuses, and with nothing else.
 * Nothing is written.
 */
timed_network_spread_numbers
timed_network_largest_spread(const uint8_t *table, size_t length);

/*
 * The answer of a call that writes into lent memory, as three numbers.
 *
 * number, component: as in a verdict, with one number more:
 *
 *  13  the lent memory does not hold the result; component 255
 *
 * size: how many passages, or bytes of a chart, a text, a table or a program,
 * were written; 0 after a refusal.
 */
typedef struct timed_network_call_numbers {
    uint8_t number;
    uint8_t component;
    uint32_t size;
} timed_network_call_numbers;

/*
 * Writes the schedule of a table.
 *
 * table, length: as for timed_network_check.
 * list:          the first of `list_length` numbers that can be written.
 * list_length:   how many numbers there are. 7 x 1,024 are always enough. It
 *                may be 0; then the pointer is not used.
 *
 * Each passage takes seven numbers: component, edge, location, entry, ready,
 * end, message (255 for no message). The passages stand in the order of the
 * schedule from the front of the list on. The numbers past them stay as they
 * were; after a refusal the whole list does.
 *
 * Refused with 1 to 12 as timed_network_check refuses, then with 13 where
 * list_length is below 7 x the number of passages.
 *
 * The list must not overlap the table.
 */
timed_network_call_numbers
timed_network_schedule(const uint8_t *table, size_t length,
                       uint32_t *list, size_t list_length);

/*
 * Draws the schedule of a table as a chart: one row of 69 bytes a component, 0
 * upward: `C`, its digit, a colon, a space, 64 cells and a line feed.
 *
 * table, length: as for timed_network_check.
 * chart:         the first of `chart_length` bytes that can be written.
 * chart_length:  how many bytes there are. 69 x 8 = 552 are always enough. It
 *                may be 0; then the pointer is not used.
 *
 * With horizon H, cell i covers the ticks from i x H / 64 up to, but not
 * including, (i + 1) x H / 64, both rounded down. It shows `S` if a send window
 * of the component has a tick there, else `R` for receive, else `W` for
 * internal, else a dot. A cell without ticks is a space.
 *
 * The size of the answer is 69 x the number of components. The bytes past the
 * rows stay as they were; after a refusal all of them do.
 *
 * Refused with 1 to 12 as timed_network_check refuses, then with 13 where
 * chart_length is below 69 x the number of components.
 *
 * The chart must not overlap the table.
 */
timed_network_call_numbers
timed_network_timing_chart(const uint8_t *table, size_t length,
                           uint8_t *chart, size_t chart_length);

/*
 * Writes the network of a table as a text in the textual form of UPPAAL, XTA
 * (document 02, wish 12), for `verifyta` and the tool's own window.
 *
 * table, length: as for timed_network_check.
 * text:          the first of `text_length` bytes that can be written.
 * text_length:   how many bytes there are. 2,436,116 are always enough (a law,
 *                `system-most` in crates/uppaal_text/proofs/Rooms.antt). It may
 *                be 0; then the pointer is not used.
 *
 * Component 0 is process P0, and so on; its location 0 is L0, its clock 0 x0,
 * its variable 0 v0; channel 0 is c0. Each edge is two steps: from its location
 * to a waiting location, anywhere in its window, and from there to its
 * destination, exactly at the window's end. The waiting location of edge 0 is
 * W0, or W0_c1 with a message on channel 1. docs/FORMATS.md has all of it. The
 * bytes, read by the tool's grammar, are a network that has exactly the paths
 * of the table's network that enter no location with its invariant already
 * broken, and nothing else happens in it between the ticks. Bands, horizon and
 * version leave no trace.
 *
 * The text is ASCII, its lines end with a line feed, and no zero byte stands
 * behind it. The size of the answer is its length. The bytes past it stay as
 * they were; after a refusal all of them do.
 *
 * Refused with 1 to 12 as timed_network_check refuses, then with one number
 * more, component 255:
 *
 *  25  an edge has a budget other than 0, also one that is never taken
 *
 * then with 13 where text_length is below the length of the text.
 *
 * The text must not overlap the table.
 */
timed_network_call_numbers
timed_network_uppaal(const uint8_t *table, size_t length,
                     uint8_t *text, size_t text_length);

/*
 * Writes the table of a plan: a cellar with one hub and `probes` probes, in
 * which each probe has a slot of its own (document 02, wish 4).
 *
 * probes: 1 to 7. They are components 0 upward, and the hub is the last one.
 * slot:   the ticks from the first to the last at which a probe may send, 1 to
 *         1,000.
 * guard:  the ticks that the hub listens longer on both sides, 1 to 1,000.
 * period: the ticks after which all begin anew, at most 30,000. The slots with
 *         their guards have to fit: probes x (slot + 2 x guard) < period.
 * table:  the first of `length` bytes that can be written.
 * length: how many bytes there are. 29 + 55 x 7 = 414 are always enough. It
 *         may be 0; then the pointer is not used.
 *
 * Probe i, from 0, sends on channel i from tick i x (slot + 2 x guard) + guard
 * of each period to `slot` ticks later. The table is of version 1, and its
 * horizon is 2 x period. Every table written is accepted by
 * timed_network_check. The size of the answer is 29 + 55 x probes. The bytes
 * past it stay as they were; after a refusal all of them do.
 *
 * Refused with one number more, component 255:
 *
 *  18  a number is outside its range, or probes x (slot + 2 x guard) is not
 *      below the period
 *
 * then with 13 where length is below 29 + 55 x probes, and with nothing else.
 */
timed_network_call_numbers
timed_network_plan(uint32_t probes, uint32_t slot, uint32_t guard,
                   uint32_t period, uint8_t *table, size_t length);

/*
 * A component as it enters a location. 28 bytes.
 *
 * component, location: their numbers, counted from 0.
 * clocks, values:      its clocks and its variables at the entry. Those that
 *                      the component does not have are not read.
 */
typedef struct timed_network_entry_numbers {
    uint8_t component;
    uint8_t location;
    uint32_t clocks[4];
    int16_t values[4];
} timed_network_entry_numbers;

/*
 * The answer of timed_network_edge_choice.
 *
 * number, component: 0 and 255, or a refusal with 1 to 6 as in a verdict.
 * taken:             whether an edge is taken: whether one is a candidate.
 * edge:              its number, counted from 0; 0 if none is taken.
 * ready, end:        the first and the last tick of its window, counted from
 *                    the entry; 0 if none is taken.
 * looked:            how many edges were looked at: k + 1 where k is the lowest
 *                    edge that is a candidate and ready with no delay, all of
 *                    the component's edges where there is none. 0 after a
 *                    refusal.
 */
typedef struct timed_network_edge_choice_numbers {
    uint8_t number;
    uint8_t component;
    bool taken;
    uint8_t edge;
    uint32_t ready;
    uint32_t end;
    uint32_t looked;
} timed_network_edge_choice_numbers;

/*
 * Chooses the edge that a component takes as it enters a location: the
 * candidate with the least ready, on a tie the lowest number, as the schedule
 * does. No edge is tried after one that is a candidate and ready with no delay.
 *
 * table, length: as for timed_network_check. The table has to pass checks 1 to
 *                6 alone, so that the reason of a later refusal can be sought.
 * entry:         the component and what it enters with, by value.
 *
 * A component that the table does not have takes none, and 0 edges are looked
 * at. No edge leaves a location that the component does not have: none is
 * taken, and all are looked at. Nothing is written.
 */
timed_network_edge_choice_numbers
timed_network_edge_choice(const uint8_t *table, size_t length,
                          timed_network_entry_numbers entry);

/*
 * The answer of timed_network_reasons. 12 bytes.
 *
 * number, component: as in timed_network_call_numbers, with one number more:
 *
 *  21  there is no such component, or the tick is not below the horizon;
 *      component 255
 *
 * passage: the place of the passage in the schedule, counted from 0.
 * size:    how many edges are told.
 *
 * After a refusal passage and size are 0.
 */
typedef struct timed_network_reason_numbers {
    uint8_t number;
    uint8_t component;
    uint32_t passage;
    uint32_t size;
} timed_network_reason_numbers;

/*
 * Tells why a component takes the edge that it takes at a tick (document 02,
 * wish 7): for each edge from the location that it is in one reason.
 *
 * table, length: as for timed_network_check.
 * component:     its number, counted from 0.
 * tick:          a tick below the horizon. It names the passage of the component
 *                whose entry is at or before it and whose end lies after it.
 * told:          the first of `told_length` bytes that can be written.
 * told_length:   how many bytes there are. 3 x 32 are always enough. It may be
 *                0; then the pointer is not used.
 *
 * Each edge takes three bytes: its number, its reason, and its data bound, which
 * is 255 unless the reason is 1. The reasons, of which the first that holds is
 * told:
 *
 *   0  it is the edge taken
 *   1  a data bound fails, with the values at the passage's entry; the third byte
 *      is the number of the first that does, counted from 0 within the edge
 *   2  it has no window of at least one tick's length, or in version 3 one that is
 *      shorter than its budget
 *   3  it is ready later than the edge taken
 *   4  it is ready together with the edge taken, but numbered higher
 *
 * The edges from the passage's location stand in the order of their numbers from
 * the front on; those of other locations are not told. The bytes past them stay as
 * they were; after a refusal all of them do.
 *
 * Refused with 1 to 12 as timed_network_check refuses, then with 21, then with 13
 * where told_length is below 3 x the number of edges told.
 *
 * The bytes lent must not overlap the table.
 */
timed_network_reason_numbers
timed_network_reasons(const uint8_t *table, size_t length, uint32_t component,
                      uint32_t tick, uint8_t *told, size_t told_length);

/*
 * The answer of timed_network_positions. 8 bytes.
 *
 * number, component: as in timed_network_call_numbers, with two numbers more, tried
 * pair by pair, in this order at each; the first bad pair decides:
 *
 *  21  there is no such component, or the tick is not below the horizon;
 *      component 255
 *  24  the tick is below that of the pair before it; component 255
 *
 * read: how many passages of the schedule were read: those of all components whose
 *       entry is at or before the last tick asked. 0 for no pairs, and after a
 *       refusal.
 */
typedef struct timed_network_position_numbers {
    uint8_t number;
    uint8_t component;
    uint32_t read;
} timed_network_position_numbers;

/*
 * Tells where components are at ticks (document 02, wish 11), in one walk through the
 * schedule.
 *
 * table, length:  as for timed_network_check.
 * pairs:          the first of `pairs_length` numbers that can be read: a component
 *                 and its tick in turn, the pairs sorted by tick. They are never
 *                 written.
 * pairs_length:   how many numbers there are, two a pair; one that is left over at
 *                 the end is no pair and not looked at. There is no limit. It may be
 *                 0; then the pointer is not read.
 * answers:        the first of `answers_length` bytes that can be written.
 * answers_length: how many bytes there are. It may be 0; then the pointer is not used.
 *
 * Each pair takes three bytes, in the order asked: the number of the passage that
 * timed_network_reasons names too, the one whose entry is at or before the tick and
 * whose end lies after it (two bytes, the highest first); then 0 if the tick lies
 * before ready, or 1 if it lies in the window. At a tick that two passages of the
 * component share the one just entered counts. The bytes past the answers stay as
 * they were; after a refusal all of them do.
 *
 * Refused with 1 to 12 as timed_network_check refuses, then with 21 and 24, then with
 * 13 where answers_length is below 3 x the number of pairs.
 *
 * The answers must overlap neither the table nor the pairs.
 */
timed_network_position_numbers
timed_network_positions(const uint8_t *table, size_t length,
                        const uint32_t *pairs, size_t pairs_length,
                        uint8_t *answers, size_t answers_length);

/*
 * Writes the program bytes of a table: the programs of all its nodes, laid
 * out as document 01 says under "The program".
 *
 * table, length:  as for timed_network_check.
 * program:        the first of `program_length` bytes that can be written.
 * program_length: how many bytes there are. 24,576 are always enough. It may
 *                 be 0; then the pointer is not used.
 *
 * The size of the answer is the length of the program in bytes. It stands at
 * the front of what was lent. The bytes past it stay as they were; after a
 * refusal all of them do.
 *
 * Refused with 1 to 12 as timed_network_check refuses, then with 13 where
 * program_length is below the length of the program.
 *
 * The program must not overlap the table.
 */
timed_network_call_numbers
timed_network_translate(const uint8_t *table, size_t length,
                        uint8_t *program, size_t program_length);

/*
 * Where the part of one node stands in program bytes.
 *
 * start:  its first byte, counted from the first byte of the program.
 * length: how many bytes it has, as it states.
 *
 * Both are 0 where there is no such part. A part that states the length 0 has
 * no bytes either, and a start of 6 or more.
 */
typedef struct timed_network_part_numbers {
    size_t start;
    size_t length;
} timed_network_part_numbers;

/*
 * Finds the part of the program bytes that belongs to one node.
 *
 * program, program_length: any bytes, as a rule those that
 *                          timed_network_translate wrote. With length 0 the
 *                          pointer is not read.
 * node:                    the number of the node, counted from 0.
 *
 * There is no part for a number without a node, and none where the header, a
 * length on the way or the part itself runs out of the bytes. Otherwise
 * start + length is at most program_length. Nothing else of the bytes is
 * tried, and nothing is written.
 */
timed_network_part_numbers
timed_network_part(const uint8_t *program, size_t program_length, uint8_t node);

/*
 * The answer of a run.
 *
 * number, component: as in a verdict, with two numbers more, tried in this
 * order after 1 to 12:
 *
 *  13  fewer bytes are lent than 36 for each passage of the schedule;
 *      component 255
 *  14  there are more than 1,000,000 choices; component 255
 *
 * timed_network_run_apart has two more, 19 and 20, and says when.
 *
 * end: how the run ended.
 *
 *   0  at the horizon; the choices behind that are ignored
 *   1  the choices are used up
 *   2  a tick has made a node late
 *   3  a choice is not allowed; it did nothing and is not counted
 *
 * node: the lowest node that is late; 255 with every other end.
 * tick: how many ticks have passed, a late one included.
 * used: how many choices were carried out, the ticks included.
 * size: how many observations were written.
 *
 * After a refusal end, tick, used and size are 0, and node is 255.
 */
typedef struct timed_network_run_numbers {
    uint8_t number;
    uint8_t component;
    uint8_t end;
    uint8_t node;
    uint32_t tick;
    uint32_t used;
    uint32_t size;
} timed_network_run_numbers;

/*
 * Runs the programs of a table's nodes together under a list of choices.
 *
 * table, length:       as for timed_network_check.
 * choices:             the first of `choices_length` bytes that can be read:
 *                      0 to 7 let that node finish its statement, 255 lets a
 *                      tick pass, no other is allowed.
 * choices_length:      how many choices there are. It may be 0; then the
 *                      pointer is not read.
 * observations:        the first of `observations_length` bytes that can be
 *                      written.
 * observations_length: how many bytes there are. 36 x 1,024 are always
 *                      enough. It may be 0; then the pointer is not used.
 *
 * Each observation takes 36 bytes: component, edge, location, 0, tick (4
 * bytes), four clocks (4 bytes each), four variables (2 bytes each), absent
 * ones 0; then the finish tick (4 bytes): when the node's previous work was
 * finished, for a receive by the message or the timeout. It lies in the window
 * of the node's passage before; a node's first observation has 4,294,967,295.
 * The first byte of a number is its highest. They stand in the order in which
 * they were made from the front on. The bytes past them stay as they were, even
 * where there is room for more; after a refusal all of them do.
 *
 * The observations must overlap neither the table nor the choices.
 */
timed_network_run_numbers
timed_network_run(const uint8_t *table, size_t length,
                  const uint8_t *choices, size_t choices_length,
                  uint8_t *observations, size_t observations_length);

/*
 * The same for nodes that wake apart (document 02, wish 6): each node has a
 * clock of its own, which stands at 0 up to the tick that is its offset. Until
 * that tick choosing the node is not allowed, and nothing is due or late at it.
 *
 * table, length:       as for timed_network_check.
 * choices,
 * choices_length:      as for timed_network_run.
 * spread:              how many ticks the nodes may wake apart, 0 to 1,000.
 * offsets:             the first of `offsets_length` numbers that can be read,
 *                      the ticks at which nodes 0 upward wake. They are never
 *                      written.
 * offsets_length:      how many offsets there are. A node behind the last one
 *                      has offset 0; offsets behind the last node are not
 *                      looked at. It may be 0; then the pointer is not read.
 * observations,
 * observations_length: as for timed_network_run.
 *
 * A node does everything by its own clock, and both ticks of an observation are
 * those of its node's own clock: of one message the sender and the receiver have
 * different finish ticks where they woke apart. The tick in the answer and the
 * horizon are the common ones. The observations stand in the order in which they
 * were made, so their ticks need not rise from one node's to another's.
 *
 * Refused as timed_network_check_spread refuses at this spread, then with 13
 * and 14 as timed_network_run refuses, then with one number more, component
 * 255:
 *
 *  20  the offset of a node is above the spread
 *
 * At spread 0 and without offsets this is timed_network_run. The observations
 * must overlap neither the table nor the choices nor the offsets.
 */
timed_network_run_numbers
timed_network_run_apart(const uint8_t *table, size_t length,
                        const uint8_t *choices, size_t choices_length,
                        uint32_t spread,
                        const uint32_t *offsets, size_t offsets_length,
                        uint8_t *observations, size_t observations_length);

/*
 * The answer of timed_network_period. 12 bytes.
 *
 * number, component: the verdict on the table, as timed_network_check gives it.
 * found:             whether there is such a pair; false after a refusal.
 * from, to:          the pair, from below to; both 0 where there is none.
 */
typedef struct timed_network_period_numbers {
    uint8_t number;
    uint8_t component;
    bool found;
    uint32_t from;
    uint32_t to;
} timed_network_period_numbers;

/*
 * Tells from when to when everything comes again (document 02, wish 14): two ticks
 * below the horizon at which all components enter a location, and each of them does
 * so at both with the same location, clocks and variables. Of all such pairs it is
 * the one with the least `to`, and with the least `from` for that.
 *
 * table, length: as for timed_network_check. Nothing is written.
 *
 * Where there is one, the table would be accepted with every larger horizon too,
 * however many passages that has, and timed_network_run_to runs it to any. Every
 * plan of timed_network_plan has one, 0 and its period. Where there is none, nothing
 * is said about what comes behind the horizon: with a larger one there may be a pair.
 */
timed_network_period_numbers
timed_network_period(const uint8_t *table, size_t length);

/*
 * The answer of timed_network_run_to. 24 bytes.
 *
 * number, component: as in a verdict, with two numbers more, tried in this
 * order after 1 to 12:
 *
 *  29  the horizon is 0, or it is above the table's and timed_network_period
 *      finds no pair; component 255
 *  13  fewer bytes are lent than 36 for each passage of the schedule to that
 *      horizon; component 255
 *
 * end, node, tick: as in timed_network_run_numbers, end 0 at that horizon.
 * used: how many choices were carried out, the ticks included.
 * size: how many observations were written.
 *
 * After a refusal end, tick, used and size are 0, and node is 255.
 */
typedef struct timed_network_run_to_numbers {
    uint8_t number;
    uint8_t component;
    uint8_t end;
    uint8_t node;
    uint32_t tick;
    uint64_t used;
    uint64_t size;
} timed_network_run_to_numbers;

/*
 * Runs the programs of a table's nodes to a horizon that is handed in (document 02,
 * wish 14), all nodes awake from tick 0 on.
 *
 * table, length:       as for timed_network_check.
 * choices,
 * choices_length:      as for timed_network_run, however many there are.
 * horizon:             the tick at which the run ends with end 0: any number of four
 *                      bytes from 1 up to the table's horizon, and above it where
 *                      timed_network_period finds a pair.
 * observations:        the first of `observations_length` bytes that can be written.
 * observations_length: how many bytes there are. 36 are asked for each passage of the
 *                      schedule to this horizon, also where it is below the table's:
 *                      with a pair from, to each period of to - from ticks has as
 *                      many more. It may be 0; then the pointer is not used.
 *
 * The observations are those of timed_network_run, and lateness goes by the schedule
 * to this horizon. To the table's own horizon this is timed_network_run, but for 14.
 *
 * Refused with 1 to 12 as timed_network_check refuses, then with 29, then with 13.
 *
 * The observations must overlap neither the table nor the choices.
 */
timed_network_run_to_numbers
timed_network_run_to(const uint8_t *table, size_t length,
                     const uint8_t *choices, size_t choices_length,
                     uint32_t horizon,
                     uint8_t *observations, size_t observations_length);

/*
 * The answer of timed_network_simulate and timed_network_simulate_from. 44 bytes.
 *
 * number, component: as in a verdict, with two numbers more, tried in this order
 * after 1 to 12:
 *
 *  22  the seed is 0; component 255
 *  23  lo is above hi, hi above 60,000, or runs 0 or above 10,000; component 255
 *
 * late:  how many runs ended late; all others came to the horizon.
 * nodes: how many of them ended with each node's number, the lowest late one. Their
 *        sum is `late`. 0 for nodes that the table does not have.
 * state: the generator after the last run: the number drawn last, or the seed where
 *        none was drawn. As the seed of a further call it makes runs that go on where
 *        these ended.
 *
 * After a refusal late, nodes and state are 0.
 */
typedef struct timed_network_simulation_numbers {
    uint8_t number;
    uint8_t component;
    uint32_t late;
    uint32_t nodes[8];
    uint32_t state;
} timed_network_simulation_numbers;

/*
 * Tries work times (document 02, wish 10): runs the programs of a table's nodes so
 * many times, each time with other ticks of work, and counts the runs that end late.
 *
 * table, length: as for timed_network_check.
 * lo, hi:        the least and the greatest number of ticks that work takes, 0 to
 *                60,000.
 * runs:          how many runs, 1 to 10,000.
 *
 * All nodes wake at tick 0. A sleep that is finished before a send or an internal
 * edge draws x and gives the work behind it lo + x mod (hi - lo + 1) ticks, from
 * that tick on: its last statement waits for them. In each tick the nodes 0 upward
 * each finish all that is due and allowed, again and again until none moves; then
 * the tick passes. A run ends late or at the horizon. Each is a run of some list of
 * choices as timed_network_run takes it, however long.
 *
 * The numbers are drawn by Marsaglia's xorshift of 32 bits, shifts 13, 17 and 5, one
 * generator for all nodes and all runs, which starts from 2463534242.
 *
 * Refused with 1 to 12 as timed_network_check refuses, then with 23. Nothing is
 * written.
 */
timed_network_simulation_numbers
timed_network_simulate(const uint8_t *table, size_t length,
                       uint32_t lo, uint32_t hi, uint32_t runs);

/*
 * The same with a generator that starts from `seed`, which is not 0: refused with 22
 * after 1 to 12, then with 23.
 */
timed_network_simulation_numbers
timed_network_simulate_from(const uint8_t *table, size_t length,
                            uint32_t lo, uint32_t hi, uint32_t runs,
                            uint32_t seed);

/*
 * The answer of timed_network_airtime. 8 bytes.
 *
 * number, component: the verdict on the table, as timed_network_check gives it.
 * horizon:           the table's, 1 to 60,000; 0 after a refusal.
 * airtime:           the sum of end - ready + 1 over the sends of its schedule that
 *                    are ready before the horizon, the last tick of each window
 *                    included, also where it lies behind the horizon. 0 after a
 *                    refusal.
 */
typedef struct timed_network_airtime_numbers {
    uint8_t number;
    uint8_t component;
    uint16_t horizon;
    uint32_t airtime;
} timed_network_airtime_numbers;

/*
 * The airtime of a table (document 02, wish 13): how many ticks of each horizon its
 * components may send.
 *
 * table, length: as for timed_network_check. Nothing is written.
 */
timed_network_airtime_numbers
timed_network_airtime(const uint8_t *table, size_t length);

/*
 * A site (document 02, wish 13): up to four networks, accepted at spread 0 and with
 * one horizon, under one limit on the send ticks in each horizon. The caller keeps it;
 * timed_network_site makes it, and only timed_network_site_put and
 * timed_network_site_take write it. 48 bytes, aligned to 8. Its fields are for
 * reading.
 *
 * limit:     as it was handed to timed_network_site.
 * horizons:  of the network in each place, 0 to 3; 0 where there is none.
 * airtimes:  likewise; 0 where there is none.
 *
 * What the last call said:
 *
 * in_use:    the airtime in use after it: the sum over the networks that were put in
 *            and not taken out since. Never above the limit.
 * number:    0 if it was carried out, else the number of its refusal; then nothing
 *            but these three fields was written.
 * component: the component that a refusal concerns, 255 for none.
 *
 * That in_use is this sum, and at most the limit, is proved over any sequence of
 * calls, refused ones among them, of a site that nothing else wrote. A struct with
 * any other bytes is answered too, by its fields limit, horizons and airtimes: each
 * call sums up anew, and in_use, number and component are never read. A copy is a
 * site of its own. Two threads must not use one site at the same time.
 */
typedef struct timed_network_networks {
    uint32_t limit;
    uint16_t horizons[4];
    uint32_t airtimes[4];
    uint64_t in_use;
    uint8_t number;
    uint8_t component;
} timed_network_networks;

/*
 * An empty site with its limit, any number of four bytes: in_use 0, number 0,
 * component 255.
 */
timed_network_networks timed_network_site(uint32_t limit);

/*
 * Puts the network of a table into a place of a site: its horizon and its airtime are
 * kept there, its bytes are not.
 *
 * networks:      the site. It must not overlap the table.
 * table, length: as for timed_network_check.
 * place:         0 to 3.
 *
 * Refused, which networks->number tells, in this order:
 *
 *   1 to 12, 15 to 17  as timed_network_check refuses the table
 *  26  the place is above 3, or a network is there; component 255
 *  27  a network is present and has another horizon; component 255
 *  28  the airtime in use with that of the table is above the limit; component 255
 *
 * No other place is changed; after a refusal none is, nor the limit.
 */
void timed_network_site_put(timed_network_networks *networks,
                            const uint8_t *table, size_t length,
                            uint8_t place);

/*
 * Takes the network out of a place of a site.
 *
 * networks, place: as for timed_network_site_put.
 *
 * Refused with 26 where the place is above 3, or no network is there; component 255.
 * No other place is changed; after a refusal none is, nor the limit.
 */
void timed_network_site_take(timed_network_networks *networks, uint8_t place);

/*
 * A passage of a schedule: one stay in a location, with the window of the edge
 * taken. 16 bytes.
 *
 * component, edge, location: their numbers, counted from 0.
 * message:                   a channel, or 255 for no message.
 * entry, ready, end:         ticks.
 */
typedef struct timed_network_passage {
    uint8_t component;
    uint8_t edge;
    uint8_t location;
    uint8_t message;
    uint32_t entry;
    uint32_t ready;
    uint32_t end;
} timed_network_passage;

/*
 * Writes the schedule of a table as passages.
 *
 * table, length: as for timed_network_check.
 * list:          the first of `list_length` passages that can be written.
 * list_length:   how many passages there are. 1,024 are always enough. It may
 *                be 0; then the pointer is not used.
 *
 * The passages stand in the order of the schedule from the front of the list
 * on. Those past them stay as they were; after a refusal the whole list does.
 *
 * Refused with 1 to 12 as timed_network_check refuses, then with 13 where
 * list_length is below the number of passages.
 *
 * The list must not overlap the table.
 */
timed_network_call_numbers
timed_network_passages(const uint8_t *table, size_t length,
                       timed_network_passage *list, size_t list_length);

/*
 * The answer of timed_network_meetings and timed_network_meetings_spread.
 *
 * number, component:  the call's own answer: 0 and 255, or 13 and 255 where the
 *                     list is too short.
 * refusal, concerned: the verdict on the table, as timed_network_check gives it
 *                     (number and component), or at a spread
 *                     timed_network_check_spread; also where the list is too
 *                     short.
 * size:               how many passages are listed.
 */
typedef struct timed_network_meetings_numbers {
    uint8_t number;
    uint8_t component;
    uint8_t refusal;
    uint8_t concerned;
    uint32_t size;
} timed_network_meetings_numbers;

/*
 * Which windows met: for a table that checks 10 to 12 refuse (with 10, 11, 12
 * or 15 to 17), the passage at fault, then the passages that it meets, each as
 * the seven numbers of timed_network_schedule. For any other table nothing is
 * listed.
 *
 * table, length: as for timed_network_check.
 * list:          the first of `list_length` numbers that can be written.
 * list_length:   how many numbers there are. 7 x 1,025 are always enough. It
 *                may be 0; then the pointer is not used.
 *
 * The numbers past those listed stay as they were; after 13 the whole list
 * does. The list must not overlap the table.
 */
timed_network_meetings_numbers
timed_network_meetings(const uint8_t *table, size_t length,
                       uint32_t *list, size_t list_length);

/*
 * Which windows met at a spread: as timed_network_meetings, with the verdict of
 * timed_network_check_spread, and with the passages that the one at fault meets
 * because they are at most `spread` ticks apart. Where the spread is refused
 * with 19, nothing is listed.
 *
 * table, length:     as for timed_network_check.
 * spread:            as for timed_network_check_spread.
 * list, list_length: as for timed_network_meetings.
 */
timed_network_meetings_numbers
timed_network_meetings_spread(const uint8_t *table, size_t length,
                              uint32_t spread,
                              uint32_t *list, size_t list_length);

/*
 * Where checks 4 to 6 stop: the part of the table that was being read, and what
 * is wrong in it. 32 bytes.
 *
 * number:      4, 5 or 6, the refusal; 0 where none of these refuses the table.
 * component:   the component being read; 255 where number is 0.
 * part:        what kind of part it is, a number of enum
 *              timed_network_table_part.
 * edge:        the edge that the part belongs to; 255 for none.
 * index:       which location, or which bound, update, channel or pair of the
 *              edge; 255 for none.
 * start:       the place in the table of the part's first byte.
 * offset:      the place in the part of the number at fault.
 * width:       its bytes, 1 or 2. With 0 it is no number of the part, but how
 *              many bytes there are for the part, or are left over.
 * value:       what stands there, or how many bytes there are.
 * least,
 * limit:       allowed are `least` up to, but not including, `limit`; none
 *              where they are equal. After 6 the value is in this range, but
 *              stands in an earlier pair of the edge.
 * unbounded:   whether 65,535, which stands for none, is allowed too.
 *
 * Where number is 0 all fields but the component are 0.
 */
typedef struct timed_network_place_numbers {
    uint8_t number;
    uint8_t component;
    uint8_t part;
    uint8_t edge;
    uint8_t index;
    bool unbounded;
    uint32_t start;
    uint32_t offset;
    uint32_t width;
    uint32_t value;
    uint32_t least;
    uint32_t limit;
} timed_network_place_numbers;

/*
 * Tells where checks 4 to 6 stop. They read a table front to back: a
 * component's length, its first 7 bytes, its locations, its edges, each with
 * its clock bounds, data bounds and items. Each part has to fit before its
 * numbers are tried, in the order of its bytes, and the first fault is told.
 *
 * table, length: as for timed_network_check.
 *
 * The number is 4, 5 or 6, with that component, exactly if timed_network_check
 * refuses the table so. Nothing is written.
 */
timed_network_place_numbers
timed_network_refusal_place(const uint8_t *table, size_t length);

/*
 * Where checks 7 to 9 stop: the opening of a passage that is refused, and why.
 * 44 bytes.
 *
 * number:     7, 8 or 9, the refusal; 0 where none of these refuses the table.
 * component:  the component that was opening the passage; 255 where number is 0.
 * leaving,
 * blocked,
 * windowless: with 8, how many edges leave the location entered; of how many of
 *             them a data bound fails; and how many others have no window of at
 *             least one tick's length, or in version 3 one that is shorter than
 *             their budget. They leave no candidate:
 *             leaving = blocked + windowless. Else 0.
 * edge,
 * update:     with 9, the edge taken, and the number, counted from 0, of its
 *             first update that leaves -32,768 to 32,767. Else 255.
 * passage:    how many passages were opened before it: its number, counted from
 *             0; with 7 it is 1,024.
 * tick:       the tick of its entry.
 * entry:      the component, the location entered, and the clocks and variables
 *             at the entry; those that the component does not have are 0. In
 *             the form that timed_network_edge_choice takes. With 7 as if the
 *             passage opened.
 *
 * Where number is 0, the component of the entry is 255, edge and update are
 * too, and all else is 0.
 */
typedef struct timed_network_opening_numbers {
    uint8_t number;
    uint8_t component;
    uint8_t leaving;
    uint8_t blocked;
    uint8_t windowless;
    uint8_t edge;
    uint8_t update;
    uint32_t passage;
    uint32_t tick;
    timed_network_entry_numbers entry;
} timed_network_opening_numbers;

/*
 * Tells where checks 7 to 9 stop: the opening that they refuse.
 *
 * table, length: as for timed_network_check.
 *
 * The number is 7, 8 or 9, with that component, exactly if timed_network_check
 * refuses the table so. Nothing is written.
 */
timed_network_opening_numbers
timed_network_refused_opening(const uint8_t *table, size_t length);

/*
 * One node, whose registers the caller lends. A node's part is the part of the
 * program bytes that belongs to it, as document 01 says under "The program".
 * The registers may have any values, but a bool is true or false.
 */

/* A trial: an edge's bounds as far as they were looked at. */
typedef struct timed_network_node_trial {
    uint16_t ready; /* the ready delay so far */
    bool ended;     /* whether the end was lowered */
    uint16_t end;   /* the end, once it was lowered */
    bool good;      /* whether no bound failed */
} timed_network_node_trial;

/* The edge kept, if any. */
typedef struct timed_network_node_kept {
    bool some;      /* whether there is one */
    uint8_t edge;   /* its number */
    uint16_t ready; /* its ready delay */
    uint16_t end;   /* its end */
} timed_network_node_kept;

/*
 * The registers of one node. Places of clocks and variables that the node does
 * not have mean nothing.
 */
typedef struct timed_network_node_registers {
    size_t pc;          /* the next statement, in bytes from the part's start */
    uint8_t location;   /* the present location */
    uint64_t clocks[4]; /* the clocks at its entry */
    int16_t values[4];  /* the variables */
    uint64_t t;         /* the tick of the ready of the edge taken */
    uint16_t n;         /* its ready delay */
    uint16_t d;         /* the length of its window */
    uint8_t edge;       /* its number */
    bool taken;         /* a message was taken, no location entered since */
    uint8_t goes;       /* the location paired with that message */
    timed_network_node_trial tried; /* the trial under way */
    timed_network_node_kept kept;   /* the edge kept so far */
    uint64_t sleeps;    /* how many sleeps were finished */
} timed_network_node_registers;

/*
 * The registers at the start of a part: in the initial location's block, with
 * a new trial (`good` is true), all else 0.
 *
 * part:   the first of `length` bytes that can be read.
 * length: how many bytes there are. It may be 0; then the pointer is not read.
 */
timed_network_node_registers
timed_network_start(const uint8_t *part, size_t length);

/*
 * Carries out the statement at the program counter of the node's part.
 *
 * node:              the registers. They must not overlap the part.
 * part, length:      as for timed_network_start.
 * clocks, variables: how many the node has.
 *
 * The registers stay as they are where the part has more than 65,535 bytes,
 * where clocks or variables is above 4, where t, sleeps or one of the four
 * clocks is above 4,000,000,000,000,000,000, where the statement is an
 * addition that leaves -32,768 to 32,767 or a take with nothing kept, and
 * where there is no statement.
 *
 * Whether the statement may be finished now is the caller's to know: the tick
 * of a sleep or a listen, and the listener of a send. A listen that takes a
 * message is timed_network_take_message; this call finishes it without one.
 */
void timed_network_step(timed_network_node_registers *node,
                        const uint8_t *part, size_t length,
                        uint8_t clocks, uint8_t variables);

/*
 * Finishes the listen at the program counter with a message on a channel:
 * `taken` becomes true, and `goes` the location paired with the channel.
 *
 * node, part, length: as for timed_network_step.
 * channel:            the message's.
 *
 * The registers stay as they are where the node does not stand at a listen
 * that names the channel, where it has taken a message already, and where the
 * part has more than 65,535 bytes. Whether the node has listened long enough
 * is the caller's to know.
 */
void timed_network_take_message(timed_network_node_registers *node,
                                const uint8_t *part, size_t length,
                                uint8_t channel);

#ifdef __cplusplus
}
#endif

#endif
