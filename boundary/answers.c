#include "site.h"
#include "stored.h"

#include <stdio.h>
#include <stdlib.h>
#include <string.h>

/* The text of an answer as it grows. */
static char text[400000];
static size_t used;

static void write_number(const char *before, unsigned long number) {
    used += (size_t)snprintf(text + used, sizeof text - used, "%s%lu", before, number);
}

static void write_text(const char *more) {
    used += (size_t)snprintf(text + used, sizeof text - used, "%s", more);
}

static void write_hex(const uint8_t *at, size_t length) {
    for (size_t i = 0; i < length; i++)
        used += (size_t)snprintf(text + used, sizeof text - used, "%02x", (unsigned)at[i]);
}

/* 1 for a refusal, which is written. */
static int write_refusal(uint8_t number, uint8_t component) {
    if (number == 0)
        return 0;
    write_number("refused ", number);
    write_number(" ", component);
    return 1;
}

static void write_check(const struct stored *stored, enum where where) {
    timed_network_verdict_numbers answer = guarded_check(where, stored->table);
    if (!write_refusal(answer.number, answer.component))
        write_text("accepted");
}

static void write_schedule(const struct stored *stored, enum where where) {
    timed_network_call_numbers answer = guarded_schedule(where, stored->table, MAX_LIST);
    if (write_refusal(answer.number, answer.component))
        return;
    write_text("c e l entry ready end msg");
    for (size_t i = 0; i < (size_t)answer.size * FIELDS; i++) {
        size_t field = i % FIELDS;
        if (field == FIELDS - 1 && list[i] == 255)
            write_text(" -");
        else
            write_number(field == 0 ? "|" : " ", list[i]);
    }
}

/* The rows, the line feeds between them written as |. */
static void write_chart(const struct stored *stored, enum where where) {
    timed_network_call_numbers answer =
        guarded_timing_chart(where, stored->table, stored->lent);
    if (write_refusal(answer.number, answer.component))
        return;
    for (size_t i = 0; i < answer.size; i++)
        if (chart[i] != '\n')
            text[used++] = (char)chart[i];
        else if (i + 1 < answer.size)
            text[used++] = '|';
    text[used] = 0;
}

static void write_plan(const struct stored *stored, enum where where) {
    timed_network_call_numbers answer = guarded_plan(where, stored->slots, stored->lent);
    if (!write_refusal(answer.number, answer.component))
        write_hex(plan, answer.size);
}

/*
 * How many edges are looked at for the passages that open at tick 0, each with
 * the edge of the schedule: the front of the answer. The rest, at entries with
 * other clocks and variables, is not asked here.
 */
static void write_looked(const struct stored *stored, enum where where) {
    timed_network_call_numbers planned = guarded_schedule(where, stored->table, MAX_LIST);
    if (write_refusal(planned.number, planned.component))
        return;
    for (uint8_t c = 0; c < stored->table.at[3]; c++) {
        const uint32_t *row = &list[(size_t)FIELDS * c];
        timed_network_entry_numbers entry = {c, (uint8_t)row[2], {0, 0, 0, 0}, {0, 0, 0, 0}};
        timed_network_edge_choice_numbers answer =
            guarded_edge_choice(where, stored->table, entry);
        if (!answer.taken || answer.edge != row[1] || answer.ready != row[4] ||
            answer.end != row[5])
            fail("another edge than that of the schedule");
        write_number(c == 0 ? "" : " ", answer.looked);
    }
    if (used < strlen(stored->answer) && stored->answer[used] == ' ')
        write_text(stored->answer + used);
}

static void write_program(const struct stored *stored, enum where where) {
    timed_network_call_numbers answer = guarded_translate(where, stored->table, MAX_PROGRAM);
    if (!write_refusal(answer.number, answer.component))
        write_hex(program, answer.size);
}

static void write_part(const struct stored *stored, enum where where) {
    timed_network_part_numbers answer = guarded_part(where, stored->table, stored->node);
    write_hex(stored->table.at + answer.start, answer.length);
    if (answer.length == 0)
        write_text("-");
}

/* The bytes of each observation that an answer has: the first 32 where it is older than wish 9. */
static size_t observation_width(const char *answer) {
    const size_t old = 32;
    const char *first = strchr(answer, '|');
    return first != NULL && strcspn(first + 1, "|") == 2 * old ? old : OBSERVATION;
}

static unsigned long read_four(const uint8_t *at) {
    return (unsigned long)at[0] << 24 | (unsigned long)at[1] << 16 | (unsigned long)at[2] << 8 |
           at[3];
}

/* An observation as the corpus has it: node, tick and finish tick. */
static void write_shown(const uint8_t *observation) {
    unsigned long finish = read_four(observation + OBSERVATION - 4);
    write_number("", observation[0]);
    write_number(" ", read_four(observation + 4));
    if (finish == TIMED_NETWORK_NO_WORK)
        write_text(" -");
    else
        write_number(" ", finish);
}

static void write_ran(timed_network_run_numbers answer, const struct stored *stored) {
    size_t width = observation_width(stored->answer);
    const char *first = strchr(stored->answer, '|');
    int of_corpus = first != NULL && strchr(first, ' ') != NULL;
    if (write_refusal(answer.number, answer.component))
        return;
    write_number("", answer.end);
    write_number(" ", answer.node);
    write_number(" ", answer.tick);
    write_number(" ", answer.used);
    for (size_t i = 0; i < answer.size; i++) {
        write_text("|");
        if (of_corpus)
            write_shown(observations + OBSERVATION * i);
        else
            write_hex(observations + OBSERVATION * i, width);
    }
}

static void write_run(const struct stored *stored, enum where where) {
    write_ran(guarded_run(where, stored->table, stored->choices, stored->lent), stored);
}

static void write_check_spread(const struct stored *stored, enum where where) {
    timed_network_verdict_numbers answer =
        guarded_check_spread(where, stored->table, stored->waking.spread);
    if (!write_refusal(answer.number, answer.component))
        write_text("accepted");
}

static void write_run_apart(const struct stored *stored, enum where where) {
    write_ran(guarded_run_apart(where, stored->table, stored->choices, &stored->waking,
                                stored->lent),
              stored);
}

/* A number, where 255 is none. */
static void write_some(uint8_t number) {
    if (number == 255)
        write_text(" -");
    else
        write_number(" ", number);
}

static void write_place(const struct stored *stored, enum where where) {
    timed_network_place_numbers place = guarded_refusal_place(where, stored->table);
    if (place.number == 0) {
        write_text("none");
        return;
    }
    write_number("", place.number);
    write_number(" ", place.component);
    write_number(" ", place.part);
    write_some(place.edge);
    write_some(place.index);
    write_number(" ", place.start);
    write_number(" ", place.offset);
    write_number(" ", place.width);
    write_number(" ", place.value);
    write_number(" ", place.least);
    write_number(" ", place.limit);
    write_number(" ", place.unbounded);
}

/* Four numbers with commas between them: clocks, or with a sign variables. */
static void write_clocks(const uint32_t *clocks) {
    for (size_t i = 0; i < 4; i++)
        write_number(i == 0 ? " " : ",", clocks[i]);
}

static void write_values(const int16_t *values) {
    for (size_t i = 0; i < 4; i++) {
        write_text(i == 0 ? " " : ",");
        write_number(values[i] < 0 ? "-" : "", (unsigned long)abs(values[i]));
    }
}

static void write_opening(const struct stored *stored, enum where where) {
    timed_network_opening_numbers opening = guarded_refused_opening(where, stored->table);
    if (opening.number == 0) {
        write_text("none");
        return;
    }
    write_number("", opening.number);
    write_number(" ", opening.component);
    write_number(" ", opening.passage);
    write_number(" ", opening.tick);
    write_number(" ", opening.entry.location);
    write_clocks(opening.entry.clocks);
    write_values(opening.entry.values);
    write_number(" ", opening.leaving);
    write_number(" ", opening.blocked);
    write_number(" ", opening.windowless);
    write_some(opening.edge);
    write_some(opening.update);
}

/* The passage, then the edges, each with its reason in a word. */
static void write_reasons(const struct stored *stored, enum where where) {
    static const char *const words[] = {" taken", " data", " window", " later", " higher"};
    timed_network_reason_numbers answer =
        guarded_reasons(where, stored->table, stored->question, stored->lent);
    if (write_refusal(answer.number, answer.component))
        return;
    write_number("", answer.passage);
    for (size_t i = 0; i < answer.size; i++) {
        write_number("|", told[REASON * i]);
        write_text(words[told[REASON * i + 1]]);
        if (told[REASON * i + 1] == TIMED_NETWORK_DATA_BOUND)
            write_number(" ", told[REASON * i + 2]);
    }
}

/* How many passages were read, then the answers. */
static void write_positions(const struct stored *stored, enum where where) {
    timed_network_position_numbers answer =
        guarded_positions(where, stored->table, stored->pairs, stored->lent);
    if (write_refusal(answer.number, answer.component))
        return;
    write_number("", answer.read);
    write_text(stored->pairs.length == 0 ? "|-" : "|");
    write_hex(answered, POSITION * (stored->pairs.length / 2));
}

/* The late runs, in all and of each node of the table, and the generator. */
static void write_simulation(const struct stored *stored, enum where where) {
    timed_network_simulation_numbers answer =
        guarded_simulate(where, stored->table, stored->experiment);
    if (write_refusal(answer.number, answer.component))
        return;
    write_number("", answer.late);
    for (size_t i = 0; i < stored->table.at[3]; i++)
        write_number(" ", answer.nodes[i]);
    write_number("|state ", answer.state);
}

/* How many names stand in a line, with commas between them. */
static unsigned long names_in(const char *line, const char *end) {
    unsigned long names = 1;
    for (const char *at = strchr(line, ' '); at < end; at++)
        names += *at == ',';
    return names;
}

/* A process: clocks, variables, locations, transitions alone, sends and receives. */
static const char *write_process(const char *line) {
    unsigned long counts[6] = {0, 0, 0, 0, 0, 0};
    for (; *line != '}'; line = strchr(line, '\n') + 1) {
        const char *end = strchr(line, '\n');
        const char *arrow = strstr(line, " -> "), *sync = strstr(line, "; sync ");
        if (strncmp(line, "clock ", 6) == 0)
            counts[0] = names_in(line, end);
        else if (strncmp(line, "int[", 4) == 0)
            counts[1] = names_in(line, end);
        else if (line[0] == ' ' && (arrow == NULL || arrow > end))
            counts[2]++;
        else if (line[0] == ' ' && (sync == NULL || sync > end))
            counts[3]++;
        else if (line[0] == ' ')
            counts[strchr(sync + 2, ';')[-1] == '!' ? 4 : 5]++;
    }
    for (size_t i = 0; i < 6; i++)
        write_number(i == 0 ? "|" : " ", counts[i]);
    return line;
}

/* How many of each thing a text has: channels, then for each process what it has. */
static void write_uppaal(const struct stored *stored, enum where where) {
    timed_network_call_numbers answer = guarded_uppaal(where, stored->table, stored->lent);
    if (write_refusal(answer.number, answer.component))
        return;
    const char *line = (const char *)network_text;
    write_number("", *line == 'c' ? names_in(line, strchr(line, '\n')) : 0);
    while ((line = strstr(line, "process ")) != NULL)
        line = write_process(line);
}

/* The pair, or none. */
static void write_period(const struct stored *stored, enum where where) {
    timed_network_period_numbers answer = guarded_period(where, stored->table);
    if (write_refusal(answer.number, answer.component))
        return;
    if (!answer.found) {
        write_text("none");
        return;
    }
    write_number("", answer.from);
    write_number(" ", answer.to);
}

static void write_run_to(const struct stored *stored, enum where where) {
    timed_network_run_to_numbers answer = guarded_run_to(
        where, stored->table, stored->choices, stored->horizon, stored->lent);
    timed_network_run_numbers ran = {answer.number, answer.component,      answer.end,
                                     answer.node,   answer.tick,           (uint32_t)answer.used,
                                     (uint32_t)answer.size};
    write_ran(ran, stored);
}

static void write_airtime(const struct stored *stored, enum where where) {
    timed_network_airtime_numbers answer = guarded_airtime(where, stored->table);
    if (!write_refusal(answer.number, answer.component))
        write_number("", answer.airtime);
}

/* The airtime in use after each call of a site, or its refusal, with | between them. */
static void write_sequence(const struct stored *stored, enum where where) {
    timed_network_networks site = guarded_site(stored->limit);
    for (size_t i = 0; i < stored->count; i++) {
        const struct site_call *call = &stored->calls[i];
        if (call->puts)
            guarded_site_put(where, &site, call->table, call->place);
        else
            guarded_site_take(where, &site, call->place);
        if (i > 0)
            write_text("|");
        if (!write_refusal(site.number, site.component))
            write_number("", site.in_use);
    }
    if (stored->count == 0)
        write_text("-");
}

void stored_try(const struct stored *stored, enum where where) {
    static void (*const writers[])(const struct stored *, enum where) = {
        write_check,        write_schedule,  write_chart, write_plan,
        write_looked,       write_program,   write_part,  write_run,
        write_check_spread, write_run_apart, write_place, write_opening,
        write_reasons,      write_positions, write_simulation, write_simulation,
        write_uppaal,       write_period,    write_run_to, write_airtime,
        write_sequence};
    trying("a stored case", stored->name);
    used = 0;
    text[0] = 0;
    writers[stored->request](stored, where);
    if (strcmp(text, stored->answer) != 0)
        fail("another answer than the stored one");
}
