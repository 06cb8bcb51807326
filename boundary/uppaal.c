#include "calls.h"

#include <string.h>

uint8_t network_text[MAX_TEXT + 1];

/* The places of short texts and of all others: a large one is slow to look through. */
enum { SHORT_TEXT = 65536 };

static struct place table_place, short_place, long_place;

void uppaal_start(void) {
    table_place = place_new(MAX_TABLE);
    short_place = place_new(SHORT_TEXT);
    long_place = place_new(MAX_TEXT);
}

/* Whether an edge of an accepted table has a budget other than 0. */
static int has_budget(const uint8_t *table) {
    static const size_t item[] = {4, 1, 2};
    size_t at = 7u + table[4];
    if (table[0] != 3)
        return 0;
    for (uint8_t c = 0; c < table[3]; c++) {
        size_t edge = at + 7 + 3u * table[at + 2];
        for (uint8_t e = 0; e < table[at + 6]; e++) {
            const uint8_t *head = table + edge;
            if (head[7] != 0 || head[8] != 0)
                return 1;
            edge += 9 + 5u * ((size_t)head[4] + head[5]) + item[head[0]] * head[6];
        }
        at += 256u * table[at] + table[at + 1];
    }
    return 0;
}

/* The refusal that is expected where enough is lent: the check's, then 25. */
static timed_network_verdict_numbers expected_refusal(enum where where, struct bytes table) {
    timed_network_verdict_numbers verdict = guarded_check(where, table);
    if (verdict.number == 0 && has_budget(table.at))
        verdict.number = 25;
    return verdict;
}

static int ends_with(size_t size, const char *end) {
    size_t length = strlen(end);
    return size >= length && memcmp(network_text + size - length, end, length) == 0;
}

/* What holds for every text: ASCII, a process a component, the system line last. */
static void try_text(struct bytes table, size_t size) {
    char last[16] = " P0;\n";
    size_t processes = 0;
    for (size_t i = 0; i < size; i++)
        if (network_text[i] != '\n' && (network_text[i] < ' ' || network_text[i] > '~'))
            fail("the text is not ASCII");
    network_text[size] = 0;
    for (const char *at = (const char *)network_text; (at = strstr(at, "\nprocess P")) != NULL;
         at++)
        processes++;
    last[2] = (char)('0' + table.at[3] - 1);
    if (processes != table.at[3] || !ends_with(size, last))
        fail("another number of processes than of components");
    if (strstr((const char *)network_text, "}\n\nsystem P0") == NULL)
        fail("there is no system line behind the processes");
    if (strncmp((const char *)network_text, table.at[4] > 0 ? "chan c0" : "\nprocess", 7) != 0)
        fail("the text does not begin with the channels");
}

timed_network_call_numbers guarded_uppaal(enum where where, struct bytes table, size_t lent) {
    struct place *place = lent <= SHORT_TEXT ? &short_place : &long_place;
    const uint8_t *in = place_input(&table_place, where, table.at, table.length);
    uint8_t *out = place_output(place, where, lent);
    timed_network_call_numbers answer = timed_network_uppaal(in, table.length, out, lent);
    made[UPPAAL]++;
    if (answer.number == 0 ? answer.size > lent : answer.size != 0)
        fail("the size cannot be");
    place_input_done(&table_place, table.at);
    place_output_done(place, answer.size, network_text);
    timed_network_verdict_numbers expected = expected_refusal(where, table);
    if (answer.number == 13 ? expected.number != 0 : answer.number != expected.number)
        fail("another refusal than that of the check and of the budgets");
    if (answer.component != expected.component)
        fail("another component than that of the check");
    if (answer.number == 0)
        try_text(table, answer.size);
    return answer;
}

void lend_for_uppaal(enum where where, struct bytes table, long more) {
    timed_network_call_numbers ample = guarded_uppaal(where, table, SHORT_TEXT);
    if (ample.number == 13)
        ample = guarded_uppaal(where, table, MAX_TEXT);
    long sum = (long)ample.size + more;
    size_t lent = sum < 0 ? 0 : (size_t)sum > MAX_TEXT ? MAX_TEXT : (size_t)sum;
    uint8_t expected = ample.number != 0 ? ample.number : lent < ample.size ? 13 : 0;
    if (guarded_uppaal(where, table, lent).number != expected)
        fail("bytes for a text are refused or taken wrongly");
}
