#include "words.h"

#include <stdio.h>
#include <stdlib.h>
#include <string.h>

#include "place.h"

enum { VERDICT, SCHEDULE, CHART, SPREAD, REASONS, RUN, SIMULATION, REFUSAL, LISTING };

const char *const words_names[WORDS_CALLS] = {
    "verdict", "schedule", "chart", "spread", "reasons", "run", "simulation", "refusal", "listing"};

struct file words_file(const char *path) {
    struct file file = {malloc(FILE_MOST), 0};
    FILE *from = path == NULL ? NULL : fopen(path, "rb");
    if (from == NULL || file.bytes == NULL)
        fail("a file cannot be read");
    file.length = fread(file.bytes, 1, FILE_MOST, from);
    if (ferror(from) || file.length == FILE_MOST)
        fail("a file cannot be read to its end");
    fclose(from);
    return file;
}

/* The next word of a line, or NULL. */
static const char *next(char **rest) {
    char *word = *rest + strspn(*rest, " \n");
    *rest = word + strcspn(word, " \n");
    if (**rest != 0)
        *(*rest)++ = 0;
    return *word == 0 ? NULL : word;
}

struct asked words_asked(char *line) {
    struct asked asked;
    char said[200];
    memset(&asked, 0, sizeof asked);
    snprintf(said, sizeof said, "%.*s", (int)strcspn(line, "\n"), line);
    trying("words", said);
    const char *expected = next(&line), *call = next(&line), *word;
    if (call == NULL)
        fail("no request");
    snprintf(asked.expected, sizeof asked.expected, "%s", expected);
    while (asked.call < WORDS_CALLS && strcmp(words_names[asked.call], call) != 0)
        asked.call++;
    if (asked.call == WORDS_CALLS)
        fail("no such call");
    if (asked.call != REFUSAL)
        asked.table = words_file(next(&line));
    if (asked.call == RUN)
        asked.choices = words_file(next(&line));
    while ((word = next(&line)) != NULL && asked.count < NUMBERS)
        asked.numbers[asked.count++] = (uint32_t)strtoul(word, NULL, 10);
    asked.lent_table = asked.table.bytes;
    asked.lent_choices = asked.choices.bytes;
    return asked;
}

void words_done(struct asked *asked) {
    free(asked->table.bytes);
    free(asked->choices.bytes);
}

answer words_called(const struct asked *asked, uint8_t *text, size_t room) {
    const uint8_t *table = asked->lent_table;
    size_t length = asked->table.length, offsets = asked->count == 0 ? 0 : asked->count - 1;
    const uint32_t *n = asked->numbers;
    switch (asked->call) {
    case VERDICT:
        return timed_network_words_verdict(table, length, n[0], text, room);
    case SCHEDULE:
        return timed_network_words_schedule(table, length, text, room);
    case CHART:
        return timed_network_words_chart(table, length, text, room);
    case SPREAD:
        return timed_network_words_spread(table, length, text, room);
    case REASONS:
        return timed_network_words_reasons(table, length, n[0], n[1], text, room);
    case RUN:
        return timed_network_words_run(table, length, asked->lent_choices, asked->choices.length,
                                       n[0], n + 1, offsets, text, room);
    case SIMULATION:
        return timed_network_words_simulation(table, length, n[0], n[1], n[2], n[3], text, room);
    case LISTING:
        return timed_network_words_listing(table, length, text, room);
    default:
        return timed_network_words_refusal((uint8_t)n[0], (uint8_t)n[1], text, room);
    }
}
