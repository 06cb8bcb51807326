/*
 * From when to when everything of a table comes again, and a run to a horizon.
 *
 *   period TABLE [HORIZON CHOICES]
 *
 * TABLE is a file with the bytes of a table, CHOICES one with choices. Written to
 * standard output: the two ticks, or `none`; then, where a horizon is said, how the run
 * to it ended, its node, its ticks and its choices, and each observation in
 * hexadecimal; or the refusal of either, and the question that is answered with no.
 * Exit status 2 if there is no table or a word is no horizon, a file cannot be read,
 * there is no memory or the output cannot be written, else 0.
 *
 * How many bytes a run takes is told from the schedule: as many passages as are entered
 * before the horizon, and with a pair from, to those of each further period again.
 */
#include <errno.h>
#include <stdio.h>
#include <stdlib.h>
#include <string.h>

#include "timed_network.h"
#include "timed_network_text.h"

/* One byte more than a table has: a longer file is refused with 2. */
static uint8_t table[TIMED_NETWORK_MAX_TABLE + 1];
static timed_network_passage passages[TIMED_NETWORK_MAX_PASSAGES];

static void print_refusal(unsigned number, unsigned component) {
    printf("refused %u %u\n", number, component);
    printf("no: %s\n", timed_network_refusal_text(number));
}

/* How many passages of the schedule are entered before a tick. */
static uint64_t before(size_t size, uint64_t tick) {
    uint64_t count = 0;
    while (count < size && passages[count].entry < tick)
        count++;
    return count;
}

/* The bytes that the observations to a horizon take. */
static uint64_t needed(size_t length, timed_network_period_numbers pair, uint64_t horizon) {
    size_t size =
        timed_network_passages(table, length, passages, TIMED_NETWORK_MAX_PASSAGES).size;
    uint64_t count = before(size, horizon);
    if (pair.found && horizon > pair.to) {
        uint64_t period = pair.to - pair.from, ticks = horizon - pair.from;
        count = before(size, pair.from + ticks % period) +
                ticks / period * (before(size, pair.to) - before(size, pair.from));
    }
    return count * TIMED_NETWORK_OBSERVATION;
}

static void print_run(timed_network_run_to_numbers ran, const uint8_t *observations) {
    if (ran.number != TIMED_NETWORK_ACCEPTED) {
        print_refusal(ran.number, ran.component);
        return;
    }
    printf("run %u %u %lu %lu\n", (unsigned)ran.end, (unsigned)ran.node,
           (unsigned long)ran.tick, (unsigned long)ran.used);
    for (uint64_t i = 0; i < ran.size * TIMED_NETWORK_OBSERVATION; i++)
        printf("%02x%s", (unsigned)observations[i],
               i % TIMED_NETWORK_OBSERVATION == TIMED_NETWORK_OBSERVATION - 1 ? "\n" : "");
}

/* The bytes of a file behind what is there already, and how many. */
static int read_all(const char *name, uint8_t **bytes, size_t *length) {
    FILE *file = fopen(name, "rb");
    size_t room = 0, got = 1;
    while (file != NULL && got > 0) {
        if (*length == room) {
            room = 2 * room + 4096;
            uint8_t *more = (uint8_t *)realloc(*bytes, room);
            if (more == NULL)
                break;
            *bytes = more;
        }
        got = fread(*bytes + *length, 1, room - *length, file);
        *length += got;
    }
    int failed = file == NULL || got > 0 || ferror(file);
    if (failed)
        fprintf(stderr, "period: %s: %s\n", name, strerror(errno));
    if (file != NULL)
        fclose(file);
    return !failed;
}

/* A horizon; whether the word is one. */
static int read_horizon(const char *word, uint32_t *horizon) {
    char *end;
    errno = 0;
    unsigned long number = strtoul(word, &end, 10);
    *horizon = (uint32_t)number;
    return end != word && *end == 0 && errno == 0 && number <= UINT32_MAX;
}

int main(int count, char **words) {
    uint32_t horizon = 0;
    uint8_t *bytes = NULL, *choices = NULL;
    size_t length = 0, chosen = 0;
    if ((count != 2 && count != 4) || (count == 4 && !read_horizon(words[2], &horizon))) {
        fputs("usage: period TABLE [HORIZON CHOICES]\n", stderr);
        return 2;
    }
    if (!read_all(words[1], &bytes, &length) ||
        (count == 4 && !read_all(words[3], &choices, &chosen)))
        return 2;
    length = length < sizeof table ? length : sizeof table;
    memcpy(table, bytes, length);
    timed_network_period_numbers pair = timed_network_period(table, length);
    if (pair.number != TIMED_NETWORK_ACCEPTED)
        print_refusal(pair.number, pair.component);
    else if (pair.found)
        printf("%lu %lu\n", (unsigned long)pair.from, (unsigned long)pair.to);
    else
        puts("none");
    if (pair.number == TIMED_NETWORK_ACCEPTED && count == 4) {
        size_t lent = (size_t)needed(length, pair, horizon);
        uint8_t *observations = (uint8_t *)malloc(lent + 1);
        if (observations == NULL) {
            fputs("period: no memory for the observations\n", stderr);
            return 2;
        }
        print_run(timed_network_run_to(table, length, choices, chosen, horizon, observations,
                                       lent),
                  observations);
        free(observations);
    }
    free(bytes);
    free(choices);
    return ferror(stdout) || fclose(stdout) != 0 ? 2 : 0;
}
