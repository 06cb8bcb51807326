/*
 * A table whose nodes wake apart: its verdict at a spread, its largest spread,
 * and one run with an offset for each node.
 *
 *   apart TABLE CHOICES SPREAD [OFFSETS]
 *
 * TABLE is a file with the bytes of a table, CHOICES one with a byte for each
 * choice of the run; SPREAD is a number of ticks, OFFSETS the ticks at which
 * nodes 0 upward wake, with commas between them. Written to standard output:
 * the verdict at the spread; for a table accepted at it then the largest spread
 * at which it is, how the run ended and what was observed, or why there is no
 * run. Exit status 2 if a file cannot be read, a number is none or the output
 * cannot be written, else 0, also for a refused table.
 */
#include <errno.h>
#include <stdio.h>
#include <stdlib.h>
#include <string.h>

#include "timed_network.h"

/* What the library writes into, enough for every run; and what is read. */
static uint8_t observations[TIMED_NETWORK_OBSERVATIONS_ENOUGH];
static uint8_t table[TIMED_NETWORK_MAX_TABLE + 1];
static uint8_t choices[TIMED_NETWORK_MAX_CHOICES + 1];
static uint32_t offsets[TIMED_NETWORK_MAX_COMPONENTS];

static void fail(const char *what, const char *why) {
    fprintf(stderr, "apart: %s: %s\n", what, why);
    exit(2);
}

/* The bytes of a file, at most so many. */
static size_t read_file(const char *path, uint8_t *bytes, size_t most) {
    FILE *file = fopen(path, "rb");
    if (file == NULL)
        fail(path, strerror(errno));
    size_t length = fread(bytes, 1, most, file);
    if (ferror(file))
        fail(path, strerror(errno));
    fclose(file);
    return length;
}

/* A whole number; one that does not fit 32 bits is the greatest that does. */
static uint32_t number(const char *word, char **end) {
    if (*word < '0' || *word > '9')
        fail(word, "not a number");
    unsigned long found = strtoul(word, end, 10);
    return found > 0xffffffffUL ? 0xffffffffU : (uint32_t)found;
}

/* Numbers with commas between them; those past the last place are left out. */
static size_t numbers(const char *word, uint32_t *list, size_t most) {
    size_t count = 0;
    char *end;
    for (;;) {
        uint32_t next = number(word, &end);
        if (count < most)
            list[count++] = next;
        if (*end == 0)
            return count;
        if (*end != ',')
            fail(word, "not a list of numbers");
        word = end + 1;
    }
}

static void print_refusal(uint8_t refusal, uint8_t component) {
    printf("refused %u %u\n", (unsigned)refusal, (unsigned)component);
}

static void print_run(timed_network_run_numbers ran) {
    if (ran.number != TIMED_NETWORK_ACCEPTED) {
        print_refusal(ran.number, ran.component);
        return;
    }
    printf("run %u %u %u %u\n", (unsigned)ran.end, (unsigned)ran.node, (unsigned)ran.tick,
           (unsigned)ran.used);
    for (size_t i = 0; i < (size_t)ran.size * TIMED_NETWORK_OBSERVATION; i++) {
        printf("%02x", (unsigned)observations[i]);
        if (i % TIMED_NETWORK_OBSERVATION == TIMED_NETWORK_OBSERVATION - 1)
            putchar('\n');
    }
}

int main(int count, char **words) {
    if (count != 4 && count != 5) {
        fputs("usage: apart TABLE CHOICES SPREAD [OFFSETS]\n", stderr);
        return 2;
    }
    size_t length = read_file(words[1], table, sizeof table);
    size_t chosen = read_file(words[2], choices, sizeof choices);
    char *end;
    uint32_t spread = number(words[3], &end);
    if (*end != 0)
        fail(words[3], "not a number");
    size_t nodes =
        count == 5 ? numbers(words[4], offsets, TIMED_NETWORK_MAX_COMPONENTS) : 0;

    timed_network_verdict_numbers verdict = timed_network_check_spread(table, length, spread);
    if (verdict.number != TIMED_NETWORK_ACCEPTED) {
        print_refusal(verdict.number, verdict.component);
    } else {
        puts("accepted");
        timed_network_spread_numbers largest = timed_network_largest_spread(table, length);
        printf("largest spread %u\n", (unsigned)largest.spread);
        print_run(timed_network_run_apart(table, length, choices, chosen, spread, offsets,
                                          nodes, observations, sizeof observations));
    }
    if (ferror(stdout) || fclose(stdout) != 0)
        fail("standard output", strerror(errno));
    return 0;
}
