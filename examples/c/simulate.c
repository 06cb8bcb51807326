/*
 * How many runs of a table end late where work takes so many ticks.
 *
 *   simulate TABLE LO HI RUNS [SEED]
 *
 * TABLE is a file with the bytes of a table; work takes LO to HI ticks, drawn anew
 * each time, in so many RUNS; SEED is where the generator starts, else its fixed
 * seed. Written to standard output: how many runs ended late, for each node how many
 * of them with its number, and the generator afterwards, from which a further call
 * goes on; or the refusal, and the question that is answered with no. Exit status 2
 * if the words are not four or five, the file cannot be read or the output not be
 * written, else 0.
 */
#include <errno.h>
#include <stdio.h>
#include <stdlib.h>
#include <string.h>

#include "timed_network.h"
#include "timed_network_text.h"

/* One byte more than a table has: a longer file is refused with 2. */
static uint8_t table[TIMED_NETWORK_MAX_TABLE + 1];

/* A number of 32 bits; the greatest for one that is greater. */
static uint32_t number(const char *word) {
    errno = 0;
    unsigned long read = strtoul(word, NULL, 10);
    return errno != 0 || read > UINT32_MAX ? UINT32_MAX : (uint32_t)read;
}

static void print_counts(timed_network_simulation_numbers answer) {
    if (answer.number != TIMED_NETWORK_ACCEPTED) {
        printf("refused %u %u\n", (unsigned)answer.number, (unsigned)answer.component);
        printf("no: %s\n", timed_network_refusal_text(answer.number));
        return;
    }
    printf("late %lu\n", (unsigned long)answer.late);
    for (unsigned node = 0; node < table[3]; node++)
        printf("node %u: %lu\n", node, (unsigned long)answer.nodes[node]);
    printf("generator %lu\n", (unsigned long)answer.state);
}

int main(int count, char **words) {
    if (count != 5 && count != 6) {
        fputs("usage: simulate TABLE LO HI RUNS [SEED]\n", stderr);
        return 2;
    }
    FILE *file = fopen(words[1], "rb");
    size_t length = file == NULL ? 0 : fread(table, 1, sizeof table, file);
    if (file == NULL || ferror(file)) {
        fprintf(stderr, "simulate: %s: %s\n", words[1], strerror(errno));
        return 2;
    }
    fclose(file);
    uint32_t lo = number(words[2]), hi = number(words[3]), runs = number(words[4]);
    print_counts(count == 5
                     ? timed_network_simulate(table, length, lo, hi, runs)
                     : timed_network_simulate_from(table, length, lo, hi, runs, number(words[5])));
    return ferror(stdout) || fclose(stdout) != 0 ? 2 : 0;
}
