/*
 * Why a component takes the edge that it takes at a tick.
 *
 *   why TABLE COMPONENT TICK
 *
 * TABLE is a file with the bytes of a table. Written to standard output: the
 * number of the passage that the component is in, and a line for each edge from
 * its location, with the reason why it is taken, or not; or the refusal, and the
 * question that is answered with no. Exit status 2 if the words are not three, the
 * file cannot be read or the output not be written, else 0.
 */
#include <errno.h>
#include <stdio.h>
#include <stdlib.h>
#include <string.h>

#include "timed_network.h"
#include "timed_network_text.h"

/* One byte more than a table has: a longer file is refused with 2. */
static uint8_t table[TIMED_NETWORK_MAX_TABLE + 1];
static uint8_t told[TIMED_NETWORK_REASONS_ENOUGH];

/* A number of 32 bits; the greatest for one that is greater, as no table has it. */
static uint32_t number(const char *word) {
    errno = 0;
    unsigned long read = strtoul(word, NULL, 10);
    return errno != 0 || read > UINT32_MAX ? UINT32_MAX : (uint32_t)read;
}

static void print_edge(const uint8_t *edge) {
    printf("edge %u: ", (unsigned)edge[0]);
    switch (edge[1]) {
    case TIMED_NETWORK_TAKEN:
        printf("taken\n");
        break;
    case TIMED_NETWORK_DATA_BOUND:
        printf("data bound %u fails\n", (unsigned)edge[2]);
        break;
    case TIMED_NETWORK_NO_WINDOW:
        printf("no window of at least one tick, or of its budget\n");
        break;
    case TIMED_NETWORK_READY_LATER:
        printf("ready later\n");
        break;
    default:
        printf("ready together, numbered higher\n");
    }
}

static void print_reasons(size_t length, uint32_t component, uint32_t tick) {
    timed_network_reason_numbers answer =
        timed_network_reasons(table, length, component, tick, told, sizeof told);
    if (answer.number != TIMED_NETWORK_ACCEPTED) {
        printf("refused %u %u\n", (unsigned)answer.number, (unsigned)answer.component);
        printf("no: %s\n", timed_network_refusal_text(answer.number));
        return;
    }
    printf("passage %u\n", (unsigned)answer.passage);
    for (uint32_t i = 0; i < answer.size; i++)
        print_edge(told + TIMED_NETWORK_REASON * i);
}

int main(int count, char **words) {
    if (count != 4) {
        fputs("usage: why TABLE COMPONENT TICK\n", stderr);
        return 2;
    }
    FILE *file = fopen(words[1], "rb");
    size_t length = file == NULL ? 0 : fread(table, 1, sizeof table, file);
    if (file == NULL || ferror(file)) {
        fprintf(stderr, "why: %s: %s\n", words[1], strerror(errno));
        return 2;
    }
    fclose(file);
    print_reasons(length, number(words[2]), number(words[3]));
    return ferror(stdout) || fclose(stdout) != 0 ? 2 : 0;
}
