/*
 * Where components are at ticks.
 *
 *   where TABLE [COMPONENT:TICK]...
 *
 * TABLE is a file with the bytes of a table, the pairs are sorted by tick. Written to
 * standard output: a line for each pair, the number of the passage that the component
 * is in, and whether the tick lies before ready or in the window; then how many
 * passages were read; or the refusal, and the question that is answered with no. Exit
 * status 2 if there is no table or a word is no pair, the file cannot be read or the
 * output not be written, else 0.
 */
#include <errno.h>
#include <stdio.h>
#include <stdlib.h>
#include <string.h>

#include "timed_network.h"
#include "timed_network_text.h"

enum { MOST = 4096 };

/* One byte more than a table has: a longer file is refused with 2. */
static uint8_t table[TIMED_NETWORK_MAX_TABLE + 1];
static uint32_t pairs[2 * MOST];
static uint8_t answers[TIMED_NETWORK_POSITION * MOST];

/* A number of 32 bits; the greatest for one that is greater, as no table has it. */
static uint32_t number(const char *word, char **end) {
    errno = 0;
    unsigned long read = strtoul(word, end, 10);
    return errno != 0 || read > UINT32_MAX ? UINT32_MAX : (uint32_t)read;
}

/* Whether a word is a pair, which is put down. */
static int read_pair(const char *word, uint32_t *pair) {
    char *end;
    pair[0] = number(word, &end);
    if (end == word || *end != ':')
        return 0;
    const char *tick = end + 1;
    pair[1] = number(tick, &end);
    return end != tick && *end == 0;
}

static void print_positions(size_t length, size_t count) {
    timed_network_position_numbers answer =
        timed_network_positions(table, length, pairs, 2 * count, answers, sizeof answers);
    if (answer.number != TIMED_NETWORK_ACCEPTED) {
        printf("refused %u %u\n", (unsigned)answer.number, (unsigned)answer.component);
        printf("no: %s\n", timed_network_refusal_text(answer.number));
        return;
    }
    for (size_t i = 0; i < count; i++) {
        const uint8_t *at = answers + TIMED_NETWORK_POSITION * i;
        unsigned passage = 256u * at[0] + at[1];
        printf("passage %u, %s\n", passage, at[2] ? "in the window" : "before ready");
    }
    printf("read %lu\n", (unsigned long)answer.read);
}

int main(int count, char **words) {
    if (count < 2 || count > 2 + MOST) {
        fputs("usage: where TABLE [COMPONENT:TICK]...\n", stderr);
        return 2;
    }
    for (int i = 2; i < count; i++)
        if (!read_pair(words[i], pairs + 2 * (i - 2))) {
            fprintf(stderr, "where: %s: not a pair\n", words[i]);
            return 2;
        }
    FILE *file = fopen(words[1], "rb");
    size_t length = file == NULL ? 0 : fread(table, 1, sizeof table, file);
    if (file == NULL || ferror(file)) {
        fprintf(stderr, "where: %s: %s\n", words[1], strerror(errno));
        return 2;
    }
    fclose(file);
    print_positions(length, (size_t)count - 2);
    return ferror(stdout) || fclose(stdout) != 0 ? 2 : 0;
}
