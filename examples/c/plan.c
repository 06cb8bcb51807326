/*
 * The table of a slot plan, in hexadecimal.
 *
 *   plan PROBES SLOT GUARD PERIOD
 *
 * Written to standard output: the bytes of the table, or `refused`, number,
 * component. Exit status 2 if a word is not a number of 32 bits or the output
 * cannot be written, else 0, also for a refusal.
 */
#include <errno.h>
#include <stdio.h>
#include <stdlib.h>

#include "timed_network.h"

/* This size is always enough. */
static uint8_t table[414];

static uint32_t number(const char *word) {
    char *end;
    errno = 0;
    unsigned long value = strtoul(word, &end, 10);
    if (errno != 0 || *word < '0' || *word > '9' || *end != 0 || value > UINT32_MAX) {
        fprintf(stderr, "plan: %s is not a number of 32 bits\n", word);
        exit(2);
    }
    return (uint32_t)value;
}

int main(int count, char **words) {
    if (count != 5) {
        fputs("usage: plan PROBES SLOT GUARD PERIOD\n", stderr);
        return 2;
    }
    timed_network_call_numbers answer =
        timed_network_plan(number(words[1]), number(words[2]), number(words[3]),
                           number(words[4]), table, sizeof table);
    if (answer.number != 0)
        printf("refused %u %u", (unsigned)answer.number, (unsigned)answer.component);
    for (uint32_t i = 0; i < answer.size; i++)
        printf("%02x", (unsigned)table[i]);
    putchar('\n');
    if (ferror(stdout) || fclose(stdout) != 0)
        return 2;
    return 0;
}
