/*
 * A table's verdict in words, as the verified program prints it; and, of a
 * refused one, how many bytes the words of the refusal alone have.
 *
 *   verdict TABLE [SPREAD]
 *
 * TABLE is a file with the bytes of a table, SPREAD how many ticks apart its
 * nodes may wake, 0 unless said. The numbers come from timed_network.h, the
 * words from timed_network_words.h: both archives are linked. Exit status 0 for
 * an accepted table, 1 for a refused one, 2 if the words are not one or two, the
 * file cannot be read or the output not be written.
 */
#include <stdio.h>
#include <stdlib.h>

#include "timed_network.h"
#include "timed_network_words.h"

/* One byte more than a table has: a longer file is refused with 2. */
static uint8_t table[TIMED_NETWORK_MAX_TABLE + 1];
static uint8_t text[TIMED_NETWORK_WORDS_VERDICT_ENOUGH];

int main(int count, char **words) {
    FILE *file = count == 2 || count == 3 ? fopen(words[1], "rb") : NULL;
    if (file == NULL) {
        fputs("usage: verdict TABLE [SPREAD]\n", stderr);
        return 2;
    }
    size_t length = fread(table, 1, sizeof table, file);
    int failed = ferror(file);
    fclose(file);
    uint32_t spread = count == 3 ? (uint32_t)strtoul(words[2], NULL, 10) : 0;
    timed_network_verdict_numbers verdict = timed_network_check_spread(table, length, spread);
    timed_network_words_numbers told =
        timed_network_words_verdict(table, length, spread, text, sizeof text);
    failed |= told.number != 0 || fwrite(text, 1, told.size, stdout) != told.size;
    if (verdict.number != TIMED_NETWORK_ACCEPTED) {
        /* Nothing is lent: the answer is 13 and the size. */
        told = timed_network_words_refusal(verdict.number, verdict.component, NULL, 0);
        fprintf(stderr, "%lu bytes of words for the refusal alone\n", (unsigned long)told.size);
    }
    if (failed || fflush(stdout) != 0)
        return 2;
    return verdict.number == TIMED_NETWORK_ACCEPTED ? 0 : 1;
}
