/*
 * The network of a table as a text for UPPAAL.
 *
 *   uppaal TABLE
 *
 * TABLE is a file with the bytes of a table. Written to standard output: the text, for
 * a file whose name ends in .xta; or, to standard error, the refusal and the question
 * that is answered with no. Exit status 1 if there is no text, 2 if the word is not one,
 * the file cannot be read or the output not be written, else 0.
 */
#include <errno.h>
#include <stdio.h>
#include <string.h>

#include "timed_network.h"
#include "timed_network_text.h"

/* One byte more than a table has: a longer file is refused with 2. */
static uint8_t table[TIMED_NETWORK_MAX_TABLE + 1];
static uint8_t text[TIMED_NETWORK_UPPAAL_ENOUGH];

int main(int count, char **words) {
    if (count != 2) {
        fputs("usage: uppaal TABLE\n", stderr);
        return 2;
    }
    FILE *file = fopen(words[1], "rb");
    size_t length = file == NULL ? 0 : fread(table, 1, sizeof table, file);
    if (file == NULL || ferror(file)) {
        fprintf(stderr, "uppaal: %s: %s\n", words[1], strerror(errno));
        return 2;
    }
    fclose(file);
    timed_network_call_numbers answer =
        timed_network_uppaal(table, length, text, sizeof text);
    if (answer.number != TIMED_NETWORK_ACCEPTED) {
        fprintf(stderr, "refused %u %u\n", (unsigned)answer.number, (unsigned)answer.component);
        fprintf(stderr, "no: %s\n", timed_network_refusal_text(answer.number));
        return 1;
    }
    size_t written = fwrite(text, 1, answer.size, stdout);
    return written != answer.size || fclose(stdout) != 0 ? 2 : 0;
}
