/*
 * A site: networks put in and taken out under one airtime limit.
 *
 *   site LIMIT [put:PLACE:TABLE | take:PLACE]...
 *
 * LIMIT is how many send ticks are allowed in each horizon, PLACE 0 to 3, TABLE a file
 * with the bytes of a table. Written to standard output, a line a call: how much is in
 * use after it and how much is left; or the refusal, and the question that is answered
 * with no. Exit status 2 if a word is not understood, a file cannot be read or the
 * output not be written, else 0.
 */
#include <errno.h>
#include <stdio.h>
#include <stdlib.h>
#include <string.h>

#include "timed_network.h"
#include "timed_network_text.h"

/* One byte more than a table has: a longer file is refused with 2. */
static uint8_t table[TIMED_NETWORK_MAX_TABLE + 1];

/* The number in front of a word, and what stands behind it. */
static unsigned long number(const char *word, unsigned long most, char **behind) {
    errno = 0;
    unsigned long read = strtoul(word, behind, 10);
    if (*behind == word || errno != 0 || read > most) {
        fprintf(stderr, "site: %s: no number from 0 to %lu\n", word, most);
        exit(2);
    }
    return read;
}

static void put_in(timed_network_networks *site, const char *file, uint8_t place) {
    FILE *opened = fopen(file, "rb");
    size_t length = opened == NULL ? 0 : fread(table, 1, sizeof table, opened);
    if (opened == NULL || ferror(opened)) {
        fprintf(stderr, "site: %s: %s\n", file, strerror(errno));
        exit(2);
    }
    fclose(opened);
    timed_network_site_put(site, table, length, place);
}

/* A call of the site, as a word. */
static void carry_out(timed_network_networks *site, const char *word) {
    char *behind;
    if (strncmp(word, "put:", 4) == 0) {
        uint8_t place = (uint8_t)number(word + 4, 255, &behind);
        put_in(site, behind + (*behind == ':'), place);
    } else if (strncmp(word, "take:", 5) == 0) {
        timed_network_site_take(site, (uint8_t)number(word + 5, 255, &behind));
    } else {
        fprintf(stderr, "site: %s: neither put:PLACE:TABLE nor take:PLACE\n", word);
        exit(2);
    }
}

static void tell(const timed_network_networks *site) {
    if (site->number == TIMED_NETWORK_ACCEPTED) {
        printf("in use %lu, left %lu\n", (unsigned long)site->in_use,
               (unsigned long)(site->limit - site->in_use));
        return;
    }
    printf("refused %u %u\n", (unsigned)site->number, (unsigned)site->component);
    printf("no: %s\n", timed_network_refusal_text(site->number));
}

int main(int count, char **words) {
    char *behind;
    if (count < 2) {
        fputs("usage: site LIMIT [put:PLACE:TABLE | take:PLACE]...\n", stderr);
        return 2;
    }
    timed_network_networks site =
        timed_network_site((uint32_t)number(words[1], 4294967295ul, &behind));
    for (int i = 2; i < count; i++) {
        carry_out(&site, words[i]);
        tell(&site);
    }
    return ferror(stdout) || fclose(stdout) != 0 ? 2 : 0;
}
