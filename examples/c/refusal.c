/*
 * Why a table is refused, and where.
 *
 *   refusal TABLE
 *
 * TABLE is a file with the bytes of a table. Written to standard output: the
 * verdict; for a refused table then the question that is answered with no;
 * after 4 to 6 the part of the table at which the check stopped, the byte, and
 * what is wrong there; after 7 to 9 the opening that is refused, and why. Exit
 * status 2 if the file cannot be read or the output not be written, else 0,
 * also for a refused table.
 */
#include <errno.h>
#include <stdio.h>
#include <string.h>

#include "timed_network.h"
#include "timed_network_text.h"

/* One byte more than a table has: a longer file is refused with 2. */
static uint8_t table[TIMED_NETWORK_MAX_TABLE + 1];

/* What the parts are called, by their numbers. */
static const char *const part_names[] = {
    "",           "length", "first 7 bytes", "location", "first 7 bytes", "clock bound",
    "data bound", "update", "channel",       "pair",     "end",           "table's end",
    "budget"};

static void print_fault(const timed_network_place_numbers *place) {
    unsigned value = (unsigned)place->value, least = (unsigned)place->least;
    if (place->number == TIMED_NETWORK_REFUSED_CHANNEL_TWICE)
        printf("%u stands in an earlier pair\n", value);
    else if (place->width == 0 && value < least)
        printf("%u bytes are there, and %u are needed\n", value, least);
    else if (place->width == 0)
        printf("%u bytes are left over\n", value);
    else if (place->least == place->limit)
        printf("%u, and none is allowed\n", value);
    else
        printf("%u, and %u to %u are allowed%s\n", value, least, (unsigned)place->limit - 1,
               place->unbounded ? ", or 65535" : "");
}

/* The part: its component, its edge, its name and which one it is; then the byte. */
static void print_place(const timed_network_place_numbers *place) {
    printf("component %u, ", (unsigned)place->component);
    if (place->edge != TIMED_NETWORK_NONE)
        printf("edge %u, ", (unsigned)place->edge);
    printf("%s", part_names[place->part]);
    if (place->index != TIMED_NETWORK_NONE)
        printf(" %u", (unsigned)place->index);
    printf(", byte %u: ", (unsigned)(place->start + place->offset));
    print_fault(place);
}

static void print_opening(const timed_network_opening_numbers *opening) {
    printf("component %u enters location %u at tick %u, passage %u\n",
           (unsigned)opening->component, (unsigned)opening->entry.location,
           (unsigned)opening->tick, (unsigned)opening->passage);
    if (opening->number == TIMED_NETWORK_REFUSED_NO_EDGE)
        printf("edges that leave it: %u; a data bound fails: %u; "
               "the window is too short: %u\n",
               (unsigned)opening->leaving, (unsigned)opening->blocked,
               (unsigned)opening->windowless);
    if (opening->number == TIMED_NETWORK_REFUSED_UPDATE)
        printf("edge %u is taken, and its update %u leaves the range\n",
               (unsigned)opening->edge, (unsigned)opening->update);
}

static void print_verdict(size_t length) {
    timed_network_verdict_numbers verdict = timed_network_check(table, length);
    if (verdict.number == TIMED_NETWORK_ACCEPTED) {
        puts("accepted");
        return;
    }
    printf("refused %u %u\n", (unsigned)verdict.number, (unsigned)verdict.component);
    puts(timed_network_refusal_text(verdict.number));
    timed_network_place_numbers place = timed_network_refusal_place(table, length);
    if (place.number != 0)
        print_place(&place);
    timed_network_opening_numbers opening = timed_network_refused_opening(table, length);
    if (opening.number != 0)
        print_opening(&opening);
}

int main(int count, char **words) {
    if (count != 2) {
        fputs("usage: refusal TABLE\n", stderr);
        return 2;
    }
    FILE *file = fopen(words[1], "rb");
    size_t length = file == NULL ? 0 : fread(table, 1, sizeof table, file);
    if (file == NULL || ferror(file)) {
        fprintf(stderr, "refusal: %s: %s\n", words[1], strerror(errno));
        return 2;
    }
    fclose(file);
    print_verdict(length);
    return ferror(stdout) || fclose(stdout) != 0 ? 2 : 0;
}
