/*
 * A table's verdict, schedule, chart and program, and one run of it.
 *
 *   network TABLE CHOICES
 *
 * TABLE is a file with the bytes of a table, CHOICES one with a byte for each
 * choice of the run. Written to standard output: the verdict; for an accepted
 * table then the schedule, its chart, the program in hexadecimal, the part of
 * each node, how the run ended and what was observed. Exit status 2 if a file
 * cannot be read or the output not be written, else 0, also for a refused table.
 */
#include <errno.h>
#include <stdio.h>
#include <stdlib.h>
#include <string.h>

#include "timed_network.h"

enum {
    FIELDS = 7,
    MAX_PASSAGES = 1024,
    CHART_ROW = 69,
    MAX_COMPONENTS = 8,
    MAX_PROGRAM = 24576,
    OBSERVATION = TIMED_NETWORK_OBSERVATION,
    NO_MESSAGE = 255
};

/* What the library writes into. These sizes are always enough. */
static uint32_t list[FIELDS * MAX_PASSAGES];
static uint8_t chart[CHART_ROW * MAX_COMPONENTS];
static uint8_t program[MAX_PROGRAM];
static uint8_t observations[OBSERVATION * MAX_PASSAGES];

struct bytes {
    uint8_t *at;
    size_t length;
};

static void fail(const char *path) {
    fprintf(stderr, "network: %s: %s\n", path, strerror(errno));
    exit(2);
}

static struct bytes read_file(const char *path) {
    struct bytes bytes = {NULL, 0};
    size_t room = 0;
    FILE *file = fopen(path, "rb");
    if (file == NULL)
        fail(path);
    for (;;) {
        if (bytes.length == room) {
            room = 2 * room + 4096;
            bytes.at = (uint8_t *)realloc(bytes.at, room); /* the cast is for C++ */
            if (bytes.at == NULL)
                fail(path);
        }
        size_t more = fread(bytes.at + bytes.length, 1, room - bytes.length, file);
        bytes.length += more;
        if (more == 0)
            break;
    }
    if (ferror(file))
        fail(path);
    fclose(file);
    return bytes;
}

static void print_hex(const uint8_t *at, size_t length) {
    for (size_t i = 0; i < length; i++)
        printf("%02x", (unsigned)at[i]);
    putchar('\n');
}

static void print_refusal(uint8_t number, uint8_t component) {
    printf("refused %u %u\n", (unsigned)number, (unsigned)component);
}

static void print_schedule(struct bytes table) {
    timed_network_call_numbers answer =
        timed_network_schedule(table.at, table.length, list, FIELDS * MAX_PASSAGES);
    if (answer.number != 0) {
        print_refusal(answer.number, answer.component);
        return;
    }
    puts("c e l entry ready end msg");
    for (uint32_t i = 0; i < answer.size; i++) {
        const uint32_t *row = list + FIELDS * i;
        for (int field = 0; field < FIELDS - 1; field++)
            printf("%u ", (unsigned)row[field]);
        if (row[FIELDS - 1] == NO_MESSAGE)
            puts("-");
        else
            printf("%u\n", (unsigned)row[FIELDS - 1]);
    }
}

static void print_chart(struct bytes table) {
    timed_network_call_numbers answer =
        timed_network_timing_chart(table.at, table.length, chart, CHART_ROW * MAX_COMPONENTS);
    if (answer.number != 0) {
        print_refusal(answer.number, answer.component);
        return;
    }
    fwrite(chart, 1, answer.size, stdout);
}

static void print_program(struct bytes table) {
    timed_network_call_numbers answer =
        timed_network_translate(table.at, table.length, program, MAX_PROGRAM);
    if (answer.number != 0) {
        print_refusal(answer.number, answer.component);
        return;
    }
    printf("program %u\n", (unsigned)answer.size);
    print_hex(program, answer.size);
    for (unsigned node = 0; node < 256; node++) {
        timed_network_part_numbers part =
            timed_network_part(program, answer.size, (uint8_t)node);
        if (part.length == 0)
            break;
        printf("part %u ", node);
        print_hex(program + part.start, part.length);
    }
}

static void print_run(struct bytes table, struct bytes choices) {
    timed_network_run_numbers answer =
        timed_network_run(table.at, table.length, choices.at, choices.length, observations,
                          OBSERVATION * MAX_PASSAGES);
    if (answer.number != 0) {
        print_refusal(answer.number, answer.component);
        return;
    }
    printf("run %u %u %u %u\n", (unsigned)answer.end, (unsigned)answer.node,
           (unsigned)answer.tick, (unsigned)answer.used);
    for (uint32_t i = 0; i < answer.size; i++)
        print_hex(observations + OBSERVATION * i, OBSERVATION);
}

int main(int count, char **words) {
    if (count != 3) {
        fputs("usage: network TABLE CHOICES\n", stderr);
        return 2;
    }
    struct bytes table = read_file(words[1]);
    struct bytes choices = read_file(words[2]);
    timed_network_verdict_numbers verdict = timed_network_check(table.at, table.length);
    if (verdict.number != 0) {
        print_refusal(verdict.number, verdict.component);
    } else {
        puts("accepted");
        print_schedule(table);
        print_chart(table);
        print_program(table);
        print_run(table, choices);
    }
    free(table.at);
    free(choices.at);
    if (ferror(stdout) || fclose(stdout) != 0)
        fail("standard output");
    return 0;
}
