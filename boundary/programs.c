/*
 * Feeds stored, damaged and random input to the programs of target/bin.
 *
 *   programs ROOT COUNT SEED
 *
 * Each program gets COUNT inputs, the stored ones first. It must end by
 * itself within ten seconds, with status 0 and without a signal, and must
 * write something: to standard output or, for a refusal of translate_table,
 * to standard error. For stored cases the schedule and the program must be
 * the stored ones. Ends at the first fault, with status 1.
 */
#define _GNU_SOURCE
#include <fcntl.h>
#include <stdio.h>
#include <stdlib.h>
#include <string.h>
#include <sys/mman.h>
#include <sys/wait.h>
#include <unistd.h>

#include "inputs.h"

enum program {
    SCHEDULE_PRINTER,
    CHART_PRINTER,
    VERDICT_PRINTER,
    TRANSLATE_TABLE,
    PROGRAM_LISTING,
    TRIAL_RUN,
    PROGRAMS
};

static const char *const names[PROGRAMS] = {"schedule_printer", "chart_printer",
                                            "verdict_printer",  "translate_table",
                                            "program_listing",  "trial_run"};

static char *output;
static size_t output_length;

/* A file without a name that has these bytes. */
static int file_of(struct bytes bytes) {
    int file = memfd_create("bytes", 0);
    size_t written = 0;
    while (file >= 0 && written < bytes.length) {
        ssize_t more = write(file, bytes.at + written, bytes.length - written);
        if (more <= 0)
            fail("a file cannot be written");
        written += (size_t)more;
    }
    if (file < 0 || lseek(file, 0, SEEK_SET) != 0)
        fail("no file");
    return file;
}

static size_t length_of(int file) {
    off_t length = lseek(file, 0, SEEK_END);
    if (length < 0)
        fail("no file");
    return (size_t)length;
}

/* Runs a program to its end; its output is kept. */
static void run_program(const char *path, enum program which, struct bytes input,
                        struct bytes choices) {
    struct bytes none = {NULL, 0};
    int in = file_of(input), chosen = file_of(choices);
    int out = file_of(none), errors = file_of(none);
    char table_path[40], choices_path[40];
    snprintf(table_path, sizeof table_path, "/dev/fd/%d", in);
    snprintf(choices_path, sizeof choices_path, "/dev/fd/%d", chosen);
    pid_t child = fork();
    if (child < 0)
        fail("no process");
    if (child == 0) {
        if (dup2(in, 0) < 0 || dup2(out, 1) < 0 || dup2(errors, 2) < 0)
            _exit(98);
        alarm(10);
        if (which == TRIAL_RUN)
            execl(path, path, table_path, choices_path, (char *)NULL);
        else
            execl(path, path, (char *)NULL);
        _exit(99);
    }
    int status;
    if (waitpid(child, &status, 0) != child)
        fail("no status");
    if (WIFSIGNALED(status))
        fail("ended by a signal");
    if (!WIFEXITED(status) || WEXITSTATUS(status) != 0)
        fail("another exit status than 0");
    output_length = length_of(out);
    output = realloc(output, output_length + 1);
    if (output == NULL || pread(out, output, output_length, 0) != (ssize_t)output_length)
        fail("the output cannot be read");
    output[output_length] = 0;
    if (output_length + length_of(errors) == 0 && which != PROGRAM_LISTING)
        fail("nothing is written");
    close(in);
    close(chosen);
    close(out);
    close(errors);
}

/* Holds the output for a stored case to the stored answer. */
static void hold(enum program which, const struct stored *stored) {
    size_t length = strlen(stored->answer);
    if (strncmp(stored->answer, "refused", 7) == 0)
        return;
    if (which == SCHEDULE_PRINTER && stored->request == SCHEDULE) {
        int same = output_length == length + 1;
        for (size_t i = 0; same && i < length; i++) {
            char expected = stored->answer[i];
            same = output[i] == (expected == '|' ? '\n' : expected);
        }
        if (!same)
            fail("another schedule than the stored one");
    }
    if (which == TRANSLATE_TABLE && stored->request == TRANSLATE) {
        int same = 2 * output_length == length;
        for (size_t i = 0; same && i < output_length; i++) {
            char digits[3];
            snprintf(digits, sizeof digits, "%02x", (unsigned)(uint8_t)output[i]);
            same = memcmp(digits, stored->answer + 2 * i, 2) == 0;
        }
        if (!same)
            fail("another program than the stored one");
    }
}

/* Input number `i`: the stored ones, then random ones. */
static void one(const char *path, enum program which, size_t i) {
    char name[60];
    snprintf(name, sizeof name, "input %zu", i);
    trying(names[which], name);
    const struct stored *stored = i < case_count ? &cases[i] : NULL;
    struct bytes table = stored != NULL ? stored->table : random_table();
    struct bytes choices = {NULL, 0};
    if (stored != NULL && stored->request == RUN)
        choices = stored->choices;
    else if (which == TRIAL_RUN)
        choices = of(choices_bytes, random_choices(table, 0, random_below(300)));
    if (which == PROGRAM_LISTING && (stored == NULL || stored->request != PART)) {
        timed_network_call_numbers answer =
            timed_network_translate(table.at, table.length, program, MAX_PROGRAM);
        table = stored != NULL ? of(program, answer.size) : random_program(answer.size);
    }
    run_program(path, which, table, choices);
    if (stored != NULL)
        hold(which, stored);
}

/* Inputs of a size that no table or program has. */
static void large(const char *path, enum program which) {
    static const size_t lengths[] = {8193, 65535, 65536, 65537, 1000001};
    static uint8_t bytes[1000001];
    for (size_t i = 0; i < sizeof lengths / sizeof lengths[0]; i++) {
        trying(names[which], "a large input");
        for (size_t at = 0; at < lengths[i]; at++)
            bytes[at] = (uint8_t)(random_number() >> 40);
        bytes[0] = 1;
        run_program(path, which, of(bytes, lengths[i]), of(bytes, lengths[i]));
        run_program(path, which, cases[0].table, of(bytes, lengths[i]));
    }
}

int main(int count, char **words) {
    if (count != 4) {
        fputs("usage: programs ROOT COUNT SEED\n", stderr);
        return 2;
    }
    random_start(strtoull(words[3], NULL, 10));
    stored_read(words[1]);
    size_t inputs = strtoul(words[2], NULL, 10);
    for (int which = 0; which < PROGRAMS; which++) {
        char path[1024];
        snprintf(path, sizeof path, "%s/target/bin/%s", words[1], names[which]);
        for (size_t i = 0; i < inputs; i++)
            one(path, (enum program)which, i);
        large(path, (enum program)which);
        printf("programs: %s: %zu inputs and 10 large ones, status 0 each time\n",
               names[which], inputs);
        fflush(stdout);
    }
    return 0;
}
