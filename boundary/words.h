/*
 * Requests of the calls of timed_network_words.h, a line each, of words:
 *
 *   EXPECTED CALL TABLE [CHOICES] [NUMBER..]
 *
 * EXPECTED is the file with the text that the program prints, or -; TABLE and
 * CHOICES are files: a refusal has no table, a listing has a program instead, a
 * run alone has choices.
 */
#ifndef WORDS_H
#define WORDS_H

#include "../include/timed_network_words.h"

enum { FILE_MOST = 1 << 20, NUMBERS = 16, WORDS_CALLS = 9 };

typedef timed_network_words_numbers answer;

struct file {
    uint8_t *bytes;
    size_t length;
};

/* A request; its files are read, and lent from where the pointers lead. */
struct asked {
    char expected[200];
    int call;
    struct file table, choices;
    const uint8_t *lent_table, *lent_choices;
    uint32_t numbers[NUMBERS];
    size_t count;
};

/* The names of the calls, behind their prefix. */
extern const char *const words_names[WORDS_CALLS];

/* The bytes of a file. */
struct file words_file(const char *path);

/* The request of a line, which is cut into its words. */
struct asked words_asked(char *line);

/* Gives the bytes of its files back. */
void words_done(struct asked *asked);

/* The call, with this memory for its text. */
answer words_called(const struct asked *asked, uint8_t *text, size_t room);

#endif
