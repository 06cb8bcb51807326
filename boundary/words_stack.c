/*
 * How much stack each call of timed_network_words.h takes, as stack.c measures
 * it, over the requests of a file (words.h).
 *
 *   words_stack REQUESTS              prints a line a call: its name, the bytes
 *   words_stack REQUESTS BYTES...     the same; then makes every call again with
 *                                     as little stack as said, a number for each
 *                                     call. Status 1 if one takes more.
 */
#define _DEFAULT_SOURCE
#include <stdio.h>
#include <stdlib.h>
#include <string.h>
#include <sys/mman.h>

#include "stack.h"
#include "words.h"

enum { WIDE = 512 * 1024, REQUESTS = 10000, TEXT = 1 << 18 };

static struct asked all[REQUESTS];
static size_t count;
static uint8_t *wide;
static size_t deepest[WORDS_CALLS];
static int chosen;
static answer found;
static uint8_t text[TEXT];

/* Apart from the others, whose frame would else hold the answer. */
__attribute__((noinline)) static void call(const struct asked *asked) {
    found = words_called(asked, text, TEXT);
}

/* Fills the stack below the stack pointer, calls, and looks how far it went. */
static size_t depth(const struct asked *asked) {
    uint8_t *here;
    __asm__ volatile("mov %%rsp, %0" : "=r"(here));
    stack_fill(wide, here);
    call(asked);
    return stack_taken(wide, here);
}

static void *measured(void *nothing) {
    call(&all[0]); /* memcpy and memset are found now, not below */
    for (size_t i = 0; i < count; i++) {
        size_t taken = depth(&all[i]);
        if (taken > deepest[all[i].call])
            deepest[all[i].call] = taken;
    }
    return nothing;
}

static void *narrow(void *nothing) {
    for (size_t i = 0; i < count; i++)
        if (all[i].call == chosen)
            call(&all[i]);
    return nothing;
}

/* Reads the requests. */
static void read_requests(const char *path) {
    char line[1000];
    FILE *from = fopen(path, "r");
    if (from == NULL)
        fail("no requests");
    while (count < REQUESTS && fgets(line, sizeof line, from) != NULL)
        all[count++] = words_asked(line);
    fclose(from);
    if (count == 0)
        fail("no request");
}

int main(int words, char **word) {
    if (words != 2 && words != 2 + WORDS_CALLS) {
        fputs("usage: words_stack REQUESTS [BYTES...]\n", stderr);
        return 2;
    }
    trying("words_stack", "measured");
    read_requests(word[1]);
    wide = mmap(NULL, WIDE, PROT_READ | PROT_WRITE, MAP_PRIVATE | MAP_ANONYMOUS, -1, 0);
    if (wide == MAP_FAILED)
        fail("no memory");
    in_thread(measured, wide, WIDE);
    int status = 0;
    for (int i = 0; i < WORDS_CALLS; i++) {
        printf("words_%s %zu\n", words_names[i], deepest[i]);
        if (deepest[i] == 0 || (words > 2 && deepest[i] > strtoul(word[2 + i], NULL, 10)))
            status = 1;
    }
    fflush(stdout);
    for (chosen = 0; status == 0 && words > 2 && chosen < WORDS_CALLS; chosen++) {
        trying("as little stack as said", words_names[chosen]);
        in_thread(narrow, NULL, strtoul(word[2 + chosen], NULL, 10) + BESIDE);
    }
    return status;
}
