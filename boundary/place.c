#define _DEFAULT_SOURCE
#include "place.h"

#include <signal.h>
#include <stdio.h>
#include <stdlib.h>
#include <string.h>
#include <sys/mman.h>
#include <unistd.h>

static char current[200];

void trying(const char *call, const char *name) {
    snprintf(current, sizeof current, "%s, %s", call, name);
}

void fail(const char *what) {
    printf("boundary: %s: %s\n", current, what);
    fflush(stdout);
    _exit(1);
}

static void on_fault(int number) {
    const char *what = number == SIGSEGV || number == SIGBUS
                           ? ": an access outside the lent memory\n"
                           : ": a signal\n";
    ssize_t ignored = write(1, current, strlen(current));
    ignored = write(1, what, strlen(what));
    (void)ignored;
    _exit(1);
}

void catch_faults(void) {
    static uint8_t stack[65536];
    stack_t other = {.ss_sp = stack, .ss_size = sizeof stack};
    struct sigaction action;
    memset(&action, 0, sizeof action);
    action.sa_handler = on_fault;
    action.sa_flags = SA_ONSTACK;
    const int all[] = {SIGSEGV, SIGBUS, SIGILL, SIGFPE};
    if (sigaltstack(&other, NULL) != 0)
        fail("no second stack");
    for (size_t i = 0; i < sizeof all / sizeof all[0]; i++)
        if (sigaction(all[i], &action, NULL) != 0)
            fail("no handler");
}

static uint64_t state;

void random_start(uint64_t seed) {
    state = seed == 0 ? 88172645463325252u : seed;
}

uint64_t random_number(void) {
    state ^= state >> 12;
    state ^= state << 25;
    state ^= state >> 27;
    return state * 0x2545F4914F6CDD1Du;
}

size_t random_below(size_t count) {
    return (size_t)((random_number() >> 11) % count);
}

static void protect(uint8_t *at, size_t size, int access) {
    if (mprotect(at, size, access) != 0)
        fail("mprotect");
}

struct place place_new(size_t capacity) {
    size_t page = (size_t)sysconf(_SC_PAGESIZE);
    struct place place;
    memset(&place, 0, sizeof place);
    place.size = (capacity + page - 1) / page * page;
    uint8_t *all = mmap(NULL, place.size + 2 * page, PROT_NONE,
                        MAP_PRIVATE | MAP_ANONYMOUS, -1, 0);
    place.pattern = malloc(place.size);
    if (all == MAP_FAILED || place.pattern == NULL)
        fail("no memory");
    place.pages = all + page;
    protect(place.pages, place.size, PROT_READ | PROT_WRITE);
    for (size_t i = 0; i < place.size; i++)
        place.pattern[i] = (uint8_t)(random_number() >> 33);
    memcpy(place.pages, place.pattern, place.size);
    return place;
}

/* Where `length` bytes stand in this place. */
static uint8_t *lend(struct place *place, enum where where, size_t length) {
    if (length > place->size)
        fail("the place is too small");
    place->where = where;
    place->length = length;
    place->heap = NULL;
    if (where == AT_END) {
        place->lent = place->pages + place->size - length;
    } else if (where == AT_START) {
        place->lent = length == 0 ? NULL : place->pages;
    } else {
        place->heap = malloc(length);
        if (place->heap == NULL && length > 0)
            fail("no memory");
        place->lent = place->heap;
    }
    return place->lent;
}

const uint8_t *place_input(struct place *place, enum where where,
                           const uint8_t *bytes, size_t length) {
    uint8_t *lent = lend(place, where, length);
    if (length > 0) {
        if (where != ON_HEAP)
            protect(place->pages, place->size, PROT_READ | PROT_WRITE);
        memcpy(lent, bytes, length);
        if (where != ON_HEAP)
            protect(place->pages, place->size, PROT_READ);
    }
    return lent;
}

void place_input_done(struct place *place, const uint8_t *bytes) {
    if (place->length > 0 && memcmp(place->lent, bytes, place->length) != 0)
        fail("bytes lent to be read have changed");
    free(place->heap);
    place->heap = NULL;
}

uint8_t *place_output(struct place *place, enum where where, size_t length) {
    uint8_t *lent = lend(place, where, length);
    if (where == ON_HEAP && length > 0)
        memcpy(lent, place->pattern, length);
    return lent;
}

void place_output_done(struct place *place, size_t written, uint8_t *result) {
    uint8_t *lent = place->lent;
    if (written > place->length)
        fail("more is said to be written than was lent");
    if (written > 0)
        memcpy(result, lent, written);
    if (place->where == ON_HEAP) {
        size_t rest = place->length - written;
        if (rest > 0 && memcmp(lent + written, place->pattern + written, rest) != 0)
            fail("a byte past the result has changed");
        free(place->heap);
        place->heap = NULL;
        return;
    }
    if (written > 0)
        memcpy(lent, place->pattern + (lent - place->pages), written);
    if (memcmp(place->pages, place->pattern, place->size) != 0)
        fail("a byte beside the result has changed");
}
