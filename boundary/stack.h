/* How the stack of a call is measured; stack.c says how. */
#ifndef STACK_H
#define STACK_H

#include <pthread.h>
#include <stddef.h>
#include <stdint.h>

#include "place.h"

/*
 * The pattern, and what a thread needs beside the stack of a call: for itself,
 * and for the functions here.
 */
enum { PATTERN = 0xA5, BESIDE = 16 * 1024 };

/* Fills the stack from its lowest byte up to this place. */
static inline void stack_fill(uint8_t *wide, uint8_t *here) {
    for (volatile uint8_t *at = wide; at < here; at++)
        *at = PATTERN;
}

/* How far below this place the pattern was lost. */
static inline size_t stack_taken(uint8_t *wide, uint8_t *here) {
    volatile uint8_t *at = wide;
    while (*at == PATTERN)
        at++;
    return (size_t)(here - at);
}

/* Runs a function in a thread with this stack, or, with NULL, one of its own of this size. */
static inline void in_thread(void *(*body)(void *), uint8_t *stack, size_t size) {
    pthread_attr_t attributes;
    pthread_t thread;
    pthread_attr_init(&attributes);
    int failed = stack != NULL ? pthread_attr_setstack(&attributes, stack, size)
                               : pthread_attr_setstacksize(&attributes, size);
    if (failed || pthread_create(&thread, &attributes, body, NULL) != 0)
        fail("no thread");
    pthread_join(thread, NULL);
}

#endif
