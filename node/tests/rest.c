/* The checksum, and memory.c's functions, which are compiled here by the names own_memcpy and own_memset. */
#include <string.h>
#include "tests.h"

void *own_memcpy(void *to, const void *from, size_t n);
void *own_memset(void *to, int value, size_t n);

/* The check value of CRC-32 that its catalogues give, and that of nothing. */
static void try_checksum(void) {
    if (timed_node_checksum((const uint8_t *)"123456789", 9) != 0xcbf43926u || timed_node_checksum(NULL, 0) != 0)
        differ("the checksum", NULL);
}

/* Every length and place up to some words: the bytes copied or set, and none beside them. */
static void try_memory(void) {
    uint8_t from[48], to[48], expected[48];
    size_t a, b, n, i;
    for (i = 0; i < sizeof from; i++)
        from[i] = (uint8_t)(i + 100);
    for (a = 0; a < 8; a++)
        for (b = 0; b < 8; b++)
            for (n = 0; n <= 32; n++) {
                memset(to, 7, sizeof to);
                memset(expected, 7, sizeof expected);
                for (i = 0; i < n; i++)
                    expected[a + i] = from[b + i];
                if (own_memcpy(to + a, from + b, n) != to + a || memcmp(to, expected, sizeof to) != 0)
                    differ("memcpy", NULL);
                for (i = 0; i < n; i++)
                    expected[a + i] = (uint8_t)(b + 250);
                if (own_memset(to + a, (int)b + 250, n) != to + a || memcmp(to, expected, sizeof to) != 0)
                    differ("memset", NULL);
            }
}

void try_rest(void) {
    try_checksum();
    try_memory();
}
