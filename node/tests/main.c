/* A node's C held to the library: tables in hexadecimal, a line each, on standard input; how many runs and damaged parts of each as arguments. */
#include <stdio.h>
#include <stdlib.h>
#include <string.h>
#include "tests.h"

counts counted;

void differ(const char *what, const network *n) {
    size_t i;
    if (counted.differences++ >= 5)
        return;
    fprintf(stderr, "DIFFERENT: %s%s", what, n != NULL ? ", table " : "");
    for (i = 0; n != NULL && i < n->length; i++)
        fprintf(stderr, "%02x", n->table[i]);
    fprintf(stderr, "\n");
}

uint32_t draw(uint32_t below) {
    static uint64_t seed = 88172645463325252u;
    seed ^= seed << 13;
    seed ^= seed >> 7;
    seed ^= seed << 17;
    return (uint32_t)((seed >> 20) % below);
}

/* Reads a line of hexadecimal digits; whether it is an accepted table. */
static bool read_network(network *n, const char *line) {
    size_t place;
    uint8_t i;
    timed_network_call_numbers size;
    n->length = 0;
    for (; line[0] != 0 && line[1] != 0 && n->length < sizeof n->table; line += 2) {
        const char digits[3] = {line[0], line[1], 0};
        n->table[n->length++] = (uint8_t)strtoul(digits, NULL, 16);
    }
    size = timed_network_translate(n->table, n->length, n->program, sizeof n->program);
    if (size.number != 0)
        return false;
    n->count = n->table[3];
    n->horizon = (uint32_t)n->table[5] << 8 | n->table[6];
    n->spread = timed_network_largest_spread(n->table, n->length).spread;
    place = 7u + (n->table[0] >= 2 ? n->table[4] : 0u);
    for (i = 0; i < n->count; i++) {
        n->at[i] = timed_network_part(n->program, size.size, i);
        n->clocks[i] = n->table[place + 4];
        n->variables[i] = n->table[place + 5];
        place += (size_t)n->table[place] << 8 | n->table[place + 1];
    }
    counted.tables++;
    counted.parts += n->count;
    return true;
}

int main(int argc, char **argv) {
    static char line[2 * 8192 + 2];
    static network n;
    unsigned runs = argc > 1 ? (unsigned)atoi(argv[1]) : 3, damages = argc > 2 ? (unsigned)atoi(argv[2]) : 3, k;
    try_rest();
    while (fgets(line, sizeof line, stdin) != NULL) {
        line[strcspn(line, "\n")] = 0;
        if (!read_network(&n, line))
            continue;
        for (k = 0; k < runs; k++)
            try_run(&n, k % 2 != 0 ? n.spread : 0);
        try_damaged(&n, damages);
        try_wide(&n);
    }
    printf("%lu accepted tables with %lu parts: %lu runs (%lu at a spread above 0), %lu observations, %lu messages, %lu timeouts; "
           "wrong calls: %lu early, %lu late, %lu unexpected, %lu past the horizon; %lu damaged parts, %lu refused at once; %lu nodes across 2^32; %lu differences\n",
           counted.tables, counted.parts, counted.runs, counted.apart, counted.observations, counted.messages, counted.timeouts,
           counted.early, counted.late, counted.unexpected, counted.past, counted.damaged, counted.refused, counted.wide, counted.differences);
    return counted.differences != 0;
}
