/*
 * What is held against an emulated processor, on this machine, for a table:
 *
 *   host parts TABLE    the parts of its nodes as C
 *   host events TABLE   what the proved calls do here (events.h)
 *   host early TABLE    the observations of the proved run where every node does everything as early as it may
 *
 * Ends with 1 for a table that is refused.
 */
#include <stdio.h>
#include <string.h>
#include "events.h"
#include "timed_network.h"

static uint8_t table[8193], program[24576], choices[TIMED_NETWORK_MAX_CHOICES], wanted[36 * 1024];
static size_t length, used;
static timed_network_part_numbers at[8];
static timed_network_node_registers nodes[8];
static uint8_t count, clocks[8], variables[8];

static bool read_table(const char *name) {
    FILE *file = fopen(name, "rb");
    timed_network_call_numbers size;
    size_t place;
    uint8_t i;
    if (file == NULL)
        return false;
    length = fread(table, 1, sizeof table, file);
    fclose(file);
    size = timed_network_translate(table, length, program, sizeof program);
    if (size.number != 0)
        return false;
    count = table[3];
    place = 7u + (table[0] >= 2 ? table[4] : 0u);
    for (i = 0; i < count; i++) {
        at[i] = timed_network_part(program, size.size, i);
        clocks[i] = table[place + 4];
        variables[i] = table[place + 5];
        place += (size_t)(table[place] * 256 + table[place + 1]);
    }
    return true;
}

static void write_parts(void) {
    size_t k;
    uint8_t i;
    printf("#include <stdint.h>\n#define HORIZON %u\n#define NODES %u\n", program[4] * 256u + program[5], count);
    for (i = 0; i < count; i++) {
        printf("static const uint8_t part_%u[] = {", i);
        for (k = 0; k < at[i].length; k++)
            printf("%u,", program[at[i].start + k]);
        printf("};\n");
    }
    printf("static const struct { const uint8_t *part; uint16_t length; } parts[NODES] = {\n");
    for (i = 0; i < count; i++)
        printf("    {part_%u, sizeof part_%u},\n", i, i);
    printf("};\n");
}

static void told(uint32_t number) { printf("%08x\n", number); }

static void write_events(void) {
    uint8_t i;
    for (i = 0; i < count; i++)
        try_part(program + at[i].start, (uint32_t)at[i].length, told);
    tell_counts(told);
}

/* A listener takes a message on this channel; whether there is one. */
static bool heard(uint8_t sender, uint8_t channel) {
    uint8_t j;
    for (j = 0; j < count; j++) {
        timed_network_node_registers before = nodes[j];
        if (j == sender)
            continue;
        timed_network_take_message(&nodes[j], program + at[j].start, at[j].length, channel);
        if (memcmp(&before, &nodes[j], sizeof before) != 0)
            return true;
    }
    return false;
}

/* A node finishes its statement, if it may at this tick. */
static bool act(uint8_t i, uint64_t tick) {
    const uint8_t *part = program + at[i].start;
    timed_network_node_registers *r = &nodes[i], before = *r;
    uint8_t op = part[r->pc];
    if ((op == 0 && r->t != tick) || (op == 5 && r->t + r->d != tick) || (op == 4 && !heard(i, part[r->pc + 1])))
        return false;
    timed_network_step(r, part, at[i].length, clocks[i], variables[i]);
    if (memcmp(&before, r, sizeof before) == 0)
        return false;
    choices[used++] = i;
    return true;
}

static bool write_early(void) {
    uint32_t tick, horizon = table[5] * 256u + table[6], k;
    timed_network_run_numbers answer;
    uint8_t i;
    bool moved;
    for (i = 0; i < count; i++)
        nodes[i] = timed_network_start(program + at[i].start, at[i].length);
    for (tick = 0; tick < horizon; tick++) {
        do
            for (moved = false, i = 0; i < count; i++)
                while (act(i, tick))
                    moved = true;
        while (moved);
        choices[used++] = 255;
    }
    answer = timed_network_run(table, length, choices, used, wanted, sizeof wanted);
    if (answer.number != 0 || answer.end != TIMED_NETWORK_END_HORIZON || answer.used != used)
        return false;
    for (k = 0; k < 36 * answer.size; k++)
        printf("%02x%s", wanted[k], k % 36 == 35 ? "\n" : "");
    printf("over\n");
    return true;
}

int main(int argc, char **argv) {
    if (argc != 3)
        return 2;
    if (!read_table(argv[2]))
        return 1;
    if (strcmp(argv[1], "parts") == 0)
        write_parts();
    else if (strcmp(argv[1], "events") == 0)
        write_events();
    else
        return write_early() ? 0 : 3;
    return 0;
}
