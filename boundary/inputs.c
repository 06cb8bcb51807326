#include "inputs.h"

#include <string.h>

uint8_t table_bytes[MAX_TABLE];
uint8_t choices_bytes[MAX_CHOICES + 1];
uint8_t program_bytes[MAX_PROGRAM];

struct bytes of(uint8_t *at, size_t length) {
    struct bytes bytes = {at, length};
    return bytes;
}

void state_length(uint8_t *table, size_t length) {
    if (length >= 3) {
        table[1] = (uint8_t)(length >> 8);
        table[2] = (uint8_t)length;
    }
}

struct bytes random_table(void) {
    const struct stored *base = &cases[random_below(case_count)];
    while (base->request == PART || base->request == PLAN || base->table.length > 2000)
        base = &cases[random_below(case_count)];
    size_t length = base->table.length;
    if (length > 0)
        memcpy(table_bytes, base->table.at, length);
    size_t kind = random_below(8);
    if (kind == 0) {
        length = random_below(200);
        for (size_t i = 0; i < length; i++)
            table_bytes[i] = (uint8_t)random_below(random_below(2) ? 256 : 4);
        if (length > 0 && random_below(8) > 0)
            table_bytes[0] = 1;
        if (length > 3 && random_below(8) > 0)
            table_bytes[3] = (uint8_t)(1 + random_below(8));
    } else if (kind == 1) {
        length = random_below(length + 1);
    } else if (kind == 2) {
        for (size_t more = random_below(20); more > 0; more--)
            table_bytes[length++] = (uint8_t)random_number();
    } else if (kind <= 6 && length > 0) {
        for (size_t more = 1 + random_below(3); more > 0; more--) {
            uint8_t *byte = &table_bytes[random_below(length)];
            *byte = (uint8_t)(kind < 5 ? *byte + random_below(3) - 1 : random_number());
        }
    }
    if (random_below(8) > 0)
        state_length(table_bytes, length);
    return of(table_bytes, length);
}

size_t random_choices(struct bytes table, size_t from, size_t more) {
    size_t nodes = table.length > 3 && table.at[3] > 0 ? table.at[3] : 1;
    for (size_t i = from; i < from + more; i++) {
        size_t kind = random_below(100);
        choices_bytes[i] = (uint8_t)(kind == 0  ? random_number()
                                     : kind < 8 ? 255
                                                : random_below(nodes));
    }
    return from + more;
}

struct waking random_waking(struct bytes table) {
    static const uint32_t spreads[] = {0, 0, 1, 1, 2, 3, 7, 40, MAX_SPREAD, MAX_SPREAD + 1};
    size_t nodes = table.length > 3 ? table.at[3] % 9u : 0;
    struct waking waking;
    memset(&waking, 0, sizeof waking);
    waking.spread = spreads[random_below(sizeof spreads / sizeof spreads[0])];
    if (random_below(50) == 0)
        waking.spread = (uint32_t)random_number();
    waking.count = random_below(4) ? nodes : random_below(MAX_OFFSETS + 1);
    for (size_t i = 0; i < waking.count; i++)
        waking.offsets[i] = (uint32_t)(random_below(40) == 0
                                           ? waking.spread + 1 + random_below(2)
                                           : random_below((size_t)waking.spread + 1));
    return waking;
}

struct numbers random_pairs(struct bytes table) {
    static uint32_t numbers[82];
    size_t components = table.length > 3 ? table.at[3] : 0;
    size_t horizon = table.length > 6 ? 256u * table.at[5] + table.at[6] : 0;
    size_t length = random_below(2) ? random_below(7) : random_below(82);
    uint32_t tick = 0;
    for (size_t i = 0; i < length; i += 2) {
        tick += (uint32_t)random_below(2 + 4 * horizon / (length + 1));
        numbers[i] = (uint32_t)random_below(components + (random_below(32) == 0) + 1);
        if (components > 0 && random_below(16) != 0)
            numbers[i] %= (uint32_t)components;
        numbers[i + 1] = tick % (uint32_t)(horizon + 1);
    }
    if (length > 1 && random_below(8) == 0)
        numbers[random_below(length)] = (uint32_t)random_number();
    struct numbers pairs = {numbers, length};
    return pairs;
}

struct experiment random_experiment(void) {
    static const uint32_t far[] = {MAX_WORK, MAX_WORK + 1, MAX_RUNS + 1, 65538, UINT32_MAX};
    uint32_t hi = (uint32_t)random_below(6);
    struct experiment experiment = {(uint32_t)random_below(hi + 1), hi,
                                    1 + (uint32_t)random_below(3), (uint32_t)random_number(),
                                    (int)random_below(2)};
    if (random_below(8) == 0)
        experiment.hi = far[random_below(5)];
    if (random_below(8) == 0)
        experiment.lo = (uint32_t)random_below(8);
    if (random_below(16) == 0)
        experiment.seed = 0;
    if (random_below(16) == 0)
        experiment.runs = random_below(2) ? 0 : far[2 + random_below(3)];
    return experiment;
}

uint32_t random_horizon(struct bytes table) {
    uint32_t own = table.length > 6 ? 256u * table.at[5] + table.at[6] : 0;
    switch (random_below(8)) {
    case 0:
        return (uint32_t)random_below(2);
    case 1:
        return random_below(2) ? UINT32_MAX : (uint32_t)random_number();
    case 2:
        return (uint32_t)random_below(own + 1);
    case 3:
        return own + (uint32_t)random_below(5 * (size_t)own + 1);
    default:
        return own + (uint32_t)random_below(3) - 1;
    }
}

struct bytes random_program(size_t length) {
    if (length > 0)
        memcpy(program_bytes, program, length);
    if (length == 0 || random_below(4) == 0) {
        length = random_below(60);
        for (size_t i = 0; i < length; i++)
            program_bytes[i] = (uint8_t)random_below(12);
    } else {
        program_bytes[random_below(length)] = (uint8_t)random_number();
        length -= random_below(2) ? random_below(length) : 0;
    }
    return of(program_bytes, length);
}

uint8_t random_node(void) {
    return (uint8_t)(random_below(4) ? random_below(9) : random_number());
}
