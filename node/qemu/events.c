/* See events.h. */
#include "events.h"

#ifndef EVENTS
#define EVENTS 1000
#define DAMAGES 200
#endif

static uint32_t hash, calls, answers[4], listening;

static uint32_t draw_16(void) {
    static uint32_t seed = 2463534242u;
    seed ^= seed << 13;
    seed ^= seed >> 17;
    seed ^= seed << 5;
    return seed >> 8 & 0xffffu;
}

static uint32_t draw(uint32_t below) { return draw_16() * below >> 16; }

static uint64_t draw_wide(void) {
    uint32_t high = draw_16() << 16, low;
    high |= draw_16();
    low = draw_16() << 16;
    low |= draw_16();
    return (uint64_t)high << 32 | low;
}

static void mix(uint64_t number) {
    int i;
    for (i = 0; i < 8; i++, number >>= 8)
        hash = (hash ^ (uint32_t)(number & 255u)) * 16777619u;
}

static void mix_node(const timed_node_running *x) {
    const timed_node_registers *r = &x->registers;
    int i;
    mix(r->pc), mix(r->location), mix(r->t), mix(r->n), mix(r->d), mix(r->edge), mix(r->taken), mix(r->goes), mix(r->sleeps);
    for (i = 0; i < 4; i++)
        mix(r->clocks[i]), mix((uint16_t)r->values[i]);
    mix(r->tried.ready), mix(r->tried.ended), mix(r->tried.end), mix(r->tried.good);
    mix(r->kept.some), mix(r->kept.edge), mix(r->kept.ready), mix(r->kept.end);
    mix(x->finished), mix(x->clocks), mix(x->variables), mix(x->answer);
}

/* A number of 64 bits: small, near 2^16, near 2^32, near the last tick, or any. */
static uint64_t some_number(void) {
    switch (draw(6)) {
    case 0: return draw(10);
    case 1: return draw(65536);
    case 2: return 65530u + draw(12);
    case 3: return (uint64_t)3999999999999900000u + draw(65536);
    case 4: return draw_wide();
    default: return (uint64_t)0xfffffff0u + draw(32);
    }
}

static void any_registers(timed_node_registers *r, uint32_t length) {
    int i;
    r->pc = draw(8) != 0 ? draw(length + 6) : some_number();
    r->location = (uint8_t)draw(256);
    for (i = 0; i < 4; i++) {
        r->clocks[i] = some_number();
        r->values[i] = (int16_t)(draw(2) != 0 ? draw_16() : 32760u + draw(16));
    }
    r->t = some_number();
    r->n = (uint16_t)draw_16();
    r->d = (uint16_t)draw_16();
    r->edge = (uint8_t)draw(256);
    r->taken = draw(2) != 0;
    r->goes = (uint8_t)draw(256);
    r->tried.ready = (uint16_t)draw_16();
    r->tried.ended = draw(2) != 0;
    r->tried.end = (uint16_t)draw_16();
    r->tried.good = draw(4) != 0;
    r->kept.some = draw(2) != 0;
    r->kept.edge = (uint8_t)draw(40);
    r->kept.ready = (uint16_t)draw_16();
    r->kept.end = (uint16_t)draw_16();
    r->sleeps = some_number();
}

static void any_node(timed_node_running *x, uint32_t length) {
    any_registers(&x->registers, length);
    x->finished = some_number();
    x->clocks = (uint8_t)(draw(8) != 0 ? draw(5) : draw(256));
    x->variables = (uint8_t)(draw(8) != 0 ? draw(5) : draw(256));
    x->answer = (uint8_t)(draw(6) != 0 ? draw(3) : draw(256));
}

/* What the node waits for, mostly. */
static uint8_t some_event(uint8_t op) {
    if (draw(10) == 0)
        return (uint8_t)draw(7);
    if (op == 5)
        return (uint8_t)(TIMED_NODE_EVENT_MESSAGE_RECEIVED + draw(2));
    if (op == 0)
        return TIMED_NODE_EVENT_AWAKE;
    return op < 4 ? TIMED_NODE_EVENT_WORK_DONE : op == 4 ? TIMED_NODE_EVENT_MESSAGE_OUT : (uint8_t)draw(6);
}

/* One event, at a tick near the window. */
static void one_event(timed_node_running *x, const uint8_t *part, uint32_t length) {
    uint64_t pc = x->registers.pc, tick = x->registers.t;
    uint8_t what = some_event(pc < length ? part[(size_t)pc] : 255);
    uint8_t channel = pc < length && length - (uint32_t)pc > 5 && draw(4) != 0 ? part[(size_t)pc + 5] : (uint8_t)draw(20);
    if (what == TIMED_NODE_EVENT_NOTHING_CAME || (what != TIMED_NODE_EVENT_AWAKE && draw(3) == 0))
        tick += x->registers.d;
    if (draw(6) == 0)
        tick += draw(5), tick -= 2;
    if (draw(40) == 0)
        tick = some_number();
    timed_node_happened(x, part, length, what, channel, tick);
    calls++;
    if (x->answer < 4)
        answers[x->answer]++;
    mix_node(x);
    if (timed_node_listens(part, length, x->registers.pc, channel)) {
        listening++;
        mix(1);
    }
}

/* A part that is damaged or has nothing to do with the given one, and nodes of any registers on it. */
static void try_damaged(const uint8_t *part, uint32_t length) {
    static uint8_t room[4100];
    timed_node_running x;
    uint8_t clocks = (uint8_t)draw(6), variables = (uint8_t)draw(6);
    uint32_t long_ = draw(3) != 0 ? length : draw(length + 9), i;
    bool wild = draw(3) == 0;
    if (long_ > sizeof room)
        long_ = sizeof room;
    for (i = 0; i < long_; i++)
        room[i] = i < length && !wild && draw(12) != 0 ? part[i] : (uint8_t)(draw(2) != 0 ? draw(20) : draw(256));
    x = timed_node_begun(room, long_, clocks, variables);
    mix_node(&x);
    for (i = 0; i < 12; i++) {
        if (draw(3) != 0)
            any_node(&x, long_);
        one_event(&x, room, long_);
    }
}

void try_part(const uint8_t *part, uint32_t length, void (*told)(uint32_t)) {
    timed_node_running x = timed_node_begun(part, length, 4, 4);
    int i;
    hash = 2166136261u;
    mix_node(&x);
    for (i = 0; i < EVENTS; i++) {
        if (x.answer == TIMED_NODE_TOLD_LATE)
            x.answer = TIMED_NODE_TOLD_FINE;
        one_event(&x, part, length);
    }
    told(hash);
    for (i = 0; i < DAMAGES; i++)
        try_damaged(part, length);
    told(hash);
}

void tell_counts(void (*told)(uint32_t)) {
    int i;
    told(calls);
    for (i = 0; i < 4; i++)
        told(answers[i]);
    told(listening);
}
