#include "nodes.h"

#include <string.h>

/* The ops that are named here. */
enum { SLEEP = 0, ADD = 2, DONE = 3, SEND = 4, LISTEN = 5, PAIR = 6, TAKE = 16 };
enum { NO_STATEMENT = 255 };

enum { NODES = 8, PLACES_OF_A_KIND = 4, STATEMENT = 4 };

static const uint64_t highest = 4000000000000000000u;

/* Every register is the same; the bytes between them do not count. */
static int same_node(const timed_network_node_registers *a,
                     const timed_network_node_registers *b) {
    return a->pc == b->pc && a->location == b->location && a->t == b->t && a->n == b->n &&
           a->d == b->d && a->edge == b->edge && a->taken == b->taken &&
           a->goes == b->goes && a->sleeps == b->sleeps &&
           memcmp(a->clocks, b->clocks, sizeof a->clocks) == 0 &&
           memcmp(a->values, b->values, sizeof a->values) == 0 &&
           a->tried.ready == b->tried.ready && a->tried.ended == b->tried.ended &&
           a->tried.end == b->tried.end && a->tried.good == b->tried.good &&
           a->kept.some == b->kept.some && a->kept.edge == b->kept.edge &&
           a->kept.ready == b->kept.ready && a->kept.end == b->kept.end;
}

static uint8_t byte_at(struct bytes bytes, size_t place) {
    return place < bytes.length ? bytes.at[place] : 0;
}

static size_t word_at(struct bytes bytes, size_t place) {
    return 256u * byte_at(bytes, place) + byte_at(bytes, place + 1);
}

/* The op at the program counter. */
static uint8_t op_at(const timed_network_node_registers *node, struct bytes part) {
    if (part.length < STATEMENT || node->pc > part.length - STATEMENT)
        return NO_STATEMENT;
    uint8_t op = part.at[node->pc];
    return op > 0x12 || op == PAIR ? NO_STATEMENT : op;
}

/* The start, by document 01: in the initial location's block. */
static timed_network_node_registers started(enum where where, struct bytes part) {
    timed_network_node_registers found = guarded_start(where, part), expected;
    size_t blocks = (size_t)byte_at(part, 2) + byte_at(part, 3);
    memset(&expected, 0, sizeof expected);
    expected.location = byte_at(part, 4);
    expected.pc = 6 + 2 * blocks + STATEMENT * word_at(part, 6 + 2u * expected.location);
    expected.tried.good = true;
    if (!same_node(&found, &expected))
        fail("other registers at the start");
    return found;
}

/* Whether a step leaves the registers as they are. */
static int stays(const timed_network_node_registers *node, struct bytes part, uint8_t clocks,
                 uint8_t variables) {
    if (part.length > MAX_PART || clocks > PLACES_OF_A_KIND || variables > PLACES_OF_A_KIND)
        return 1;
    for (int i = 0; i < PLACES_OF_A_KIND; i++)
        if (node->clocks[i] > highest)
            return 1;
    if (node->t > highest || node->sleeps > highest)
        return 1;
    uint8_t op = op_at(node, part), a = byte_at(part, node->pc + 1);
    if (op != ADD)
        return op == NO_STATEMENT || (op == TAKE && !node->kept.some);
    int value = a < variables ? node->values[a] : 0;
    int sum = value + (int16_t)word_at(part, node->pc + 2);
    return sum < INT16_MIN || sum > INT16_MAX;
}

/* A step, with what holds for each of them. */
static void step(enum where where, timed_network_node_registers *node, struct bytes part,
                 uint8_t clocks, uint8_t variables) {
    timed_network_node_registers before = *node;
    int stay = stays(node, part, clocks, variables);
    guarded_step(where, node, part, clocks, variables);
    if (stay && !same_node(node, &before))
        fail("a step that is not carried out changes a register");
    for (int i = 0; i < PLACES_OF_A_KIND; i++)
        if ((i >= clocks && node->clocks[i] != before.clocks[i]) ||
            (i >= variables && node->values[i] != before.values[i]))
            fail("a step changes a clock or variable that the node does not have");
    if (stay || op_at(&before, part) > LISTEN)
        return;
    uint8_t op = op_at(&before, part);
    before.pc += STATEMENT * (op == LISTEN ? 1u + part.at[before.pc + 1] : 1u);
    before.sleeps += op == SLEEP;
    memcpy(before.values, node->values, op == SLEEP || op > ADD ? 0 : sizeof before.values);
    if (!same_node(node, &before))
        fail("a step changes another register than its statement names");
}

/*
 * The pair of the listen at the program counter that names the channel: its
 * place, 0 where none does, and 1 where the pairs run out of the part.
 */
static size_t pair_of(const timed_network_node_registers *node, struct bytes part,
                      uint8_t channel) {
    if (op_at(node, part) != LISTEN)
        return 0;
    size_t count = part.at[node->pc + 1], found = 0;
    for (size_t i = count; i > 0; i--) {
        size_t at = node->pc + STATEMENT * i;
        if (at + STATEMENT > part.length || part.at[at] != PAIR)
            return 1;
        if (part.at[at + 1] == channel)
            found = at;
    }
    return found;
}

/* A message; what it leaves is known unless the pairs run out of the part. */
static void take_message(enum where where, timed_network_node_registers *node,
                         struct bytes part, uint8_t channel) {
    timed_network_node_registers expected = *node;
    size_t pair = pair_of(node, part, channel);
    if (pair > 1 && !node->taken && part.length <= MAX_PART) {
        expected.taken = true;
        expected.goes = part.at[pair + 3];
        expected.pc += STATEMENT * (1u + part.at[node->pc + 1]);
    }
    guarded_take_message(where, node, part, channel);
    if (pair != 1 && !same_node(node, &expected))
        fail("a message is taken or left wrongly");
}

/* The nodes of a run, each with its part, its counts and the tick of its last work. */
struct network {
    unsigned count;
    struct bytes part[NODES];
    uint8_t clocks[NODES], variables[NODES];
    uint64_t finish[NODES];
    timed_network_node_registers node[NODES];
};

/* Where the components of an accepted table begin: behind its header and its bands. */
static size_t components_of(struct bytes table) {
    return 7u + (table.at[0] > 1 ? table.at[4] : 0u);
}

static struct network network_of(enum where where, struct bytes table) {
    struct network network;
    size_t at = components_of(table), length = guarded_translate(where, table, MAX_PROGRAM).size;
    memcpy(program_bytes, program, length);
    network.count = table.at[3];
    for (unsigned c = 0; c < network.count; c++) {
        timed_network_part_numbers part =
            guarded_part(where, of(program_bytes, length), (uint8_t)c);
        network.part[c] = of(program_bytes + part.start, part.length);
        network.clocks[c] = table.at[at + 4];
        network.variables[c] = table.at[at + 5];
        network.finish[c] = TIMED_NETWORK_NO_WORK;
        network.node[c] = started(where, network.part[c]);
        at += word_at(table, at);
    }
    return network;
}

/* The node that hears the message of node c. */
static unsigned listener(const struct network *network, unsigned c, uint8_t channel) {
    for (unsigned i = 0; i < network->count; i++)
        if (i != c && !network->node[i].taken &&
            pair_of(&network->node[i], network->part[i], channel) > 1 &&
            network->node[i].t <= network->node[c].t)
            return i;
    fail("a message without a listener");
    return 0;
}

static void put(uint8_t **at, uint64_t number, int bytes) {
    for (int i = bytes - 1; i >= 0; i--)
        *(*at)++ = (uint8_t)(number >> (8 * i));
}

/* What a node shows that finishes its sleep. */
static void observe(uint8_t *at, const struct network *network, unsigned c, uint64_t tick) {
    const timed_network_node_registers *node = &network->node[c];
    put(&at, c, 1);
    put(&at, node->edge, 1);
    put(&at, node->location, 1);
    put(&at, 0, 1);
    put(&at, tick, 4);
    for (int i = 0; i < PLACES_OF_A_KIND; i++)
        put(&at, i < network->clocks[c] ? node->clocks[i] + node->n : 0, 4);
    for (int i = 0; i < PLACES_OF_A_KIND; i++)
        put(&at, i < network->variables[c] ? (uint16_t)node->values[i] : 0, 2);
    put(&at, network->finish[c], 4);
}

/* The node finishes its statement, a send that of its listener too. */
static void finish(enum where where, struct network *network, unsigned c, uint64_t tick) {
    timed_network_node_registers *node = &network->node[c];
    struct bytes part = network->part[c];
    uint8_t op = op_at(node, part);
    if (op == SEND) {
        uint8_t channel = part.at[node->pc + 1];
        unsigned other = listener(network, c, channel);
        take_message(where, &network->node[other], network->part[other], channel);
        network->finish[other] = tick;
    }
    if (op >= DONE && op <= LISTEN)
        network->finish[c] = tick;
    step(where, node, part, network->clocks[c], network->variables[c]);
}

void nodes_run(enum where where, const struct stored *stored) {
    static uint8_t shown[MAX_OBSERVATIONS];
    timed_network_run_numbers ran =
        guarded_run(where, stored->table, stored->choices, MAX_OBSERVATIONS);
    if (ran.number != 0)
        return;
    trying("nodes one at a time", stored->name);
    struct network network = network_of(where, stored->table);
    size_t size = 0;
    uint64_t tick = 0;
    for (size_t i = 0; i < ran.used; i++) {
        uint8_t c = stored->choices.at[i];
        if (c == 255) {
            tick++;
            continue;
        }
        if (op_at(&network.node[c], network.part[c]) == SLEEP) {
            if (size == ran.size)
                fail("more is shown than the run observes");
            observe(shown + OBSERVATION * size++, &network, c, tick);
        }
        finish(where, &network, c, tick);
    }
    if (size != ran.size || memcmp(shown, observations, OBSERVATION * size) != 0)
        fail("the nodes show something else than the run observes");
}

void nodes_long(enum where where) {
    static uint8_t bytes[MAX_PART + 1];
    trying("a long part", "one location, a sleep");
    memset(bytes, 0, sizeof bytes);
    bytes[2] = 1;
    for (size_t length = MAX_PART - 1; length <= MAX_PART + 1; length++) {
        struct bytes part = of(bytes, length);
        timed_network_node_registers node = started(where, part);
        step(where, &node, part, 4, 4);
        if (node.sleeps != (length <= MAX_PART))
            fail("a long part is taken or left wrongly");
        bytes[8] = LISTEN;
        bytes[9] = 1;
        bytes[12] = PAIR;
        node.pc = 8;
        take_message(where, &node, part, 0);
        if (node.taken != (length <= MAX_PART))
            fail("a message in a long part is taken or left wrongly");
        memset(bytes + 8, 0, 8);
    }
}

/* Registers of any values, most of them at a statement of the part. */
static timed_network_node_registers random_node_registers(struct bytes part) {
    timed_network_node_registers node;
    memset(&node, 0, sizeof node);
    size_t head = 6 + 2 * ((size_t)byte_at(part, 2) + byte_at(part, 3));
    node.pc = random_below(16) == 0 ? (size_t)random_number()
              : random_below(4)     ? head + STATEMENT * random_below(part.length / 4 + 1)
                                    : random_below(part.length + 8);
    node.location = (uint8_t)random_number();
    for (int i = 0; i < PLACES_OF_A_KIND; i++) {
        node.clocks[i] = random_below(64) ? random_below(100) : random_number();
        node.values[i] = (int16_t)(random_below(4) ? random_below(9) : random_number());
    }
    node.t = random_below(32) ? random_below(1000) : highest + random_below(2);
    node.n = (uint16_t)random_number();
    node.d = (uint16_t)random_number();
    node.edge = (uint8_t)random_number();
    node.taken = random_below(4) == 0;
    node.goes = (uint8_t)random_number();
    node.tried.ready = (uint16_t)random_number();
    node.tried.ended = random_below(2) == 0;
    node.tried.end = (uint16_t)random_number();
    node.tried.good = random_below(2) == 0;
    node.kept.some = random_below(2) == 0;
    node.kept.edge = (uint8_t)random_number();
    node.kept.ready = (uint16_t)random_number();
    node.kept.end = (uint16_t)random_number();
    node.sleeps = random_below(32) ? random_below(1000) : highest + random_below(2);
    return node;
}

void nodes_random(enum where where, struct bytes part) {
    started(where, part);
    timed_network_node_registers node = random_node_registers(part);
    uint8_t clocks = (uint8_t)random_below(6), variables = (uint8_t)random_below(6);
    for (int turn = 0; turn < 4; turn++) {
        take_message(where, &node, part, (uint8_t)random_below(4));
        step(where, &node, part, clocks, variables);
    }
}
