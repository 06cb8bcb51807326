#include "site.h"

#include <string.h>

#include "stored.h"

enum { SITE_PLACES = TIMED_NETWORK_PLACES, NO_PLACE = 26, OTHER_HORIZON, NO_AIRTIME };

static struct place table_place, site_place;

void site_start(void) {
    table_place = place_new(MAX_TABLE);
    site_place = place_new(sizeof(timed_network_networks));
}

/* Whether an edge of an accepted table is a send; document 01, "The table". */
static int sends(struct bytes table, uint32_t component, uint32_t edge) {
    static const size_t items[] = {4, 1, 2};
    const uint8_t *at = table.at + 7 + (table.at[0] > 1 ? table.at[4] : 0);
    for (; component > 0; component--)
        at += 256u * at[0] + at[1];
    at += 7 + 3u * at[2];
    for (; edge > 0; edge--)
        at += 7 + (table.at[0] == 3 ? 2 : 0) + 5u * ((size_t)at[4] + at[5]) + items[at[0]] * at[6];
    return at[0] == 1;
}

/* The airtime of an accepted table, from its schedule. */
static uint32_t summed(enum where where, struct bytes table) {
    uint32_t sum = 0, horizon = 256u * table.at[5] + table.at[6];
    timed_network_call_numbers written = guarded_schedule(where, table, MAX_LIST);
    for (uint32_t i = 0; i < written.size; i++) {
        const uint32_t *passage = list + FIELDS * i;
        if (passage[4] < horizon && sends(table, passage[0], passage[1]))
            sum += passage[5] - passage[4] + 1;
    }
    return sum;
}

timed_network_airtime_numbers guarded_airtime(enum where where, struct bytes table) {
    const uint8_t *in = place_input(&table_place, where, table.at, table.length);
    timed_network_airtime_numbers answer = timed_network_airtime(in, table.length);
    made[AIRTIME]++;
    place_input_done(&table_place, table.at);
    timed_network_verdict_numbers verdict = guarded_check(where, table);
    if (answer.number != verdict.number || answer.component != verdict.component)
        fail("another verdict than that of the check");
    if (answer.number != 0 && (answer.horizon != 0 || answer.airtime != 0))
        fail("a refused table has an airtime");
    if (answer.number == 0 && (answer.horizon != 256u * table.at[5] + table.at[6] ||
                               answer.airtime != summed(where, table)))
        fail("another airtime than that of the schedule");
    return answer;
}

/* The airtime in use, by the places of any struct. */
static uint64_t in_use(const timed_network_networks *site) {
    uint64_t sum = 0;
    for (int k = 0; k < SITE_PLACES; k++)
        sum += site->horizons[k] == 0 ? 0 : site->airtimes[k];
    return sum;
}

/* What a site says of a call. */
static void say(timed_network_networks *site, uint8_t number, uint8_t component) {
    site->in_use = in_use(site);
    site->number = number;
    site->component = component;
}

/* A place is filled, or emptied with a horizon and an airtime of 0. */
static void fill(timed_network_networks *site, uint8_t place, uint16_t horizon,
                 uint32_t airtime) {
    site->horizons[place] = horizon;
    site->airtimes[place] = airtime;
    say(site, 0, TIMED_NETWORK_NONE);
}

/* What a put has to leave: the table's refusal, then 26, 27, 28. */
static void put_in(timed_network_networks *site, timed_network_airtime_numbers network,
                   uint8_t place) {
    int others = 0;
    for (int k = 0; k < SITE_PLACES; k++)
        others |= site->horizons[k] != 0 && site->horizons[k] != network.horizon;
    if (network.number != 0)
        say(site, network.number, network.component);
    else if (place >= SITE_PLACES || site->horizons[place] != 0)
        say(site, NO_PLACE, TIMED_NETWORK_NONE);
    else if (others)
        say(site, OTHER_HORIZON, TIMED_NETWORK_NONE);
    else if (in_use(site) + network.airtime > site->limit)
        say(site, NO_AIRTIME, TIMED_NETWORK_NONE);
    else
        fill(site, place, network.horizon, network.airtime);
}

/* Every field is the same; the bytes between and behind them do not count. */
static int same_site(const timed_network_networks *a, const timed_network_networks *b) {
    return a->limit == b->limit && a->in_use == b->in_use && a->number == b->number &&
           a->component == b->component &&
           memcmp(a->horizons, b->horizons, sizeof a->horizons) == 0 &&
           memcmp(a->airtimes, b->airtimes, sizeof a->airtimes) == 0;
}

timed_network_networks guarded_site(uint32_t limit) {
    timed_network_networks site = timed_network_site(limit), expected;
    made[SITE]++;
    memset(&expected, 0, sizeof expected);
    expected.limit = limit;
    expected.component = TIMED_NETWORK_NONE;
    if (!same_site(&site, &expected))
        fail("a new site is not empty");
    return site;
}

void guarded_site_put(enum where where, timed_network_networks *site, struct bytes table,
                      uint8_t place) {
    timed_network_networks expected = *site;
    put_in(&expected, guarded_airtime(where, table), place);
    const uint8_t *in = place_input(&table_place, where, table.at, table.length);
    uint8_t *out = place_output(&site_place, where, sizeof *site);
    memcpy(out, site, sizeof *site);
    timed_network_site_put((timed_network_networks *)(void *)out, in, table.length, place);
    made[SITE_PUT]++;
    place_input_done(&table_place, table.at);
    place_output_done(&site_place, sizeof *site, (uint8_t *)site);
    if (!same_site(site, &expected))
        fail("a network is put in or refused wrongly");
}

void guarded_site_take(enum where where, timed_network_networks *site, uint8_t place) {
    timed_network_networks expected = *site;
    if (place < SITE_PLACES && site->horizons[place] != 0)
        fill(&expected, place, 0, 0);
    else
        say(&expected, NO_PLACE, TIMED_NETWORK_NONE);
    uint8_t *out = place_output(&site_place, where, sizeof *site);
    memcpy(out, site, sizeof *site);
    timed_network_site_take((timed_network_networks *)(void *)out, place);
    made[SITE_TAKE]++;
    place_output_done(&site_place, sizeof *site, (uint8_t *)site);
    if (!same_site(site, &expected))
        fail("a network is taken out or left wrongly");
}

/* The table handed in, or that of a stored airtime or check. */
static struct bytes any_table(struct bytes own) {
    const struct stored *stored = &cases[random_below(case_count)];
    int fits = stored->request == AIRTIME ||
               (stored->request == CHECK && stored->table.length < 300);
    return fits && random_below(2) ? stored->table : own;
}

static uint8_t any_place(void) {
    return (uint8_t)(random_below(8) == 0 ? random_below(256) : random_below(SITE_PLACES));
}

/*
 * A site that only its calls write: what it says is in use is the sum over those put in
 * and not taken out since, and never above the limit.
 */
static void new_site(enum where where, struct bytes table, uint32_t limit) {
    timed_network_networks site = guarded_site(limit);
    uint64_t put[SITE_PLACES] = {0}, sum;
    for (size_t call = random_below(8); call > 0; call--) {
        uint8_t place = any_place();
        struct bytes other = any_table(table);
        int takes = random_below(3) == 0;
        if (takes)
            guarded_site_take(where, &site, place);
        else
            guarded_site_put(where, &site, other, place);
        if (site.number == 0)
            put[place] = takes ? 0 : guarded_airtime(where, other).airtime;
        sum = put[0] + put[1] + put[2] + put[3];
        if (site.in_use != sum || sum > limit || site.limit != limit)
            fail("a site does not say what is in use");
    }
}

/* A site of any bytes, most with horizons that are 0 or the table's. */
static timed_network_networks any_site(uint16_t horizon) {
    timed_network_networks site;
    uint8_t *at = (uint8_t *)&site;
    for (size_t i = 0; i < sizeof site; i++)
        at[i] = (uint8_t)random_below(256);
    for (int k = 0; k < SITE_PLACES; k++) {
        if (random_below(8) != 0)
            site.horizons[k] = random_below(2) ? 0 : horizon;
        if (random_below(4) != 0)
            site.airtimes[k] = (uint32_t)(random_below(4) ? random_below(20) : UINT32_MAX);
    }
    if (random_below(4) != 0)
        site.limit = (uint32_t)(in_use(&site) + random_below(12));
    return site;
}

void sites_random(enum where where, struct bytes table) {
    timed_network_airtime_numbers network = guarded_airtime(where, table);
    static const uint32_t far[] = {0, 1, UINT32_MAX};
    uint32_t times = 1 + (uint32_t)random_below(SITE_PLACES);
    uint32_t near = times * network.airtime + (uint32_t)random_below(3);
    new_site(where, table, random_below(4) ? near : far[random_below(3)]);
    timed_network_networks site = any_site(network.horizon);
    for (int call = 0; call < 3; call++)
        if (random_below(3) == 0)
            guarded_site_take(where, &site, any_place());
        else
            guarded_site_put(where, &site, any_table(table), any_place());
}
