#include "wrong.h"

CALL(airtime);
CALL(site);
CALL(site_put);
CALL(site_take);

timed_network_airtime_numbers __wrap_timed_network_airtime(const uint8_t *table,
                                                           size_t length) {
    timed_network_airtime_numbers answer = __real_timed_network_airtime(table, length);
    if (wrong(179))
        touch(table + length); /* reads the byte behind the table */
    if (wrong(180) && answer.airtime > 0)
        answer.airtime--; /* a tick too few */
    if (wrong(181) && answer.number != 0)
        answer.horizon = 20; /* a refused table has a horizon */
    if (wrong(182) && answer.number != 0)
        answer.component = 0; /* names component 0 always */
    if (wrong(183))
        answer.airtime &= 255; /* cuts the airtime to a byte */
    return answer;
}

timed_network_networks __wrap_timed_network_site(uint32_t limit) {
    timed_network_networks site = __real_timed_network_site(limit);
    if (wrong(184))
        site.limit = (uint16_t)site.limit; /* cuts the limit to 16 bits */
    if (wrong(185))
        site.component = 0; /* names a component at the start */
    return site;
}

/* The places that are filled. */
static int filled(const timed_network_networks *site) {
    int count = 0;
    for (int k = 0; k < 4; k++)
        count += site->horizons[k] != 0;
    return count;
}

void __wrap_timed_network_site_put(timed_network_networks *networks, const uint8_t *table,
                                   size_t length, uint8_t place) {
    timed_network_networks before = *networks;
    if (wrong(186))
        place %= 4; /* place 4 is place 0 */
    if (wrong(187) && place < 4)
        networks->horizons[place] = 0; /* a filled place is filled anew */
    uint32_t less = wrong(188) && networks->limit > 0; /* full at the limit */
    networks->limit -= less;
    __real_timed_network_site_put(networks, table, length, place);
    networks->limit += less;
    if (wrong(189) && networks->number == 0)
        networks->in_use = before.in_use; /* what was in use before */
    if (wrong(190) && networks->number != 0)
        networks->in_use = 0; /* nothing in use after a refusal */
    if (wrong(191) && networks->number == 28)
        networks->airtimes[place & 3] = 1; /* a refused call writes */
    if (wrong(192) && networks->number == 0)
        networks->limit -= networks->airtimes[place & 3]; /* lowers the limit */
    if (wrong(193) && networks->number == 27)
        networks->number = 28; /* 28 for another horizon */
    if (wrong(194) && networks->number == 26)
        networks->component = place; /* names the place as a component */
    if (wrong(195) && networks->number == 0 && filled(networks) == 4)
        networks->number = 26; /* the fourth network is refused and put in */
    if (wrong(196) && networks->number == 0 && place < 3)
        networks->airtimes[place + 1]++; /* changes another place */
    if (wrong(197))
        touch((const uint8_t *)(networks + 1)); /* reads behind the site */
    if (wrong(198) && length > 0)
        touch(table - 1); /* reads the byte before the table */
    if (wrong(199) && length > 0)
        *(volatile uint8_t *)table = *table; /* writes to it, the same byte */
    if (wrong(200) && networks->number == 0 && before.number != 0)
        networks->number = before.number; /* keeps the last refusal */
    for (int k = 0; wrong(207) && networks->number == 0 && k < 4; k++)
        if (networks->horizons[k] == 0)
            networks->airtimes[k] = 0; /* clears what stands in another place */
}

void __wrap_timed_network_site_take(timed_network_networks *networks, uint8_t place) {
    timed_network_networks before = *networks;
    __real_timed_network_site_take(networks, place);
    if (wrong(201) && networks->number == 0)
        networks->airtimes[place & 3] = before.airtimes[place & 3]; /* keeps the airtime */
    if (wrong(202) && networks->number == 26 && place < 4)
        networks->number = 0; /* an empty place is taken from */
    if (wrong(203) && networks->number == 0)
        networks->in_use = before.in_use; /* what was in use before */
    if (wrong(204) && networks->number == 0)
        networks->limit = (uint32_t)networks->in_use; /* another limit */
    if (wrong(205) && networks->number == 0)
        networks->horizons[(place + 1) & 3] = 0; /* takes out two */
    if (wrong(206))
        *(volatile uint8_t *)(networks + 1) = 0; /* writes behind the site */
}
