/* Airtimes and sites of four places. */
#ifndef SITE_H
#define SITE_H

#include "calls.h"

void site_start(void);

/* Each call, with the table and the site at the place named. */
timed_network_airtime_numbers guarded_airtime(enum where where, struct bytes table);
timed_network_networks guarded_site(uint32_t limit);
void guarded_site_put(enum where where, timed_network_networks *site, struct bytes table,
                      uint8_t place);
void guarded_site_take(enum where where, timed_network_networks *site, uint8_t place);

/*
 * A few calls of a new site, with this table and stored ones, against a list of what was
 * put in; then of a struct of random bytes.
 */
void sites_random(enum where where, struct bytes table);

#endif
