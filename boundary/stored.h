/* The cases of vectors/ and corpus/, with their answers. */
#ifndef STORED_H
#define STORED_H

#include "calls.h"

/* A call of a site in a stored sequence. */
struct site_call {
    int puts;
    struct bytes table; /* where it puts one in */
    uint8_t place;
};

struct stored {
    char *name;
    enum call request;            /* CHECK to SITE */
    struct bytes table;           /* for PART the program */
    size_t lent;                  /* for TIMING_CHART, PLAN, RUN, RUN_APART, REASONS, POSITIONS, UPPAAL, RUN_TO */
    struct slots slots;           /* for PLAN, which has no table */
    struct bytes choices;         /* for RUN, RUN_APART and RUN_TO */
    uint32_t horizon;             /* for RUN_TO */
    struct waking waking;         /* for RUN_APART; for CHECK_SPREAD the spread */
    struct question question;     /* for REASONS */
    struct numbers pairs;         /* for POSITIONS */
    struct experiment experiment; /* for SIMULATE and SIMULATE_FROM */
    uint8_t node;                 /* for PART */
    uint32_t limit;               /* for SITE, which has no table */
    struct site_call *calls;      /* for SITE */
    size_t count;                 /* of them */
    char *answer;
};

extern struct stored *cases;
extern size_t case_count;

/* Reads all cases; `root` is the folder of the repository. */
void stored_read(const char *root);

/* Makes the request at this place and holds it to the answer. */
void stored_try(const struct stored *stored, enum where where);

#endif
