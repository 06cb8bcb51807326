#include "stored.h"

#include <stdio.h>
#include <stdlib.h>
#include <string.h>

struct stored *cases;
size_t case_count;

static void *demand(void *memory) {
    if (memory == NULL)
        fail("no memory");
    return memory;
}

/* A whole file, with a zero byte behind it. */
static struct bytes read_file(const char *root, const char *path) {
    char full[1024];
    snprintf(full, sizeof full, "%s/%s", root, path);
    trying("reading", full);
    FILE *file = fopen(full, "rb");
    if (file == NULL || fseek(file, 0, SEEK_END) != 0)
        fail("the file cannot be read");
    long size = ftell(file);
    rewind(file);
    struct bytes bytes = {demand(malloc((size_t)size + 1)), (size_t)size};
    if (fread(bytes.at, 1, bytes.length, file) != bytes.length)
        fail("the file cannot be read");
    bytes.at[bytes.length] = 0;
    fclose(file);
    return bytes;
}

static unsigned digit(char c) {
    const char *digits = "0123456789abcdef";
    const char *found = c == 0 ? NULL : strchr(digits, c);
    if (found == NULL)
        fail("no hexadecimal digit");
    return (unsigned)(found - digits);
}

/* The bytes of a hexadecimal text, - for none. */
static struct bytes from_hex(const char *text) {
    size_t length = strcmp(text, "-") == 0 ? 0 : strlen(text) / 2;
    struct bytes bytes = {demand(malloc(length + 1)), length};
    for (size_t i = 0; i < length; i++)
        bytes.at[i] = (uint8_t)(16 * digit(text[2 * i]) + digit(text[2 * i + 1]));
    return bytes;
}

static struct stored *add(char *name, enum call request, char *answer) {
    cases = demand(realloc(cases, (case_count + 1) * sizeof cases[0]));
    struct stored *stored = &cases[case_count++];
    memset(stored, 0, sizeof *stored);
    stored->name = name;
    stored->request = request;
    stored->answer = answer;
    return stored;
}

/* Cuts the text at the next `end` and gives what is behind it. */
static char *cut(char *text, char end) {
    char *at = strchr(text, end);
    if (at == NULL)
        fail("a line is not understood");
    *at = 0;
    return at + 1;
}

/* The four numbers of a plan, then, where it is said, how many bytes are lent. */
static void read_slots(struct stored *stored, const char *words) {
    unsigned long probes, slot, guard, period, lent = MAX_PLAN;
    if (sscanf(words, "%lu %lu %lu %lu %lu", &probes, &slot, &guard, &period, &lent) < 4)
        fail("a plan is not understood");
    struct slots slots = {(uint32_t)probes, (uint32_t)slot, (uint32_t)guard,
                          (uint32_t)period};
    stored->slots = slots;
    stored->lent = lent;
}

/* A spread, then, unless there are none, the offsets with commas between them. */
static void read_waking(struct waking *waking, char *words) {
    waking->spread = (uint32_t)strtoul(words, &words, 10);
    while (*words != 0) {
        if ((*words != ' ' && *words != ',') || waking->count == MAX_OFFSETS)
            fail("offsets are not understood");
        waking->offsets[waking->count++] = (uint32_t)strtoul(words + 1, &words, 10);
    }
}

/* The component and the tick of a question. */
static struct question read_question(const char *words) {
    unsigned long component, tick;
    if (sscanf(words, "%lu %lu", &component, &tick) != 2)
        fail("a question is not understood");
    struct question question = {(uint32_t)component, (uint32_t)tick};
    return question;
}

/* Pairs with commas between them, a colon in each; - for none. */
static struct numbers read_pairs(const char *words) {
    struct numbers pairs = {demand(malloc(MAX_NUMBERS * sizeof(uint32_t))), 0};
    char *at = (char *)words;
    while (*at >= '0' && *at <= '9') {
        if (pairs.length == MAX_NUMBERS)
            fail("there are too many pairs");
        pairs.at[pairs.length++] = (uint32_t)strtoul(at, &at, 10);
        if (*at == ':' || *at == ',')
            at++;
    }
    if (strcmp(words, "-") != 0 && *at != 0)
        fail("pairs are not understood");
    return pairs;
}

/* The work times, the runs and, unless it is the fixed one, the seed. */
static struct experiment read_experiment(const char *words) {
    unsigned long lo, hi, runs, seed = 0;
    int read = sscanf(words, "%lu %lu %lu %lu", &lo, &hi, &runs, &seed);
    if (read < 3)
        fail("a simulation is not understood");
    struct experiment experiment = {(uint32_t)lo, (uint32_t)hi, (uint32_t)runs, (uint32_t)seed,
                                    read == 4};
    return experiment;
}

/* A call of a site: put:PLACE:TABLE or take:PLACE. */
static struct site_call read_call(char *word) {
    struct site_call call = {strncmp(word, "put:", 4) == 0, {NULL, 0}, 0};
    char *place = cut(word, ':');
    if (call.puts)
        call.table = from_hex(cut(place, ':'));
    call.place = (uint8_t)atoi(place);
    return call;
}

/* A site's limit, and its calls. */
static void read_sequence(struct stored *stored, char *words) {
    char *next = strchr(words, ' ');
    stored->limit = (uint32_t)strtoul(words, NULL, 10);
    while (next != NULL) {
        char *word = next + 1;
        next = strchr(word, ' ');
        if (next != NULL)
            *next = 0;
        size_t size = (stored->count + 1) * sizeof stored->calls[0];
        stored->calls = demand(realloc(stored->calls, size));
        stored->calls[stored->count++] = read_call(word);
    }
}

/*
 * The request of a word. A check and a run that say a spread, behind the table
 * and behind the choices, are those at a spread; a simulation that says a seed,
 * its fourth number, is the one from a seed.
 */
static size_t request_of(const char *word, const char *words) {
    static const char *const all[] = {"check",  "schedule", "chart", "plan",
                                      "looked", "program",  "part",  "run"};
    if (strcmp(word, "place") == 0)
        return REFUSAL_PLACE;
    if (strcmp(word, "opening") == 0)
        return REFUSED_OPENING;
    if (strcmp(word, "why") == 0)
        return REASONS;
    if (strcmp(word, "where") == 0)
        return POSITIONS;
    if (strcmp(word, "uppaal") == 0)
        return UPPAAL;
    if (strcmp(word, "period") == 0)
        return PERIOD;
    if (strcmp(word, "long") == 0)
        return RUN_TO;
    if (strcmp(word, "air") == 0)
        return AIRTIME;
    if (strcmp(word, "ledger") == 0)
        return SITE;
    if (strcmp(word, "sim") == 0) {
        int spaces = 0;
        for (const char *at = words; *at != 0; at++)
            spaces += *at == ' ';
        return spaces == 4 ? SIMULATE_FROM : SIMULATE;
    }
    size_t request = 0;
    while (request <= RUN && strcmp(all[request], word) != 0)
        request++;
    if (request > RUN)
        fail("a request is not understood");
    const char *second = strchr(words, ' ');
    if (request == CHECK && second != NULL)
        return CHECK_SPREAD;
    if (request == RUN && second != NULL && strchr(second + 1, ' ') != NULL)
        return RUN_APART;
    return request;
}

/* What stands behind the word of a request. */
static void read_words(struct stored *stored, char *table) {
    size_t request = stored->request;
    if (request == PLAN) {
        read_slots(stored, table);
        return;
    }
    if (request == SITE) {
        read_sequence(stored, table);
        return;
    }
    char *more = strchr(table, ' ') != NULL ? cut(table, ' ') : NULL;
    stored->table = from_hex(table);
    if (request == RUN_APART)
        read_waking(&stored->waking, cut(more, ' '));
    if (request == RUN_TO)
        stored->horizon = (uint32_t)strtoul(cut(more, ' '), NULL, 10);
    if (request == RUN || request == RUN_APART || request == RUN_TO)
        stored->choices = from_hex(more);
    else if (request == CHECK_SPREAD)
        read_waking(&stored->waking, more);
    else if (request == REASONS)
        stored->question = read_question(more);
    else if (request == POSITIONS)
        stored->pairs = read_pairs(more);
    else if (request == SIMULATE || request == SIMULATE_FROM)
        stored->experiment = read_experiment(more);
    else if (request == UPPAAL)
        stored->lent = (size_t)atoi(more) > MAX_TEXT ? MAX_TEXT : (size_t)atoi(more);
    else if (request == PART)
        stored->node = (uint8_t)atoi(more);
    else if (request == TIMING_CHART)
        stored->lent = more != NULL ? (size_t)atoi(more) : MAX_CHART;
}

static void read_vectors(const char *root, const char *path) {
    char *line = (char *)read_file(root, path).at;
    while (*line != 0) {
        char *next = cut(line, '\n');
        char *request = cut(line, '\t');
        char *answer = cut(request, '\t');
        size_t lent = MAX_OBSERVATIONS;
        if (strncmp(request, "explore ", 8) == 0) { /* of the network, no call */
            line = next;
            continue;
        }
        if (strncmp(request, "lent ", 5) == 0) {
            lent = strtoul(request + 5, &request, 10);
            request++;
        }
        char *words = cut(request, ' ');
        struct stored *stored = add(line, (enum call)request_of(request, words), answer);
        size_t most = stored->request == REASONS     ? MAX_TOLD
                      : stored->request == POSITIONS ? MAX_ANSWERED
                                                     : lent;
        stored->lent = lent > most ? most : lent;
        read_words(stored, words);
        line = next;
    }
}

/* The verdicts of a table of the corpus at spreads: a spread and a verdict a line. */
static void read_spreads(const char *root, char *name, struct bytes table) {
    char path[300];
    snprintf(path, sizeof path, "corpus/%s.spread", name);
    char *line = (char *)read_file(root, path).at;
    while (*line != 0) {
        char *next = cut(line, '\n');
        struct stored *stored = add(name, CHECK_SPREAD, cut(line, ' '));
        stored->table = table;
        read_waking(&stored->waking, line);
        line = next;
    }
}

/* Why edges of a table of the corpus are taken: component, tick and the answer a line. */
static void read_questions(const char *root, char *name, struct bytes table) {
    char path[300];
    snprintf(path, sizeof path, "corpus/%s.why", name);
    char *line = (char *)read_file(root, path).at;
    while (*line != 0) {
        char *next = cut(line, '\n');
        char *tick = strchr(line, ' ');
        struct stored *stored = add(name, REASONS, cut(tick + 1, ' '));
        stored->table = table;
        stored->lent = MAX_TOLD;
        stored->question = read_question(line);
        line = next;
    }
}

static int is_there(const char *root, const char *path) {
    char full[1024];
    snprintf(full, sizeof full, "%s/%s", root, path);
    FILE *file = fopen(full, "rb");
    return file != NULL && fclose(file) == 0;
}

/* Runs of a table of the corpus, if it has some: spread, offsets, choices, answer a line. */
static void read_runs(const char *root, char *name, struct bytes table) {
    char path[300], waking[300];
    snprintf(path, sizeof path, "corpus/%s.runs", name);
    if (!is_there(root, path))
        return;
    char *line = (char *)read_file(root, path).at;
    while (*line != 0) {
        char *next = cut(line, '\n');
        char *offsets = cut(line, ' ');
        char *choices = cut(offsets, ' ');
        struct stored *stored = add(name, RUN_APART, cut(choices, ' '));
        stored->table = table;
        stored->lent = MAX_OBSERVATIONS;
        stored->choices = from_hex(choices);
        int none = strcmp(offsets, "-") == 0;
        snprintf(waking, sizeof waking, none ? "%s" : "%s %s", line, offsets);
        read_waking(&stored->waking, waking);
        line = next;
    }
}

/* Where components of a table of the corpus are, if it has pairs: pairs and the answer a line. */
static void read_positions(const char *root, char *name, struct bytes table) {
    char path[300];
    snprintf(path, sizeof path, "corpus/%s.where", name);
    if (!is_there(root, path))
        return;
    char *line = (char *)read_file(root, path).at;
    while (*line != 0) {
        char *next = cut(line, '\n');
        struct stored *stored = add(name, POSITIONS, cut(line, ' '));
        stored->table = table;
        stored->lent = MAX_ANSWERED;
        stored->pairs = read_pairs(line);
        line = next;
    }
}

/*
 * From when to when everything of a table of the corpus comes again, if it is told: the
 * pair or none, then runs: horizon, choices and the answer a line.
 */
static void read_periods(const char *root, char *name, struct bytes table) {
    char path[300];
    snprintf(path, sizeof path, "corpus/%s.period", name);
    if (!is_there(root, path))
        return;
    char *line = (char *)read_file(root, path).at;
    char *next = cut(line, '\n');
    add(name, PERIOD, line)->table = table;
    for (line = next; *line != 0; line = next) {
        next = cut(line, '\n');
        char *choices = cut(line, ' ');
        struct stored *stored = add(name, RUN_TO, cut(choices, ' '));
        stored->table = table;
        stored->lent = MAX_OBSERVATIONS;
        stored->choices = from_hex(choices);
        stored->horizon = (uint32_t)strtoul(line, NULL, 10);
    }
}

/* Where tables of the corpus are refused: a name, and a place or an opening, a line. */
static void read_places(const char *root) {
    char *line = (char *)read_file(root, "corpus/places.tsv").at;
    while (*line != 0) {
        char *next = cut(line, '\n');
        char *answer = cut(line, '\t');
        char path[300];
        snprintf(path, sizeof path, "corpus/%s.bin", line);
        enum call request = *answer <= '6' ? REFUSAL_PLACE : REFUSED_OPENING;
        add(line, request, answer)->table = read_file(root, path);
        line = next;
    }
}

/* A table of the corpus: its verdict, and if accepted its schedule, reasons, runs, positions and pair. */
static void read_corpus(const char *root) {
    char *line = (char *)read_file(root, "corpus/answers.tsv").at;
    while (*line != 0) {
        char *next = cut(line, '\n');
        char *answer = cut(line, '\t');
        char path[300];
        snprintf(path, sizeof path, "corpus/%s.bin", line);
        struct bytes table = read_file(root, path);
        add(line, CHECK, answer)->table = table;
        if (strncmp(line, "spread_", 7) == 0)
            read_spreads(root, line, table);
        if (strcmp(answer, "accepted") == 0) {
            snprintf(path, sizeof path, "corpus/%s.schedule", line);
            struct bytes text = read_file(root, path);
            for (size_t i = 0; i < text.length; i++)
                if (text.at[i] == '\n')
                    text.at[i] = i + 1 < text.length ? '|' : 0;
            add(line, SCHEDULE, (char *)text.at)->table = table;
            read_questions(root, line, table);
            read_runs(root, line, table);
            read_positions(root, line, table);
            read_periods(root, line, table);
        }
        line = next;
    }
}

void stored_read(const char *root) {
    read_vectors(root, "vectors/named.tsv");
    read_vectors(root, "vectors/random.tsv");
    read_vectors(root, "vectors/chart.tsv");
    read_vectors(root, "vectors/bands.tsv");
    read_vectors(root, "vectors/hearings.tsv");
    read_vectors(root, "vectors/plan.tsv");
    read_vectors(root, "vectors/edge_choice.tsv");
    read_vectors(root, "vectors/apart.tsv");
    read_vectors(root, "vectors/reasons.tsv");
    read_vectors(root, "vectors/budgets.tsv");
    read_vectors(root, "vectors/finishes.tsv");
    read_vectors(root, "vectors/simulations.tsv");
    read_vectors(root, "vectors/positions.tsv");
    read_vectors(root, "vectors/uppaal.tsv");
    read_vectors(root, "vectors/sites.tsv");
    read_vectors(root, "vectors/periods.tsv");
    read_vectors(root, "vectors/places.tsv");
    read_corpus(root);
    read_places(root);
}
