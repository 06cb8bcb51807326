/*
 * The words of libtimed_network_words.a, tried from C: `words <requests`, a line
 * a request (words.h). The table, the choices and the text stand next to memory
 * without access. A text that is lent nothing, or one byte too few, is answered
 * with 13 and its size, and no byte is written; with its size and with more
 * bytes the same text is written and none behind it. It must be the one
 * expected, where there is one.
 */
#include "words.h"

#include <stdio.h>
#include <stdlib.h>
#include <string.h>

#include "place.h"

enum { MOST = 1 << 18, MORE = 4099 };

/* The call with so many bytes lent there: what it answers, and the text if there is one. */
static answer lent(const struct asked *asked, struct place *place, enum where where, size_t room,
                   uint8_t *text) {
    answer found = words_called(asked, place_output(place, where, room), room);
    if (found.number != 0 && found.number != 13)
        fail("neither 0 nor 13");
    place_output_done(place, found.number == 0 ? found.size : 0, text);
    return found;
}

/* The text of a request in `text`, behind all trials, and how many bytes it has. */
static size_t tried(const struct asked *asked, struct place *place, uint8_t *text) {
    static uint8_t again[MOST];
    answer none = lent(asked, place, AT_START, 0, text);
    if (none.number != 13 || none.size == 0 || none.size > MOST)
        fail("not 13 for nothing lent");
    answer few = lent(asked, place, AT_END, none.size - 1, text);
    if (few.number != 13 || few.size != none.size)
        fail("not 13 for a byte too few");
    answer exact = lent(asked, place, AT_END, none.size, text);
    if (exact.number != 0 || exact.size != none.size)
        fail("not 0 for its size");
    if (text[none.size - 1] != '\n' || memchr(text, 0, none.size) != NULL)
        fail("no line feed at its end, or a zero byte");
    answer more = lent(asked, place, AT_START, none.size + MORE, again);
    if (more.number != 0 || more.size != none.size || memcmp(again, text, none.size) != 0)
        fail("another text with more bytes");
    return none.size;
}

/* Holds a text to the file with the expected one. */
static void hold(const char *path, const uint8_t *text, size_t size) {
    if (strcmp(path, "-") == 0)
        return;
    struct file expected = words_file(path);
    if (expected.length != size || memcmp(expected.bytes, text, size) != 0)
        fail("another text than the program's");
    free(expected.bytes);
}

int main(void) {
    static uint8_t text[MOST];
    char line[1000];
    size_t count = 0;
    random_start(1);
    catch_faults();
    struct place table = place_new(FILE_MOST), choices = place_new(FILE_MOST),
                 out = place_new(MOST + MORE);
    for (; fgets(line, sizeof line, stdin) != NULL; count++) {
        struct asked asked = words_asked(line);
        enum where where = count % 2 == 0 ? AT_END : AT_START;
        asked.lent_table = place_input(&table, where, asked.table.bytes, asked.table.length);
        asked.lent_choices =
            place_input(&choices, where, asked.choices.bytes, asked.choices.length);
        hold(asked.expected, text, tried(&asked, &out, text));
        place_input_done(&table, asked.table.bytes);
        place_input_done(&choices, asked.choices.bytes);
        words_done(&asked);
    }
    printf("%zu texts\n", count);
    return count == 0;
}
