#include <string.h>

#include "wrong.h"

CALL(uppaal);

/* The first place of a word in a text, or the end. */
static uint8_t *find(uint8_t *text, size_t size, const char *word) {
    size_t length = strlen(word);
    for (size_t i = 0; i + length <= size; i++)
        if (memcmp(text + i, word, length) == 0)
            return text + i;
    return text + size;
}

/* Puts another sign in the place of the first of a word's, if it is there. */
static void spoil(uint8_t *text, size_t size, const char *word, uint8_t sign) {
    uint8_t *at = find(text, size, word);
    if (at < text + size)
        *at = sign;
}

/* What is wrong with a text that is written. */
static void change(uint8_t *text, size_t size) {
    if (wrong(161))
        spoil(text, size, "process P", ' '); /* a process less */
    if (wrong(162))
        spoil(text, size, "\nsystem", ' '); /* the last line is not one of its own */
    if (wrong(163))
        text[size - 1] = 0; /* a zero byte in the place of the last line feed */
    if (wrong(164))
        text[size - 2] = ','; /* the system line goes on */
    if (wrong(165))
        text[0] = '\t'; /* does not begin with the channels */
    if (wrong(166))
        spoil(text, size, "!;", '?'); /* a send is a receive */
    if (wrong(167))
        spoil(text, size, "clock ", 'b'); /* no clocks */
}

timed_network_call_numbers __wrap_timed_network_uppaal(const uint8_t *table, size_t length,
                                                       uint8_t *text, size_t text_length) {
    timed_network_call_numbers answer =
        __real_timed_network_uppaal(table, length, text, text_length);
    if (wrong(168))
        touch(table + length); /* reads the byte behind the table */
    if (wrong(169) && length > 0)
        touch(table - 1); /* reads the byte before it */
    if (wrong(170) && length > 0)
        *(volatile uint8_t *)table = *table; /* writes to it, the same byte */
    if (wrong(171) && answer.number == 0 && answer.size < text_length)
        text[answer.size] = (uint8_t)~text[answer.size]; /* writes past the text */
    if (wrong(172) && answer.number == 13 && text_length > 0)
        text[0] = (uint8_t)~text[0]; /* writes where too little is lent */
    if (wrong(173) && answer.number == 25 && text_length == 0)
        answer.number = 13; /* 13 before 25 */
    if (wrong(174) && answer.number == 25)
        answer.component = 0; /* names a component with refusal 25 */
    if (wrong(175) && answer.number == 25)
        answer.number = 5; /* another number for budgets */
    if (wrong(176) && answer.number == 13)
        answer.size = 1; /* a size after a refusal */
    if (wrong(177) && answer.number == 0 && text_length == answer.size) {
        answer.number = 13; /* refuses exactly as many bytes as are needed */
        answer.size = 0;
    }
    if (wrong(178) && answer.number == 0)
        answer.size -= 1; /* the last line feed is not counted */
    if (answer.number == 0)
        change(text, answer.size);
    return answer;
}
