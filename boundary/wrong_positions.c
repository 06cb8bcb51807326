#include <string.h>

#include "wrong.h"

CALL(positions);

/* The pairs with a change, for a call that may not write to them. */
static uint32_t changed[4096];

/* What is wrong with the pairs before they are handed on; else they are as they stand. */
static const uint32_t *change(const uint32_t *pairs, size_t *length) {
    size_t handed = *length;
    if (handed == 0 || handed >= 4095)
        return pairs;
    memcpy(changed, pairs, handed * sizeof pairs[0]);
    for (size_t i = 0; i + 1 < *length; i += 2) {
        if (wrong(142))
            changed[i] = (uint8_t)changed[i]; /* cuts the component to 8 bits */
        if (wrong(143))
            changed[i + 1] = (uint16_t)changed[i + 1]; /* cuts the tick to 16 bits */
        if (wrong(144) && i > 0 && changed[i + 1] < changed[i - 1])
            changed[i + 1] = changed[i - 1]; /* takes a tick that falls for the one before */
    }
    if (wrong(145) && *length % 2 == 1)
        changed[(*length)++] = 0; /* takes a number left over for a component at tick 0 */
    int same = *length == handed && memcmp(changed, pairs, handed * sizeof pairs[0]) == 0;
    return same ? pairs : changed;
}

/* What is wrong with the answers. */
static void spoil(uint8_t *answers, size_t count) {
    for (size_t i = 0; i < count; i++) {
        uint8_t *answer = answers + 3 * i, first = answer[0];
        if (wrong(146))
            answer[0] = answer[1], answer[1] = first; /* the low byte first */
        if (wrong(147))
            answer[2] ^= 1; /* the window for the time before it */
        if (wrong(148) && (answer[0] | answer[1]) != 0)
            answer[1] -= 1; /* the passage before it in the schedule */
    }
}

timed_network_position_numbers
__wrap_timed_network_positions(const uint8_t *table, size_t length, const uint32_t *pairs,
                               size_t pairs_length, uint8_t *answers, size_t answers_length) {
    size_t count = pairs_length / 2, handed = pairs_length;
    const uint32_t *asked = change(pairs, &handed);
    timed_network_position_numbers answer = __real_timed_network_positions(
        table, length, asked, handed, answers, answers_length);
    if (wrong(149))
        touch(table + length); /* reads the byte behind the table */
    if (wrong(150))
        touch((const uint8_t *)(pairs + pairs_length)); /* reads the number behind the pairs */
    if (wrong(151) && pairs_length > 0)
        touch((const uint8_t *)pairs - 1); /* reads the byte before them */
    if (wrong(152) && pairs_length > 0)
        *(volatile uint32_t *)pairs = *pairs; /* writes to them, the same number */
    if (answer.number == 0)
        spoil(answers, count);
    if (wrong(153) && answer.number == 0 && 3 * count < answers_length)
        answers[3 * count] = 0; /* writes past the result */
    if (wrong(154) && answer.number != 0 && answers_length > 0)
        answers[0] = 1; /* writes after a refusal */
    if (wrong(155) && answer.number > 20 && answers_length < 3 * count)
        answer.number = 13; /* 13 before 21 and 24 */
    if (wrong(156) && answer.number > 20)
        answer.component = 0; /* names a component with refusals 21 and 24 */
    if (wrong(157) && answer.number == 0 && count > 0)
        answer.read += 1; /* reads one passage more */
    if (wrong(158) && answer.number == 0 && count == 0)
        answer.read = 1; /* reads one where nothing is asked */
    if (wrong(159) && answer.number == 0 && answers_length == 3 * count && count > 0) {
        answer.number = 13; /* refuses exactly as many bytes as are needed */
        answer.read = 0;
    }
    if (wrong(160) && answer.number == 24)
        answer.number = 21; /* one refusal for both faults of a pair */
    return answer;
}
