/*
 * SPDX-License-Identifier: BSL-1.0
 *
 * Timed cellar networks: the numbers of answers in words.
 *
 * For programs that print them. Nothing is linked: the words come into a
 * program with the calls of this header, and the library has none. They are
 * those of the proved texts (crates/refusal_text/specs/RefusalText.antt,
 * crates/run_text/specs/RunText.antt), to which a test holds every one of them.
 *
 * Each call returns words that are never changed and never freed, in ASCII,
 * without a line feed.
 */
#ifndef TIMED_NETWORK_TEXT_H
#define TIMED_NETWORK_TEXT_H

/*
 * The question to which a refusal is the answer no: "Is the first byte 1, 2 or
 * 3?" for 1. The component that is concerned is not told; docs/REFUSALS.md has
 * what to look at.
 *
 * number: the number of an answer, 1 to 29. For 0, which is no refusal, and
 *         for any other it is "Does a question have this number?".
 */
static inline const char *timed_network_refusal_text(unsigned int number) {
    static const char *const questions[] = {
        "Does a question have this number?",
        "Is the first byte 1, 2 or 3?",
        "Is the stated length the length handed in, from 7 to 8,192?",
        "Are components, channels, horizon and bands in range?",
        "Does each part fit its component and end exactly there?",
        "Is every number in its range and every mask bit a clock?",
        "Does no receive edge list a channel twice?",
        "Are there at most 1,024 passages up to the horizon?",
        "Is there an edge with a window of a tick's length, no shorter than its budget?",
        "Does each update of the edge taken stay in range?",
        "Do no two send windows of different components on one band share a tick?",
        "Does a receive window on its channel share a tick with the send window?",
        "Does no receive window share a tick with two sends on its channels?",
        "Does the lent buffer hold the result?",
        "Are there at most 1,000,000 choices?",
        "Does only one receive window on its channel share a tick with the send?",
        "Does the one receive window that meets the send start earlier than it?",
        "Does the one receive window that meets the send end later than it?",
        "Are the numbers in range and probes x (slot + 2 x guard) below the period?",
        "Is the spread at most 1,000 ticks?",
        "Is no offset above the spread?",
        "Is the component there and the tick below the horizon?",
        "Is the seed at least 1?",
        "Is lo at most hi, hi at most 60,000, and are the runs 1 to 10,000?",
        "Is no tick below that of the pair before it?",
        "Are all budgets 0?",
        "Is it a place 0 to 3, empty when putting, filled when taking?",
        "Is the horizon that of the networks present?",
        "Is the airtime in use with this network at most the limit?",
        "Is the horizon at least 1, and at most the table's unless all comes again?"};
    return questions[number < sizeof questions / sizeof questions[0] ? number : 0];
}

/*
 * How a run ended: "horizon reached" for 0. The node that is late and the
 * choice that is not allowed are not told.
 *
 * end: the end of a run, 0 to 3. For any other it is "no end has this number".
 */
static inline const char *timed_network_end_text(unsigned int end) {
    static const char *const ends[] = {"horizon reached", "choices used up", "late",
                                       "choice not allowed", "no end has this number"};
    return ends[end < 4 ? end : 4];
}

#endif
