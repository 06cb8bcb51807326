/*
 * The words of refusals, a line for each number handed in: `words 4 16`. Those
 * of the ends of runs: `words end 0 2`. Nothing of the library is linked. C99
 * and later, C++98 and later.
 */
#include "timed_network_text.h"

#include <stdio.h>
#include <stdlib.h>
#include <string.h>

int main(int count, char **words) {
    int of_ends = count > 1 && strcmp(words[1], "end") == 0;
    int i;
    for (i = 1 + of_ends; i < count; i++) {
        unsigned int number = (unsigned int)strtoul(words[i], NULL, 10);
        puts(of_ends ? timed_network_end_text(number) : timed_network_refusal_text(number));
    }
    return fflush(stdout) == 0 && !ferror(stdout) ? 0 : 1;
}
