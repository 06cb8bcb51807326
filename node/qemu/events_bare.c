/* The proved calls on a bare Cortex-M. */
#include "bare.h"
#include "events.h"
#include "parts.h"

void systick(void) {}

static void told(uint32_t number) {
    print_hex(number, 8);
    print("\n");
}

int main(void) {
    unsigned i;
    for (i = 0; i < NODES; i++)
        try_part(parts[i].part, parts[i].length, told);
    tell_counts(told);
    return 0;
}
