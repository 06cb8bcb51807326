/*
 * A board: the emulated mps2-an385 (Cortex-M3 of 25 MHz). The clock is a timer
 * that runs freely, the radio a serial line, reports go out by semihosting.
 */
#include "bare.h"
#include "board.h"

#define SYSTICK ((volatile uint32_t *)0xE000E010)
#define TIMER ((volatile uint32_t *)0x40000000)
#define SERIAL ((volatile uint32_t *)0x40004000)
enum { DATA = 0, STATE = 1, CONTROL = 2, PACE = 4, FULL = 1, THERE = 2, MILLISECOND = 25000, TICK = 100 * MILLISECOND };

/* Wakes the processor each millisecond, no more. */
void systick(void) {}

/* The nodes start together: whoever loads them sees to that. Here each says a byte until it has one from the other. */
void board_start(void) {
    SERIAL[PACE] = 16;
    SERIAL[CONTROL] = 3;
    SYSTICK[1] = MILLISECOND - 1;
    SYSTICK[2] = 0;
    SYSTICK[0] = 7;
    do {
        if ((SERIAL[STATE] & FULL) == 0)
            SERIAL[DATA] = 'g';
        board_wait();
    } while ((SERIAL[STATE] & THERE) == 0);
    while ((SERIAL[STATE] & FULL) != 0)
        board_wait();
    SERIAL[DATA] = 'g';
    (void)SERIAL[DATA];
    TIMER[2] = 0xffffffffu;
    TIMER[1] = 0xffffffffu;
    TIMER[0] = 1;
}

/* The timer counts down. Right for 171 s; a product takes a wider counter. */
uint32_t board_tick(void) { return (0xffffffffu - TIMER[1]) / TICK; }

void board_wait(void) { __asm__ volatile("wfi"); }

void board_report(const uint8_t observation[36]) {
    static char line[74];
    int i;
    for (i = 0; i < 72; i++)
        line[i] = "0123456789abcdef"[observation[i / 2] >> (i % 2 != 0 ? 0 : 4) & 15];
    line[72] = '\n';
    print(line);
}

void board_stop(enum timed_node_answer answer, const timed_node *node) {
    print("answer ");
    print_hex((uint32_t)answer, 1);
    print(" at byte ");
    print_hex((uint32_t)timed_node_place(node), 4);
    print("\n");
    end();
}

/* What came while the radio was off was not heard. */
void radio_on(uint16_t channels) {
    (void)channels;
    while ((SERIAL[STATE] & THERE) != 0)
        (void)SERIAL[DATA];
}

void radio_off(void) {}

int radio_heard(void) { return (SERIAL[STATE] & THERE) != 0 ? (int)(SERIAL[DATA] & 255u) : -1; }

void radio_send(uint16_t channel) {
    uint8_t c = 0;
    while ((channel >> c & 1) == 0)
        c++;
    while ((SERIAL[STATE] & FULL) != 0)
        board_wait();
    SERIAL[DATA] = c;
}

void application_work(uint8_t edge) { (void)edge; }
