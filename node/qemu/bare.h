/* A bare Cortex-M under qemu: what is written goes out by semihosting. */
#ifndef BARE_H
#define BARE_H

#include <stdint.h>

/* The firmware's own: after reset, with data and bss made. */
int main(void);

/* Called by the interrupt of SysTick. */
void systick(void);

void print(const char *text);
void print_hex(uint32_t number, int digits);
void end(void);

/* Fills the stack below the caller, and how many bytes of it were used since, counted from the caller. */
void paint(void);
uint32_t deepest(void);

#endif
