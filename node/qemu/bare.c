/* Vectors, reset and semihosting of a bare Cortex-M. A fault is told, and ends. */
#include "bare.h"

extern uint32_t stack_top, data_start, data_end, data_load, bss_start, bss_end;
void reset(void);

enum { WRITE = 4, EXIT = 0x18, WELL = 0x20026, PAINT = (int)0xa5a5a5a5 };

static int semihost(int op, const void *argument) {
    register int r0 __asm__("r0") = op;
    register const void *r1 __asm__("r1") = argument;
    __asm__ volatile("bkpt 0xab" : "+r"(r0) : "r"(r1) : "memory");
    return r0;
}

void print(const char *text) { semihost(WRITE, text); }

void end(void) {
    semihost(EXIT, (const void *)WELL);
    for (;;) {
    }
}

static void fault(void) {
    print("FAULT\n");
    end();
}

void print_hex(uint32_t number, int digits) {
    char text[9];
    text[digits] = 0;
    for (; digits > 0; number >>= 4)
        text[--digits] = "0123456789abcdef"[number & 15];
    print(text);
}

__attribute__((section(".vectors"), used)) static void (*const vectors[16])(void) = {
    (void (*)(void))&stack_top, reset, fault, fault, fault, fault, fault, fault, fault, fault, fault, fault, fault, fault, fault, systick};

void reset(void) {
    const uint32_t *from = &data_load;
    uint32_t *to;
    for (to = &data_start; to < &data_end;)
        *to++ = *from++;
    for (to = &bss_start; to < &bss_end;)
        *to++ = 0;
    main();
    end();
}

static volatile uint32_t *stack_pointer(void) {
    volatile uint32_t *sp;
    __asm__ volatile("mov %0, sp" : "=r"(sp));
    return sp;
}

void paint(void) {
    volatile uint32_t *p, *sp = stack_pointer();
    for (p = &bss_end; p < sp; p++)
        *p = (uint32_t)PAINT;
}

uint32_t deepest(void) {
    volatile uint32_t *p = &bss_end, *sp = stack_pointer();
    while (p < sp && *p == (uint32_t)PAINT)
        p++;
    return (uint32_t)((uintptr_t)sp - (uintptr_t)p);
}
