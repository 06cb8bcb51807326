/*
 * What compilers call for copies, for a firmware without a C library. Left out
 * where there is one. Freestanding: -ffreestanding, so that no loop here becomes
 * a call of itself.
 */
#include <stddef.h>
#include <stdint.h>

#if defined __GNUC__ && !defined __clang__
#pragma GCC optimize("no-tree-loop-distribute-patterns")
#endif

#ifdef __GNUC__
typedef uint32_t __attribute__((may_alias)) word;
#define ONCE __attribute__((noinline)) /* or each name of ARM below would be a copy of it */
#else
#define ONCE
#endif

ONCE void *memcpy(void *to, const void *from, size_t n);
ONCE void *memset(void *to, int value, size_t n);

void *memcpy(void *to, const void *from, size_t n) {
    uint8_t *a = (uint8_t *)to;
    const uint8_t *b = (const uint8_t *)from;
#ifdef __GNUC__
    if ((((uintptr_t)a | (uintptr_t)b) & 3u) == 0)
        for (; n >= 4; n -= 4, a += 4, b += 4)
            *(word *)(void *)a = *(const word *)(const void *)b;
#endif
    for (; n > 0; n--)
        *a++ = *b++;
    return to;
}

void *memset(void *to, int value, size_t n) {
    uint8_t *a = (uint8_t *)to;
    for (; n > 0; n--)
        *a++ = (uint8_t)value;
    return to;
}

#ifdef __ARM_EABI__
void __aeabi_memcpy(void *to, const void *from, size_t n);
void __aeabi_memcpy4(void *to, const void *from, size_t n);
void __aeabi_memcpy8(void *to, const void *from, size_t n);
void __aeabi_memclr(void *to, size_t n);
void __aeabi_memclr4(void *to, size_t n);
void __aeabi_memclr8(void *to, size_t n);

void __aeabi_memcpy(void *to, const void *from, size_t n) { memcpy(to, from, n); }
void __aeabi_memcpy4(void *to, const void *from, size_t n) { memcpy(to, from, n); }
void __aeabi_memcpy8(void *to, const void *from, size_t n) { memcpy(to, from, n); }
void __aeabi_memclr(void *to, size_t n) { memset(to, 0, n); }
void __aeabi_memclr4(void *to, size_t n) { memset(to, 0, n); }
void __aeabi_memclr8(void *to, size_t n) { memset(to, 0, n); }
#endif
