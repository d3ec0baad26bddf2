/*
 * bare.c - the walk as a Linux program without a C library, so that the kit's
 * compiler and linker alone make it for every machine.  CALLS and SEED are given
 * by the compiler's words.
 */
#include "bare.h"
#include "walk.h"

void *memcpy(void *to, const void *from, __SIZE_TYPE__ n);
void *memcpy(void *to, const void *from, __SIZE_TYPE__ n)
{
    volatile uint8_t *p = to;
    const uint8_t *q = from;
    while (n--) *p++ = *q++;
    return to;
}

/* Some machines' compilers copy a large value with memmove. */
void *memmove(void *to, const void *from, __SIZE_TYPE__ n);
void *memmove(void *to, const void *from, __SIZE_TYPE__ n)
{
    volatile uint8_t *p = to;
    const uint8_t *q = from;
    if ((const uint8_t *)to <= q) return memcpy(to, from, n);
    while (n--) p[n] = q[n];
    return to;
}

#if defined(__i386__)
/* A machine of 32 bits divides 64-bit numbers by a function of the compiler's own library. */
static uint64_t divide(uint64_t a, uint64_t b, uint64_t *rest)
{
    uint64_t q = 0, r = 0;
    for (int i = 63; i >= 0; i--) {
        r = r << 1 | (a >> i & 1);
        if (r >= b) {
            r -= b;
            q |= (uint64_t)1 << i;
        }
    }
    *rest = r;
    return q;
}

uint64_t __udivdi3(uint64_t a, uint64_t b)
{
    uint64_t rest;
    return divide(a, b, &rest);
}

uint64_t __umoddi3(uint64_t a, uint64_t b)
{
    uint64_t rest;
    divide(a, b, &rest);
    return rest;
}
#endif

__attribute__((used)) void begin(void)
{
    static char line[17];
    uint64_t h;
    walk_begin(SEED);
    h = walk_to(CALLS);
    for (int i = 15; i >= 0; i--, h >>= 4) line[i] = "0123456789abcdef"[h & 15];
    line[16] = '\n';
    print(line, 17);
    end(0);
}
