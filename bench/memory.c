/* memcpy, memmove, memset and memcmp as a small C library has them: a word of four bytes at a time, then the bytes that are left. bench/shape links them in
 * place of the machine's own, which choose their instructions by the processor: so its counts are the same everywhere, and no copy is cheaper than a
 * microcontroller could make it. */
#include <stddef.h>
#include <stdint.h>

void *memcpy(void *restrict to, const void *restrict from, size_t n);
void *memmove(void *to, const void *from, size_t n);
void *memset(void *to, int byte, size_t n);
int memcmp(const void *a, const void *b, size_t n);

/* A word that may stand anywhere and may be part of anything. */
typedef uint32_t word __attribute__((may_alias, aligned(1)));

/* In a loop it keeps the compiler from making a call of memcpy or memset of it, which would be this one. */
#define KEPT __asm__ volatile("")

static void forwards(uint8_t *to, const uint8_t *from, size_t n)
{
    for (; 4 <= n; n -= 4, to += 4, from += 4) {
        *(word *)to = *(const word *)from;
        KEPT;
    }
    for (; 0 < n; n--) {
        *to++ = *from++;
        KEPT;
    }
}

void *memcpy(void *restrict to, const void *restrict from, size_t n)
{
    forwards((uint8_t *)to, (const uint8_t *)from, n);
    return to;
}

void *memmove(void *to, const void *from, size_t n)
{
    uint8_t *t = (uint8_t *)to + n;
    const uint8_t *f = (const uint8_t *)from + n;
    if ((uintptr_t)to <= (uintptr_t)from) {
        forwards((uint8_t *)to, (const uint8_t *)from, n);
        return to;
    }
    for (; 4 <= n; n -= 4) {
        t -= 4;
        f -= 4;
        *(word *)t = *(const word *)f;
        KEPT;
    }
    for (; 0 < n; n--) {
        *--t = *--f;
        KEPT;
    }
    return to;
}

void *memset(void *to, int byte, size_t n)
{
    uint8_t *t = (uint8_t *)to;
    uint32_t four = (uint8_t)byte * 0x01010101u;
    for (; 4 <= n; n -= 4, t += 4) {
        *(word *)t = four;
        KEPT;
    }
    for (; 0 < n; n--) {
        *t++ = (uint8_t)byte;
        KEPT;
    }
    return to;
}

int memcmp(const void *a, const void *b, size_t n)
{
    const uint8_t *p = (const uint8_t *)a, *q = (const uint8_t *)b;
    for (; 4 <= n && *(const word *)p == *(const word *)q; n -= 4) {
        p += 4;
        q += 4;
    }
    for (; 0 < n && *p == *q; n--) {
        p++;
        q++;
    }
    return n == 0 ? 0 : *p - *q;
}
