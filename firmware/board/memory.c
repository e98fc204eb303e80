/* The functions that a compiler for Arm takes for granted: copies and fills of bytes, by their C names and by those of Arm's run-time ABI, and, for a core without
 * such instructions, quotients, and products and shifts of 64 bits. A firmware with a C library has them there. Compiled with -fno-builtin, so that no loop here becomes a call of
 * itself. */
#include <stdbool.h>
#include <stdint.h>
#include <string.h>

void *memmove(void *to, const void *from, size_t number) {
    uint8_t *t = to;
    const uint8_t *f = from;
    if ((uintptr_t)t - (uintptr_t)f >= number)
        return memcpy(to, from, number);
    while (number-- > 0)
        t[number] = f[number];
    return to;
}

void *memcpy(void *to, const void *from, size_t number) {
    uint8_t *t = to;
    const uint8_t *f = from;
    for (; (((uintptr_t)t | (uintptr_t)f) & 3) == 0 && number >= 4; t += 4, f += 4, number -= 4)
        *(uint32_t *)(void *)t = *(const uint32_t *)(const void *)f;
    while (number-- > 0)
        *t++ = *f++;
    return to;
}

void *memset(void *to, int value, size_t number) {
    uint8_t *t = to;
    while (number-- > 0)
        *t++ = (uint8_t)value;
    return to;
}

/* Arm's names; a 4 or an 8 behind one promises that much alignment, which is not made use of. The fill has its number before its value. */
#define AS(name, of) __attribute__((alias(#of))) void *name(void *, const void *, size_t);
AS(__aeabi_memcpy, memcpy) AS(__aeabi_memcpy4, memcpy) AS(__aeabi_memcpy8, memcpy)
AS(__aeabi_memmove, memmove) AS(__aeabi_memmove4, memmove) AS(__aeabi_memmove8, memmove)

void __aeabi_memset(void *to, size_t number, int value) {
    memset(to, value, number);
}
void __aeabi_memclr(void *to, size_t number) {
    memset(to, 0, number);
}
#define FILL(name, of, ...) __attribute__((alias(#of))) void name(void *, size_t __VA_ARGS__);
FILL(__aeabi_memset4, __aeabi_memset, , int) FILL(__aeabi_memset8, __aeabi_memset, , int)
FILL(__aeabi_memclr4, __aeabi_memclr) FILL(__aeabi_memclr8, __aeabi_memclr)

#ifdef __ARM_ARCH_6M__

/* By halves of 32 bits, so that the compiler makes no call of the same function of it. */
union halves {
    uint64_t whole;
    struct {
        uint32_t low, high;
    } half;
};

uint64_t __aeabi_llsl(uint64_t value, int places) {
    union halves v = {.whole = value};
    if (places == 0)
        return value;
    if (places >= 32)
        return (union halves){.half = {0, v.half.low << (places - 32)}}.whole;
    return (union halves){.half = {v.half.low << places, v.half.high << places | v.half.low >> (32 - places)}}.whole;
}

uint64_t __aeabi_llsr(uint64_t value, int places) {
    union halves v = {.whole = value};
    if (places == 0)
        return value;
    if (places >= 32)
        return (union halves){.half = {v.half.high >> (places - 32), 0}}.whole;
    return (union halves){.half = {v.half.low >> places | v.half.high << (32 - places), v.half.high >> places}}.whole;
}

/* The full product of two numbers of 32 bits, by halves of 16. */
static uint64_t product(uint32_t a, uint32_t b) {
    uint32_t low = (a & 0xFFFF) * (b & 0xFFFF), cross = (a >> 16) * (b & 0xFFFF), other = (a & 0xFFFF) * (b >> 16), high = (a >> 16) * (b >> 16);
    uint32_t middle = (low >> 16) + (cross & 0xFFFF) + (other & 0xFFFF);
    return (union halves){.half = {middle << 16 | (low & 0xFFFF), high + (cross >> 16) + (other >> 16) + (middle >> 16)}}.whole;
}

uint64_t __aeabi_lmul(uint64_t a, uint64_t b) {
    union halves x = {.whole = a}, y = {.whole = b}, p = {.whole = product(x.half.low, y.half.low)};
    p.half.high += x.half.high * y.half.low + x.half.low * y.half.high;
    return p.whole;
}

/* The quotient, and above it the rest: they come back in r0 and r1. */
uint64_t __aeabi_uidivmod(uint32_t number, uint32_t by) {
    uint32_t quotient = 0, rest = 0;
    for (int bit = 31; bit >= 0; bit--) {
        bool carry = rest >> 31 != 0;
        rest = rest << 1 | (number >> bit & 1);
        if (carry || rest >= by) {
            rest -= by;
            quotient |= 1u << bit;
        }
    }
    return (union halves){.half = {quotient, rest}}.whole;
}

uint32_t __aeabi_uidiv(uint32_t number, uint32_t by) {
    return (uint32_t)__aeabi_uidivmod(number, by);
}

#endif
