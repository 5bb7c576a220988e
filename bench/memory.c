/*
 * memory.c: memcpy, memmove and memset for both sides. The C library picks its own by the processor it finds, and then a
 * count would be another on another machine.
 */
#include <stddef.h>
#include <stdint.h>

#define STEP 64

typedef uint8_t sixteen __attribute__((vector_size(16), aligned(1), may_alias));

static inline void copy_sixteen(uint8_t *to, const uint8_t *from) { *(sixteen *)to = *(const sixteen *)from; }

/* All is loaded before any is stored, so the two may overlap. */
static inline void copy_step(uint8_t *to, const uint8_t *from) {
    sixteen a = *(const sixteen *)from, b = *(const sixteen *)(from + 16);
    sixteen c = *(const sixteen *)(from + 32), d = *(const sixteen *)(from + 48);
    *(sixteen *)to = a, *(sixteen *)(to + 16) = b;
    *(sixteen *)(to + 32) = c, *(sixteen *)(to + 48) = d;
}

/* The last sixteen bytes may have been copied in part already. */
void *memcpy(void *restrict to, const void *restrict from, size_t length) {
    uint8_t *t = to;
    const uint8_t *f = from;
    size_t at = 0;
    for (; at + STEP <= length; at += STEP) copy_step(t + at, f + at);
    for (; at + 16 <= length; at += 16) copy_sixteen(t + at, f + at);
    if (at < length && length >= 16) return copy_sixteen(t + length - 16, f + length - 16), to;
    for (; at < length; at++) t[at] = f[at];
    return to;
}

static void copy_up(uint8_t *to, const uint8_t *from, size_t length) {
    size_t at = 0;
    for (; at + STEP <= length; at += STEP) copy_step(to + at, from + at);
    for (; at + 16 <= length; at += 16) copy_sixteen(to + at, from + at);
    for (; at < length; at++) to[at] = from[at];
}

static void copy_down(uint8_t *to, const uint8_t *from, size_t length) {
    for (; length >= STEP; length -= STEP) copy_step(to + length - STEP, from + length - STEP);
    for (; length >= 16; length -= 16) copy_sixteen(to + length - 16, from + length - 16);
    while (length-- > 0) to[length] = from[length];
}

void *memmove(void *to, const void *from, size_t length) {
    if ((uintptr_t)to - (uintptr_t)from >= length) copy_up(to, from, length);
    else copy_down(to, from, length);
    return to;
}

void *memset(void *to, int value, size_t length) {
    uint8_t *t = to;
    sixteen all = (uint8_t)value - (sixteen){0};
    size_t at = 0;
    for (; at + STEP <= length; at += STEP)
        *(sixteen *)(t + at) = *(sixteen *)(t + at + 16) = *(sixteen *)(t + at + 32) = *(sixteen *)(t + at + 48) = all;
    for (; at + 16 <= length; at += 16) *(sixteen *)(t + at) = all;
    if (at < length && length >= 16) return *(sixteen *)(t + length - 16) = all, to;
    for (; at < length; at++) t[at] = (uint8_t)value;
    return to;
}
