/* All that the library and the compiler need of a C library, by words where both addresses allow it. Division of 64-bit numbers is the
 * compiler's, in libgcc. */
#pragma GCC optimize("no-tree-loop-distribute-patterns") /* else a loop of memcpy could become a call of memcpy */

#include <stdbool.h>
#include <stddef.h>
#include <stdint.h>

typedef uint32_t __attribute__((may_alias)) word;

enum { WORD = sizeof(word), BLOCK = 4 * WORD };

/* Four words, one by one: for a structure of them the compiler may call memcpy or memset. */
static void copy_block(word *to, const word *from) {
    to[0] = from[0], to[1] = from[1], to[2] = from[2], to[3] = from[3];
}

static void set_block(word *to, word pattern) { to[0] = to[1] = to[2] = to[3] = pattern; }

/* From the lowest byte on, so no byte that lies above `at` is written before it is read. */
static void copy_upwards(uint8_t *at, const uint8_t *next, size_t count) {
    if (((uintptr_t)at - (uintptr_t)next) % WORD == 0) {
        for (; count > 0 && (uintptr_t)at % WORD != 0; count--) *at++ = *next++;
        for (; count >= BLOCK; count -= BLOCK, at += BLOCK, next += BLOCK) copy_block((word *)at, (const word *)next);
        for (; count >= WORD; count -= WORD, at += WORD, next += WORD) *(word *)at = *(const word *)next;
    }
    while (count-- > 0) *at++ = *next++;
}

static void copy_downwards(uint8_t *at, const uint8_t *next, size_t count) {
    if (((uintptr_t)at - (uintptr_t)next) % WORD == 0) {
        for (; count > 0 && (uintptr_t)(at + count) % WORD != 0; count--) at[count - 1] = next[count - 1];
        for (; count >= WORD; count -= WORD) *(word *)(at + count - WORD) = *(const word *)(next + count - WORD);
    }
    while (count-- > 0) at[count] = next[count];
}

void *memcpy(void *restrict to, const void *restrict from, size_t count) {
    copy_upwards(to, from, count);
    return to;
}

void *memmove(void *to, const void *from, size_t count) {
    bool is_below = (uintptr_t)to - (uintptr_t)from >= count; /* or it begins where the other has ended */
    (is_below ? copy_upwards : copy_downwards)(to, from, count);
    return to;
}

void *memset(void *to, int byte, size_t count) {
    uint8_t *at = to;
    const word pattern = (uint8_t)byte * 0x01010101U;
    for (; count > 0 && (uintptr_t)at % WORD != 0; count--) *at++ = (uint8_t)byte;
    for (; count >= BLOCK; count -= BLOCK, at += BLOCK) set_block((word *)at, pattern);
    for (; count >= WORD; count -= WORD, at += WORD) *(word *)at = pattern;
    while (count-- > 0) *at++ = (uint8_t)byte;
    return to;
}
