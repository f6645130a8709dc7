/* How deep a call's stack is: the stack was painted before, and what is no longer painted was used. On a machine with threads a thread has a
   stack of its own for it; on examples/board it is what lies below the stack that is in use. */
#ifdef __unix__
#include "image.h"

#include <pthread.h>
#include <string.h>

enum { STACK = 1 << 20, PAINT = 0xA5 };
static _Alignas(4096) uint8_t stack[STACK];

static size_t used(void *(*run)(void *)) {
    pthread_attr_t attributes;
    pthread_t thread;
    size_t unused = 0;
    memset(stack, PAINT, STACK);
    pthread_attr_init(&attributes);
    pthread_attr_setstack(&attributes, stack, STACK);
    pthread_create(&thread, &attributes, run, 0);
    pthread_join(thread, 0);
    while (unused < STACK && stack[unused] == PAINT) unused++;
    return STACK - unused;
}

static void print_used(const char *name, void *(*run)(void *), size_t alone) {
    size_t with = used(run);
    printf("stack %s %zu\n", name, with > alone ? with - alone : 0);
}
#else
#include "board.h"
#include "images.h"

enum { STACK = 1 << 20, NEAR = 256, PAINT = 0xA5 };
static struct dovecounter_half halves[16];
static size_t half_count;

static void read_halves(void) {
    half_count = images[0].count;
    for (size_t i = 0; i < half_count; i++) halves[i] = images[0].halves[i];
}

void *memcpy(void *restrict to, const void *restrict from, size_t count);

static size_t strlen(const char *text) {
    size_t length = 0;
    while (text[length] != '\0') length++;
    return length;
}

/* Not inlined, so that each call begins at the same depth. */
__attribute__((noinline)) static size_t used(void *(*run)(void *)) {
    volatile uint8_t *near = (volatile uint8_t *)__builtin_frame_address(0) - NEAR, *far = near - STACK;
    for (volatile uint8_t *at = far; at < near; at++) *at = PAINT;
    run(0);
    while (far < near && *far == PAINT) far++;
    return (size_t)(near - far) + NEAR;
}

static void print_used(const char *name, void *(*run)(void *), size_t alone) {
    char digits[12] = {0};
    size_t with = used(run), number = with > alone ? with - alone : 0, at = 10;
    digits[at] = '\n';
    do {
        digits[--at] = (char)('0' + number % 10);
        number /= 10;
    } while (number != 0);
    print("stack ");
    print(name);
    print(" ");
    print(digits + at);
}
#endif
