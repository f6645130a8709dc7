/* The bytes of a fuzzer's input, memory whose end can't be touched, and what is judged of each call. */
#ifndef FUZZ_INPUT_H
#define FUZZ_INPUT_H

#include "expect.h"

#include <stdlib.h>
#include <sys/mman.h>
#include <unistd.h>

/* ---- bytes of the input ---- */

static const uint8_t *input;
static size_t input_left;

static uint8_t byte(void) {
    if (input_left == 0) return 0;
    input_left--;
    return *input++;
}

static uint16_t two_bytes(void) {
    uint8_t high = byte();
    return (uint16_t)(high << 8 | byte());
}

static uint32_t four_bytes(void) {
    uint32_t high = two_bytes();
    return high << 16 | two_bytes();
}

/* Changes a byte of something: first where, then to what. */
static void change(void *it, size_t size) {
    size_t at = two_bytes() % size;
    ((uint8_t *)it)[at] = byte();
}

static void fill(void *to, size_t size) {
    for (size_t i = 0; i < size; i++) ((uint8_t *)to)[i] = byte();
}

/* ---- what goes in and comes out, each at memory that can't be touched ---- */

enum { MOST_BYTES = 1 << 17, MOST_CALLS = 400, PAINT = 0x5A };
enum place { HALVES, WEIGHTS, KEPT, TEXT, READ, BYTES, SMALL, OUT, OTHER, PLACES };

static uint8_t *ends[PLACES];

/* The end of so many bytes, a multiple of a page, after which nothing can be read or written. */
static uint8_t *end_of_memory(size_t size) {
    size_t page = (size_t)sysconf(_SC_PAGESIZE);
    uint8_t *start = mmap(0, size + page, PROT_READ | PROT_WRITE, MAP_PRIVATE | MAP_ANONYMOUS, -1, 0);
    if (start == MAP_FAILED || mprotect(start + size, page, PROT_NONE)) exit(2);
    return start + size;
}

static void *room(enum place at, size_t size) {
    if (size > MOST_BYTES) abort();
    return ends[at] - size;
}

static void *painted(enum place at, size_t size) { return memset(room(at, size), PAINT, size); }

static void *copied(enum place at, const void *from, size_t size) {
    return size ? memcpy(room(at, size), from, size) : room(at, 0);
}

static void *filled(enum place at, size_t size) {
    void *to = room(at, size);
    fill(to, size);
    return to;
}

static void stop_if(int is_wrong, const char *what) {
    if (!is_wrong) return;
    fprintf(stderr, "fuzz: %s\n", what);
    abort();
}

/* The status is 0 or one of the list, and on any other than 0 the output is as it was painted. */
static uint32_t judge(uint32_t status, const char *what, const uint8_t *known, const void *out, size_t size) {
    const uint8_t *bytes = out;
    if (status == DOVECOUNTER_DONE) return status;
    while (*known && *known != status) known++;
    stop_if(*known == 0, what);
    for (size_t i = 0; i < size; i++) stop_if(bytes[i] != PAINT, what);
    return status;
}

#define LIST(...) ((const uint8_t[]){__VA_ARGS__, 0})
#define OF_ADVERTISEMENT 1, 2, 11, 12, 13, 14, 15, 16
#define OF_FAMILY 1, 2, 71, 74, 76, 83

/* Asks twice: for an answer at OUT, judged, and for the same one at OTHER. CALL(it) calls with `it` as its output. */
#define ASK(type, name, list, call)                                                                                    \
    type *name = painted(OUT, sizeof *name);                                                                           \
    uint32_t status = judge(call(name), #call, list, name, sizeof *name);                                              \
    stop_if(status != call(((type *)painted(OTHER, sizeof *name))), #call " answers another status");                  \
    stop_if(memcmp(name, room(OTHER, sizeof *name), sizeof *name) != 0, #call " answers otherwise")

#endif
