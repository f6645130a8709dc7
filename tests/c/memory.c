/* Compares what examples/board/memory.c copies, moves and sets with what a loop over single bytes does, at each alignment. */
#include "expect.h"

#include <stdbool.h>
#define memcpy board_memcpy
#define memmove board_memmove
#define memset board_memset
#include "../../examples/board/memory.c"
#undef memcpy
#undef memmove
#undef memset

enum { ROOM = 128, MOST = 80 };
_Alignas(16) static uint8_t wanted[ROOM], found[ROOM], source[ROOM];

static void fill(void) {
    for (unsigned i = 0; i < ROOM; i++) wanted[i] = found[i] = (uint8_t)(7 * i + 1), source[i] = (uint8_t)(5 * i + 3);
}

static void look_at_copies(unsigned to, unsigned from, unsigned count) {
    fill();
    for (unsigned i = 0; i < count; i++) wanted[to + i] = source[from + i];
    expect("memcpy", 1, board_memcpy(found + to, source + from, count) == found + to);
    expect_same("what is copied", wanted, found, ROOM);
}

/* Within one array, upwards or downwards. */
static void look_at_moves(unsigned to, unsigned from, unsigned count) {
    fill();
    for (unsigned i = 0; i < count; i++) wanted[to + i] = found[from + i];
    expect("memmove", 1, board_memmove(found + to, found + from, count) == found + to);
    expect_same("what is moved", wanted, found, ROOM);
}

static void look_at_sets(unsigned to, int byte, unsigned count) {
    fill();
    for (unsigned i = 0; i < count; i++) wanted[to + i] = (uint8_t)byte;
    expect("memset", 1, board_memset(found + to, byte, count) == found + to);
    expect_same("what is set", wanted, found, ROOM);
}

int main(void) {
    for (unsigned count = 0; count < MOST; count++)
        for (unsigned to = 0; to < 20; to++) {
            for (unsigned from = 0; from < 20; from++) {
                look_at_copies(to, from, count);
                look_at_moves(to, from, count);
            }
            look_at_sets(to, 0x1A5, count);
        }
    return judged("memory");
}
