#include "diagnostics.h"

#include <stdio.h>
#include <string.h>

enum { HOST, MEDIA };
enum { GENERATORS = 144, CHECKERS = 160, LOOPBACKS = 180, FIRST = 144, LAST = 183 }; /* on page 13h */
enum { SELECTOR = 128, LATCHED = 132, LOST_GENERATORS = 136, LOST_CHECKERS = 138 };  /* on page 14h */
enum { LAST_LATCHED = 139, SHOWN = 192 };                                            /* on it too */
enum { BITS = 53125000 };                                                            /* of a lane in a millisecond */

/* It can do everything but gate results, and has all patterns. */
void begin_diagnostics(struct diagnostics *it) {
    memset(it, 0, sizeof *it);
    memcpy(it->controls, "\x7F\x00\x33\xFF", 4);
    memset(it->controls + 4, 0xFF, 8);
}

static uint8_t control(const struct diagnostics *it, unsigned address) { return it->controls[address - 128]; }

static unsigned pattern_of(const struct diagnostics *it, unsigned unit, unsigned lane) {
    return control(it, unit + 4 + lane / 2) >> lane % 2 * 4 & 15;
}

/* Whether what a lane's checker hears is what it checks. */
static bool is_locked(const struct diagnostics *it, unsigned side, unsigned lane) {
    unsigned generator = GENERATORS + 8 * side, checker = CHECKERS + 8 * side;
    uint8_t loopback = control(it, side == MEDIA ? LOOPBACKS : LOOPBACKS + 2); /* of its output */
    bool hears = (control(it, generator) & loopback) >> lane & 1;
    return hears && pattern_of(it, generator, lane) == pattern_of(it, checker, lane);
}

void pass_diagnostics(struct diagnostics *it) {
    for (unsigned side = HOST; side <= MEDIA; side++) {
        it->results[LOST_GENERATORS + side - 128] |= control(it, GENERATORS + 8 * side) & it->unlocked;
        uint8_t checked = control(it, CHECKERS + 8 * side);
        for (unsigned lane = 0; checked >> lane != 0; lane++) {
            if (!(checked >> lane & 1)) continue;
            if (!is_locked(it, side, lane)) it->results[LOST_CHECKERS + side - 128] |= (uint8_t)(1U << lane);
            it->bits[side][lane] += BITS;
            it->errors[side][lane] = it->bits[side][lane] / 1000 * it->rate / 1000000;
        }
    }
}

/* The nearest mantissa below 2048 that loses nothing if it can. */
static void put_ratio(uint8_t *place, uint64_t errors, uint64_t bits) {
    double mantissa = bits > 0 ? (double)errors / (double)bits : 0;
    unsigned exponent = 24;
    while (exponent > 0 && mantissa != 0 && mantissa < 204.75) mantissa *= 10, exponent--;
    unsigned whole = (unsigned)(mantissa + 0.5);
    place[0] = (uint8_t)(exponent << 3 | whole >> 8);
    place[1] = (uint8_t)whole;
}

static void put_number(uint8_t *place, uint64_t number) {
    for (unsigned i = 0; i < 8; i++) place[i] = (uint8_t)(number >> 8 * i);
}

/* Puts the results that are selected into bytes 192 to 255. */
static void show(struct diagnostics *it) {
    uint8_t *shown = &it->results[SHOWN - 128], selector = it->results[SELECTOR - 128];
    memset(shown, 0, 64);
    for (unsigned side = HOST; side <= MEDIA; side++)
        for (unsigned lane = 0; lane < 8; lane++) {
            uint8_t *counts = shown + lane % 4 * 16;
            if (selector == 1) put_ratio(shown + 16 * side + 2 * lane, it->errors[side][lane], it->bits[side][lane]);
            if (selector == 6) shown[16 + 32 * side + 2 * lane + 1] = 20; /* dB */
            if (selector != 2 + 2 * side + lane / 4) continue;
            put_number(counts, it->errors[side][lane]);
            put_number(counts + 8, it->bits[side][lane]);
        }
}

uint8_t fetch_diagnostics(struct diagnostics *it, uint8_t page, uint8_t address) {
    if (page == 0x13) return control(it, address);
    if (address == SHOWN) show(it);
    uint8_t byte = it->results[address - 128];
    if (address >= LATCHED && address <= LAST_LATCHED) it->results[address - 128] = 0;
    return byte;
}

/* A checker that is enabled counts from 0 on. */
static void begin_counting(struct diagnostics *it, unsigned side, uint8_t lanes) {
    for (unsigned lane = 0; lane < 8; lane++)
        if (lanes >> lane & 1) it->bits[side][lane] = it->errors[side][lane] = 0;
}

void store_diagnostics(struct diagnostics *it, uint8_t page, uint8_t address, uint8_t byte) {
    if (page == 0x14 && address == SELECTOR) it->results[SELECTOR - 128] = byte;
    if (page == 0x14 || address < FIRST || address > LAST) return;
    it->stores++;
    if (it->fixed) return;
    uint8_t before = control(it, address), kept = address == it->held ? before : 0;
    it->controls[address - 128] = byte | kept;
    if (address == CHECKERS || address == CHECKERS + 8)
        begin_counting(it, address == CHECKERS ? HOST : MEDIA, (uint8_t)(byte & ~before));
}

size_t describe_diagnostics(const struct diagnostics *it, char *text, size_t room) {
    size_t at = (size_t)snprintf(text, room, "tested %u on", it->stores);
    for (unsigned address = FIRST; address <= LAST; address++)
        if (control(it, address) != 0)
            at += (size_t)snprintf(text + at, room - at, " %u=%02x", address, control(it, address));
    return at + (size_t)snprintf(text + at, room - at, "\n");
}
