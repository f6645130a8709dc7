/* Modules by chance, most of them such as could be sold, and memory whose end is watched. */
#ifndef CHANCE_H
#define CHANCE_H

#include "expect.h"

#include <stdlib.h>
#include <sys/mman.h>
#include <unistd.h>

static uint64_t state = 88172645463325252u;

/* A number below the limit. */
static unsigned chance(unsigned below) {
    state ^= state << 13, state ^= state >> 7, state ^= state << 17;
    return (unsigned)(state >> 33) % below;
}

static uint8_t any_byte(void) { return (uint8_t)chance(256); }

/* The end of so many bytes or more, after which nothing can be read or written. */
static uint8_t *end_of_memory(size_t size) {
    size_t page = (size_t)sysconf(_SC_PAGESIZE), whole = (size + page - 1) / page * page;
    uint8_t *start = mmap(0, whole + page, PROT_READ | PROT_WRITE, MAP_PRIVATE | MAP_ANONYMOUS, -1, 0);
    if (start == MAP_FAILED || mprotect(start + whole, page, PROT_NONE)) exit(2);
    return start + whole;
}

/* ---- halves ---- */

enum { MOST_HALVES = 17 };

static struct dovecounter_half made[MOST_HALVES];
static size_t made_count;

/* The half that is made for a place, or a new one of bytes by chance. */
static struct dovecounter_half *half_at(uint8_t device, uint8_t upper, uint8_t page) {
    for (size_t i = 0; i < made_count; i++)
        if (made[i].device == device && made[i].upper == upper && made[i].page == page) return &made[i];
    struct dovecounter_half *half = &made[made_count++];
    int is_empty = chance(3) == 0;
    *half = (struct dovecounter_half){.device = device, .upper = upper, .page = page};
    for (int i = 0; i < 128 && !is_empty; i++) half->bytes[i] = any_byte();
    return half;
}

/* Applications of one to eight lanes, which begin at lane 1 or anywhere. */
static void advertise(struct dovecounter_half *lower, struct dovecounter_half *page_00,
                      struct dovecounter_half *page_01) {
    unsigned count = 1 + chance(chance(4) ? 4 : 15);
    for (unsigned app = 0; app < 15; app++) {
        uint8_t *bytes = app < 8 ? lower->bytes + 86 + 4 * app : page_01->bytes + 223 - 128 + 4 * (app - 8);
        bytes[0] = app < count ? (uint8_t)(1 + chance(4)) : 0xFF;
        bytes[1] = 0x1C;
        bytes[2] = (uint8_t)((1 + chance(chance(3) ? 4 : 8)) << 4 | (1 + chance(4)));
        bytes[3] = (uint8_t)(any_byte() | 1);
        page_01->bytes[176 - 128 + app] = (uint8_t)(any_byte() | 1);
    }
    page_00->bytes[210 - 128] = chance(4) ? 0 : any_byte() & any_byte();
}

static void make_cmis(void) {
    static const uint8_t identifiers[] = {0x18, 0x18, 0x19, 0x1E};
    struct dovecounter_half *lower = half_at(0xA0, 0, 0), *page_00 = half_at(0xA0, 1, 0),
                            *page_01 = half_at(0xA0, 1, 1);
    struct dovecounter_half *page_11 = half_at(0xA0, 1, 0x11);
    half_at(0xA0, 1, 0x02);
    half_at(0xA0, 1, 0x10);
    lower->bytes[0] = identifiers[chance(4)];
    lower->bytes[1] = chance(3) ? 0x50 : 0x40;
    lower->bytes[2] = chance(10) ? 0 : 0x80;
    lower->bytes[26] = chance(3) ? 0 : any_byte();
    advertise(lower, page_00, page_01);
    if (chance(8)) memset(page_11->bytes + 206 - 128, 0, 8);
    set_sum(page_00, 128, 221, 222);
    set_sum(page_01, 130, 254, 255);
    set_sum(half_at(0xA0, 1, 0x02), 128, 254, 255);
}

static void make_sff(void) {
    struct dovecounter_half *lower = half_at(0xA0, 0, 0);
    if (chance(2)) {
        lower->bytes[0] = 0x03;
        lower->bytes[92] = chance(4) ? 0x60 : any_byte();
        half_at(0xA2, 0, 0);
    } else {
        lower->bytes[0] = chance(2) ? 0x0D : 0x11;
        if (chance(2)) lower->bytes[2] = 0;
        half_at(0xA0, 1, 0x03);
    }
    half_at(0xA0, 1, 0);
}

/* Something is changed: a byte, a place, or how many halves there are. */
static void damage(void) {
    struct dovecounter_half *half = &made[chance((unsigned)made_count)];
    switch (chance(6)) {
    case 0: half->bytes[chance(128)] = any_byte(); break;
    case 1: half->page = any_byte(); break;
    case 2: half->device = any_byte(); break;
    case 3: half->upper = (uint8_t)chance(3); break;
    case 4: *half = made[--made_count]; break;
    default:
        for (size_t wanted = made_count + chance(MOST_HALVES); made_count < wanted && made_count < MOST_HALVES;)
            half = &made[chance((unsigned)made_count)], made[made_count++] = *half;
    }
}

/* A module whose halves come in any order. */
static void make_module(void) {
    made_count = 0;
    if (chance(5))
        make_cmis();
    else
        make_sff();
    for (size_t i = made_count; i > 1; i--) {
        struct dovecounter_half *other = &made[chance((unsigned)i)], last = made[i - 1];
        made[i - 1] = *other;
        *other = last;
    }
    while (made_count > 0 && chance(4) == 0) damage();
}

#endif
