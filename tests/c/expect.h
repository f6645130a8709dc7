/* What the tests of the library share: comparisons that count what fell short, and the halves of a module. */
#ifndef EXPECT_H
#define EXPECT_H

#include "dovecounter.h"

#include <stdio.h>
#include <string.h>

static int failures;

static inline void expect(const char *what, unsigned long wanted, unsigned long found) {
    if (wanted == found) return;
    printf("%s: wanted %lu, found %lu\n", what, wanted, found);
    failures++;
}

static inline void expect_same(const char *what, const void *wanted, const void *found, size_t size) {
    expect(what, 0, (unsigned long)(memcmp(wanted, found, size) != 0));
}

/* Says how many fell short, and with which status the test ends. */
static inline int judged(const char *test) {
    printf("%s: %d failures\n", test, failures);
    return failures != 0;
}

/* Makes a sum right: it stands at the address `place`, over all addresses from `first` to `last`. */
static inline void set_sum(struct dovecounter_half *half, int first, int last, int place) {
    unsigned sum = 0;
    for (int address = first; address <= last; address++) sum += half->bytes[address % 128];
    half->bytes[place % 128] = (uint8_t)sum;
}

/* Advertises one Application, 400GAUI-8 on host lanes 1 to 8 and media lanes 1 to 4, in a QSFP-DD module of CMIS 5.0. */
static inline void advertise_one(struct dovecounter_half *lower, struct dovecounter_half *page_00,
                                 struct dovecounter_half *page_01) {
    lower->bytes[0] = 0x18;
    lower->bytes[1] = 0x50;
    memcpy(lower->bytes + 86, "\x11\x1C\x84\x01\xFF", 5);
    page_01->bytes[176 - 128] = 1;
    set_sum(page_00, 128, 221, 222);
    set_sum(page_01, 130, 254, 255);
}

#endif
