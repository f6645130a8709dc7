/* The halves of the image whose text is on standard input, the first MOST_HALVES of them; for texts that cmisctl takes. */
#include "dovecounter.h"

#include <stdio.h>

#ifndef MOST_HALVES
#define MOST_HALVES 16
#endif

static struct dovecounter_half halves[MOST_HALVES];
static size_t half_count;

static void read_halves(void) {
    char line[512], digits[257];
    while (half_count < MOST_HALVES && fgets(line, sizeof line, stdin)) {
        struct dovecounter_half *half = &halves[half_count];
        unsigned device, bank = 0, page = 0, byte;
        if (sscanf(line, "lower %x %256s", &device, digits) == 2)
            half->upper = 0;
        else if (sscanf(line, "upper %x %x %x %256s", &device, &bank, &page, digits) == 4)
            half->upper = 1;
        else
            continue;
        half->device = (uint8_t)device;
        half->bank = (uint8_t)bank;
        half->page = (uint8_t)page;
        for (int i = 0; i < 128 && sscanf(digits + 2 * i, "%2x", &byte) == 1; i++) half->bytes[i] = (uint8_t)byte;
        half_count++;
    }
}
