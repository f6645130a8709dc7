#include "statistics.h"

#include <stdio.h>

enum { SAMPLES = 0x24, FLAGS = 0x2C, GROUPS = 0x2F };
enum { CONTROL = 144 - 128, DONE = 145 - 128 }; /* on page 2Fh */

static bool is_asked(const struct statistics *it) { return it->pages[GROUPS][CONTROL] >= 0x80; }

uint8_t fetch_statistics(struct statistics *it, uint8_t page, uint8_t address) {
    uint8_t *place = &it->pages[page][address - 128], byte = *place;
    bool is_done = !it->stuck && it->left == 0 && it->is_frozen == is_asked(it) && !(it->stays && !it->is_frozen);
    if (page == GROUPS && address - 128 == DONE) return !is_done ? 0 : it->is_frozen ? 0x80 : 0x40;
    if (page == FLAGS) *place = 0;
    return byte;
}

void store_statistics(struct statistics *it, uint8_t page, uint8_t address, uint8_t byte) {
    uint8_t *control = &it->pages[GROUPS][CONTROL];
    if (page != GROUPS || address - 128 != CONTROL || ((*control ^ byte) & 0x7F) != 0) {
        it->astray++;
        return;
    }
    it->stores++;
    *control = byte;
    it->left = it->lasts;
}

bool denies_freeze(const struct statistics *it, uint8_t page, uint8_t address, uint8_t byte) {
    return it->denies && page == GROUPS && address - 128 == CONTROL && byte >= 0x80;
}

void pass_statistics(struct statistics *it) {
    for (unsigned page = SAMPLES; page < SAMPLES + 4 && it->moves && !it->is_frozen; page++)
        for (unsigned at = 0; at < 128; at++) it->pages[page][at]++;
    if (it->left > 0) it->left--;
    if (it->left == 0 && !it->stuck) it->is_frozen = is_asked(it);
}

size_t describe_statistics(const struct statistics *it, char *text, size_t room) {
    return (size_t)snprintf(text, room, "statistics stored %u astray %u, %s\n", it->stores, it->astray,
                            it->is_frozen || is_asked(it) ? "frozen" : "going on");
}
