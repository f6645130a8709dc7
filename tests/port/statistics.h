/* Pages 20h to 2Fh of a bank of a CMIS module, as its host sees them: what it lists, whose samples change in each millisecond until they
   are frozen, and flags that are cleared when they are read. For tests of cmis-port and cmisd; written from OIF-CMIS-05.0, apart from the
   library. */
#ifndef STATISTICS_H
#define STATISTICS_H
#include <stdbool.h>
#include <stddef.h>
#include <stdint.h>

struct statistics {
    uint8_t (*pages)[128]; /* of the bank */
    unsigned lasts;        /* milliseconds until they are frozen, or go on */
    unsigned left;         /* of those */
    bool is_frozen;
    bool moves;      /* the samples change */
    bool stuck;      /* neither is ever done */
    bool stays;      /* once frozen, they are shown as that */
    bool denies;     /* it refuses to freeze them */
    unsigned stores; /* of the control byte */
    unsigned astray; /* bytes that were stored elsewhere, or other bits of that one */
};

uint8_t fetch_statistics(struct statistics *it, uint8_t page, uint8_t address);
void store_statistics(struct statistics *it, uint8_t page, uint8_t address, uint8_t byte);
/* Whether it refuses this byte there. */
bool denies_freeze(const struct statistics *it, uint8_t page, uint8_t address, uint8_t byte);
void pass_statistics(struct statistics *it); /* a millisecond */
/* How often the control byte was stored, and whether the statistics go on. */
size_t describe_statistics(const struct statistics *it, char *text, size_t room);
#endif
