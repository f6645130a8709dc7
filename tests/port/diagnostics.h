/* Pages 13h and 14h of a CMIS module, as its host sees them: patterns, loopbacks and results. For tests of cmis-port; written from
   OIF-CMIS-05.0, apart from the library. A checker hears the generator of its lane and side if the output of that side is looped back, and
   is in lock if both have the same pattern. */
#ifndef DIAGNOSTICS_H
#define DIAGNOSTICS_H
#include <stdbool.h>
#include <stddef.h>
#include <stdint.h>

struct diagnostics {
    uint8_t controls[128], results[128]; /* pages 13h and 14h */
    uint64_t bits[2][8], errors[2][8];   /* of host and media lanes, since their checkers were enabled */
    unsigned rate;                       /* errors of 10^9 bits */
    uint8_t held;                        /* the byte of page 13h whose bits stay on, or 0 */
    bool fixed;                          /* no control is kept */
    uint8_t unlocked;                    /* lanes whose generators lose lock */
    unsigned stores;                     /* of controls */
};

void begin_diagnostics(struct diagnostics *it);
uint8_t fetch_diagnostics(struct diagnostics *it, uint8_t page, uint8_t address);
void store_diagnostics(struct diagnostics *it, uint8_t page, uint8_t address, uint8_t byte);
void pass_diagnostics(struct diagnostics *it); /* a millisecond */
/* How many controls were stored, and which bytes of page 13h aren't 0 now. */
size_t describe_diagnostics(const struct diagnostics *it, char *text, size_t room);
#endif
