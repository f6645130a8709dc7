/* Who holds the module behind an adapter of the guest: plugs it in, makes its bus refuse, and pulls it out, as lines of text say. Both
   adapters have one: the kernel's (adapter.c), and that for USB (usb.c). */
#ifndef OWNER_H
#define OWNER_H
#include "emulator.h"

struct owner {
    struct emulator module;
    uint64_t random;
    unsigned made;    /* transactions since the module was plugged in */
    unsigned unplug;  /* after so many of them it is pulled out; 0 for never */
    unsigned refuse;  /* percent of the transactions */
    unsigned error;   /* of a refused one; the adapter for USB has one error alone */
    unsigned longest; /* bytes of a message; 0 for any number; not for USB */
    bool plugged, refused;
    uint8_t pointer; /* the address from which a fetch reads */
    int64_t lived;   /* milliseconds of the clock that the module has seen */
};

/* A line of an image's text, of which the last plugs the module in; `refuse N`, or likewise with another name; or `out`. */
void obey(struct owner *owner, const char *line);
void live_until(struct owner *owner, int64_t milliseconds);
void begin_transaction(struct owner *owner);
/* Whether the message is acknowledged. Of a refused store the module may have taken some bytes. */
bool carry_message(struct owner *owner, unsigned address, bool fetches, uint8_t *bytes, size_t count);
#endif
