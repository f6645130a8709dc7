/* The lanes above 8 (page 11h of further banks): read after each reading of a module that has them, and each look at it, once the library
   does nothing at the module before another moment, and counted as the port counts the lanes of bank 0, which alone it manages. Only pages
   are selected for that, so it may end anywhere. */
#include "cmisd.h"

#include <string.h>

enum { MOST_FETCHED = 128 }; /* bytes */

/* What is requested for them; 0 of a module that has none, as it was read. */
static uint8_t requested_of(const struct port *port) {
    uint8_t requested = 0;
    dovecounter_further_banks(port->halves, port->half_count, &requested);
    return requested;
}

/* What was read of them is as old as the module's other memory, and goes with it. */
void forget_banks(struct port *port) { memset(&port->banks, 0, sizeof port->banks); }

/* They are to be read once the library is done with a module that it has read or looked at, if that has any. */
void expect_banks(struct port *port, const struct dovecounter_port_outcome *led_to) {
    bool is_done = led_to->kind == DOVECOUNTER_PORT_LEAVES || led_to->note >= DOVECOUNTER_PORT_CAME_UP;
    if (is_done) port->banks.is_due = requested_of(port) != 0;
}

/* The first bank that is there from this one on: bank 0, and those whose lanes were read; BANKS if there is none. */
uint8_t bank_from(const struct port *port, uint8_t first) {
    const struct banks *it = &port->banks;
    uint8_t found = BANKS;
    if (first == 0) return 0;
    for (uint8_t i = 0; i < it->read_count; i++)
        if (it->read[i].bank >= first && it->read[i].bank < found) found = it->read[i].bank;
    return found;
}

/* So many were read. The image has waited for them. */
static void end(struct port *port, uint8_t count) {
    port->banks.is_due = port->banks.is_under_way = false;
    port->banks.read_count = count;
    if (port->half_count > 0) put_image(port);
}

/* A reading begins with the lower half. That isn't fetched again, which would clear flags that the port counts: it is as it was read. */
static bool begin(struct port *port, uint8_t requested) {
    const struct dovecounter_patience patience = {.pause = PAUSE, .limit = LIMIT};
    const struct dovecounter_half *lower = half_of(port, 0, 0);
    struct banks *it = &port->banks;
    return lower != NULL &&
           dovecounter_read_some_begin(requested, MOST_FETCHED, &patience, &it->reading) == DOVECOUNTER_DONE &&
           dovecounter_reply(&it->reading, it->halves, DOVECOUNTER_FETCHED, lower->bytes, sizeof lower->bytes) ==
               DOVECOUNTER_DONE;
}

/* Begins if they are to be read, and no conversation of the library is under way. */
bool begin_banks(struct port *port) {
    struct banks *it = &port->banks;
    bool is_left = port->core.stage == DOVECOUNTER_PORT_LEFT;
    if (!it->is_due || !(port->is_rested || is_left)) return false;
    it->is_under_way = begin(port, requested_of(port));
    if (!it->is_under_way) return end(port, 0), false;
    port->goes_on_at = 0;
    port->due = now();
    return true;
}

/* What the half shows, as soon as it is read, since that has cleared its flags. */
static void count_lanes(struct port *port, const struct dovecounter_half *half) {
    struct dovecounter_bank_counts *counts = &port->counts[half->bank - 1];
    const struct dovecounter_bank_counts was = *counts;
    dovecounter_bank_count(counts, half, (uint64_t)now());
    port->counted |= (uint8_t)(1U << (half->bank - 1));
    tell_bank_flags(port, half->bank, &was);
}

/* A bank that isn't there, or can't be read, is left out. */
static void take(struct port *port) {
    struct banks *it = &port->banks;
    uint8_t count = 0;
    for (uint8_t i = 0; i < it->reading.halves; i++)
        if (it->halves[i].bank != 0) it->read[count++] = it->halves[i];
    end(port, count);
    if (port->has_new_counts) put_status(port);
}

/* Makes the next operation, waits as long as it asks, or takes what was read. */
void go_on_with_banks(struct port *port) {
    struct banks *it = &port->banks;
    struct dovecounter_operation operation;
    uint8_t bytes[128];
    if (dovecounter_next(&it->reading, it->halves, &operation) != DOVECOUNTER_DONE) return take(port);
    if (is_pausing(port, &operation)) return;
    uint8_t outcome = make_aside(port, &operation, bytes), known = it->reading.halves;
    dovecounter_reply(&it->reading, it->halves, outcome, bytes, operation.count);
    if (it->reading.halves > known && !port->is_retired) count_lanes(port, &it->halves[0]);
}
