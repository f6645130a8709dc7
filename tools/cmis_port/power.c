/* The commands that wake a module up and put it to sleep. */
#include "port.h"

#include <err.h>

/* Reads the module again, unless it is silent, and prints its flags, also if it can be read in part alone, and its state. Says why it can't,
   or if the state is another one than was wanted. */
static bool is_in(struct port *port, unsigned wanted, bool done) {
    bool reads = port->ending != SILENT, whole = reads && read_module(port, false);
    bool known = whole && bytes_at(port, MODULE_STATE) != NULL;
    if (reads) print_flags(port);
    printf("state %s\n", known ? module_states[state_of(port)] : "unknown");
    if (known && done && state_of(port) != wanted)
        warnx("%s: the module does not stay in %s", port->bus.name, module_states[wanted]);
    return known && state_of(port) == wanted;
}

/* The library says first whether this is a module of CMIS that has such states: byte 26 of others is something else. */
static enum status change_power(struct port *port, enum work work, unsigned wanted, const char *name) {
    struct dovecounter_advertisement module;
    bool whole = read_module(port, false);
    print_flags(port);
    if (!whole) return REFUSED;
    uint32_t status = dovecounter_advertisement(port->halves, port->half_count, 0, &module);
    if (status == DOVECOUNTER_DONE && bytes_at(port, ACTIVE) == NULL) status = DOVECOUNTER_ENDED;
    if (status != DOVECOUNTER_DONE) return refuse_by(port, status);
    unsigned up = ALL_LANES & ~lanes_in(port, DEACTIVATED);
    if (state_of(port) < LOW_POWER || state_of(port) > POWER_DOWN)
        return say_state(stderr, "cmis-port:", state_of(port), ""), REFUSED;
    if (state_of(port) == wanted) {
        printf("%s has nothing to do\nstate %s\n", name, module_states[wanted]);
        return DONE;
    }
    if (work == SLEEP && up != 0 && !port->force)
        return say_lanes(stderr, "cmis-port:", up, " are up: take them down with --force"), IN_USE;
    bool done = carry_out(port, work) == 0;
    if (is_in(port, wanted, done) && done) return DONE;
    return port->stored ? NOT_PROVISIONED : REFUSED;
}

enum status wake(struct port *port) { return change_power(port, WAKE, READY, "wake"); }

enum status put_to_sleep(struct port *port) { return change_power(port, SLEEP, LOW_POWER, "sleep"); }
