/* The commands that only read. */
#include "port.h"

#include <err.h>

void print_line(const char *name, const uint8_t control[8], const char *after) {
    fputs(name, stdout);
    print_bytes(stdout, control, 8);
    fputs(after, stdout);
}

enum status refuse_by(const struct port *port, uint32_t status) {
    warnx("%s: %s", port->bus.name, sentence(status));
    return REFUSED;
}

enum status image(struct port *port) {
    struct listed listed = {.count = 0};
    struct dovecounter_half of_banks[MOST_LISTED];
    bool whole = read_module(port, true) && read_further_banks(port) && (!port->vdm || read_listed(port, &listed));
    const char *end = port->json ? "\\n" : "\n";
    if (port->json) fputs("{\"image\": \"", stdout);
    print_image(stdout, port->halves, port->half_count, of_banks, join_listed(&listed, of_banks), end);
    if (port->json) puts("\"}");
    return whole ? DONE : port->stored ? NOT_PROVISIONED : REFUSED;
}

static void print_lane(const struct port *port, unsigned lane, const char *before) {
    const uint8_t *states = bytes_at(port, PATH_STATES), *statuses = bytes_at(port, CONFIG_STATUSES);
    const char *state = path_states[code_of(states, lane)], *status = config_statuses[code_of(statuses, lane)];
    if (port->json)
        printf("%s{\"lane\": %u, \"state\": \"%s\", \"status\": \"%s\", \"active\": %u}", before, lane + 1, state,
               status, bytes_at(port, ACTIVE)[lane]);
    else
        printf("lane %u %s %s\n", lane + 1, state, status);
}

enum status state(struct port *port) {
    bool whole = read_module(port, false), is_shown = whole && !is_other_family(port);
    const uint8_t *active = is_shown ? bytes_at(port, ACTIVE) : NULL;
    if (port->json) fputs("{", stdout);
    if (is_shown) printf(port->json ? "\"state\": \"%s\", \"lanes\": [" : "state %s\n", module_states[state_of(port)]);
    for (unsigned lane = 0; lane < 8 && active != NULL; lane++) print_lane(port, lane, lane > 0 ? ", " : "");
    if (port->json && is_shown) fputs("], ", stdout);
    print_flags(port);
    if (port->json) puts("}");
    if (active != NULL && !port->json) print_line("active", active, "\n");
    if (!whole) return REFUSED;
    return is_shown ? DONE : refuse_by(port, DOVECOUNTER_NOT_CMIS);
}
