/* What provisioning means for the lanes of a module as it was read. The library judges it. */
#include "port.h"

#include <string.h>

/* By what the words on the command line permit. Lanes that came up by waking may go down again. */
struct dovecounter_effect judge_control(const struct port *port) {
    bool may_go_down = port->force || port->ensure || port->steps[WAKE] != 0;
    struct dovecounter_effect effect = {.hindrance = DOVECOUNTER_OTHER_STATE}; /* if there was nothing to judge */
    struct dovecounter_change change = {.lanes = port->plan.lanes,
                                        .outside = port->plan.outside,
                                        .spares = port->ensure,
                                        .activates = port->activate,
                                        .wakes = port->wake,
                                        .may_take_down = may_go_down ? ALL_LANES : 0,
                                        .may_bring_up = port->force ? ALL_LANES : 0,
                                        .may_have_no_path = port->force};
    memcpy(change.control, port->plan.control, sizeof change.control);
    dovecounter_judge(port->halves, port->half_count, &change, &effect);
    return effect;
}

/* With settings, neither is the plan active nor is all done before these are active too. */
struct dovecounter_effect judge(const struct port *port) {
    struct dovecounter_effect effect = judge_control(port);
    if (port->is_tuned && !has_tuned(port)) effect.is_active = effect.is_done = 0;
    return effect;
}

enum status status_by(const struct dovecounter_effect *effect) {
    switch (effect->hindrance) {
    case DOVECOUNTER_UNHINDERED: return DONE;
    case DOVECOUNTER_WOULD_GO_DOWN: return IN_USE;
    default: return REFUSED;
    }
}

void say_lanes(FILE *out, const char *before, unsigned lanes, const char *after) {
    fputs(before, out);
    if (lanes != 0) fputs(" lanes", out);
    print_lanes(out, lanes);
    fprintf(out, "%s\n", after);
}

void say_state(FILE *out, const char *before, unsigned state, const char *after) {
    fprintf(out, "%s the module is in %s%s\n", before, module_states[state], after);
}

void say_hindrance(FILE *out, const char *before, const struct dovecounter_effect *effect) {
    static const char *const whys[] = {
        [DOVECOUNTER_OTHER_BYTES] = " hold other control bytes than the paths that are to be kept",
        [DOVECOUNTER_WOULD_COME_UP] = " are to be kept, but are down, and would come up: say --activate, or --force",
        [DOVECOUNTER_NO_PATH] = " the plan has no path: say --force to take down all others",
        [DOVECOUNTER_WOULD_GO_DOWN] =
            " are up: say --keep for their paths, or --ensure to take down only what is in the way"};
    if (effect->hindrance == DOVECOUNTER_OTHER_STATE)
        say_state(out, before, effect->state, effect->state == LOW_POWER ? ": wake it up, or say --wake" : "");
    else
        say_lanes(out, before, effect->lanes, whys[effect->hindrance]);
}
