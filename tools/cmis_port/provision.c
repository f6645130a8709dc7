/* The commands that plan and provision. */
#include "port.h"

#include <err.h>
#include <string.h>

enum { BEFORE_AGAIN = 500 }; /* milliseconds */

static void print_held(const struct port *port) {
    print_line("active", bytes_at(port, ACTIVE), ",");
    print_codes(stdout, bytes_at(port, PATH_STATES), path_states);
    putchar('\n');
}

/* Reads the lanes again. Says why it can't. */
static bool read_lanes(struct port *port) {
    bool whole = read_module(port, false);
    print_flags(port);
    if (whole && bytes_at(port, ACTIVE) == NULL) warnx("%s: the module shows no page 11h any more", port->bus.name);
    return whole && bytes_at(port, ACTIVE) != NULL;
}

static void print_plan(const struct port *port) {
    struct dovecounter_advertisement module;
    dovecounter_advertisement(port->halves, port->half_count, port->counts_by_id, &module);
    printf("weight %llu\n", (unsigned long long)port->plan.weight);
    for (size_t i = 0; i < port->plan.count; i++) {
        const struct dovecounter_path *path = &port->plan.paths[i];
        const struct dovecounter_application *carried = &module.applications[path->application - 1];
        printf("path app %u host %u-%u media %u-%u\n", path->application, path->host,
               path->host + carried->host_lanes - 1, path->media, path->media + carried->media_lanes - 1);
    }
    print_line("control", port->plan.control, "\n");
}

/* Paths of one Application alone are worth something. Whether the module has it. */
static bool weigh_application(struct port *port) {
    struct dovecounter_advertisement module;
    uint32_t status = dovecounter_advertisement(port->halves, port->half_count, port->counts_by_id, &module);
    if (status != DOVECOUNTER_DONE) return refuse_by(port, status), false;
    if (port->application > module.count)
        return warnx("%s: the module has no Application %u", port->bus.name, port->application), false;
    port->weights[module.applications[port->application - 1].host_id] = 1;
    return true;
}

/* Whether no other Application with the same host interface was planned in its place. */
static bool is_of_application(const struct port *port) {
    for (size_t i = 0; i < port->plan.count; i++) {
        const struct dovecounter_path *path = &port->plan.paths[i];
        bool is_kept = false;
        for (size_t j = 0; j < port->kept_count; j++)
            is_kept = is_kept || memcmp(path, &port->kept[j], sizeof *path) == 0;
        if (path->application != port->application && !is_kept)
            return warnx("%s: Application %u has the same host interface, and is planned in its place", port->bus.name,
                         path->application),
                   false;
    }
    return true;
}

/* Reads the module, prints its flags, and finds the plan. */
static bool find_plan(struct port *port) {
    bool whole = read_module(port, false);
    print_flags(port);
    if (!whole || (port->application > 0 && !weigh_application(port))) return false;
    uint32_t status = dovecounter_plan(port->halves, port->half_count, !port->unpaired, port->counts_by_id,
                                       port->weights, port->stay, port->kept, port->kept_count, &port->plan);
    if (status == DOVECOUNTER_DONE && bytes_at(port, ACTIVE) == NULL) status = DOVECOUNTER_ENDED;
    if (status != DOVECOUNTER_DONE) return refuse_by(port, status), false;
    return port->application == 0 || is_of_application(port);
}

/* As cmisd writes control bytes. */
static void print_control(const char *name, const uint8_t control[8]) {
    printf(", \"%s\": \"", name);
    for (unsigned lane = 0; lane < 8; lane++) printf("%s%02x", lane > 0 ? " " : "", control[lane]);
    putchar('"');
}

static void print_plan_in_json(const struct port *port, const struct dovecounter_effect *effect) {
    static const char *const hindrances[] = {[DOVECOUNTER_OTHER_STATE] = "other-state",
                                             [DOVECOUNTER_OTHER_BYTES] = "other-bytes",
                                             [DOVECOUNTER_WOULD_COME_UP] = "would-come-up",
                                             [DOVECOUNTER_NO_PATH] = "no-path",
                                             [DOVECOUNTER_WOULD_GO_DOWN] = "would-go-down"};
    bool is_refused = status_by(effect) != DONE;
    printf(", \"weight\": %llu, \"paths\": [", (unsigned long long)port->plan.weight);
    for (size_t i = 0; i < port->plan.count; i++) {
        const struct dovecounter_path *path = &port->plan.paths[i];
        printf("%s{\"application\": %u, \"host\": %u, \"media\": %u}", i > 0 ? ", " : "", path->application, path->host,
               path->media);
    }
    putchar(']');
    print_control("control", port->plan.control);
    print_control("active", bytes_at(port, ACTIVE));
    printf(", \"provision\": \"%s\", ", is_refused        ? hindrances[effect->hindrance]
                                        : effect->is_done ? "done"
                                                          : "takes");
    print_list("lanes", is_refused ? effect->lanes : effect->taken);
}

static void print_plan_in_text(const struct port *port, const struct dovecounter_effect *effect) {
    print_plan(port);
    print_held(port);
    if (status_by(effect) != DONE)
        say_hindrance(stdout, "provision refuses:", effect);
    else if (effect->is_done)
        puts("provision has nothing to do");
    else
        say_lanes(stdout, "provision takes", effect->taken, "");
}

enum status plan(struct port *port) {
    if (port->json) putchar('{');
    bool found = find_plan(port);
    struct dovecounter_effect effect = found ? judge(port) : (struct dovecounter_effect){0};
    if (found && !port->json) print_plan_in_text(port, &effect);
    if (found && port->json) print_plan_in_json(port, &effect);
    if (port->json) puts("}");
    return found ? DONE : REFUSED;
}

/* Wakes the module up if it is in low power, and looks again at what stands against provisioning. */
static bool wake_up(struct port *port) {
    if (state_of(port) == READY) return true;
    if (carry_out(port, WAKE) != 0 || !read_lanes(port)) return false;
    struct dovecounter_effect effect = judge(port);
    if (status_by(&effect) != DONE) say_hindrance(stderr, "cmis-port:", &effect);
    return status_by(&effect) == DONE;
}

/* A module may tell an old success before it begins to apply: then other bytes are active (PV3), and a second try helps. */
static bool put_in(struct port *port) {
    for (int times = 0; times < 3; times++) {
        unsigned fault = port->is_tuned ? provision_tuned(port) : carry_out(port, PROVISION);
        if (fault != 3) return fault == 0;
        pause_ms(port, BEFORE_AGAIN);
        if (port->ending != GOES_ON || !read_lanes(port)) return false;
        struct dovecounter_effect effect = judge(port);
        if (status_by(&effect) != DONE) return false;
        if (effect.is_active) return warnx("%s: the plan is active now", port->bus.name), true;
        if (times < 2) warnx("%s: provisioning begins again", port->bus.name);
    }
    return false;
}

/* The last lines: what was done, if the module shows it, and what the module holds now. A module that resets itself after the last
   operation of a procedure shows something else. */
static enum status say_what_is_held(struct port *port, bool done) {
    bool known = port->ending != SILENT && read_lanes(port), ready = known && state_of(port) == READY;
    struct dovecounter_effect effect = known ? judge(port) : (struct dovecounter_effect){0};
    bool finished = ready && effect.is_done;
    if (effect.is_active && port->steps[PROVISION] != 0) printf("provisioned %u\n", port->steps[PROVISION]);
    if (finished && port->steps[ACTIVATE] != 0) printf("activated %u\n", port->steps[ACTIVATE]);
    if (known)
        print_held(port);
    else
        puts("active unknown");
    if (done && known && !ready)
        warnx("%s: the module is in %s", port->bus.name, module_states[state_of(port)]);
    else if (done && known && !finished)
        warnx("%s: all was done, but the module shows it no more: has it reset itself?", port->bus.name);
    if (done && finished) return DONE;
    return port->stored ? NOT_PROVISIONED : REFUSED;
}

enum status provision(struct port *port) {
    if (!find_plan(port) || (port->is_tuned && !begin_tuned(port))) return REFUSED;
    print_plan(port);
    struct dovecounter_effect effect = judge(port);
    enum status status = status_by(&effect);
    if (status != DONE || effect.is_done) {
        if (status == DONE) puts("provision has nothing to do");
        print_held(port);
        if (status != DONE) say_hindrance(stderr, "cmis-port:", &effect);
        return status;
    }
    print_now(port);
    bool done = wake_up(port) && (judge(port).is_active || put_in(port));
    /* lanes that were up with the plan's control bytes need no activation, whatever settings they had */
    done = done && (!port->activate || judge_control(port).is_done || carry_out(port, ACTIVATE) == 0);
    return say_what_is_held(port, done);
}
