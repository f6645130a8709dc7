/* The commands that print controls of single lanes, and switch them. */
#include "port.h"

#include <err.h>
#include <string.h>

enum { NO_OUTCOME = 255, STORES = 3 }; /* what ends a change in the middle; how often a control may be stored */

static const struct setting {
    const char *name, *word;
    uint8_t control, on;
} settings[] = {{"tx", "off", DOVECOUNTER_OUTPUT_DISABLE_TX, 1},
                {"tx", "on", DOVECOUNTER_OUTPUT_DISABLE_TX, 0},
                {"rx", "off", DOVECOUNTER_OUTPUT_DISABLE_RX, 1},
                {"rx", "on", DOVECOUNTER_OUTPUT_DISABLE_RX, 0},
                {"tx-polarity", "flipped", DOVECOUNTER_INPUT_POLARITY_FLIP_TX, 1},
                {"tx-polarity", "normal", DOVECOUNTER_INPUT_POLARITY_FLIP_TX, 0},
                {"rx-polarity", "flipped", DOVECOUNTER_OUTPUT_POLARITY_FLIP_RX, 1},
                {"rx-polarity", "normal", DOVECOUNTER_OUTPUT_POLARITY_FLIP_RX, 0},
                {"tx-squelch", "disabled", DOVECOUNTER_AUTO_SQUELCH_DISABLE_TX, 1},
                {"tx-squelch", "auto", DOVECOUNTER_AUTO_SQUELCH_DISABLE_TX, 0},
                {"tx-squelch", "forced", DOVECOUNTER_OUTPUT_SQUELCH_FORCE_TX, 1},
                {"tx-squelch", "released", DOVECOUNTER_OUTPUT_SQUELCH_FORCE_TX, 0},
                {"rx-squelch", "disabled", DOVECOUNTER_AUTO_SQUELCH_DISABLE_RX, 1},
                {"rx-squelch", "auto", DOVECOUNTER_AUTO_SQUELCH_DISABLE_RX, 0}};

/* By their numbers, as the standard names them. */
static const char *const control_names[8] = {"InputPolarityFlipTx",  "OutputDisableTx",         "AutoSquelchDisableTx",
                                             "OutputSquelchForceTx", "AdaptiveInputEqFreezeTx", "OutputPolarityFlipRx",
                                             "OutputDisableRx",      "AutoSquelchDisableRx"};

static const char *const outcome_words[7] = {"unchanged",     "changed", "ignored", "refused",
                                             "not-permitted", "overdue", "gave-up"};
static const char *const outcome_sentences[7] = {"",
                                                 "",
                                                 "the module took the last store, and shows something else",
                                                 "the module refused the last store, and shows something else",
                                                 "",
                                                 "the module answers too seldom",
                                                 "4096 operations were not enough to change lanes"};

bool read_change(struct port *port, const char *name, const char *word, const char *lanes) {
    for (const struct setting *each = settings; each < settings + sizeof settings / sizeof *settings; each++) {
        if (strcmp(name, each->name) != 0 || strcmp(word, each->word) != 0) continue;
        port->change = (struct dovecounter_lane_change){each->control, lanes_of_word(lanes), each->on, STORES, 0, {0}};
        memset(port->change.media_paths, 0xFF, sizeof port->change.media_paths); /* a module doesn't show them */
        return port->change.lanes != 0;
    }
    return false;
}

/* ---- on the bus ---- */

uint8_t make_on_lanes(void *context, const struct dovecounter_operation *operation, uint8_t bytes[128]) {
    struct port *port = context;
    return port->ending == GOES_ON ? transact(port, operation, bytes) : NO_OUTCOME;
}

void wait_on_lanes(void *context, uint32_t ms) {
    struct port *port = context;
    if (port->ending == GOES_ON) pause_ms(port, ms);
}

/* Whether it came to its end. */
static bool carry_out_change(struct port *port, struct dovecounter_lane_end *end) {
    const struct dovecounter_patience patience = patience_for(port);
    struct dovecounter_changing_lanes changing;
    dovecounter_lane_begin(&port->change, &patience, &changing);
    dovecounter_lane_run(&changing, make_on_lanes, wait_on_lanes, port);
    return dovecounter_lane_end(&changing, end) == DOVECOUNTER_DONE;
}

/* Reads the module. Says why it has no lanes that can be switched. */
bool read_switchable(struct port *port) {
    struct dovecounter_advertisement module;
    bool whole = read_module(port, false);
    if (!port->json) print_flags(port);
    if (!whole) return false;
    uint32_t status = dovecounter_advertisement(port->halves, port->half_count, 0, &module);
    if (status != DOVECOUNTER_DONE) refuse_by(port, status);
    return status == DOVECOUNTER_DONE;
}

/* ---- what is printed ---- */

static void print_lanes_of(const char *name, unsigned lanes) {
    fputs(name, stdout);
    print_lanes(stdout, lanes);
    putchar('\n');
}

void print_list(const char *name, unsigned lanes) {
    const char *before = "";
    printf("\"%s\": [", name);
    for (unsigned lane = 0; lane < 8; lane++)
        if (lanes >> lane & 1) printf("%s%u", before, lane + 1), before = ", ";
    putchar(']');
}

/* `end` is NULL if the control is not known. */
static void print_in_json(const struct port *port, const char *outcome, const struct dovecounter_lane_end *end) {
    printf("{\"control\": \"%s\", \"outcome\": \"%s\", ", control_names[port->change.control], outcome);
    print_list("lanes", port->change.lanes);
    if (end != NULL) {
        fputs(", ", stdout);
        print_list("set", end->byte);
        fputs(", ", stdout);
        print_list("up", end->lanes);
        printf(", \"stores\": %u", end->stores);
    }
    puts("}");
}

static void print_end(const struct port *port, const struct dovecounter_lane_end *end) {
    const char *outcome = outcome_words[end->outcome];
    bool known = end->outcome <= DOVECOUNTER_LANES_NOT_PERMITTED;
    if (port->json) {
        print_in_json(port, outcome, known ? end : NULL);
        return;
    }
    say_lanes(stdout, outcome, port->change.lanes, "");
    if (known) print_lanes_of(control_names[port->change.control], end->byte);
}

/* ---- the commands ---- */

/* A change of no lane reads the control and stores nothing. */
static bool read_control(struct port *port, uint8_t control, struct dovecounter_lane_end *end) {
    port->change = (struct dovecounter_lane_change){.control = control};
    if (!carry_out_change(port, end)) return false;
    if (end->outcome != DOVECOUNTER_LANES_UNCHANGED) warnx("%s: %s", port->bus.name, outcome_sentences[end->outcome]);
    return end->outcome == DOVECOUNTER_LANES_UNCHANGED;
}

enum status print_controls(struct port *port) {
    struct dovecounter_lane_end ends[8];
    if (!read_switchable(port)) return REFUSED;
    for (uint8_t control = 0; control < 8; control++)
        if (!read_control(port, control, &ends[control])) return REFUSED;
    for (unsigned control = 0; control < 8; control++) {
        if (port->json) {
            fputs(control == 0 ? "{" : ", ", stdout);
            print_list(control_names[control], ends[control].byte);
        } else
            print_lanes_of(control_names[control], ends[control].byte);
    }
    if (port->json) puts("}");
    return DONE;
}

/* A signal, or a module that is gone, ended it: whether it was stored is known, what came of that isn't. */
static enum status say_unknown(const struct port *port) {
    if (port->json) print_in_json(port, port->stored ? "unknown" : "unchanged", NULL);
    if (port->stored) say_lanes(stderr, "cmis-port: perhaps changed:", port->change.lanes, "");
    return port->stored ? NOT_PROVISIONED : REFUSED;
}

enum status change_lanes(struct port *port) {
    struct dovecounter_lane_end end;
    if (port->force) port->change.permitted = 0xFF;
    if (!read_switchable(port)) return REFUSED;
    if (!carry_out_change(port, &end)) return say_unknown(port);
    print_end(port, &end);
    if (end.outcome <= DOVECOUNTER_LANES_CHANGED) return DONE;
    if (end.outcome == DOVECOUNTER_LANES_NOT_PERMITTED) {
        say_lanes(stderr, "cmis-port:", end.lanes, " are up: disturb them with --force");
        return end.stores > 0 ? NOT_PROVISIONED : IN_USE;
    }
    warnx("%s: %s", port->bus.name, outcome_sentences[end.outcome]);
    return end.stores > 0 ? NOT_PROVISIONED : REFUSED;
}
