/* The commands that print signal integrity settings of lanes, and change them. */
#include "port.h"

#include <err.h>
#include <stdlib.h>
#include <string.h>

enum { TRIES = 100, SWITCH = 2, NUMBER = 256 }; /* how often it is tried again; how many values a setting has */

/* In the order of the words that are printed. */
static const struct setting {
    const char *name, *label; /* in JSON */
    unsigned values;
} settings[SETTINGS] = {{"adaptive", "adaptive", SWITCH}, {"recall", "recall", NUMBER},
                        {"input", "fixed_input", NUMBER}, {"cdr-tx", "recover_tx", SWITCH},
                        {"cdr-rx", "recover_rx", SWITCH}, {"pre", "pre_cursor", NUMBER},
                        {"post", "post_cursor", NUMBER},  {"amplitude", "amplitude", NUMBER}};

static const char *const outcome_words[8] = {"active",   "not-up",     "not-explicit", "not-staged",
                                             "rejected", "not-active", "overdue",      "gave-up"};
static const char *const outcome_sentences[8] = {
    "",
    "is not up: its settings can't be changed at once",
    "is not under explicit control, or another control byte is staged for it",
    "the module shows other staged settings than were stored",
    "was rejected",
    "has other settings than were applied",
    "the module answers too seldom",
    "4096 operations were not enough to change settings"};

/* What a setting is to be, or -1. */
static int read_value(const struct setting *setting, const char *word) {
    if (setting->values == SWITCH) return strcmp(word, "on") == 0 ? 1 : strcmp(word, "off") == 0 ? 0 : -1;
    size_t length = strspn(word, "0123456789");
    int value = length > 0 && length <= 3 && word[length] == '\0' ? atoi(word) : -1;
    return value < NUMBER ? value : -1;
}

static bool read_pair(struct port *port, const char *word) {
    const char *value = strchr(word, '=');
    if (value++ == NULL) return false;
    size_t length = (size_t)(value - word) - 1;
    if (length == 4 && strncmp(word, "lane", length) == 0) return (port->tuned_lanes = lanes_of_word(value)) != 0;
    for (unsigned i = 0; i < SETTINGS; i++)
        if (strlen(settings[i].name) == length && strncmp(word, settings[i].name, length) == 0)
            return (port->tuned[i] = (int16_t)read_value(&settings[i], value)) >= 0;
    return false;
}

/* Whether they name lanes and at least one setting. */
bool read_targets(struct port *port, char **words, int count) {
    bool is_tuned = false;
    memset(port->tuned, -1, sizeof port->tuned);
    for (int i = 0; i < count; i++)
        if (!read_pair(port, words[i])) return false;
    for (unsigned i = 0; i < SETTINGS; i++) is_tuned = is_tuned || port->tuned[i] >= 0;
    return is_tuned && port->tuned_lanes != 0;
}

/* The same, in one word of the command line. */
bool read_plan_targets(struct port *port, char *word) {
    char *words[SETTINGS + 2], *rest = NULL;
    int count = 0;
    for (char *each = strtok_r(word, " ", &rest); each != NULL; each = strtok_r(NULL, " ", &rest))
        if (count < SETTINGS + 1)
            words[count++] = each;
        else
            return false;
    return read_targets(port, words, count);
}

/* ---- the settings of a lane, by their place ---- */

static uint8_t *byte_of(struct dovecounter_signal_targets *targets, unsigned setting, unsigned lane) {
    uint8_t *const bytes[SETTINGS] = {&targets->adaptive,   targets->recall,      targets->fixed_input,
                                      &targets->recover_tx, &targets->recover_rx, targets->pre_cursor,
                                      targets->post_cursor, targets->amplitude};
    return bytes[setting] + (settings[setting].values == SWITCH ? 0 : lane);
}

static unsigned value_of(struct dovecounter_signal_targets *targets, unsigned setting, unsigned lane) {
    uint8_t byte = *byte_of(targets, setting, lane);
    return settings[setting].values == SWITCH ? (unsigned)byte >> lane & 1U : byte;
}

static void put_value(struct dovecounter_signal_targets *targets, unsigned setting, unsigned lane, unsigned value) {
    uint8_t *byte = byte_of(targets, setting, lane);
    *byte = (uint8_t)(settings[setting].values == SWITCH ? (*byte & ~(1U << lane)) | value << lane : value);
}

/* ---- what is printed ---- */

static void print_setting(const struct setting *setting, unsigned value) {
    if (setting->values == SWITCH)
        printf(" %s %s", setting->name, value ? "on" : "off");
    else
        printf(" %s %u", setting->name, value);
}

static void print_text(struct dovecounter_signal_targets *active, const struct dovecounter_settings_limits *limits) {
    printf("limits input %u pre %u post %u amplitude", limits->fixed_input, limits->pre_cursor, limits->post_cursor);
    for (unsigned code = 0; code < 4; code++)
        if (limits->amplitudes >> code & 1) printf(" %u", code);
    putchar('\n');
    for (unsigned lane = 0; lane < 8; lane++) {
        printf("lane %u", lane + 1);
        for (unsigned i = 0; i < SETTINGS; i++) print_setting(&settings[i], value_of(active, i, lane));
        putchar('\n');
    }
}

static void print_json(struct dovecounter_signal_targets *active, const struct dovecounter_settings_limits *limits) {
    const char *before = "";
    printf("{\"limits\": {\"fixed_input\": %u, \"pre_cursor\": %u, \"post_cursor\": %u, \"amplitudes\": [",
           limits->fixed_input, limits->pre_cursor, limits->post_cursor);
    for (unsigned code = 0; code < 4; code++)
        if (limits->amplitudes >> code & 1) printf("%s%u", before, code), before = ", ";
    fputs("]}, \"lanes\": [", stdout);
    for (unsigned lane = 0; lane < 8; lane++) {
        printf("%s{\"lane\": %u", lane > 0 ? ", " : "", lane + 1);
        for (unsigned i = 0; i < SETTINGS; i++) {
            unsigned value = value_of(active, i, lane);
            printf(", \"%s\": ", settings[i].label);
            if (settings[i].values == SWITCH)
                fputs(value ? "true" : "false", stdout);
            else
                printf("%u", value);
        }
        putchar('}');
    }
    puts("]}");
}

/* ---- the commands ---- */

struct found {
    struct dovecounter_settings settings;
    struct dovecounter_settings_limits limits;
};

static bool read_settings(struct port *port, struct found *found) {
    if (!read_switchable(port)) return false;
    uint32_t status = dovecounter_settings(port->halves, port->half_count, &found->settings);
    if (status == DOVECOUNTER_DONE)
        status = dovecounter_settings_limits(port->halves, port->half_count, &found->limits);
    if (status != DOVECOUNTER_DONE) refuse_by(port, status);
    return status == DOVECOUNTER_DONE;
}

enum status print_settings(struct port *port) {
    struct found found;
    if (!read_settings(port, &found)) return REFUSED;
    if (port->json)
        print_json(&found.settings.active, &found.limits);
    else
        print_text(&found.settings.active, &found.limits);
    return DONE;
}

/* What isn't named stays as it is active. */
static struct dovecounter_settings_change wanted(const struct port *port, const struct found *found) {
    struct dovecounter_settings_change change = {port->tuned_lanes, port->force ? ALL_LANES : 0, TRIES,
                                                 found->settings.active};
    for (unsigned lane = 0; lane < 8; lane++)
        for (unsigned i = 0; i < SETTINGS; i++)
            if (port->tuned_lanes >> lane & 1 && port->tuned[i] >= 0)
                put_value(&change.targets, i, lane, (unsigned)port->tuned[i]);
    return change;
}

static void print_outcome(const struct port *port, const char *outcome, unsigned lane) {
    if (!port->json) {
        say_lanes(stdout, outcome, port->tuned_lanes, "");
        return;
    }
    printf("{\"outcome\": \"%s\", ", outcome);
    print_list("lanes", port->tuned_lanes);
    printf(lane > 0 ? ", \"lane\": %u}\n" : "}\n", lane);
}

static enum status refuse_change(const struct port *port, uint32_t status) {
    static const char *const names[5] = {"recall", "input", "pre", "post", "amplitude"};
    unsigned up = port->tuned_lanes & ~lanes_in(port, DEACTIVATED);
    if (status == DOVECOUNTER_NOT_PERMITTED) {
        say_lanes(stderr, "cmis-port:", up ? up : port->tuned_lanes,
                  up ? " are up: disturb them with --force" : " are not up: their settings can't be changed at once");
        return up ? IN_USE : REFUSED;
    }
    warnx("%s: the module advertises no such %s: see `settings`", port->bus.name,
          names[status - DOVECOUNTER_NO_SUCH_RECALL]);
    return REFUSED;
}

static enum status report(const struct port *port, const struct dovecounter_settings_end *end) {
    const char *sentence = outcome_sentences[end->outcome];
    print_outcome(port, outcome_words[end->outcome], end->lane);
    if (end->outcome == DOVECOUNTER_SETTINGS_ACTIVE) return DONE;
    if (end->lane > 0)
        warnx("%s: lane %u %s", port->bus.name, end->lane, sentence);
    else
        warnx("%s: %s", port->bus.name, sentence);
    return end->reached > 0 ? NOT_PROVISIONED : REFUSED;
}

/* A fetch of more bytes than the adapter carries at once is made in pieces. */
static uint8_t make_in_pieces(void *context, const struct dovecounter_operation *operation, uint8_t bytes[128]) {
    const struct port *port = context;
    struct dovecounter_operation piece = *operation;
    uint8_t outcome, made = 0;
    do {
        uint8_t left = (uint8_t)(operation->count - made);
        piece.offset = (uint8_t)(operation->offset + made);
        piece.count = left < port->most ? left : port->most;
        outcome = make_on_lanes(context, &piece, bytes + made);
        made = (uint8_t)(made + piece.count);
    } while (outcome == DOVECOUNTER_FETCHED && made < operation->count);
    return outcome;
}

enum status change_settings(struct port *port) {
    struct found found;
    if (!read_settings(port, &found)) return REFUSED;
    const struct dovecounter_patience patience = patience_for(port);
    const struct dovecounter_settings_change change = wanted(port, &found);
    struct dovecounter_changing_settings changing;
    struct dovecounter_settings_end end;
    uint32_t status = dovecounter_settings_begin(&change, &found.limits, &patience, &changing);
    if (status != DOVECOUNTER_DONE) return refuse_change(port, status);
    dovecounter_settings_run(&changing, make_in_pieces, wait_on_lanes, port);
    if (dovecounter_settings_end(&changing, &end) == DOVECOUNTER_DONE) return report(port, &end);
    if (port->json) print_outcome(port, port->stored ? "unknown" : "unchanged", 0);
    if (port->stored) say_lanes(stderr, "cmis-port: perhaps changed:", port->tuned_lanes, "");
    return port->stored ? NOT_PROVISIONED : REFUSED;
}

/* ---- provisioning with settings ---- */

/* The settings that lanes of the plan are to have, with explicit control. Says what the module doesn't advertise, or if the plan has none of
   the lanes. */
bool begin_tuned(struct port *port) {
    struct found found;
    const struct dovecounter_patience patience = patience_for(port);
    struct dovecounter_explicit it;
    uint32_t status = dovecounter_settings(port->halves, port->half_count, &found.settings);
    if (status == DOVECOUNTER_DONE) status = dovecounter_settings_limits(port->halves, port->half_count, &found.limits);
    if (status != DOVECOUNTER_DONE) return refuse_by(port, status), false;
    port->tuned_lanes &= port->plan.lanes;
    if (port->tuned_lanes == 0) return warnx("%s: the plan has none of the lanes of --settings", port->bus.name), false;
    port->tunes = wanted(port, &found), port->limits = found.limits;
    for (unsigned lane = 0; lane < 8; lane++) port->plan.control[lane] |= (uint8_t)(port->tuned_lanes >> lane & 1);
    status = dovecounter_explicit_begin(port->plan.control, 0, &port->tunes, &port->limits, &patience, &it);
    return status == DOVECOUNTER_DONE || (refuse_change(port, status), false);
}

/* Whether they are active now. */
bool has_tuned(const struct port *port) {
    struct dovecounter_settings now;
    struct dovecounter_signal_targets targets = port->tunes.targets;
    if (dovecounter_settings(port->halves, port->half_count, &now) != DOVECOUNTER_DONE) return false;
    for (unsigned lane = 0; lane < 8; lane++)
        for (unsigned i = 0; i < SETTINGS; i++)
            if (port->tuned_lanes >> lane & 1 && value_of(&targets, i, lane) != value_of(&now.active, i, lane))
                return false;
    return true;
}

/* The lanes that are taken. If the plan's control bytes are active, settings are applied to those that are down, which stay so. */
static uint8_t taken_lanes(const struct port *port) {
    const struct dovecounter_effect effect = judge_control(port);
    return effect.is_active ? (uint8_t)lanes_in(port, DEACTIVATED) : effect.taken;
}

/* As carry_out does. */
unsigned provision_tuned(struct port *port) {
    const struct dovecounter_patience patience = patience_for(port);
    struct dovecounter_explicit it;
    struct dovecounter_explicit_end end;
    dovecounter_explicit_begin(port->plan.control, taken_lanes(port), &port->tunes, &port->limits, &patience, &it);
    dovecounter_explicit_run(&it, make_in_pieces, wait_on_lanes, port);
    if (dovecounter_explicit_end(&it, &end) != DOVECOUNTER_DONE) return NO_ANSWER;
    if (end.settings == DOVECOUNTER_EXPLICIT_SETTINGS_NOT_STAGED)
        warnx("%s: %s", port->bus.name, outcome_sentences[DOVECOUNTER_SETTINGS_NOT_STAGED]);
    if (end.settings == DOVECOUNTER_EXPLICIT_SETTINGS_NOT_ACTIVE)
        warnx("%s: lane %u %s", port->bus.name, end.lane, outcome_sentences[DOVECOUNTER_SETTINGS_NOT_ACTIVE]);
    if (end.settings != 0) return NO_ANSWER;
    if (end.fault.code != 0) say_fault(port->bus.name, end.fault);
    port->steps[PROVISION] = end.steps;
    return end.fault.code;
}
