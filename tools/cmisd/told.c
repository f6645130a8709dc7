/* What is told of a port: lines of the log, and lines of JSON for those who listen. */
#include "cmisd.h"

#include <stdlib.h>
#include <string.h>
#include <sys/stat.h>
#include <systemd/sd-journal.h>
#include <unistd.h>

/* Whether standard error leads to the journal: systemd names what does by its device and inode, to all that a service begins. */
static bool has_journal(void) {
    const char *stream = getenv("JOURNAL_STREAM");
    struct stat about;
    char own[64];
    if (stream == NULL || fstat(STDERR_FILENO, &about) != 0) return false;
    snprintf(own, sizeof own, "%ju:%ju", (uintmax_t)about.st_dev, (uintmax_t)about.st_ino);
    return strcmp(own, stream) == 0;
}

/* A line for the journal with fields of its own, or on standard error. */
static void log_event(const char *name, const char *event, const char *words) {
    const char *colon = words[0] != 0 ? ": " : "";
    if (!has_journal())
        fprintf(stderr, "%s: %s%s%s\n", name, event, colon, words);
    else
        sd_journal_send("MESSAGE=%s: %s%s%s", name, event, colon, words, "PRIORITY=6", "CMISD_PORT=%s", name,
                        "CMISD_EVENT=%s", event, "CMISD_WORDS=%s", words, NULL);
}

static void tell_listeners(const char *name, const char *event, const char *words) {
    char *line = NULL;
    size_t length;
    FILE *out = open_memstream(&line, &length);
    if (out == NULL) return;
    print_text(out, "{", "event", event);
    print_text(out, ", ", "port", name);
    print_text(out, ", ", "words", words);
    print_moment(out, ", ", "time", now());
    fputs("}\n", out);
    if (fclose(out) == 0) send_to_listeners(line, length);
    free(line);
}

/* A module that is only read again is left alone since then. */
void tell(struct port *port, const char *event, const char *words) {
    if (!port->is_read_again && port->stage != port->core.stage) port->since = now();
    if (!port->is_read_again) port->stage = port->core.stage;
    log_event(port->entry.name, event, words);
    tell_listeners(port->entry.name, event, words);
    put_status(port);
}

/* ---- what a reply led to */

static const char *const failures[] = {
    [DOVECOUNTER_PORT_UNREAD] = "the module's memory could not be read",
    [DOVECOUNTER_PORT_ASLEEP] = "the module is not ready though it was woken up",
    [DOVECOUNTER_PORT_NOT_WOKEN] = "the module could not be woken up",
    [DOVECOUNTER_PORT_NOT_PROVISIONED] = "the plan could not be made active",
    [DOVECOUNTER_PORT_NOT_ACTIVATED] = "the plan's lanes did not come up",
    [DOVECOUNTER_PORT_UNSEEN] = "the module could not be looked at",
    [DOVECOUNTER_PORT_CHANGED] = "the module is no longer as it was wanted",
    [DOVECOUNTER_PORT_NOT_ASLEEP] = "the module could not be put to sleep",
    [DOVECOUNTER_PORT_APPLY_REFUSED] = apply_refused,
    [DOVECOUNTER_PORT_WAKING_REFUSED] = "the bus refused what wakes the module up",
};

/* Why a module is left alone: as the library has it of what a module advertises. */
void say_reason(char words[WORDS_SIZE], const struct dovecounter_left *left) {
    uint8_t text[DOVECOUNTER_TEXT_SIZE];
    size_t length = 0;
    bool is_own = left->reason <= DOVECOUNTER_LEFT_ASLEEP;
    if (!is_own) dovecounter_status_text(left->reason, text, sizeof text, &length);
    int written = snprintf(words, WORDS_SIZE, "%.*s", (int)length, (const char *)text);
    if (is_own)
        snprintf(words, WORDS_SIZE, "%s", left_reasons[left->reason]);
    else if (left->value != 0)
        snprintf(words + written, WORDS_SIZE - (size_t)written, " (%02Xh)", left->value);
}

static void say_failure(char words[WORDS_SIZE], const struct dovecounter_port_outcome *outcome) {
    const struct dovecounter_fault *fault = &outcome->fault;
    uint8_t text[DOVECOUNTER_TEXT_SIZE];
    size_t length = 0;
    int written = snprintf(words, WORDS_SIZE, "%s", failures[outcome->failure]);
    if (dovecounter_fault_text(fault->code, text, sizeof text, &length) == DOVECOUNTER_DONE)
        snprintf(words + written, WORDS_SIZE - (size_t)written, ": PV%u %u %u: %.*s", fault->code, fault->first,
                 fault->second, (int)length, (const char *)text);
}

static void tell_failure(struct port *port, const struct dovecounter_port_outcome *outcome) {
    say_failure(port->failure, outcome);
    port->failed_at = now();
    tell(port, "failed", port->failure);
}

static void tell_identity(struct port *port) {
    struct dovecounter_identity identity;
    char words[WORDS_SIZE] = "";
    if (dovecounter_identity(port->halves, port->half_count, &identity) == DOVECOUNTER_DONE)
        snprintf(words, sizeof words, "%s %s %s", identity.vendor, identity.part, identity.serial);
    tell(port, "read", words);
}

static void tell_note(struct port *port, uint8_t note) {
    switch (note) {
    case DOVECOUNTER_PORT_IDENTIFIED: return tell_identity(port);
    case DOVECOUNTER_PORT_WOKEN: return tell(port, "woken", "");
    case DOVECOUNTER_PORT_PROVISIONED: return tell(port, "provisioned", "");
    case DOVECOUNTER_PORT_CAME_UP: return tell(port, "up", "");
    case DOVECOUNTER_PORT_STILL_UP: return put_status(port);
    default: return;
    }
}

/* The best plan, as the module was just read: whose control bytes the port works for, unless somebody asked for something else. */
static void find_plan(struct port *port) {
    const struct dovecounter_wanted *wanted = &port->entry.wanted;
    dovecounter_plan(port->halves, port->half_count, wanted->paired, wanted->counts_by_id, wanted->weights,
                     wanted->stay, NULL, 0, &port->plan);
}

/* Once the module is left alone. What was asked only once gives way to what was asked before, unless that is why. */
static void end_request(struct port *port, uint8_t reason) {
    bool is_refused = port->before.is_once && reason != DOVECOUNTER_LEFT_ASLEEP;
    port->before.is_once = false;
    if (!is_refused) return;
    request(port, port->before.request, port->before.lanes, false);
    tell(port, "asked", requests[port->core.request]);
}

/* Whether what was read becomes the image: the memory as a whole, or what has changed in it for good. */
static bool has_image(const struct dovecounter_port_outcome *outcome) {
    bool is_asleep = outcome->kind == DOVECOUNTER_PORT_FAILED && outcome->failure == DOVECOUNTER_PORT_ASLEEP;
    return is_asleep || outcome->kind == DOVECOUNTER_PORT_LEAVES || outcome->note != DOVECOUNTER_PORT_QUIET;
}

/* What the module is known by, as it was read; zeros for what wasn't. */
static void find_known(const struct port *port, struct known *known) {
    struct dovecounter_identity identity;
    const struct dovecounter_half *advertised = half_of(port, 1, ADVERTISED_PAGE);
    memset(known, 0, sizeof *known);
    if (dovecounter_identity(port->halves, port->half_count, &identity) == DOVECOUNTER_DONE)
        memcpy(known->identity, &identity, sizeof known->identity);
    if (advertised != NULL) memcpy(known->advertised, advertised->bytes, sizeof known->advertised);
}

/* What was only read of the module before goes: it may have been exchanged since. */
static void keep_anew(struct port *port) {
    size_t count = 0;
    for (size_t i = 0; i < port->half_count; i++)
        if (port->anew >> i & 1) port->halves[count++] = port->halves[i];
    port->half_count = count;
    port->banks.read_count = 0;
}

/* All that is the former module's goes, if another one was read. Answers whether one was. */
static bool forget_former(struct port *port) {
    struct known known;
    if (port->is_read_again) keep_anew(port);
    find_known(port, &known);
    if (memcmp(&known, &port->known, sizeof known) == 0) return false;
    port->known = known;
    port->since = now();
    forget_module(port);
    return true;
}

/* A module at which something is done, or has failed, is no longer only read again. The image waits for lanes above 8 that are read next. */
void hear(struct port *port, const struct dovecounter_port_outcome *outcome) {
    char words[WORDS_SIZE];
    bool has_failed = outcome->kind == DOVECOUNTER_PORT_FAILED;
    bool is_used = has_failed || outcome->note != DOVECOUNTER_PORT_QUIET;
    bool is_other = has_image(outcome) && forget_former(port);
    expect_banks(port, outcome);
    if (has_image(outcome) && !port->banks.is_due) put_image(port);
    if (is_used && port->is_read_again) begin_round(port);
    if (is_used) port->is_read_again = false;
    if (outcome->note == DOVECOUNTER_PORT_IDENTIFIED || outcome->note == DOVECOUNTER_PORT_CAME_UP) find_plan(port);
    if (outcome->kind == DOVECOUNTER_PORT_WENT) tell_note(port, outcome->note);
    if (has_failed) tell_failure(port, outcome);
    if (outcome->kind != DOVECOUNTER_PORT_LEAVES) return;
    bool is_told = port->is_read_again && !is_other && memcmp(&port->left, &outcome->left, sizeof port->left) == 0;
    port->is_read_again = false;
    port->left = outcome->left;
    if (is_told) return put_status(port);
    say_reason(words, &outcome->left);
    tell(port, "left", words);
    end_request(port, outcome->left.reason);
}

/* ---- flags */

static void tell_flag(struct port *port, size_t flag) {
    const struct raised raised = raised_of(port, flag);
    char words[WORDS_SIZE];
    if (raised.lane == 0) return tell(port, "flag", raised.name);
    snprintf(words, sizeof words, "%s of lane %u", raised.name, raised.lane);
    tell(port, "flag", words);
}

/* Of so many flags from the first on. */
static void tell_raised(struct port *port, size_t first, size_t count, const uint16_t *is, const uint16_t *was) {
    for (size_t i = 0; i < count; i++)
        if (is[i] > 0 && was[i] == 0) tell_flag(port, first + i);
}

/* Those that were read as raised for the first time since they were acknowledged. */
void tell_flags(struct port *port) {
    const struct dovecounter_flag_counts *is = &port->core.flags;
    if (memcmp(&port->flags, is, sizeof *is) == 0) return;
    const struct dovecounter_flag_counts was = port->flags;
    port->flags = *is;
    port->has_new_counts = true;
    tell_raised(port, 0, MODULE_FLAGS, is->module_counts, was.module_counts);
    tell_raised(port, MODULE_FLAGS, LANE_FLAGS, is->lane_counts, was.lane_counts);
}

/* The same of a further bank, which was counted. */
void tell_bank_flags(struct port *port, uint8_t bank, const struct dovecounter_bank_counts *was) {
    const struct dovecounter_bank_counts *is = &port->counts[bank - 1];
    if (memcmp(was, is, sizeof *is) == 0) return;
    port->has_new_counts = true;
    tell_raised(port, MODULE_FLAGS + (size_t)bank * LANE_FLAGS, LANE_FLAGS, is->lane_counts, was->lane_counts);
}
