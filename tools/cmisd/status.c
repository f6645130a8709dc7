/* How a port is, in JSON: a line for PORT.json and for who asks; and what cmis-port goes by in place of a bus. */
#include "cmisd.h"

#include <string.h>
#include <time.h>

enum { MODULE_STATE = 3, CONFIG_STATUSES = 202 - 128, ACTIVE = 206 - 128 };

/* ---- members of JSON, each after `before`, which may be a comma */

static void print_name(FILE *out, const char *before, const char *name) {
    fputs(before, out);
    fputc('"', out);
    fputs(name, out);
    fputs("\": ", out);
}

void print_text(FILE *out, const char *before, const char *name, const char *text) {
    print_name(out, before, name);
    fputc('"', out);
    for (const char *each = text; *each != 0; each++) {
        bool is_plain = *each >= ' ' && *each <= '~' && *each != '"' && *each != '\\';
        if (is_plain)
            fputc(*each, out);
        else
            fprintf(out, "\\u%04x", (unsigned char)*each);
    }
    fputc('"', out);
}

/* As printf has it, whose time was half of the daemon's. */
static void print_digits(FILE *out, uint64_t number) {
    char digits[20];
    size_t at = sizeof digits;
    do digits[--at] = (char)('0' + number % 10);
    while ((number /= 10) > 0);
    fwrite(digits + at, 1, sizeof digits - at, out);
}

static void print_number(FILE *out, const char *before, const char *name, uint64_t number) {
    print_name(out, before, name);
    print_digits(out, number);
}

static void print_flag(FILE *out, const char *before, const char *name, bool flag) {
    print_name(out, before, name);
    fputs(flag ? "true" : "false", out);
}

/* The milliseconds from 1970 to the beginning of now(), by the clock as it is set. */
int64_t clock_offset(void) {
    struct timespec time;
    clock_gettime(CLOCK_REALTIME, &time);
    return (int64_t)time.tv_sec * 1000 + time.tv_nsec / 1000000 - now();
}

/* In seconds since 1970, of a moment of now(). */
void print_seconds(FILE *out, int64_t moment) {
    int64_t real = clock_offset() + moment;
    print_digits(out, (uint64_t)real / 1000);
    fputs(real % 1000 < 10 ? ".00" : real % 1000 < 100 ? ".0" : ".", out);
    print_digits(out, (uint64_t)real % 1000);
}

void print_moment(FILE *out, const char *before, const char *name, int64_t moment) {
    print_name(out, before, name);
    print_seconds(out, moment);
}

/* After other members. */
void print_lane_list(FILE *out, const char *name, uint8_t lanes) {
    const char *before = "";
    print_name(out, ", ", name);
    fputc('[', out);
    for (unsigned lane = 0; lane < 8; lane++)
        if (lanes >> lane & 1) fprintf(out, "%s%u", before, lane + 1), before = ", ";
    fputc(']', out);
}

/* ---- what is known of a module */

/* Of a module of CMIS, whose halves that are read are all of device A0 and of bank 0. */
const struct dovecounter_half *half_of(const struct port *port, uint8_t upper, uint8_t page) {
    for (size_t i = 0; i < port->half_count; i++)
        if (port->halves[i].upper == upper && port->halves[i].page == page) return &port->halves[i];
    return NULL;
}

/* Answers whether the module is one of CMIS. */
static bool print_identity(FILE *out, const struct port *port) {
    struct dovecounter_identity identity;
    if (dovecounter_identity(port->halves, port->half_count, &identity) != DOVECOUNTER_DONE) return false;
    print_text(out, ", \"identity\": {", "vendor", identity.vendor);
    print_text(out, ", ", "part", identity.part);
    print_text(out, ", ", "part_revision", identity.part_revision);
    print_text(out, ", ", "serial", identity.serial);
    print_text(out, ", ", "date", identity.date);
    fputc('}', out);
    return identity.family == DOVECOUNTER_CMIS;
}

static void print_control(FILE *out, const uint8_t control[8]) {
    char text[25];
    for (unsigned lane = 0; lane < 8; lane++) snprintf(text + 3 * lane, 4, "%02x ", control[lane]);
    text[23] = 0;
    print_text(out, "", "control", text);
}

/* What the port works for, with the paths that these bytes stand for. */
static void print_plan(FILE *out, const struct port *port) {
    const struct dovecounter_goal *goal = &port->core.goal;
    const struct dovecounter_plan *plan = &port->plan;
    uint8_t stage = port->core.stage;
    bool works = stage >= DOVECOUNTER_PORT_PROVISIONING && stage <= DOVECOUNTER_PORT_WATCHING;
    if (!works && stage != DOVECOUNTER_PORT_CONFIRMING) return;
    fputs(", \"plan\": {", out);
    print_control(out, goal->control);
    bool is_same = plan->count > 0 && memcmp(plan->control, goal->control, sizeof plan->control) == 0;
    for (size_t i = 0; i < plan->count && is_same; i++) {
        print_number(out, i == 0 ? ", \"paths\": [{" : "}, {", "application", plan->paths[i].application);
        print_number(out, ", ", "host", plan->paths[i].host);
        print_number(out, ", ", "media", plan->paths[i].media);
    }
    fputs(is_same ? "}]}" : "}", out);
}

/* Since when a code of a lane is as it was read last, if it has ever changed, and how often it has changed. */
static void print_changes(FILE *out, const char *const names[2], const struct dovecounter_lane_codes *codes,
                          unsigned lane) {
    if (codes->changes[lane] > 0) print_moment(out, ", ", names[0], (int64_t)codes->last[lane]);
    print_number(out, ", ", names[1], codes->changes[lane]);
}

/* Page 11h of a bank as it was read last, or NULL. */
static const struct dovecounter_half *lanes_page(const struct port *port, unsigned bank) {
    const struct dovecounter_half *found = bank == 0 ? half_of(port, 1, LANES_PAGE) : NULL;
    for (uint8_t i = 0; i < port->banks.read_count; i++)
        if (port->banks.read[i].bank == bank) found = &port->banks.read[i];
    return found;
}

/* What was counted of the lanes of a bank. */
struct lane_counts counts_of(const struct port *port, unsigned bank) {
    const struct dovecounter_flag_counts *first = &port->core.flags;
    if (bank == 0) return (struct lane_counts){first->lane_counts, first->lane_last, &first->states, &first->statuses};
    const struct dovecounter_bank_counts *further = &port->counts[bank - 1];
    return (struct lane_counts){further->lane_counts, further->lane_last, &further->states, &further->statuses};
}

/* The lanes of a bank; `before` comes before the first. */
static void print_bank(FILE *out, const struct port *port, unsigned bank, const char *before) {
    static const char *const of_state[] = {"since", "changes"}, *const of_status[] = {"status_since", "status_changes"};
    const uint8_t *bytes = lanes_page(port, bank)->bytes;
    const struct lane_counts counts = counts_of(port, bank);
    for (unsigned lane = 0; lane < 8; lane++) {
        print_number(out, lane == 0 ? before : "}, {", "lane", 8 * bank + lane + 1);
        print_text(out, ", ", "state", path_states[code_of(bytes, lane)]);
        print_changes(out, of_state, counts.states, lane);
        print_text(out, ", ", "status", config_statuses[code_of(bytes + CONFIG_STATUSES, lane)]);
        print_changes(out, of_status, counts.statuses, lane);
        print_number(out, ", ", "active", bytes[ACTIVE + lane]);
    }
}

static void print_lanes(FILE *out, const struct port *port) {
    const struct dovecounter_half *lower = half_of(port, 0, 0);
    const char *before = ", \"lanes\": [{";
    if (lower != NULL) print_text(out, ", ", "state", module_states[lower->bytes[MODULE_STATE] >> 1 & 7]);
    for (unsigned bank = 0; bank < BANKS; bank++) {
        if (lanes_page(port, bank) == NULL) continue;
        print_bank(out, port, bank, before);
        before = "}, {";
    }
    if (before[0] == '}') fputs("}]", out);
}

/* ---- flags */

/* Bytes 134 to 152 of page 11h, and the bits of byte 9. */
static const char *const lane_flags[] = {
    "path-state-changed",
    "tx-failure",
    "tx-los",
    "tx-lol",
    "tx-eq-fail",
    "tx-power-high-alarm",
    "tx-power-low-alarm",
    "tx-power-high-warning",
    "tx-power-low-warning",
    "tx-bias-high-alarm",
    "tx-bias-low-alarm",
    "tx-bias-high-warning",
    "tx-bias-low-warning",
    "rx-los",
    "rx-lol",
    "rx-power-high-alarm",
    "rx-power-low-alarm",
    "rx-power-high-warning",
    "rx-power-low-warning",
};
static const char *const module_flags[] = {
    "temperature-high-alarm", "temperature-low-alarm", "temperature-high-warning", "temperature-low-warning",
    "vcc-high-alarm",         "vcc-low-alarm",         "vcc-high-warning",         "vcc-low-warning",
};

/* The name of a flag of the module, and after those of the lanes of each bank. The others of the module are named by their byte and bit. */
static void name_flag(char name[NAME_SIZE], size_t flag) {
    bool is_named = flag / 8 == 1;
    if (flag >= MODULE_FLAGS)
        snprintf(name, NAME_SIZE, "%s", lane_flags[(flag - MODULE_FLAGS) % LANE_FLAGS / 8]);
    else if (is_named)
        snprintf(name, NAME_SIZE, "%s", module_flags[flag % 8]);
    else
        snprintf(name, NAME_SIZE, "module-flag-%zu.%zu", 8 + flag / 8, flag % 8);
}

/* Of the module, and of each bank up to the last one that was counted. */
size_t flag_count(const struct port *port) {
    size_t banks = 1;
    while (port->counted >> (banks - 1) != 0) banks++;
    return MODULE_FLAGS + banks * LANE_FLAGS;
}

static struct raised lane_raised(const struct port *port, unsigned bank, size_t at) {
    const struct lane_counts counts = counts_of(port, bank);
    return (struct raised){
        .lane = 8 * bank + (unsigned)at % 8 + 1, .count = counts.counts[at], .last = (int64_t)counts.last[at]};
}

/* A flag, by the order of names, and how often and when it was raised; without its name if never. */
struct raised raised_of(const struct port *port, size_t flag) {
    const struct dovecounter_flag_counts *flags = &port->core.flags;
    size_t of_lanes = flag - MODULE_FLAGS;
    struct raised raised;
    if (flag < MODULE_FLAGS)
        raised = (struct raised){.count = flags->module_counts[flag], .last = (int64_t)flags->module_last[flag]};
    else
        raised = lane_raised(port, (unsigned)(of_lanes / LANE_FLAGS), of_lanes % LANE_FLAGS);
    if (raised.count > 0) name_flag(raised.name, flag);
    return raised;
}

static void print_flags(FILE *out, const struct port *port) {
    const char *before = "";
    fputs(", \"flags\": [", out);
    for (size_t flag = 0, count = flag_count(port); flag < count; flag++) {
        const struct raised raised = raised_of(port, flag);
        if (raised.count == 0) continue;
        fprintf(out, "%s{", before);
        print_text(out, "", "flag", raised.name);
        if (raised.lane > 0) print_number(out, ", ", "lane", raised.lane);
        print_number(out, ", ", "count", raised.count);
        print_moment(out, ", ", "last", raised.last);
        fputc('}', out);
        before = ", ";
    }
    fputc(']', out);
}

/* ---- a port as a whole */

static const char *const stages[] = {
    [DOVECOUNTER_PORT_ABSENT] = "absent",
    [DOVECOUNTER_PORT_LEFT] = "left",
    [DOVECOUNTER_PORT_READING] = "reading",
    [DOVECOUNTER_PORT_WAKING] = "waking",
    [DOVECOUNTER_PORT_PROVISIONING] = "provisioning",
    [DOVECOUNTER_PORT_ACTIVATING] = "activating",
    [DOVECOUNTER_PORT_WATCHING] = "up",
    [DOVECOUNTER_PORT_SLEEPING] = "going to sleep",
    [DOVECOUNTER_PORT_CONFIRMING] = "confirming",
};

/* Whether it is shown as left alone: also while its module is read again. */
static bool is_left(const struct port *port) {
    return port->is_read_again || port->core.stage == DOVECOUNTER_PORT_LEFT;
}

static void print_wait(FILE *out, const struct port *port) {
    const char *what = "its next look";
    if (!port->entry.manage)
        what = "manage = yes";
    else if (port->is_held || port->is_lent)
        what = "release";
    else if (!port->is_open && (uses_bus(port) || port->reopens_in > 1000)) /* it was tried in vain */
        what = "its bus";
    else if (port->is_blind)
        what = "its presence pin";
    else if (port->began != 0)
        what = "a reply";
    else if (!is_there(port))
        what = "a module";
    else if (is_left(port) && port->entry.times.recheck > 0)
        what = "its next reading";
    else if (is_left(port))
        what = "another module, another configuration or a command";
    else if (port->core.stage != DOVECOUNTER_PORT_WATCHING)
        what = "its next operation";
    print_text(out, ", ", "waits_for", what);
    if (port->began != 0) print_moment(out, ", ", "waits_since", port->began);
    bool rests = port->core.stage == DOVECOUNTER_PORT_LEFT && port->entry.times.recheck > 0;
    uint64_t until = rests ? port->core.recheck_at : port->core.due;
    if (until > (uint64_t)now()) print_moment(out, ", ", "waits_until", (int64_t)until);
}

const char *const requests[] = {"wake", "sleep", "provision", "deactivate"};

static void print_request(FILE *out, const struct port *port) {
    if (port->core.request == DOVECOUNTER_REQUEST_WAKE) return;
    print_text(out, ", \"asked\": {", "command", requests[port->core.request]);
    print_lane_list(out, "lanes", port->core.request_lanes);
    fputc('}', out);
}

/* All members of the overview, without the end. */
void begin_port(FILE *out, const struct port *port) {
    char words[WORDS_SIZE];
    print_text(out, "{", "port", port->entry.name);
    print_text(out, ", ", "bus", port->entry.bus);
    print_text(out, ", ", "stage", stages[is_left(port) ? DOVECOUNTER_PORT_LEFT : port->core.stage]);
    print_moment(out, ", ", "since", port->since);
    if (is_left(port)) {
        say_reason(words, port->core.stage == DOVECOUNTER_PORT_LEFT ? &port->core.left : &port->left);
        print_text(out, ", ", "why", words);
    }
    print_flag(out, ", ", "present", is_there(port));
    print_flag(out, ", ", "held", is_still(port));
    print_request(out, port);
    print_wait(out, port);
}

static void print_members(FILE *out, const struct port *port) {
    begin_port(out, port);
    if (print_identity(out, port)) print_lanes(out, port);
    print_outputs(out, port);
    print_plan(out, port);
    print_flags(out, port);
    if (port->failure[0] != 0) print_text(out, ", \"failed\": {", "words", port->failure);
    if (port->failure[0] != 0) print_moment(out, ", ", "time", port->failed_at), fputc('}', out);
    print_number(out, ", ", "operations", port->operations);
    print_number(out, ", ", "refused", port->nacks);
    print_number(out, ", ", "moment", (uint64_t)now());
    print_moment(out, ", ", "time", now());
}

void print_port(FILE *out, const struct port *port) {
    print_members(out, port);
    fputs("}\n", out);
}

/* As a text of lines, in JSON. */
static void print_weights(FILE *out, const uint32_t weights[256]) {
    print_name(out, ", ", "weights");
    fputs("\"[host]\\n", out);
    for (unsigned id = 0; id < 256; id++)
        if (weights[id] > 0) fprintf(out, "%02Xh = %u\\n", id, weights[id]);
    fputc('"', out);
}

/* All of a port, and what cmis-port goes by in place of its bus: what the plan goes by; and, unless it is being read, the memory, and how
   many milliseconds ago the newest half of it was read. */
void print_memory(FILE *out, const struct port *port) {
    print_members(out, port);
    print_weights(out, port->entry.wanted.weights);
    print_flag(out, ", ", "paired", port->entry.wanted.paired);
    print_flag(out, ", ", "counts_by_id", port->entry.wanted.counts_by_id);
    print_number(out, ", ", "stay", port->entry.wanted.stay);
    if (port->half_count > 0 && (is_left(port) || port->core.stage != DOVECOUNTER_PORT_READING)) {
        print_number(out, ", ", "age", (uint64_t)(now() - port->read_at));
        fputs(", \"image\": \"", out);
        print_image_of(out, port, "\\n");
        fputc('"', out);
    }
    fputs("}\n", out);
}
