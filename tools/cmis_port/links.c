/* The commands that test a link: by a loopback, or by a pattern that the module makes and checks. */
#include "port.h"

#include <err.h>
#include <stdlib.h>
#include <string.h>
#include <unistd.h>

enum {
    ROUND = 1000,
    MOST_ROUNDS = 255,
    DAYS = 86400,
    TRIES = 2
}; /* milliseconds; seconds; how often a control is stored again */

static const char *const sides[2] = {"host", "media"};
static const char *const loopbacks[5] = {"", "media-output", "media-input", "host-output", "host-input"};
static const char *const patterns[16] = {"PRBS31Q", "PRBS31", "PRBS23Q", "PRBS23", "PRBS15Q", "PRBS15",
                                         "PRBS13Q", "PRBS13", "PRBS9Q",  "PRBS9",  "PRBS7Q",  "PRBS7",
                                         "SSPRQ",   "",       "vendor",  "user"};
static const char *const shows[3] = {"ratios", "counts", "noise"};
static const char *const outcome_words[12] = {"tested",       "twice",      "no-pages",      "unsupported",
                                              "no-results",   "both-sides", "not-permitted", "interrupted",
                                              "not-switched", "too-many",   "overdue",       "gave-up"};
static const char *const outcome_sentences[12] = {
    "",
    "a control would be switched twice",
    "the module has no pages 13h and 14h",
    "the module doesn't advertise that pattern or loopback, or none of single lanes",
    "the module doesn't advertise such results",
    "the module doesn't loop back both sides at once",
    "",
    "",
    "the module shows something else than was stored",
    "more was switched than can be kept",
    "the module answers too seldom",
    "4096 operations were not enough to test the link"};

/* ---- the words of the command line ---- */

/* The place of a word among these; -1 if it isn't there. */
static int find(const char *word, const char *const *words, int count) {
    for (int at = 0; at < count; at++)
        if (words[at][0] != '\0' && strcmp(word, words[at]) == 0) return at;
    return -1;
}

/* As in `90s`, `5m`, `2h`, up to a day; 0 if it is none. */
static uint32_t read_seconds(const char *word) {
    char *end;
    if (word[0] < '0' || word[0] > '9') return 0;
    unsigned long number = strtoul(word, &end, 10), unit = *end == 's' ? 1 : *end == 'm' ? 60 : *end == 'h' ? 3600 : 0;
    return end[0] != '\0' && end[1] == '\0' && number <= DAYS && number * unit <= DAYS ? (uint32_t)(number * unit) : 0;
}

/* Results are read each second, or as often as may be. Without a time it goes on for days, until a signal comes. */
static bool read_time(struct port *port) {
    uint32_t seconds = port->words.time != NULL ? read_seconds(port->words.time) : 30 * DAYS;
    uint32_t period = (seconds + MOST_ROUNDS - 1) / MOST_ROUNDS;
    port->link.period = period * ROUND;
    port->link.rounds = (uint8_t)(seconds > 0 ? (seconds + period - 1) / period : 0);
    return seconds > 0;
}

static bool read_tested_lanes(struct port *port, const char *word) {
    port->link.lanes = word != NULL ? lanes_of_word(word) : ALL_LANES;
    return port->link.lanes != 0;
}

static void begin_plan(struct port *port) {
    port->link = (struct dovecounter_link_plan){.shown = DOVECOUNTER_ERROR_RATIOS,
                                                .generator = DOVECOUNTER_NO_PATTERN,
                                                .checker = DOVECOUNTER_NO_PATTERN,
                                                .tries = TRIES};
    memset(port->link.media_paths, 0xFF, sizeof port->link.media_paths); /* a module doesn't show them */
}

bool read_loopback(struct port *port, const char *side, const char *kind, const char *lanes) {
    char word[16];
    begin_plan(port);
    snprintf(word, sizeof word, "%s-%s", side, kind);
    int loopback = find(word, loopbacks, 5);
    if (loopback < 0 || !read_tested_lanes(port, lanes)) return false;
    port->link.side = loopback <= DOVECOUNTER_MEDIA_SIDE_INPUT;
    port->link.loopback = (uint8_t)loopback;
    port->link.looped = port->link.lanes;
    return read_time(port);
}

/* The lanes 1 to 4 or 5 to 8 of which all these are; -1 if they are of both. */
static int quad_of(uint8_t lanes) { return (lanes & 0xF0) == 0 ? 0 : (lanes & 0x0F) == 0 ? 1 : -1; }

static uint8_t counts_of(const struct dovecounter_link_plan *plan) {
    return (uint8_t)(DOVECOUNTER_COUNTS_OF_HOST_1_TO_4 + 2 * plan->side + quad_of(plan->lanes));
}

static uint8_t noise_of(const struct dovecounter_link_plan *plan) {
    return (uint8_t)(DOVECOUNTER_SIGNAL_TO_NOISE_OF_HOST + plan->side);
}

static bool read_shown(struct port *port) {
    int shown = port->words.shown != NULL ? find(port->words.shown, shows, 3) : 0;
    if (shown == 1) port->link.shown = counts_of(&port->link);
    if (shown == 2) port->link.shown = noise_of(&port->link);
    return shown == 0 || shown == 2 || (shown == 1 && quad_of(port->link.lanes) >= 0);
}

bool read_prbs(struct port *port) {
    const struct link_words *words = &port->words;
    begin_plan(port);
    if (words->side == NULL || words->pattern == NULL || words->time == NULL) return false;
    int side = find(words->side, sides, 2), pattern = find(words->pattern, patterns, 16);
    int loopback = words->loopback != NULL ? find(words->loopback, loopbacks, 5) : 0;
    if (side < 0 || pattern < 0 || loopback < 0 || !read_tested_lanes(port, words->lanes)) return false;
    port->link.side = (uint8_t)side;
    port->link.generator = port->link.checker = (uint8_t)pattern;
    port->link.loopback = (uint8_t)loopback;
    port->link.looped = loopback > 0 ? port->link.lanes : 0;
    return read_shown(port) && read_time(port);
}

/* ---- what is printed ---- */

struct testing {
    struct port *port;
    struct dovecounter_link_test test;
    int64_t began, shown; /* when results began to be read, and when it was said how far that is */
    bool interrupted;
};

static uint32_t seconds_of(const struct dovecounter_link_plan *plan) { return plan->period / ROUND * plan->rounds; }

static void show_progress(struct testing *testing) {
    struct port *port = testing->port;
    if (testing->began == 0) testing->began = now();
    unsigned passed = (unsigned)((now() - testing->began) / 1000), all = seconds_of(&port->link);
    if (port->words.time == NULL || testing->interrupted || (testing->shown != 0 && now() - testing->shown < ROUND))
        return;
    testing->shown = now();
    if (port->json && can_print()) {
        printf("{\"seconds\": %u, \"of\": %u}\n", passed, all);
        fflush(stdout);
    } else if (!port->json && isatty(STDERR_FILENO))
        fprintf(stderr, "\r\033[Klink: %u of %u s\r", passed, all);
}

/* Exactly mantissa * 10^power, as in 1.234e-09. */
static void print_ratio(const struct dovecounter_link_lane *lane) {
    char digits[8];
    int length = snprintf(digits, sizeof digits, "%u", lane->mantissa), power = lane->power + length - 1;
    printf("%c%s%se%c%02d", digits[0], length > 1 ? "." : "", digits + 1, power < 0 ? '-' : '+', abs(power));
}

static unsigned lost_by(const struct port *port, const struct dovecounter_link_results *results) {
    bool media = port->link.side == DOVECOUNTER_MEDIA_SIDE;
    return media ? results->media_generator | results->media_checker : results->host_generator | results->host_checker;
}

/* A line of the table. */
static void print_lane(const struct port *port, unsigned lane, const struct dovecounter_link_lane *shown, bool lost) {
    printf("%-5s %u  ", sides[port->link.side], lane + 1);
    if (shown->known == 0) fputs("-", stdout);
    if (shown->known == 1) print_ratio(shown);
    if (shown->known == 2)
        printf("%llu errors in %llu bits", (unsigned long long)shown->errors, (unsigned long long)shown->bits);
    if (shown->known == 4) printf("%u/256 dB", shown->noise);
    puts(lost ? "  lost lock" : "");
}

static void print_lane_in_json(unsigned lane, const struct dovecounter_link_lane *shown, bool lost) {
    printf("{\"lane\": %u", lane + 1);
    if (shown->known == 1) printf(", \"mantissa\": %u, \"power\": %d", shown->mantissa, shown->power);
    if (shown->known == 2)
        printf(", \"errors\": %llu, \"bits\": %llu", (unsigned long long)shown->errors,
               (unsigned long long)shown->bits);
    if (shown->known == 4) printf(", \"noise\": %u", shown->noise);
    printf(", \"lost_lock\": %s}", lost ? "true" : "false");
}

/* Of the lanes of a pattern what was shown, in the order of the lanes. */
static void print_table(const struct testing *testing) {
    const struct port *port = testing->port;
    struct dovecounter_link_results results;
    const char *before = "";
    dovecounter_link_results(&testing->test, 0, &results);
    unsigned lanes = port->link.checker != DOVECOUNTER_NO_PATTERN ? port->link.lanes : 0,
             lost = lost_by(port, &results);
    for (unsigned lane = 0; lane < 8; lane++) {
        const struct dovecounter_link_lane *shown = port->link.side ? &results.media[lane] : &results.host[lane];
        if (!(lanes >> lane & 1)) continue;
        fputs(before, stdout);
        if (port->json)
            print_lane_in_json(lane, shown, lost >> lane & 1), before = ", ";
        else
            print_lane(port, lane, shown, lost >> lane & 1);
    }
}

static void print_end(const struct testing *testing, const char *outcome, const struct dovecounter_link_changes *left) {
    const struct port *port = testing->port;
    if (!port->json) {
        say_lanes(stdout, outcome, port->link.lanes, "");
        print_table(testing);
        return;
    }
    printf("{\"outcome\": \"%s\", \"side\": \"%s\", \"lanes\": [", outcome, sides[port->link.side]);
    print_table(testing);
    fputs("], \"on\": [", stdout);
    for (unsigned at = 0; at < left->count; at++)
        printf("%s{\"byte\": %u, \"before\": %u}", at > 0 ? ", " : "", left->changes[at].what.control,
               left->changes[at].original);
    puts("]}");
}

static void say_left(const struct port *port, const struct dovecounter_link_changes *left) {
    for (unsigned at = 0; at < left->count; at++)
        warnx("%s: perhaps still on: page 13h, byte %u, which was %02Xh", port->bus.name,
              left->changes[at].what.control, left->changes[at].original);
}

/* ---- on the bus ---- */

/* A signal has the test switch off what is on; further ones change nothing. */
static bool was_interrupted(struct testing *testing) {
    if (testing->port->ending != STOPPED) return false;
    testing->port->ending = GOES_ON;
    bool is_first = !testing->interrupted;
    testing->interrupted = true;
    if (is_first) dovecounter_link_test_stop(&testing->test);
    return is_first;
}

/* Whether it came to its end. */
static bool carry_out_test(struct testing *testing, struct dovecounter_link_end *end) {
    const struct dovecounter_patience patience = patience_for(testing->port);
    struct dovecounter_operation operation;
    uint8_t bytes[128];
    dovecounter_link_test_begin(&testing->port->link, &patience, &testing->test);
    while (dovecounter_link_test_next(&testing->test, &operation) == DOVECOUNTER_DONE &&
           testing->port->ending != SILENT) {
        uint8_t outcome = DOVECOUNTER_WAITED;
        if (operation.kind != DOVECOUNTER_WAIT)
            outcome = transact_in_pieces(testing->port, &operation, bytes);
        else {
            if (operation.milliseconds >= ROUND) show_progress(testing);
            pause_ms(testing->port, operation.milliseconds);
            if (was_interrupted(testing)) continue; /* before the time has passed */
        }
        dovecounter_link_test_reply(&testing->test, outcome, bytes, operation.count);
        was_interrupted(testing);
    }
    clear_progress();
    return dovecounter_link_test_end(&testing->test, end) == DOVECOUNTER_DONE;
}

/* ---- the commands ---- */

/* Says which lanes stand against it: any that is up may. */
static enum status refuse_lanes(const struct port *port) {
    warnx("%s: lanes that are up would be disturbed: do so with --force", port->bus.name);
    return IN_USE;
}

static enum status end_test(struct testing *testing, bool ended, const struct dovecounter_link_end *end) {
    struct port *port = testing->port;
    struct dovecounter_link_changes left;
    bool is_wanted = port->words.time == NULL; /* a loopback until a signal comes */
    dovecounter_link_test_changes(&testing->test, &left);
    print_end(testing, ended ? outcome_words[end->outcome] : "unknown", &left);
    say_left(port, &left);
    if (ended && end->outcome == DOVECOUNTER_LINK_NOT_PERMITTED) return refuse_lanes(port);
    if (ended && outcome_sentences[end->outcome][0] != '\0')
        warnx("%s: %s", port->bus.name, outcome_sentences[end->outcome]);
    bool done =
        ended && (end->outcome == DOVECOUNTER_LINK_TESTED || (end->outcome == DOVECOUNTER_LINK_STOPPED && is_wanted));
    if (done && left.count == 0) return DONE;
    return port->stored ? NOT_PROVISIONED : REFUSED;
}

/* Results that a module may show in place of ratios, if those were not asked for. */
static bool choose_other(struct port *port) {
    struct dovecounter_link_plan *plan = &port->link;
    if (port->words.shown != NULL || plan->shown == noise_of(plan)) return false;
    plan->shown =
        plan->shown == DOVECOUNTER_ERROR_RATIOS && quad_of(plan->lanes) >= 0 ? counts_of(plan) : noise_of(plan);
    return true;
}

enum status test_link(struct port *port) {
    struct testing testing = {.port = port};
    struct dovecounter_link_end end = {0};
    if (port->force) port->link.permitted = ALL_LANES;
    if (!read_switchable(port)) return REFUSED;
    bool ended;
    do ended = carry_out_test(&testing, &end);
    while (ended && end.outcome == DOVECOUNTER_LINK_NO_RESULTS && !testing.interrupted && choose_other(port));
    return end_test(&testing, ended, &end);
}
