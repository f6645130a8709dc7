/* What a module measures: its monitors, and what it lists itself (VDM). */
#include "port.h"

#include <err.h>
#include <inttypes.h>

/* ---- amounts, as cmisctl prints them ---- */

/* Digits with a point after the first, and the power of ten of the first. */
static void print_float(int64_t mantissa, int exponent) {
    char digits[24];
    if (mantissa == 0) exponent = 0;
    for (; mantissa != 0 && mantissa % 10 == 0; mantissa /= 10) exponent++;
    int length = snprintf(digits, sizeof digits, "%" PRId64, mantissa);
    printf("%c%s%se%d", digits[0], length > 1 ? "." : "", digits + 1, exponent + length - 1);
}

static void print_places(int64_t mantissa, int places) {
    uint64_t size = mantissa < 0 ? 0 - (uint64_t)mantissa : (uint64_t)mantissa, one = 1;
    for (int i = 0; i < places; i++) one *= 10;
    printf("%s%" PRIu64, mantissa < 0 ? "-" : "", size / one);
    if (places > 0) printf(".%0*" PRIu64, places, size % one);
}

static void print_amount(const struct dovecounter_amount *amount, uint8_t unit) {
    if (amount->divisor != 1) { /* rounded down to thousandths */
        int64_t scaled = amount->mantissa * 1000;
        print_places(scaled / amount->divisor - (scaled % amount->divisor < 0), 3);
    } else if (unit == DOVECOUNTER_UNIT_RATIO || unit == DOVECOUNTER_UNIT_FRAMES)
        print_float(amount->mantissa, amount->exponent);
    else
        print_places(amount->mantissa, -amount->exponent);
}

static const char *const limit_names[4] = {"high_alarm", "low_alarm", "high_warning", "low_warning"};

static const struct dovecounter_amount *limit_of(const struct dovecounter_observable *one, unsigned limit) {
    const struct dovecounter_amount *const limits[4] = {&one->limits.high_alarm, &one->limits.low_alarm,
                                                        &one->limits.high_warning, &one->limits.low_warning};
    return limits[limit];
}

static uint8_t flag_of(const struct dovecounter_observable *one, unsigned limit) {
    const uint8_t flags[4] = {one->flags.high_alarm, one->flags.low_alarm, one->flags.high_warning,
                              one->flags.low_warning};
    return flags[limit];
}

/* ---- as lines ---- */

static void print_known(const struct dovecounter_amount *amount, uint8_t unit) {
    putchar(' ');
    if (amount->is_known)
        print_amount(amount, unit);
    else
        fputs("unknown", stdout);
}

static void print_observable(const struct dovecounter_observable *one) {
    printf("%s %s %s", one->quantity_name, one->figure_name, one->scope_name);
    if (one->lane != 0) printf("-%u", one->lane);
    print_known(&one->amount, one->unit);
    printf(" %s limits", one->unit_name);
    for (unsigned limit = 0; limit < 4; limit++) print_known(limit_of(one, limit), one->unit);
    fputs(" flags", stdout);
    for (unsigned limit = 0; limit < 4; limit++)
        printf(" %s", !one->has_flags ? "unknown" : flag_of(one, limit) ? "yes" : "no");
    puts(one->advertised ? " advertised" : " unadvertised");
}

/* ---- as JSON ---- */

static void print_limits_in_json(const struct dovecounter_observable *one) {
    const char *before = "\n";
    fputs("      \"limits\": {", stdout);
    for (unsigned limit = 0; limit < 4; limit++) {
        if (!limit_of(one, limit)->is_known) continue;
        printf("%s        \"%s\": ", before, limit_names[limit]);
        print_amount(limit_of(one, limit), one->unit);
        before = ",\n";
    }
    puts(before[0] == ',' ? "\n      }," : "},");
}

static void print_flags_in_json(const struct dovecounter_observable *one) {
    puts("      \"flags\": {");
    for (unsigned limit = 0; limit < 4; limit++)
        printf("        \"%s\": %s%s", limit_names[limit], flag_of(one, limit) ? "true" : "false",
               limit < 3 ? ",\n" : "\n      },\n");
}

static void print_observable_in_json(const struct dovecounter_observable *one) {
    printf("    {\n      \"name\": \"%s\",\n      \"figure\": \"%s\",\n", one->quantity_name, one->figure_name);
    printf("      \"scope\": \"%s\",\n", one->scope_name);
    if (one->lane != 0) printf("      \"number\": %u,\n", one->lane);
    if (one->amount.is_known) {
        fputs("      \"amount\": ", stdout);
        print_amount(&one->amount, one->unit);
        puts(",");
    }
    printf("      \"unit\": \"%s\",\n", one->unit_name);
    print_limits_in_json(one);
    if (one->has_flags) print_flags_in_json(one);
    printf("      \"advertised\": %s\n    }", one->advertised ? "true" : "false");
}

/* ---- the command ---- */

/* Where the next of all may be: in the list of the library, and of banks that were read. */
struct cursor {
    uint16_t place;
    uint8_t bank;
};

/* The next of the monitors, by the halves of the module. Answers whether there is one. */
static bool take_monitor(const struct port *port, uint16_t *place, struct dovecounter_observable *one) {
    uint16_t at = *place;
    bool is_there = at < DOVECOUNTER_FIRST_INSTANCE &&
                    dovecounter_observables(port->halves, port->half_count, &at, one) == DOVECOUNTER_DONE && at != 0 &&
                    at <= DOVECOUNTER_FIRST_INSTANCE;
    if (is_there) *place = at;
    return is_there;
}

/* The next of all: monitors, and then what the module lists itself in each bank. Answers whether there is one. */
static bool take_next(const struct port *port, const struct listed *listed, struct cursor *at,
                      struct dovecounter_observable *one) {
    if (take_monitor(port, &at->place, one)) return true;
    if (at->place < DOVECOUNTER_FIRST_INSTANCE) at->place = DOVECOUNTER_FIRST_INSTANCE;
    for (; at->bank < listed->count; at->bank++, at->place = DOVECOUNTER_FIRST_INSTANCE) {
        const struct listed_bank *bank = &listed->banks[at->bank];
        uint32_t status = dovecounter_observables(bank->halves, bank->count + 1U, &at->place, one);
        if (status == DOVECOUNTER_DONE && at->place != 0) return true;
    }
    return false;
}

static void print_lines(const struct port *port, const struct listed *listed) {
    struct dovecounter_observable one;
    uint8_t absent = absent_page(listed);
    unsigned count = 0;
    for (struct cursor at = {0}; take_next(port, listed, &at, &one);) count++;
    printf("observables %u\n", count);
    for (struct cursor at = {0}; take_next(port, listed, &at, &one);) print_observable(&one);
    if (absent != 0) printf("absent-page %02Xh\n", absent);
}

static void print_in_json(const struct port *port, const struct listed *listed) {
    struct dovecounter_observable one;
    uint8_t absent = absent_page(listed);
    const char *before = "\n";
    fputs("{\n  \"dovecounter\": 1,\n  \"observables\": [", stdout);
    for (struct cursor at = {0}; take_next(port, listed, &at, &one); before = ",\n") {
        fputs(before, stdout);
        print_observable_in_json(&one);
    }
    fputs(before[0] == ',' ? "\n  ]" : "]", stdout);
    if (absent != 0) printf(",\n  \"absent_page\": %u", absent);
    puts("\n}");
}

static enum status refuse_module(const struct port *port, uint32_t status) {
    uint8_t text[DOVECOUNTER_TEXT_SIZE];
    size_t length = 0;
    dovecounter_status_text(status, text, sizeof text, &length);
    warnx("%s: %.*s", port->bus.name, (int)length, (const char *)text);
    return REFUSED;
}

enum status observables(struct port *port) {
    struct dovecounter_observable one;
    struct listed listed = {.count = 0};
    uint16_t place = 0;
    if (!read_module(port, true)) return REFUSED;
    uint32_t status = dovecounter_observables(port->halves, port->half_count, &place, &one);
    if (status != DOVECOUNTER_DONE) return refuse_module(port, status);
    bool whole = read_further_banks(port) && read_listed(port, &listed);
    if (port->json)
        print_in_json(port, &listed);
    else
        print_lines(port, &listed);
    return whole ? DONE : port->stored ? NOT_PROVISIONED : REFUSED;
}
