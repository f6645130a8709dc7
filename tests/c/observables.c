/* Prints what the library says that a module measures as the command `observables` prints it, but for the page that is absent, of the
   image whose text is on standard input, so that both can be compared. Of a fault it prints the code alone. The library is asked as
   dovecounter.h says, for monitors and then for what each bank lists, since a call takes no more halves than those of one bank. First it
   looks at what the text does not tell: that nothing is written on a refusal and at the end, that numbers and names agree, and that a call
   with all halves answers the same, if there are no more of them than it takes. */
#include "dovecounter.h"
#define MOST_HALVES 64
#include "image.h"

#include <inttypes.h>
#include <stdlib.h>
#include <string.h>

static struct dovecounter_observable one, before;

static void expect(const char *what, int holds) {
    if (holds) return;
    printf("observables: %s\n", what);
    exit(1);
}

/* Digits with a point after the first, and the power of ten of the first. */
static void print_float(int64_t mantissa, int exponent) {
    char digits[24];
    if (mantissa == 0) exponent = 0;
    for (; mantissa != 0 && mantissa % 10 == 0; mantissa /= 10) exponent++;
    int length = snprintf(digits, sizeof digits, "%" PRId64, mantissa);
    printf(" %c%s%se%d", digits[0], length > 1 ? "." : "", digits + 1, exponent + length - 1);
}

static void print_places(int64_t mantissa, int places) {
    uint64_t size = mantissa < 0 ? 0 - (uint64_t)mantissa : (uint64_t)mantissa, one_is = 1;
    for (int i = 0; i < places; i++) one_is *= 10;
    printf(" %s%" PRIu64, mantissa < 0 ? "-" : "", size / one_is);
    if (places > 0) printf(".%0*" PRIu64, places, size % one_is);
}

static void print_amount(const struct dovecounter_amount *amount) {
    int is_float = one.unit == DOVECOUNTER_UNIT_RATIO || one.unit == DOVECOUNTER_UNIT_FRAMES;
    if (!amount->is_known)
        printf(" unknown");
    else if (amount->divisor != 1) {
        int64_t scaled = amount->mantissa * 1000, shared = scaled / amount->divisor;
        print_places(shared - (scaled % amount->divisor < 0), 3);
    } else if (is_float)
        print_float(amount->mantissa, amount->exponent);
    else
        print_places(amount->mantissa, -amount->exponent);
}

static void print_flag(uint8_t flag) {
    expect("a flag is neither 0 nor 1", flag <= 1 && (one.has_flags || !flag));
    printf(" %s", one.has_flags ? flag ? "yes" : "no" : "unknown");
}

static void print_one(void) {
    printf("%s %s %s", one.quantity_name, one.figure_name, one.scope_name);
    if (one.lane != 0) printf("-%d", one.lane);
    print_amount(&one.amount);
    printf(" %s limits", one.unit_name);
    print_amount(&one.limits.high_alarm);
    print_amount(&one.limits.low_alarm);
    print_amount(&one.limits.high_warning);
    print_amount(&one.limits.low_warning);
    printf(" flags");
    print_flag(one.flags.high_alarm);
    print_flag(one.flags.low_alarm);
    print_flag(one.flags.high_warning);
    print_flag(one.flags.low_warning);
    printf(" %s\n", one.advertised ? "advertised" : "unadvertised");
}

static void look_at_numbers(void) {
    static const char *const quantities[] = {[DOVECOUNTER_QUANTITY_TEMPERATURE] = "temperature",
                                             [DOVECOUNTER_QUANTITY_TX_BIAS] = "tx-bias",
                                             [DOVECOUNTER_QUANTITY_PRE_FEC_BER] = "pre-fec-ber",
                                             [DOVECOUNTER_QUANTITY_SNR] = "snr",
                                             [DOVECOUNTER_QUANTITY_TEC_CURRENT] = "tec-current"};
    static const char *const figures[] = {[DOVECOUNTER_FIGURE_NOW] = "now",
                                          [DOVECOUNTER_FIGURE_MINIMUM] = "minimum",
                                          [DOVECOUNTER_FIGURE_MAXIMUM] = "maximum",
                                          [DOVECOUNTER_FIGURE_AVERAGE] = "average",
                                          [DOVECOUNTER_FIGURE_LAST] = "last"};
    static const char *const scopes[] = {[DOVECOUNTER_SCOPE_MODULE] = "module",
                                         [DOVECOUNTER_SCOPE_HOST_LANE] = "host-lane",
                                         [DOVECOUNTER_SCOPE_MEDIA_LANE] = "media-lane",
                                         [DOVECOUNTER_SCOPE_HOST_PATH] = "host-path",
                                         [DOVECOUNTER_SCOPE_MEDIA_PATH] = "media-path"};
    const char *quantity = quantities[one.quantity];
    expect("another quantity", quantity == NULL || strcmp(quantity, one.quantity_name) == 0);
    expect("another figure", strcmp(figures[one.figure], one.figure_name) == 0);
    expect("another scope", strcmp(scopes[one.scope], one.scope_name) == 0);
    int is_of_host = one.scope == DOVECOUNTER_SCOPE_HOST_LANE || one.scope == DOVECOUNTER_SCOPE_HOST_PATH;
    expect("another side", one.scope == DOVECOUNTER_SCOPE_MODULE || is_of_host == (one.side == DOVECOUNTER_SIDE_HOST));
    expect("a lane of the module", (one.scope == DOVECOUNTER_SCOPE_MODULE) == (one.lane == 0));
}

static const char *code_of(uint32_t status) {
    switch (status) {
    case DOVECOUNTER_UNKNOWN_MODULE: return "RP1";
    case DOVECOUNTER_UNREAD_REVISION: return "RP4";
    case DOVECOUNTER_LACKS_HALF: return "RP6";
    default: return "of the caller";
    }
}

/* ---- what is asked for */

enum { BANKS = 4, MOST_ASKED = 16, MOST_FOUND = 1200, ADVERTISED = 0x01 };

static int is_listed(const struct dovecounter_half *half) {
    return half->device == 0xA0 && half->upper && half->page >> 4 == 2;
}

/* The halves that monitors are in, or if `bank` is one, what this lists. */
static size_t choose(unsigned bank, struct dovecounter_half asked[MOST_ASKED]) {
    size_t count = 0;
    for (size_t i = 0; i < half_count; i++) {
        const struct dovecounter_half *half = &halves[i];
        int is_shared = half->bank == 0 && (!half->upper || half->page == ADVERTISED);
        int is_wanted = bank == BANKS ? !is_listed(half) : is_shared || (is_listed(half) && half->bank == bank);
        expect("there are too many halves", !is_wanted || count < MOST_ASKED);
        if (is_wanted) asked[count++] = *half;
    }
    return count;
}

static struct dovecounter_observable found[MOST_FOUND];
static size_t found_count;

/* Finds those from a place on, and before another one. */
static void find(const struct dovecounter_half *asked, size_t count, uint16_t place, unsigned end) {
    for (;;) {
        before = one;
        expect("a later one is refused", dovecounter_observables(asked, count, &place, &one) == DOVECOUNTER_DONE);
        if (place == 0 || place > end) break;
        expect("there are too many", found_count < MOST_FOUND);
        found[found_count++] = one;
    }
    expect("something is written at the end", place != 0 || memcmp(&one, &before, sizeof one) == 0);
}

static void find_all(void) {
    struct dovecounter_half asked[MOST_ASKED];
    find(asked, choose(BANKS, asked), 0, DOVECOUNTER_FIRST_INSTANCE);
    for (unsigned bank = 0; bank < BANKS; bank++)
        find(asked, choose(bank, asked), DOVECOUNTER_FIRST_INSTANCE, UINT16_MAX);
}

/* All of them at once. */
static void look_at_one_call(void) {
    uint16_t place = 0;
    size_t count = 0;
    if (half_count > MOST_ASKED) return;
    for (; dovecounter_observables(halves, half_count, &place, &one) == DOVECOUNTER_DONE && place != 0; count++)
        expect("another one in one call", count < found_count && memcmp(&one, &found[count], sizeof one) == 0);
    expect("fewer in one call", count == found_count);
}

int main(void) {
    uint16_t place = 0;
    struct dovecounter_half asked[MOST_ASKED];
    read_halves();
    memset(&one, 0x5A, sizeof one);
    before = one;
    uint32_t status = dovecounter_observables(asked, choose(BANKS, asked), &place, &one);
    if (status != DOVECOUNTER_DONE) {
        expect("something is written on a refusal", place == 0 && memcmp(&one, &before, sizeof one) == 0);
        printf("fault %s\n", code_of(status));
        return 0;
    }
    find_all();
    look_at_one_call();
    printf("observables %zu\n", found_count);
    for (size_t i = 0; i < found_count; i++) {
        one = found[i];
        look_at_numbers();
        print_one();
    }
    return 0;
}
