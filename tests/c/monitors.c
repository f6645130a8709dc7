/* Prints what the library says that a module measures as the command `monitors` prints it, of the image whose text is on standard
   input, so that both can be compared. Of a fault it prints the code alone. First it looks at what the text does not tell: what is
   written of lanes and limits that a module does not have, and that nothing is written on a refusal. */
#include "dovecounter.h"
#include "image.h"

#include <stdlib.h>
#include <string.h>

static struct dovecounter_monitors monitors;

static void expect(const char *what, int holds) {
    if (holds) return;
    printf("monitors: %s\n", what);
    exit(1);
}

static void print_amount(int64_t amount) {
    uint64_t size = amount < 0 ? 0 - (uint64_t)amount : (uint64_t)amount;
    printf(" %s%llu.%03llu", amount < 0 ? "-" : "", (unsigned long long)(size / 1000),
           (unsigned long long)(size % 1000));
}

static void print_limits(const char *name, const struct dovecounter_limits *limits) {
    if (!monitors.has_limits) return;
    printf("%s-limits", name);
    print_amount(limits->high_alarm);
    print_amount(limits->low_alarm);
    print_amount(limits->high_warning);
    print_amount(limits->low_warning);
    printf("\n");
}

static void print_value(const char *name, const struct dovecounter_value *value, const char *unit) {
    printf("%s", name);
    print_amount(value->value);
    printf(" %s\n", unit);
    print_limits(name, &value->limits);
}

static void print_lanes(const char *name, const struct dovecounter_lane_values *lanes, const char *unit) {
    static const char *const others[] = {
        [DOVECOUNTER_UNSUPPORTED] = "unsupported", [DOVECOUNTER_RESERVED_MULTIPLIER] = "reserved"};
    if (monitors.lanes == 0) return;
    if (lanes->support != DOVECOUNTER_MEASURED) {
        printf("%s %s\n", name, others[lanes->support]);
        return;
    }
    for (int lane = 1; lane <= monitors.lanes; lane++) {
        printf("%s %d", name, lane);
        print_amount(lanes->values[lane - 1]);
        printf(" %s\n", unit);
    }
    print_limits(name, &lanes->limits);
}

static void print_sum(void) {
    const char *name = monitors.family == DOVECOUNTER_CMIS ? "sum-02h" : "sum-a2";
    int has_sum = monitors.family != DOVECOUNTER_SFF_8636 && monitors.has_limits;
    expect("a sum where there is none", has_sum || monitors.sum == 0);
    if (has_sum) printf("%s %s\n", name, monitors.sum ? "right" : "wrong");
}

static const char *code_of(uint32_t status) {
    switch (status) {
    case DOVECOUNTER_UNKNOWN_MODULE: return "RP1";
    case DOVECOUNTER_UNREAD_REVISION: return "RP4";
    case DOVECOUNTER_LACKS_HALF: return "RP6";
    case DOVECOUNTER_SFF_LACKS_HALF: return "SF3";
    case DOVECOUNTER_NO_DIAGNOSTICS: return "SF4";
    case DOVECOUNTER_EXTERNAL_CALIBRATION: return "SF5";
    case DOVECOUNTER_ADDRESS_CHANGE: return "SF6";
    default: return "of the caller";
    }
}

static int are_zeros(const void *members, size_t size) {
    const uint8_t *bytes = members;
    for (size_t i = 0; i < size; i++)
        if (bytes[i] != 0) return 0;
    return 1;
}

static void look_at_lanes(const struct dovecounter_lane_values *lanes) {
    int told = lanes->support == DOVECOUNTER_MEASURED ? monitors.lanes : 0;
    expect("values of lanes that are not there",
           are_zeros(lanes->values + told, sizeof lanes->values - 8U * (size_t)told));
    expect("limits that are not there",
           (told && monitors.has_limits) || are_zeros(&lanes->limits, sizeof lanes->limits));
    expect("a number of another support", lanes->support <= DOVECOUNTER_RESERVED_MULTIPLIER);
}

static void look_at_limits(const struct dovecounter_limits *limits) {
    expect("limits that are not there", monitors.has_limits || are_zeros(limits, sizeof *limits));
}

int main(void) {
    struct dovecounter_monitors before;
    memset(&monitors, 0x5A, sizeof monitors);
    before = monitors;
    read_halves();
    uint32_t status = dovecounter_monitors(halves, half_count, &monitors);
    if (status != DOVECOUNTER_DONE) {
        expect("something is written on a refusal", memcmp(&monitors, &before, sizeof before) == 0);
        printf("fault %s\n", code_of(status));
        return 0;
    }
    look_at_limits(&monitors.temperature.limits);
    look_at_limits(&monitors.vcc.limits);
    look_at_lanes(&monitors.tx_power);
    look_at_lanes(&monitors.tx_bias);
    look_at_lanes(&monitors.rx_power);
    print_value("temperature", &monitors.temperature, "C");
    print_value("vcc", &monitors.vcc, "mV");
    print_lanes("tx-power", &monitors.tx_power, "uW");
    print_lanes("tx-bias", &monitors.tx_bias, "mA");
    print_lanes("rx-power", &monitors.rx_power, "uW");
    print_sum();
    return 0;
}
