/* The flags that a reading has cleared in the module. */
#include "port.h"

#include <string.h>

enum { MODULE_FLAGS = 8 }; /* four bytes of the lower half; the second one is that of temperature and voltage */
enum { LANES_PAGE = 0x11 };

/* A line, or a member of the list in JSON, in which `before` is a comma after the first one. */
struct printer {
    bool json;
    const char *before;
};

static void print_flag(struct printer *printer, const char *name, const char *limit) {
    printf(printer->json ? "%s{\"flag\": \"%s%s\"" : "%sflag %s%s", printer->before, name, limit);
    printer->before = printer->json ? ", " : "";
}

static void print_raised(struct printer *printer, const char *name, const char *limit, unsigned lanes) {
    for (unsigned lane = 0; lane < 8; lane++) {
        if (!(lanes >> lane & 1)) continue;
        print_flag(printer, name, limit);
        printf(printer->json ? ", \"lane\": %u}" : " %u\n", lane + 1);
    }
}

static void print_levels(struct printer *printer, const char *name, const struct dovecounter_levels *levels,
                         bool of_lanes) {
    static const char *const limits[4] = {"-high-alarm", "-low-alarm", "-high-warning", "-low-warning"};
    const uint8_t raised[4] = {levels->high_alarm, levels->low_alarm, levels->high_warning, levels->low_warning};
    for (unsigned i = 0; i < 4; i++) {
        if (of_lanes) {
            print_raised(printer, name, limits[i], raised[i]);
        } else if (raised[i] != 0) {
            print_flag(printer, name, limits[i]);
            fputs(printer->json ? "}" : "\n", stdout);
        }
    }
}

/* The bytes of flags of the module, if there are others than those of temperature and voltage, which have lines of their own. */
static void print_module_flags(struct printer *printer, const uint8_t *bytes) {
    if ((bytes[0] | bytes[2] | bytes[3]) == 0) return;
    if (!printer->json) {
        fputs("module-flags", stdout);
        print_bytes(stdout, bytes, 4);
        putchar('\n');
        return;
    }
    for (unsigned bit = 0; bit < 32; bit++) {
        char name[8];
        snprintf(name, sizeof name, "%u.%u", MODULE_FLAGS + bit / 8, bit % 8);
        if (bit / 8 == 1 || !(bytes[bit / 8] >> bit % 8 & 1)) continue;
        print_flag(printer, "module-flag-", name);
        putchar('}');
    }
}

static void print_all(const struct port *port, struct printer *printer, const struct dovecounter_flags *flags) {
    print_levels(printer, "temperature", &flags->temperature, false);
    print_levels(printer, "vcc", &flags->vcc, false);
    print_raised(printer, "path-state-changed", "", flags->path_state_changed);
    print_raised(printer, "tx-failure", "", flags->tx_fault);
    print_raised(printer, "tx-los", "", flags->tx_los);
    print_raised(printer, "tx-lol", "", flags->tx_lol);
    print_raised(printer, "tx-eq-fail", "", flags->tx_eq_fail);
    print_levels(printer, "tx-power", &flags->tx_power, true);
    print_levels(printer, "tx-bias", &flags->tx_bias, true);
    print_raised(printer, "rx-los", "", flags->rx_los);
    print_raised(printer, "rx-lol", "", flags->rx_lol);
    print_levels(printer, "rx-power", &flags->rx_power, true);
    if (flags->family == DOVECOUNTER_CMIS) print_module_flags(printer, bytes_at(port, MODULE_FLAGS));
}

/* The flags of what was read; whether they are known. Without page 11h they are those of the module alone. */
static bool find_flags(const struct port *port, struct dovecounter_flags *flags) {
    struct dovecounter_half halves[MOST_HALVES + 1];
    size_t count = port->half_count;
    memcpy(halves, port->halves, count * sizeof *halves);
    if (bytes_at(port, ACTIVE) == NULL)
        halves[count++] = (struct dovecounter_half){.device = 0xA0, .upper = 1, .page = LANES_PAGE};
    return dovecounter_flags(halves, count, flags) == DOVECOUNTER_DONE;
}

/* In the lines and in the order of cmisctl's report `flags`, but no line if none is raised; in JSON the member `flags`. */
void print_flags(const struct port *port) {
    struct printer printer = {port->json, ""};
    struct dovecounter_flags flags;
    bool known = find_flags(port, &flags);
    if (port->json) fputs("\"flags\": [", stdout);
    if (known) print_all(port, &printer, &flags);
    if (port->json) putchar(']');
}
