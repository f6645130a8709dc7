/* What is said of codes and faults. */
#include "port.h"

#include <err.h>

/* By their codes, as cmisctl prints them. */
const char *const module_states[8] = {"reserved-0",  "ModuleLowPwr", "ModulePwrUp", "ModuleReady",
                                      "ModulePwrDn", "ModuleFault",  "reserved-6",  "reserved-7"};
const char *const path_states[16] = {"reserved-0",  "DPDeactivated", "DPInit",      "DPDeinit",
                                     "DPActivated", "DPTxTurnOn",    "DPTxTurnOff", "DPInitialized",
                                     "reserved-8",  "reserved-9",    "reserved-10", "reserved-11",
                                     "reserved-12", "reserved-13",   "reserved-14", "reserved-15"};
const char *const config_statuses[16] = {"ConfigUndefined",
                                         "ConfigSuccess",
                                         "ConfigRejected",
                                         "ConfigRejectedInvalidAppSel",
                                         "ConfigRejectedInvalidDataPath",
                                         "ConfigRejectedInvalidSI",
                                         "ConfigRejectedLanesInUse",
                                         "ConfigRejectedPartialDataPath",
                                         "reserved-8",
                                         "reserved-9",
                                         "reserved-10",
                                         "reserved-11",
                                         "ConfigInProgress",
                                         "custom-13",
                                         "custom-14",
                                         "custom-15"};

/* Why cmisd leaves a module alone. */
const char *const left_reasons[DOVECOUNTER_LEFT_ASLEEP + 1] = {
    [DOVECOUNTER_LEFT_NO_PAGE_11] = "the module has no page 11h",
    [DOVECOUNTER_LEFT_NO_PLAN] = "none of the module's data paths is wanted",
    [DOVECOUNTER_LEFT_NEEDS_POWER] = "the module needs more than max_power",
    [DOVECOUNTER_LEFT_NEEDS_PERMISSION] = "lanes that are up would go down, and nobody permits it",
    [DOVECOUNTER_LEFT_ASLEEP] = "the module is in low power, as somebody asked",
};

/* After which cmisd reads the module, and goes on. */
const char apply_refused[] = "the bus refused an apply, which the module may have taken";

/* Lanes as in `1,3` or `1-4,7`; 0 if they are none. */
uint8_t lanes_of_word(const char *word) {
    unsigned lanes = 0;
    for (;; word++) {
        char first = *word, last = first;
        if (first < '1') return 0;
        if (*++word == '-') last = word[1], word += word[1] == '\0' ? 1 : 2;
        if (last < first || last > '8') return 0;
        for (; first <= last; first++) lanes |= 1U << (first - '1');
        if (*word == '\0') return (uint8_t)lanes;
        if (*word != ',') return 0;
    }
}

/* Of four bits for each lane, counted from 0. */
unsigned code_of(const uint8_t codes[4], unsigned lane) { return codes[lane / 2] >> lane % 2 * 4 & 15; }

void print_bytes(FILE *out, const uint8_t *bytes, size_t count) {
    for (size_t i = 0; i < count; i++) fprintf(out, " %02x", bytes[i]);
}

/* As in ` lanes 1-4 DPDeinit, 5-8 DPActivated`. */
void print_codes(FILE *out, const uint8_t codes[4], const char *const names[16]) {
    for (unsigned first = 1, last; first <= 8; first = last + 1) {
        unsigned code = code_of(codes, first - 1);
        for (last = first; last < 8 && code_of(codes, last) == code;) last++;
        fprintf(out, first == 1 ? " lanes %u" : ", %u", first);
        if (last > first) fprintf(out, "-%u", last);
        fprintf(out, " %s", names[code]);
    }
}

/* A line of an image, as cmisctl reads it. */
static void print_half(FILE *out, const struct dovecounter_half *half, const char *end) {
    static const char digits[] = "0123456789abcdef";
    char hex[2 * sizeof half->bytes + 1];
    if (half->upper)
        fprintf(out, "upper %02X %02x %02x ", half->device, half->bank, half->page);
    else
        fprintf(out, "lower %02X ", half->device);
    for (size_t at = 0; at < 2 * sizeof half->bytes; at++)
        hex[at] = digits[half->bytes[at / 2] >> (at % 2 == 0 ? 4 : 0) & 15];
    hex[sizeof hex - 1] = 0;
    fputs(hex, out);
    fputs(end, out);
}

/* Where a half stands in an image. */
static unsigned place_of(const struct dovecounter_half *half) {
    return (unsigned)half->device << 24 | (unsigned)half->upper << 16 | (unsigned)half->bank << 8 | half->page;
}

static const struct dovecounter_half *lowest_from(unsigned place, const struct dovecounter_half *halves, size_t count) {
    const struct dovecounter_half *lowest = NULL;
    for (size_t i = 0; i < count; i++)
        if (place_of(&halves[i]) >= place && (lowest == NULL || place_of(&halves[i]) < place_of(lowest)))
            lowest = &halves[i];
    return lowest;
}

/* The same of two lists; of two halves for one place the one of the first list. */
static const struct dovecounter_half *next_from(unsigned place, const struct dovecounter_half *halves, size_t count,
                                                const struct dovecounter_half *listed, size_t listed_count) {
    const struct dovecounter_half *own = lowest_from(place, halves, count);
    const struct dovecounter_half *other = lowest_from(place, listed, listed_count);
    return own == NULL || (other != NULL && place_of(other) < place_of(own)) ? other : own;
}

enum { MOST_OF_FIRST = 16 }; /* halves of an image in the first version of its text */

/* The image of a module's halves and of those that it lists itself, each place once, with this end of each line; none of no halves. */
void print_image(FILE *out, const struct dovecounter_half *halves, size_t count, const struct dovecounter_half *listed,
                 size_t listed_count, const char *end) {
    const struct dovecounter_half *next;
    unsigned printed = 0;
    if (count == 0) return;
    for (unsigned from = 0; (next = next_from(from, halves, count, listed, listed_count)) != NULL; printed++)
        from = place_of(next) + 1;
    fprintf(out, "module-image %d%s", printed > MOST_OF_FIRST ? 2 : 1, end);
    for (unsigned from = 0; (next = next_from(from, halves, count, listed, listed_count)) != NULL;) {
        print_half(out, next, end);
        from = place_of(next) + 1;
    }
    fprintf(out, "end%s", end);
}

void print_lanes(FILE *out, unsigned lanes) {
    for (unsigned lane = 0; lane < 8; lane++)
        if (lanes >> lane & 1) fprintf(out, " %u", lane + 1);
}

/* The fault of cmisctl for this status, without its values. */
const char *sentence(uint32_t status) {
    switch (status) {
    case DOVECOUNTER_NOT_CMIS: return "fault AD1: the module is not CMIS";
    case DOVECOUNTER_REVISION: return "fault AD2: the module's revision of CMIS is neither 4 nor 5";
    case DOVECOUNTER_NOT_EIGHT_LANES: return "fault AD6: the module has other than eight lanes";
    case DOVECOUNTER_FLAT_MEMORY: return "fault AD3: the module has flat memory, so there is nothing to provision";
    case DOVECOUNTER_BAD_SUM: return "fault AD5: the sum of page 00h or 01h is wrong";
    case DOVECOUNTER_TOO_MANY_KEPT: return "fault KP2: more than eight paths are to be kept";
    case DOVECOUNTER_KEPT_NOT_ADMISSIBLE:
        return "fault KP3: a kept path is not allowed, or shares a lane with another one";
    case DOVECOUNTER_NEEDED_HALF: return "fault SM1: the image lacks the lower half, or page 00h, 01h, 10h or 11h";
    case DOVECOUNTER_ACTIVE_NOT_PATHS: return "fault SM4: the active control bytes are no data paths";
    default: return "fault AD4: the module lacks page 00h, 01h or 11h";
    }
}

void say_fault(const char *name, struct dovecounter_fault fault) {
    unsigned first = fault.first, second = fault.second;
    switch (fault.code) {
    case 1: warnx("%s: fault PV1 %u %u: lane %u: %s", name, first, second, first, config_statuses[second & 15]); break;
    case 2: warnx("%s: fault PV2 %u: lane %u reads back otherwise than it was staged", name, first, first); break;
    case 3: warnx("%s: fault PV3 %u: lane %u holds another byte than the plan", name, first, first); break;
    case 4: warnx("%s: fault PV4: 4096 operations were not enough", name); break;
    case 8: warnx("%s: the module takes longer than it advertises", name); break;
    case 9:
    case 10: warnx("%s: the module has left ModuleReady, and is in %s", name, module_states[first & 7]); break;
    case 6: warnx("%s: fault PV6 %u: the module is in %s", name, first, module_states[first & 7]); break;
    default: warnx("%s: fault PV%u %u: the module shows a code that the standard reserves", name, fault.code, first);
    }
}
