#include "emulator.h"

#include <stdio.h>
#include <string.h>

enum {
    DP_DEINIT = 0,
    APPLY_DP_INIT = 15,
    APPLY_IMMEDIATE = 16,
    STAGED = 17,
    SETTINGS = 25
}; /* on page 10h, from byte 128 on */
enum { PATHS = 0, LATCHED = 6, LAST_LATCHED = 24, STATUSES = 74, ACTIVE = 78, ACTIVE_SETTINGS = 86 }; /* on page 11h */
enum { SETTINGS_BYTES = 21 };

uint64_t next_random(uint64_t *state) {
    uint64_t x = *state += 0x9E3779B97F4A7C15U; /* splitmix64 */
    x = (x ^ (x >> 30)) * 0xBF58476D1CE4E5B9U;
    x = (x ^ (x >> 27)) * 0x94D049BB133111EBU;
    return x ^ (x >> 31);
}

static unsigned some_time(struct emulator *module) {
    return 1 + (unsigned)(next_random(&module->random) % module->slowest);
}

void begin_emulator(struct emulator *module, uint64_t seed) {
    memset(module, 0, sizeof *module);
    memset(module->path, DEACTIVATED, sizeof module->path);
    module->random = seed;
    module->slowest = 5;
    module->stuck = -1;
}

static bool read_digits(const char *digits, uint8_t bytes[128]) {
    for (int i = 0; i < 128; i++) {
        unsigned byte;
        if (sscanf(digits + 2 * (size_t)i, "%2x", &byte) != 1) return false;
        bytes[i] = (uint8_t)byte;
    }
    return true;
}

void load_line(struct emulator *module, const char *line) {
    char digits[257];
    unsigned bank, page;
    if (sscanf(line, "lower A0 %256s", digits) == 1) read_digits(digits, module->lower);
    if (sscanf(line, "upper A0 %x %x %256s", &bank, &page, digits) != 3 || bank > 3 || page > 255) return;
    if (bank == 0) module->present[page] = read_digits(digits, module->pages[page]);
    if (bank != 0 && (page == 0x11 || page >> 4 == 2))
        module->has_further[bank - 1][page] = read_digits(digits, module->further[bank - 1][page]);
}

/* Polarity, disable and squelch of single lanes. */
static bool is_control(unsigned at) { return (at >= 1 && at <= 4) || (at >= 9 && at <= 11); }

size_t describe(const struct emulator *module, char *text, size_t room) {
    size_t at = (size_t)snprintf(text, room, "active");
    for (int lane = 0; lane < 8; lane++)
        at += (size_t)snprintf(text + at, room - at, " %02x", module->pages[0x11][ACTIVE + lane]);
    at += (size_t)snprintf(text + at, room - at, "\npaths");
    for (int lane = 0; lane < 8; lane++) at += (size_t)snprintf(text + at, room - at, " %u", module->path[lane]);
    at += (size_t)snprintf(text + at, room - at, "\ndeinit %02x applied %02x left-activated %02x astray %u\n",
                           module->deinit, module->applies, module->left_activated, module->astray);
    if (module->powers != 0)
        at += (size_t)snprintf(text + at, room - at, "power %02x state %u\n", module->lower[26],
                               module->lower[3] >> 1 & 7);
    if (module->tuned != 0) {
        at +=
            (size_t)snprintf(text + at, room - at, "tuned %u lanes %02x settings", module->tuned, module->tuned_lanes);
        for (int i = 0; i < SETTINGS_BYTES; i++)
            at += (size_t)snprintf(text + at, room - at, " %02x", module->pages[0x11][ACTIVE_SETTINGS + i]);
        at += (size_t)snprintf(text + at, room - at, "\n");
    }
    if (module->switched == 0) return at;
    at += (size_t)snprintf(text + at, room - at, "switched %u controls", module->switched);
    for (unsigned control = 129; control <= 139; control++)
        if (is_control(control - 128))
            at += (size_t)snprintf(text + at, room - at, " %02x", module->pages[0x10][control - 128]);
    return at + (size_t)snprintf(text + at, room - at, "\n");
}

/* The descriptor of an Application; NULL if it isn't advertised. */
static const uint8_t *descriptor(const struct emulator *module, unsigned application) {
    for (unsigned each = 1; each <= application; each++) {
        const uint8_t *bytes = each <= 8 ? &module->lower[86 + 4 * (each - 1)] : &module->pages[1][95 + 4 * (each - 9)];
        if (bytes[0] == 0xFF) return NULL;
        if (each == application) return bytes;
    }
    return NULL;
}

static unsigned lanes_from(unsigned first, unsigned count) { return ((1U << count) - 1) << first & 0xFF; }

enum { IN_LOW_POWER = 1, IN_POWER_UP, IN_READY, IN_POWER_DOWN };

static unsigned state_of(const struct emulator *module) { return module->lower[3] >> 1 & 7; }

void enter_state(struct emulator *module, uint8_t state) {
    module->lower[3] = (uint8_t)((module->lower[3] & ~0x0E) | state << 1);
    module->lower[8] |= 1; /* ModuleStateChangedFlag */
    module->power_left = some_time(module);
}

/* Byte 26: low power is requested by software, or by the pin, which this module always has. */
static void store_power(struct emulator *module, uint8_t byte) {
    module->powers++;
    module->lower[26] = byte;
    module->is_low = (byte & 0x50) != 0;
}

static void pass_power(struct emulator *module) {
    bool over = module->power_left == 0 || --module->power_left == 0;
    unsigned state = state_of(module), down = 0;
    for (int lane = 0; lane < 8; lane++) down += module->path[lane] == DEACTIVATED;
    if (state == IN_LOW_POWER && !module->is_low) enter_state(module, IN_POWER_UP);
    if (state == IN_POWER_UP && over) enter_state(module, IN_READY);
    if (state == IN_READY && module->is_low && down == 8) enter_state(module, IN_POWER_DOWN);
    if (state == IN_POWER_DOWN && over) enter_state(module, IN_LOW_POWER);
}

/* The lanes of the active data path of this one. */
static unsigned active_path(const struct emulator *module, int lane) {
    const uint8_t *active = &module->pages[0x11][ACTIVE];
    unsigned lanes = 1U << lane;
    for (int other = 0; other < 8 && active[lane] >> 4 != 0; other++)
        if (active[other] >> 1 == active[lane] >> 1) lanes |= 1U << other;
    return lanes;
}

static bool is_held_down(const struct emulator *module, int lane) {
    unsigned lanes = active_path(module, lane);
    if (module->pages[0x11][ACTIVE + lane] >> 4 == 0 || state_of(module) != IN_READY || module->is_low) return true;
    return ((module->pages[0x10][DP_DEINIT] | module->applying) & lanes) != 0;
}

void power_up(struct emulator *module) {
    module->is_low = state_of(module) == IN_LOW_POWER;
    for (int lane = 0; lane < 8; lane++) module->path[lane] = is_held_down(module, lane) ? DEACTIVATED : ACTIVATED;
}

/* Under explicit control, the staged code before the cursor is none that the module advertises. */
static bool is_bad_signal(const struct emulator *module, int lane) {
    const uint8_t *page = module->pages[0x10];
    unsigned code = page[SETTINGS + 9 + lane / 2] >> 4 * (lane % 2) & 15;
    return (page[STAGED + lane] & 1) && code > (module->pages[1][154 - 128] & 15);
}

/* Why a lane's staged byte can't be applied; 0 if it can. */
static uint8_t rejection(const struct emulator *module, int lane, unsigned mask) {
    const uint8_t *staged = &module->pages[0x10][STAGED];
    unsigned application = staged[lane] >> 4, first = staged[lane] >> 1 & 7, lanes = 1U << lane;
    if (module->path[lane] != DEACTIVATED) return LANES_IN_USE;
    if (application != 0) {
        const uint8_t *bytes = descriptor(module, application);
        unsigned count = bytes != NULL ? bytes[2] >> 4 : 0;
        if (bytes == NULL || count == 0 || count > 8 || (bytes[2] & 15) == 0 || (bytes[2] & 15) > 8)
            return BAD_APPLICATION;
        if (is_bad_signal(module, lane)) return BAD_SIGNAL;
        lanes = lanes_from(first, count);
        if (!(bytes[3] >> first & 1) || first + count > 8 || !(lanes >> lane & 1)) return BAD_PATH;
        for (int other = 0; other < 8; other++)
            if (lanes >> other & 1 && staged[other] != staged[lane]) return BAD_PATH;
    }
    return ((lanes | active_path(module, lane)) & ~mask) != 0 ? PARTIAL_PATH : 0;
}

/* Whether an apply only gets a status, whatever is staged. */
static bool only_tells(struct emulator *module, uint8_t mask) {
    uint8_t told = module->reject != 0 ? module->reject : SUCCESS;
    if (module->reject == 0 && module->ignored == 0) return false;
    for (int lane = 0; lane < 8; lane++)
        if (mask >> lane & 1) module->status[lane] = told;
    if (module->reject == 0) module->ignored--;
    return true;
}

static void apply(struct emulator *module, uint8_t mask) {
    uint8_t reasons[8] = {0};
    bool good = true;
    if (mask == 0 || module->applying != 0 || only_tells(module, mask)) return;
    for (int lane = 0; lane < 8; lane++)
        if (mask >> lane & 1) good = (reasons[lane] = rejection(module, lane, mask)) == 0 && good;
    for (int lane = 0; lane < 8; lane++) {
        if (!(mask >> lane & 1)) continue;
        if (good && module->silent == 0) module->status[lane] = IN_PROGRESS;
        if (!good) module->status[lane] = reasons[lane] != 0 ? reasons[lane] : REJECTED;
    }
    if (!good) return;
    memcpy(module->applied, &module->pages[0x10][STAGED], 8);
    memcpy(module->applied_settings, &module->pages[0x10][SETTINGS], SETTINGS_BYTES);
    module->applying = mask;
    module->silent_left = module->silent;
    module->apply_left = module->silent + some_time(module);
}

/* The bits of a lane in a byte of the settings: lanes share it as bits, in fours, or in pairs. */
static uint8_t bits_of_lane(int byte, int lane) {
    if (byte == 0 || byte == 7 || byte == 8) return (uint8_t)(1 << lane);
    if (byte < 3) return (uint8_t)(lane / 4 == byte - 1 ? 3 << 2 * (lane % 4) : 0);
    return (uint8_t)(lane / 2 == (byte < 7 ? byte - 3 : (byte - 9) % 4) ? 15 << 4 * (lane % 2) : 0);
}

/* A lane gets these settings into the active set. */
static void put_settings(struct emulator *module, int lane, const uint8_t *settings) {
    for (int i = 0; i < SETTINGS_BYTES; i++) {
        uint8_t *active = &module->pages[0x11][ACTIVE_SETTINGS + i], bits = bits_of_lane(i, lane);
        *active = (uint8_t)((*active & ~bits) | (settings[i] & bits));
    }
}

/* What was applied becomes active: under explicit control with its settings, else with an Application's defaults, zeros. */
static void end_applying(struct emulator *module, int lane) {
    static const uint8_t defaults[SETTINGS_BYTES];
    module->status[lane] = SUCCESS;
    module->pages[0x11][ACTIVE + lane] = module->applied[lane];
    put_settings(module, lane, module->applied[lane] & 1 && !module->untuned ? module->applied_settings : defaults);
}

/* ApplyImmediate copies control bytes and settings of lanes that are up at once. */
static void apply_settings(struct emulator *module, uint8_t mask) {
    module->tuned_lanes |= mask;
    if (only_tells(module, mask)) return;
    for (int lane = 0; lane < 8; lane++) {
        if (!(mask >> lane & 1)) continue;
        bool up = module->path[lane] == ACTIVATED || module->path[lane] == INITIALIZED;
        module->status[lane] = up ? SUCCESS : REJECTED;
        if (!up) continue;
        module->pages[0x11][ACTIVE + lane] = module->pages[0x10][STAGED + lane];
        put_settings(module, lane, &module->pages[0x10][SETTINGS]);
    }
}

uint8_t fetch_byte(struct emulator *module, uint8_t address) {
    uint8_t at = address & 127, byte;
    uint8_t *bytes = module->bank == 0 ? module->pages[module->page] : module->further[module->bank - 1][module->page];
    bool has_paths = module->bank == 0 && module->page == 0x11;
    if (address < 126) {
        byte = module->lower[address];
        if (address >= 8 && address <= 11) module->lower[address] = 0;
        return byte;
    }
    if (address < 128) return address == 126 ? module->bank : module->page;
    if (has_paths && at < 4) return (uint8_t)(module->path[2 * at] | module->path[2 * at + 1] << 4);
    if (has_paths && at >= STATUSES && at < ACTIVE)
        return (uint8_t)(module->status[2 * (at - STATUSES)] | module->status[2 * (at - STATUSES) + 1] << 4);
    byte = bytes[at];
    if (module->page == 0x11 && at >= LATCHED && at <= LAST_LATCHED) bytes[at] = 0;
    return byte;
}

static bool is_there(const struct emulator *module, uint8_t bank, uint8_t page) {
    return bank == 0 ? module->present[page] : bank <= 3 && page < 0x30 && module->has_further[bank - 1][page];
}

static void select_page(struct emulator *module, uint8_t page) {
    bool there = is_there(module, module->next_bank, page);
    module->bank = there ? module->next_bank : 0;
    module->page = there ? page : 0;
    module->next_bank = 0;
    if (module->stuck >= 0) module->page = (uint8_t)module->stuck;
}

void store_byte(struct emulator *module, uint8_t address, uint8_t byte) {
    uint8_t at = address & 127, *page = module->pages[0x10];
    if (address == 126)
        module->next_bank = byte;
    else if (address == 127)
        select_page(module, byte);
    else if (address == 26)
        store_power(module, byte);
    else if (address < 128 || module->page != 0x10)
        module->astray++;
    else if (at == DP_DEINIT) {
        module->deinit |= byte;
        page[at] = byte;
    } else if (at == APPLY_DP_INIT) {
        module->applies |= byte;
        apply(module, byte);
    } else if (at >= STAGED && at < STAGED + 8) {
        if (at - STAGED + 1U != module->unstaged) page[at] = byte;
    } else if (at == APPLY_IMMEDIATE) {
        apply_settings(module, byte);
    } else if (at >= SETTINGS && at < SETTINGS + SETTINGS_BYTES) {
        module->tuned++;
        if (!module->fixed) page[at] = byte;
    } else if (is_control(at)) {
        module->switched++;
        if (!module->fixed) page[at] = byte;
    } else
        module->astray++;
}

static uint8_t next_state(uint8_t state, bool down, bool over) {
    switch (state) {
    case DEACTIVATED: return down ? DEACTIVATED : INIT;
    case INIT: return over ? INITIALIZED : INIT;
    case INITIALIZED: return down ? DEINIT : TX_TURN_ON;
    case TX_TURN_ON: return over ? ACTIVATED : TX_TURN_ON;
    case ACTIVATED: return down ? TX_TURN_OFF : ACTIVATED;
    case TX_TURN_OFF: return over ? INITIALIZED : TX_TURN_OFF;
    default: return over ? DEACTIVATED : DEINIT;
    }
}

static void pass_paths(struct emulator *module) {
    for (int lane = 0; lane < 8; lane++) {
        bool over = module->path_left[lane] == 0 || --module->path_left[lane] == 0;
        uint8_t before = module->path[lane];
        module->path[lane] = next_state(before, is_held_down(module, lane), over);
        if (module->path[lane] == before) continue;
        module->path_left[lane] = some_time(module);
        module->pages[0x11][LATCHED] |= (uint8_t)(1U << lane);
        if (before == ACTIVATED) module->left_activated |= (uint8_t)(1U << lane);
    }
}

void pass_millisecond(struct emulator *module) {
    pass_power(module);
    pass_paths(module);
    bool shows = module->silent_left > 0 && --module->silent_left == 0;
    bool ends = module->applying != 0 && --module->apply_left == 0;
    for (int lane = 0; lane < 8; lane++) {
        if (!(module->applying >> lane & 1)) continue;
        if (shows) module->status[lane] = IN_PROGRESS;
        if (ends) end_applying(module, lane);
    }
    if (ends) module->applying = 0;
}
