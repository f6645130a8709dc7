/* A simulated module, driven through the library for firmware as its header says: what is refused, and then a plan that is
   provisioned and activated on it, over a bus that refuses and cuts short, low power by the pin, and waking up and going to sleep. */
#include "expect.h"

/* ---- a module with one Application ---- */

enum { LOWER, PAGE_00, PAGE_01, PAGE_10, PAGE_11, HALVES, TOO_MANY = 65 };

static struct dovecounter_half halves[TOO_MANY];
static const struct dovecounter_delays delays = {4, 4, 4, 4, 4, 4, 4};
static const struct dovecounter_patience patience = {.pause = 7, .limit = 7000};

static void make_halves(void) {
    static const uint8_t pages[HALVES] = {0, 0x00, 0x01, 0x10, 0x11};
    for (int i = 0; i < TOO_MANY; i++) {
        halves[i].device = 0xA0;
        halves[i].upper = i != LOWER;
        halves[i].bank = i >= HALVES;
        halves[i].page = i < HALVES ? pages[i] : (uint8_t)i;
    }
    advertise_one(&halves[LOWER], &halves[PAGE_00], &halves[PAGE_01]);
}

/* ---- what is refused writes nothing ---- */

static void refuse_begin(const char *what, uint32_t wanted, size_t count, const struct dovecounter_delays *given) {
    struct dovecounter_module module, before;
    memset(&module, 0x5A, sizeof module);
    before = module;
    expect(what, wanted, dovecounter_module_begin(halves, count, given, &module));
    expect_same(what, &before, &module, sizeof module);
}

static void try_begin(void) {
    struct dovecounter_delays none = delays, most = delays;
    none.deinit = 0;
    most.power_up = 1001;
    refuse_begin("65 halves", DOVECOUNTER_TOO_MANY_HALVES, TOO_MANY, &delays);
    struct dovecounter_module whole;
    expect("64 halves", DOVECOUNTER_DONE, dovecounter_module_begin(halves, TOO_MANY - 1, &delays, &whole));
    refuse_begin("no page 11h", DOVECOUNTER_NEEDED_HALF, PAGE_11, &none);
    refuse_begin("a delay of 0", DOVECOUNTER_BAD_DELAY, HALVES, &none);
    refuse_begin("a delay of 1001", DOVECOUNTER_BAD_DELAY, HALVES, &most);
    halves[PAGE_11].bytes[206 - 128] = 0x12; /* lane 1 in a path from lane 2 on */
    refuse_begin("no host paths", DOVECOUNTER_ACTIVE_NOT_PATHS, HALVES, &delays);
    halves[PAGE_11].bytes[206 - 128] = 0;
    halves[LOWER].bytes[0] = 0x11;
    refuse_begin("no CMIS", DOVECOUNTER_NOT_CMIS, HALVES, &none);
    halves[LOWER].bytes[0] = 0x18;
}

static void refuse_fetch(const char *what, uint32_t wanted, struct dovecounter_module module, uint8_t device,
                         uint8_t offset, size_t count) {
    struct dovecounter_module before = module;
    uint8_t bytes[129], same[129];
    memset(bytes, 0x5A, sizeof bytes);
    memset(same, 0x5A, sizeof same);
    expect(what, wanted, dovecounter_module_fetch(halves, HALVES, &module, device, offset, bytes, count));
    expect_same(what, &before, &module, sizeof module);
    expect_same(what, same, bytes, sizeof bytes);
}

static void refuse_store(const char *what, uint32_t wanted, struct dovecounter_module module, uint8_t device,
                         uint8_t offset, size_t count) {
    struct dovecounter_module before = module;
    static const uint8_t bytes[129];
    expect(what, wanted, dovecounter_module_store(halves, HALVES, &module, device, offset, bytes, count));
    expect_same(what, &before, &module, sizeof module);
}

static void try_ranges(struct dovecounter_module module) {
    refuse_fetch("a fetch of device A4", DOVECOUNTER_NO_RANGE, module, 0xA4, 0, 1);
    refuse_fetch("a fetch of nothing", DOVECOUNTER_NO_RANGE, module, 0xA0, 0, 0);
    refuse_fetch("a fetch of 129 bytes", DOVECOUNTER_NO_RANGE, module, 0xA0, 0, 129);
    refuse_fetch("a fetch of two halves", DOVECOUNTER_NO_RANGE, module, 0xA0, 127, 2);
    refuse_fetch("a fetch beyond the end", DOVECOUNTER_NO_RANGE, module, 0xA0, 255, 2);
    refuse_fetch("a fetch of device A2", DOVECOUNTER_NOT_TAKEN, module, 0xA2, 0, 1);
    refuse_store("a store of 9 bytes", DOVECOUNTER_NO_RANGE, module, 0xA0, 0, 9);
    refuse_store("a store of nothing", DOVECOUNTER_NO_RANGE, module, 0xA0, 0, 0);
    refuse_store("a store of two halves", DOVECOUNTER_NO_RANGE, module, 0xA0, 127, 2);
    refuse_store("a store of device A2", DOVECOUNTER_NOT_TAKEN, module, 0xA2, 0, 1);
}

/* All calls refuse these numbers, or none does. */
static void try_numbers(const char *what, struct dovecounter_module module, uint32_t wanted) {
    struct dovecounter_module ticked = module, pinned = module;
    uint8_t active[8];
    expect(what, wanted, dovecounter_module_tick(&ticked));
    expect(what, wanted, dovecounter_module_pin(&pinned, 1));
    expect(what, wanted, dovecounter_module_active(&module, active));
    if (wanted == DOVECOUNTER_DONE) return;
    expect_same(what, &module, &ticked, sizeof module);
    expect_same(what, &module, &pinned, sizeof module);
    refuse_fetch(what, wanted, module, 0xA0, 0, 1);
    refuse_store(what, wanted, module, 0xA0, 0, 1);
}

static void try_other_numbers(const struct dovecounter_module *module) {
    struct dovecounter_module other;
    memset(&other, 0, sizeof other);
    try_numbers("zeros", other, DOVECOUNTER_NO_MODULE);
    for (unsigned code = 0; code < 256; code++) {
        other = *module;
        other.state = (uint8_t)code;
        try_numbers("a module's state", other, 1 <= code && code <= 5 ? DOVECOUNTER_DONE : DOVECOUNTER_NO_MODULE);
        other = *module;
        other.lanes[7].path = (uint8_t)code;
        try_numbers("a path's state", other, 1 <= code && code <= 7 ? DOVECOUNTER_DONE : DOVECOUNTER_NO_MODULE);
        other = *module;
        other.lanes[0].status = (uint8_t)code;
        try_numbers("a status", other,
                    code <= 7 || (12 <= code && code <= 15) ? DOVECOUNTER_DONE : DOVECOUNTER_NO_MODULE);
        other.lanes[0].custom = 1;
        try_numbers("a status that is none of the standard's", other, DOVECOUNTER_DONE);
        other.lanes[0].custom = (uint8_t)(2 + code % 254);
        try_numbers("a status of no kind", other, DOVECOUNTER_NO_MODULE);
        other = *module;
        other.pin = (uint8_t)code;
        try_numbers("a pin", other, code <= 1 ? DOVECOUNTER_DONE : DOVECOUNTER_NO_MODULE);
        other = *module;
        other.lanes[3].kept = (uint8_t)code;
        try_numbers("a byte that is not kept", other, code == 0 ? DOVECOUNTER_DONE : DOVECOUNTER_NO_MODULE);
        other.lanes[3].keeps = 1;
        try_numbers("a kept byte", other, DOVECOUNTER_DONE);
        other.lanes[3].keeps = (uint8_t)(2 + code % 254);
        try_numbers("a byte that is neither", other, DOVECOUNTER_NO_MODULE);
    }
}

/* ---- a run, on a bus that refuses a third of all transactions, and of these cuts half of the stores short ---- */

static unsigned chance(unsigned many) {
    static unsigned seed = 1;
    seed = seed * 1103515245u + 12345u;
    return (seed >> 16) % many;
}

/* Makes an operation, and says what came of it. */
static uint8_t transact(struct dovecounter_module *module, const struct dovecounter_operation *operation,
                        uint8_t *bytes) {
    size_t count = operation->count;
    uint8_t outcome = DOVECOUNTER_REFUSED;
    int refuses = chance(3) == 0;
    if (operation->kind == DOVECOUNTER_FETCH) {
        if (!refuses &&
            dovecounter_module_fetch(halves, HALVES, module, operation->device, operation->offset, bytes, count) == 0)
            outcome = DOVECOUNTER_FETCHED;
    } else {
        if (refuses) count = chance(2) * chance(operation->count);
        if (count > 0 &&
            dovecounter_module_store(halves, HALVES, module, operation->device, operation->offset, operation->bytes,
                                     count) == 0 &&
            !refuses)
            outcome = DOVECOUNTER_STORED;
    }
    expect("a tick", DOVECOUNTER_DONE, dovecounter_module_tick(module));
    return outcome;
}

static uint8_t transact_with(void *module, const struct dovecounter_operation *operation, uint8_t bytes[128]) {
    return transact(module, operation, bytes);
}

static void pause(void *module, uint32_t milliseconds) {
    expect("a pause", patience.pause, milliseconds);
    expect("a tick", DOVECOUNTER_DONE, dovecounter_module_tick(module));
}

static void carry_out(struct dovecounter_module *module, struct dovecounter_conversation procedure) {
    static struct dovecounter_half none[DOVECOUNTER_MOST_READ];
    struct dovecounter_ending ending;
    expect("a run", DOVECOUNTER_DONE, dovecounter_run(&procedure, none, transact_with, pause, module));
    expect("an end", DOVECOUNTER_DONE, dovecounter_end(&procedure, none, &ending));
    expect("a success", 0, ending.fault.code);
}

static void expect_paths(const char *what, const struct dovecounter_module *module, uint8_t code) {
    for (int lane = 0; lane < 8; lane++) expect(what, code, module->lanes[lane].path);
}

static void try_run(struct dovecounter_module module, const struct dovecounter_plan *plan) {
    struct dovecounter_conversation procedure;
    uint8_t active[8];
    dovecounter_provision_begin(plan->control, plan->outside, &patience, &procedure);
    carry_out(&module, procedure);
    expect("the active bytes are asked for", DOVECOUNTER_DONE, dovecounter_module_active(&module, active));
    expect_same("the plan is active", plan->control, active, 8);
    expect_paths("provisioned lanes are DPDeactivated", &module, 1);
    dovecounter_activate_begin(plan->control, plan->lanes, &patience, &procedure);
    carry_out(&module, procedure);
    expect_paths("activated lanes are DPActivated", &module, 4);
    module.control = 0x40; /* LowPwrAllowRequestHW */
    expect("the pin is held", DOVECOUNTER_DONE, dovecounter_module_pin(&module, 2));
    for (int tick = 0; tick < 20; tick++) dovecounter_module_tick(&module);
    expect("the module is in ModuleLowPwr", 1, module.state);
    expect_paths("and its lanes are DPDeactivated", &module, 1);
    expect("the pin is left", DOVECOUNTER_DONE, dovecounter_module_pin(&module, 0));
    for (int tick = 0; tick < 20; tick++) dovecounter_module_tick(&module);
    expect("the module is in ModuleReady", 3, module.state);
    expect_paths("and its lanes are DPActivated", &module, 4);
}

/* Whatever asks for low power, and in whichever state it is, the module wakes up and goes to sleep, with the other bits of its controls
   as they were. */
static void try_power(struct dovecounter_module module) {
    struct dovecounter_conversation procedure;
    module.control = (uint8_t)chance(256);
    expect("the pin", DOVECOUNTER_DONE, dovecounter_module_pin(&module, (uint8_t)chance(2)));
    for (unsigned ticks = chance(20); ticks > 0; ticks--) dovecounter_module_tick(&module);
    unsigned others = module.control & 0xA7;
    dovecounter_wake_begin(&patience, &procedure);
    carry_out(&module, procedure);
    expect("awake, it is in ModuleReady", 3, module.state);
    expect("its low power requests are cleared", others, module.control);
    dovecounter_sleep_begin(&patience, &procedure);
    carry_out(&module, procedure);
    expect("asleep, it is in ModuleLowPwr", 1, module.state);
    expect("software asks for low power", others | 0x10, module.control);
}

int main(void) {
    static uint32_t weights[256];
    static const struct dovecounter_path kept[1];
    struct dovecounter_module module;
    struct dovecounter_plan plan;
    make_halves();
    weights[0x11] = 400;
    try_begin();
    expect("a module begins", DOVECOUNTER_DONE, dovecounter_module_begin(halves, HALVES, &delays, &module));
    expect("it has a plan", DOVECOUNTER_DONE, dovecounter_plan(halves, HALVES, 0, 0, weights, 0, kept, 0, &plan));
    try_ranges(module);
    try_other_numbers(&module);
    for (int run = 0; run < 1000; run++) {
        try_run(module, &plan);
        try_power(module);
    }
    return judged("simulated");
}
