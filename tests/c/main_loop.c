/* Runs the main loop of examples/main_loop.c on a bus and a clock in software. A transaction is over three calls of `poll_module`
   after it began; the module takes `delay` milliseconds for a state of its data paths, and `apply_delay` until it applies what was
   staged, while it shows the success of an earlier time. Each run ends as it should, no transaction begins during another one, and
   none that is asked for again, or comes after a refusal, begins before its pause is over. */
#include "../../examples/main_loop.c"

#include <stdio.h>
#include <stdlib.h>

static uint32_t clock_now;
static uint32_t before_zero = 5000; /* how long a run goes until the clock starts anew */

static struct {
    uint8_t page, state;           /* selected; ModuleState, as byte 3 has it */
    uint8_t control[128];          /* page 10h, from byte 128 on */
    uint8_t active[8], applied[8]; /* the active bytes; those that they become */
    uint32_t apply_due;            /* and when they do */
    uint8_t down, down_before;     /* DPDeinit, and what it was until `due` */
    unsigned stores;               /* on page 10h */
    uint32_t due, delay;           /* when the path states follow DPDeinit, and after how long they do */
    unsigned refuse_each;          /* every so many transactions one is refused */
    bool lies;                     /* the driver says stored, whatever was asked */
    bool forgets;                  /* once paths are to come up, no byte is active any more */
} module;

static const struct dovecounter_plan *planned;
static struct dovecounter_effect effect;
static uint32_t apply_delay;
static bool forgets;
static struct dovecounter_patience patient = {.pause = 100, .limit = 1000000};

static struct dovecounter_operation asked, asked_before;
static uint8_t *wanted_bytes;
static uint32_t over_at;
static unsigned transactions, calls_left;
static bool is_busy, was_refused;

static void fail(const char *why) {
    printf("main_loop: %s\n", why);
    exit(1);
}

uint32_t milliseconds(void) { return clock_now; }

void i2c_start(const struct dovecounter_operation *operation, uint8_t bytes[128]) {
    if (is_busy) fail("a transaction began during another one");
    if (operation->device != 0xA0 || operation->count == 0 || operation->count > 8) fail("an operation of no shape");
    bool is_again = operation->offset == asked_before.offset && operation->kind == asked_before.kind &&
                    operation->count == asked_before.count;
    if (is_again && clock_now - over_at <= patient.pause) fail("an operation was asked for again at once");
    if (was_refused && clock_now - over_at <= patient.pause) fail("no pause after a refusal");
    if (beginnings > 1 && conversation.saved.steps == 0 && clock_now - over_at < BEFORE_AGAIN)
        fail("a procedure was begun again at once");
    asked = *operation;
    wanted_bytes = bytes;
    calls_left = 3;
    is_busy = true;
}

static uint8_t path_states(void) { return clock_now - module.due < 1u << 31 ? module.down : module.down_before; }

/* Whether no apply is under way; what was applied is active then. */
static bool is_applied(void) {
    bool is_over = clock_now - module.apply_due < 1u << 31;
    if (is_over) memcpy(module.active, module.applied, 8);
    return is_over;
}

static uint8_t fetch_byte(uint8_t address) {
    if (address < 128) return address == 3 ? module.state : address == 127 ? module.page : 0;
    if (module.page == 0x10) return module.control[address - 128];
    if (address < 132) { /* two lanes a byte: DPDeactivated is 1, DPActivated 4 */
        unsigned both = path_states() >> 2 * (address - 128);
        return (uint8_t)((both & 1 ? 1 : 4) | (both & 2 ? 1 : 4) << 4);
    }
    if (address >= 202 && address < 206) return 0x11; /* ConfigSuccess */
    is_applied();
    return address >= 206 && address < 214 ? module.active[address - 206] : 0;
}

static void store_byte(uint8_t address, uint8_t byte) {
    if (address == 127) module.page = byte;
    if (address < 128 || module.page != 0x10) return;
    module.control[address - 128] = byte;
    module.stores++;
    if (address == 128 && byte & ~effect.taken && stage == PROVISIONING) fail("a path that is kept was taken down");
    if (address == 128 && byte != module.down) {
        module.down_before = path_states();
        module.down = byte;
        module.due = clock_now + module.delay;
    }
    if (address == 143 && is_applied()) module.apply_due = clock_now + apply_delay;
    for (int lane = 0; address == 143 && lane < 8; lane++)
        if (byte >> lane & 1) module.applied[lane] = module.control[145 - 128 + lane];
}

static uint8_t transact(void) {
    if (module.forgets && stage == ACTIVATING) memset(module.applied, 0, 8);
    if (module.refuse_each != 0 && transactions % module.refuse_each == 0) return DOVECOUNTER_REFUSED;
    for (uint8_t i = 0; i < asked.count; i++) {
        uint8_t address = (uint8_t)(asked.offset + i);
        if (asked.kind == DOVECOUNTER_STORE)
            store_byte(address, asked.bytes[i]);
        else
            wanted_bytes[i] = fetch_byte(address);
    }
    return asked.kind == DOVECOUNTER_STORE || module.lies ? DOVECOUNTER_STORED : DOVECOUNTER_FETCHED;
}

/* The interrupt, which comes by itself. */
static void interrupt(void) {
    if (!is_busy || --calls_left != 0) return;
    transactions++;
    is_busy = false;
    asked_before = asked;
    over_at = clock_now;
    uint8_t what = transact();
    was_refused = what == DOVECOUNTER_REFUSED;
    i2c_over(what);
}

static const struct dovecounter_plan pairs = {
    .lanes = 0xFF, .outside = 0xFF, .count = 4, .control = {0x20, 0x20, 0x24, 0x24, 0x28, 0x28, 0x2C, 0x2C}};

static const struct dovecounter_plan half = {
    .lanes = 0x0F, .outside = 0xFF, .count = 2, .control = {0x20, 0x20, 0x24, 0x24}};

/* Carries the plan out on such a module, for two hours at most, and compares how that ended. */
static void run(const char *name, uint8_t state, uint32_t delay, unsigned refuse_each, bool lies, enum stage end_wanted,
                uint8_t fault_wanted, uint32_t status_wanted) {
    memset(&module, 0, sizeof module);
    module.state = state;
    module.delay = delay;
    module.refuse_each = refuse_each;
    module.lies = lies;
    module.forgets = forgets;
    for (int lane = 0; lane < 8; lane++)
        if (effect.is_active || !(effect.taken >> lane & 1))
            module.active[lane] = module.applied[lane] = planned->control[lane];
    transactions = 0;
    was_refused = false;
    memset(&asked_before, 0, sizeof asked_before);
    module.apply_due = clock_now = UINT32_MAX - before_zero;
    if (!carry_out(planned, &effect, &patient)) fail("a plan was not begun");
    if (!effect.is_done && carry_out(planned, &effect, &patient)) fail("a plan was begun during another one");
    enum stage found = stage;
    for (uint32_t passed = 0; passed < 7200000 && (found == PROVISIONING || found == ACTIVATING); passed++) {
        clock_now++;
        interrupt();
        found = poll_module();
        if (found == ACTIVATING && carry_out(&pairs, &effect, &patient)) fail("a plan was begun during an activation");
    }
    if (poll_module() != found || is_busy) fail("something is done after the end");
    if (found != end_wanted || fault.code != fault_wanted ||
        (found == FAILED && fault.code == 0 && status != status_wanted)) {
        printf("main_loop: %s: stage %d, fault PV%u, status %u\n", name, found, fault.code, (unsigned)status);
        exit(1);
    }
    uint8_t down = (uint8_t)~planned->lanes;
    if (found == UP && (memcmp(module.active, planned->control, 8) != 0 || path_states() != down))
        fail("the plan is not up, or other lanes are");
}

/* What is judged to be there already. */
static void try_effects(void) {
    effect = (struct dovecounter_effect){.taken = 0xF0, .stays = 0x0F};
    run("paths beside some that are up", 3 << 1, 20, 0, false, UP, 0, 0);
    effect = (struct dovecounter_effect){.is_active = 1};
    run("a plan that is active", 3 << 1, 20, 0, false, UP, 0, 0);
    if (module.stores != 1) fail("more was stored than DPDeinit");
    effect = (struct dovecounter_effect){.is_active = 1, .is_done = 1};
    run("a plan that is up", 3 << 1, 0, 0, false, UP, 0, 0);
    if (transactions != 0) fail("a plan that is up was carried out");
    effect.hindrance = DOVECOUNTER_WOULD_GO_DOWN;
    if (carry_out(&pairs, &effect, &patient)) fail("a plan was begun although something stands against it");
    effect = (struct dovecounter_effect){.taken = 0xFF};
}

_Static_assert(_Generic(&over, atomic_bool * : true, default : false), "the interrupt may run on another processor");

int main(void) {
    planned = &pairs;
    effect.taken = 0xFF;
    run("a module that follows at once", 3 << 1, 0, 0, false, UP, 0, 0);
    if (transactions != 16 + 10) fail("more transactions than there have to be");
    run("a bus that refuses every fifth transaction", 3 << 1, 20, 5, false, UP, 0, 0);
    run("a module that takes a minute", 3 << 1, 60000, 5, false, UP, 0, 0);
    run("a module that takes longer than one procedure lasts", 3 << 1, 600000, 0, false, UP, 0, 0);
    if (transactions < 2 * 4096) fail("no procedure was begun again");
    patient.pause = 600;
    run("the same, with longer pauses", 3 << 1, 600000, 0, false, UP, 0, 0);
    if (transactions >= 4096) fail("a procedure was begun again, or pauses were short");
    patient.limit = 1000;
    run("the same, with a limit below", 3 << 1, 600000, 0, false, FAILED, 8, 0);
    if (transactions >= 100) fail("it went on beyond the limit");
    patient.pause = 100;
    run("a bus that refuses all, with a limit", 3 << 1, 0, 1, false, FAILED, 8, 0);
    if (transactions != MOST_BEGINNINGS * 12) fail("a procedure was begun too often");
    for (before_zero = 800; before_zero < 1900; before_zero += 100) /* then it starts anew while a stage rests */
        run("the same, at another time", 3 << 1, 0, 1, false, FAILED, 8, 0);
    before_zero = 5000;
    patient.limit = UINT32_MAX;
    run("a bus that refuses all", 3 << 1, 0, 1, false, FAILED, 4, 0);
    if (transactions != MOST_BEGINNINGS * 4096) fail("a procedure was begun too often");
    run("a module of low power", 1 << 1, 0, 0, false, FAILED, 6, 0);
    if (transactions != 1) fail("a procedure was begun again that can't succeed");
    apply_delay = 700;
    run("a module that shows an earlier success", 3 << 1, 0, 0, false, UP, 0, 0);
    if (transactions <= 16 + 10) fail("no procedure was begun again after an earlier success");
    apply_delay = 0;
    planned = &half;
    run("a plan for half of the lanes", 3 << 1, 20, 0, false, UP, 0, 0);
    planned = &pairs;
    try_effects();
    forgets = true;
    run("a module that forgets what was active", 3 << 1, 0, 0, false, FAILED, 3, 0);
    if (beginnings != 1) fail("an activation was begun again whose plan isn't active");
    forgets = false;
    run("a driver that says stored of a fetch", 3 << 1, 0, 0, true, FAILED, 0, DOVECOUNTER_NO_REPLY);
    run("the same once more, of a driver that does not", 3 << 1, 0, 0, false, UP, 0, 0);
    if (!carry_out(&pairs, &effect, &patient)) fail("a plan was not begun after another one");
    conversation.magic = 0;
    if (poll_module() != FAILED || status != DOVECOUNTER_NO_CONVERSATION) fail("other numbers were taken");
    printf("firmware: the main loop of the example carries a plan out, on modules fast and slow\n");
    return 0;
}
