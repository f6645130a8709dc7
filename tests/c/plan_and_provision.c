/* Runs examples/plan_and_provision.c on a simulated module whose bus refuses now and then, on one that refuses too often, on one that
   stays silent, again as after a restart, with lanes that are up, in low power, and on a module that is not of CMIS. Reads the text of the module's image on standard input. */
#include "../../examples/plan_and_provision.c"

#include "expect.h"
#include "image.h"

static const struct dovecounter_delays delays = {4, 4, 4, 4, 4, 4, 4};
static struct dovecounter_module module;
static unsigned transactions, stores, refuse_each; /* every so many one is refused; all of them if it is 1 */
static unsigned silent_from, silent_until;         /* from one to before the other all are refused */
static uint32_t slept, longest;
static uint8_t held_down; /* lanes whose DPDeinit bit was stored */
static bool is_of_cmis = true;

static bool refuses(void) {
    expect("a tick", DOVECOUNTER_DONE, dovecounter_module_tick(&module));
    transactions++;
    if (silent_from <= transactions && transactions < silent_until) return true;
    return refuse_each != 0 && transactions % refuse_each == 0;
}

bool i2c_fetch(uint8_t address, uint8_t offset, uint8_t *bytes, uint8_t count) {
    if (!is_of_cmis) { /* the lower half and page 00h come first in the image */
        memcpy(bytes, halves[offset / 128].bytes + offset % 128, count);
        return true;
    }
    return !refuses() && dovecounter_module_fetch(halves, half_count, &module, (uint8_t)(address << 1), offset, bytes,
                                                  count) == DOVECOUNTER_DONE;
}

bool i2c_store(uint8_t address, uint8_t offset, const uint8_t *bytes, uint8_t count) {
    stores += offset != 126;
    if (offset == 128) held_down |= bytes[0];
    return !refuses() && dovecounter_module_store(halves, half_count, &module, (uint8_t)(address << 1), offset, bytes,
                                                  count) == DOVECOUNTER_DONE;
}

void sleep_ms(uint32_t milliseconds) {
    slept += milliseconds;
    if (longest < milliseconds) longest = milliseconds;
}

static void begin(unsigned refusals) {
    refuse_each = refusals;
    transactions = stores = slept = longest = silent_from = silent_until = 0;
    expect("a module", DOVECOUNTER_DONE, dovecounter_module_begin(halves, half_count, &delays, &module));
}

static struct dovecounter_plan plan;
static struct outcome outcome;

static void succeed_by(uint32_t stay, const char *what, uint8_t may_take_down) {
    expect(what, 1, plan_and_provision(stay, may_take_down, &plan, &outcome));
    expect(what, DOVECOUNTER_DONE, outcome.status);
    expect(what, DOVECOUNTER_NO_FAULT, outcome.fault.code);
    expect(what, DOVECOUNTER_UNHINDERED, outcome.effect.hindrance);
    for (int lane = 0; lane < 8; lane++) {
        expect("the plan is active", plan.control[lane], module.lanes[lane].active);
        expect("its lanes are up", DOVECOUNTER_DP_ACTIVATED, module.lanes[lane].path);
    }
}

static void succeed(const char *what, uint8_t may_take_down) { succeed_by(50, what, may_take_down); }

static void fail(const char *what, uint32_t status, uint8_t fault) {
    expect(what, 0, plan_and_provision(50, 0, &plan, &outcome));
    expect(what, status, outcome.status);
    expect(what, fault, outcome.fault.code);
}

static void be_hindered(const char *what, uint8_t hindrance, uint8_t lanes, uint8_t state) {
    fail(what, DOVECOUNTER_DONE, DOVECOUNTER_NO_FAULT);
    expect(what, hindrance, outcome.effect.hindrance);
    expect(what, lanes, outcome.effect.lanes);
    expect(what, state, outcome.effect.state);
    expect("nothing was stored", 0, stores);
}

static void try_refusals(void) {
    for (unsigned refusals = 0; refusals < 10; refusals += refusals == 0 ? 5 : 1) {
        begin(refusals);
        succeed("planned and provisioned", 0);
        expect("four paths", 4, plan.count);
        expect("it slept where it was refused", 1, slept >= 100);
        expect("as long as the module wants", 100, longest);
    }
    begin(0);
    succeed("without refusals", 0);
    unsigned all = transactions;
    begin(0);
    silent_from = 14;        /* 13 read the module */
    silent_until = 14 + 102; /* 101 pauses of 100 ms are longer than 10 s */
    fail("silent while it is provisioned", DOVECOUNTER_DONE, DOVECOUNTER_OVERDUE);
    begin(0);
    silent_from = all;
    silent_until = UINT32_MAX;
    fail("silent while it is activated", DOVECOUNTER_DONE, DOVECOUNTER_OVERDUE);
    /* after a refusal the module's state is read, and the page selected and read back, so the fourth transaction counts */
    begin(4);
    fail("a bus without four transactions in a row", DOVECOUNTER_DONE, DOVECOUNTER_OVERDUE);
    begin(1);
    fail("a silent module", DOVECOUNTER_DONE, DOVECOUNTER_OVERDUE);
    expect("it was patient", 1, slept > 10000);
}

/* Where the module advertises a HostInterfaceID, it advertises another instead. */
static void change_host_id(uint8_t from, uint8_t to) {
    for (int app = 0; app < 8; app++)
        if (halves[0].bytes[86 + 4 * app] == from) halves[0].bytes[86 + 4 * app] = to;
}

/* A restart changes nothing, nor does a better plan, if it would take down a path; only a path that is worth nothing any more goes, and
   only if it may. */
static void try_again(void) {
    begin(0);
    change_host_id(0x0D, 1);
    succeed("one path", 0);
    expect("of eight lanes", 1, plan.count);
    change_host_id(1, 0x0D);
    stores = 0;
    succeed("after a restart", 0);
    expect("it is done", 1, outcome.effect.is_done);
    expect("the path stays", 1, plan.count);
    expect("nothing is stored", 0, stores);
    succeed("after a restart that may take lanes down", 0xFF);
    expect("the path stays", 1, plan.count);
    expect("nothing is stored", 0, stores);
    succeed_by(0, "without a weight for what stays", 0xFF);
    expect("another plan replaces it", 4, plan.count);
    begin(0);
    change_host_id(0x0D, 1);
    succeed("one path again", 0);
    change_host_id(1, 0x0D);
    stores = 0;
    change_host_id(0x11, 1);
    be_hindered("another plan", DOVECOUNTER_WOULD_GO_DOWN, 0xFF, 0);
    succeed("another plan that is permitted", 0xFF);
    expect("is provisioned", 4, plan.count);
    change_host_id(1, 0x11);
    for (int lane = 2; lane < 8; lane++) module.lanes[lane].path = DOVECOUNTER_DP_DEACTIVATED;
    for (int lane = 2; lane < 8; lane++) module.lanes[lane].active = 0;
    held_down = 0;
    succeed("paths beside one that is up", 0);
    expect("are provisioned", 0xFC, outcome.effect.taken);
    expect("and take down no other", 0xFC, held_down);
    module.deinit = 0xFF; /* the host held the lanes down */
    for (int lane = 0; lane < 8; lane++) module.lanes[lane].path = DOVECOUNTER_DP_DEACTIVATED;
    stores = 0;
    succeed("a plan that is active, and down", 0);
    expect("it is active", 1, outcome.effect.is_active);
    expect("DPDeinit alone is stored", 1, stores);
}

/* A module in low power is woken, if it may draw the power. */
static void try_low_power(void) {
    halves[0].bytes[26] = 0x10; /* LowPwrRequestSW */
    begin(0);
    expect("in low power", DOVECOUNTER_MODULE_LOW_PWR, module.state);
    succeed("woken", 0);
    begin(1);
    fail("in low power and silent", DOVECOUNTER_DONE, DOVECOUNTER_OVERDUE);
    begin(0);
    silent_from = 14;
    silent_until = UINT32_MAX;
    fail("silent when it is woken", DOVECOUNTER_DONE, DOVECOUNTER_OVERDUE);
    begin(0);
    silent_from = 26;
    silent_until = UINT32_MAX;
    fail("silent when it is read again", DOVECOUNTER_DONE, DOVECOUNTER_OVERDUE);
    expect("it was awake", DOVECOUNTER_MODULE_READY, module.state);
    halves[1].bytes[201 - 128]++; /* a quarter of a watt */
    set_sum(&halves[1], 128, 221, 222);
    begin(0);
    be_hindered("of too much power", DOVECOUNTER_OTHER_STATE, 0, DOVECOUNTER_MODULE_LOW_PWR);
    halves[0].bytes[26] = 0;
}

int main(void) {
    read_halves();
    try_refusals();
    try_again();
    try_low_power();
    change_host_id(0x0D, 1);
    change_host_id(0x11, 1);
    begin(0);
    be_hindered("nothing of worth", DOVECOUNTER_NO_PATH, 0, 0);
    is_of_cmis = false;
    halves[0].bytes[0] = 0x11; /* SFF-8636 with flat memory */
    halves[0].bytes[2] = 0x04;
    fail("no CMIS", DOVECOUNTER_NOT_CMIS, DOVECOUNTER_NO_FAULT);
    return judged("plan_and_provision");
}
