/* Firmware that keeps the module in one cage as wanted (docs/manager.md): call begin_port once, then poll_port whenever the main loop
   comes by. It makes at most one transaction, and waits for that: 3 ms at 400 kHz. On a Cortex-M4 the calls then take some 420,000
   instructions besides, 1.6 million when the port plans: dovecounter_port_next alone 154,000, even if nothing is to be done, so it isn't
   called before next.moment, except after an event. Nobody else uses the module. */
#include "dovecounter.h"

#include <stdbool.h>

/* The board's: a clock of 64 bits (extend a tick of 32), and a bus that makes one transaction, without a retry, by a 7-bit address. */
uint64_t milliseconds(void);
bool module_is_present(void); /* by ModPrsL, debounced */
bool i2c_fetch(uint8_t address, uint8_t offset, uint8_t *bytes, uint8_t count);
bool i2c_store(uint8_t address, uint8_t offset, const uint8_t *bytes, uint8_t count);
void print_line(const char *what, uint8_t code, uint8_t fault, uint8_t first);

/* Four paths of 100GAUI-2 outweigh one of 400GAUI-8. No lane that is up goes down, unless the port is requested to provision. */
static struct dovecounter_wanted wanted = {
    .weights = {[0x0D] = 101, [0x11] = 400}, .paired = 1, .most_power = 12 * 4 /* 12 W */};
enum { STAY = 50 }; /* what a path that is active, up or not, weighs more where the module may carry traffic */

static struct dovecounter_port port; /* port.flags counts the flags that were raised */
static bool carries_nothing;         /* a module that is plugged now */
static uint64_t rests_until;         /* nothing is to be done before, unless there is an event: then set it to 0 */

/* `was_powered`: the board itself was just powered, so no module carries anything. After a restart of the firmware alone one may. */
void begin_port(bool was_powered) {
    static const struct dovecounter_times times = {
        .settle = 2000, .period = 10000, .first = 1000, .most = 300000, .recheck = 300000};
    dovecounter_port_new(&times, &port);
    carries_nothing = was_powered;
}

static void watch_pin(void) {
    bool is_present = module_is_present(), was_present = port.stage != DOVECOUNTER_PORT_ABSENT;
    if (!is_present) carries_nothing = true; /* the next one */
    if (is_present == was_present) return;
    if (was_present) {
        dovecounter_port_pull(&port);
    } else {
        dovecounter_port_plug(&port, milliseconds());
        if (carries_nothing) dovecounter_port_request(&port, DOVECOUNTER_REQUEST_PROVISION, 0xFF);
    }
    rests_until = 0;
    print_line(was_present ? "pulled" : "plugged", 0, 0, 0);
}

static uint8_t transact(const struct dovecounter_operation *operation, uint8_t bytes[128]) {
    uint8_t address = operation->device >> 1, offset = operation->offset, count = operation->count;
    if (operation->kind == DOVECOUNTER_FETCH)
        return i2c_fetch(address, offset, bytes, count) ? DOVECOUNTER_FETCHED : DOVECOUNTER_REFUSED;
    return i2c_store(address, offset, operation->bytes, count) ? DOVECOUNTER_STORED : DOVECOUNTER_REFUSED;
}

static void print_outcome(const struct dovecounter_port_outcome *outcome) {
    const struct dovecounter_fault *fault = &outcome->fault;
    if (outcome->kind == DOVECOUNTER_PORT_FAILED) print_line("failed", outcome->failure, fault->code, fault->first);
    if (outcome->kind == DOVECOUNTER_PORT_LEAVES) print_line("left alone", outcome->left.reason, 0, 0);
    if (outcome->note != DOVECOUNTER_PORT_QUIET && outcome->note != DOVECOUNTER_PORT_STILL_UP)
        print_line("went on", outcome->note, 0, 0);
}

void poll_port(void) {
    struct dovecounter_port_next next;
    struct dovecounter_port_outcome outcome;
    uint8_t bytes[128];
    watch_pin();
    if (milliseconds() < rests_until) return;
    dovecounter_port_next(&port, milliseconds(), &next);
    if (next.kind != DOVECOUNTER_PORT_DO) {
        rests_until = next.kind == DOVECOUNTER_PORT_UNTIL ? next.moment : UINT64_MAX;
        return;
    }
    uint8_t reply = transact(&next.operation, bytes);
    wanted.stay = port.request == DOVECOUNTER_REQUEST_PROVISION ? 0 : STAY; /* 0 until it is up or left alone */
    dovecounter_port_take(&port, reply, bytes, next.operation.count, &wanted, milliseconds(), &outcome);
    print_outcome(&outcome);
}
