/* Says how many instructions the slowest calls of the library for firmware take on an emulated Cortex-M4: a plan, and the calls of a port
   whose module comes up and is looked at, on examples/board. The emulator lets a nanosecond pass for an instruction (-icount shift=0), and
   a tick of the processor's timer, SysTick, is 40 of them. */
#include "board.h"
#include "dovecounter.h"
#include "images.h"

#define SYSTICK ((volatile uint32_t *)0xE000E010) /* control, reload value, value */

enum { LONGEST = 0xFFFFFF, NANOSECONDS = 40 };

static struct dovecounter_half halves[16];
static size_t half_count;
static struct dovecounter_module module;
static struct dovecounter_port port;
static struct dovecounter_port_next next;
static struct dovecounter_port_outcome outcome;
static struct dovecounter_wanted wanted = {.stay = 1, .paired = 0, .most_power = 255, .may_take_down = 0xFF};
static struct dovecounter_plan plan;
static const struct dovecounter_path kept[1];
static uint64_t now;

static uint32_t since(uint32_t before) { return (before - SYSTICK[2]) & LONGEST; }

static void print_most(const char *name, uint32_t ticks) {
    char digits[12] = {0};
    size_t at = 10;
    uint32_t number = ticks * NANOSECONDS;
    digits[at] = '\n';
    do {
        digits[--at] = (char)('0' + number % 10);
        number /= 10;
    } while (number != 0);
    print("instructions ");
    print(name);
    print(" ");
    print(digits + at);
}

/* Each HostInterfaceID has a weight of its own. */
static void begin(void) {
    static const struct dovecounter_delays delays = {4, 4, 4, 4, 4, 4, 4};
    half_count = images[0].count;
    for (size_t i = 0; i < half_count; i++) halves[i] = images[0].halves[i];
    for (uint32_t id = 0; id < 256; id++) wanted.weights[id] = 100 + id;
    if (dovecounter_module_begin(halves, half_count, &delays, &module) != DOVECOUNTER_DONE) print("no module\n");
}

static uint8_t transact(const struct dovecounter_operation *it, uint8_t bytes[128]) {
    dovecounter_module_tick(&module);
    if (it->kind == DOVECOUNTER_STORE)
        return dovecounter_module_store(halves, half_count, &module, it->device, it->offset, it->bytes, it->count) == 0
                   ? DOVECOUNTER_STORED
                   : DOVECOUNTER_REFUSED;
    return dovecounter_module_fetch(halves, half_count, &module, it->device, it->offset, bytes, it->count) == 0
               ? DOVECOUNTER_FETCHED
               : DOVECOUNTER_REFUSED;
}

/* The most that a kind of call takes. */
static struct {
    uint32_t next, idle, take, planning; /* idle: nothing is to be done; planning: it ends a reading */
} most;

static void raise(uint32_t *highest, uint32_t ticks) {
    if (*highest < ticks) *highest = ticks;
}

static void keep(void) {
    static const struct dovecounter_times times = {1, 1, 1, 1, 1};
    uint8_t bytes[128] = {0};
    dovecounter_port_new(&times, &port);
    dovecounter_port_plug(&port, 0);
    for (now = 1; now < 10000; now++) {
        uint32_t before = SYSTICK[2];
        dovecounter_port_next(&port, now, &next);
        uint32_t ticks = since(before);
        raise(next.kind == DOVECOUNTER_PORT_DO ? &most.next : &most.idle, ticks);
        if (next.kind != DOVECOUNTER_PORT_DO) continue;
        bool reads = port.stage == DOVECOUNTER_PORT_READING;
        uint8_t reply = transact(&next.operation, bytes);
        before = SYSTICK[2];
        dovecounter_port_take(&port, reply, bytes, next.operation.count, &wanted, now, &outcome);
        ticks = since(before);
        raise(reads && port.stage != DOVECOUNTER_PORT_READING ? &most.planning : &most.take, ticks);
    }
}

int main(void) {
    SYSTICK[1] = LONGEST;
    SYSTICK[0] = 5; /* on, by the processor's clock, without an interrupt */
    begin();
    uint32_t before = SYSTICK[2];
    dovecounter_plan(halves, half_count, 0, 0, wanted.weights, 1, kept, 0, &plan);
    print_most("dovecounter_plan", since(before));
    keep();
    print_most("dovecounter_port_next, idle", most.idle);
    print_most("dovecounter_port_next", most.next);
    print_most("dovecounter_port_take", most.take);
    print_most("dovecounter_port_take, which plans", most.planning);
    if (port.stage != DOVECOUNTER_PORT_WATCHING) print("it isn't watched\n");
    return 0;
}
