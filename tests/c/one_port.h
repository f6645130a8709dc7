/* One port that keeps a simulated module with two Applications as it is wanted: its module, its bus, which may refuse, and its clock. */
#include "expect.h"

/* ---- a module with two Applications: one of eight host lanes, and one of four ---- */

enum { LOWER, PAGE_00, PAGE_01, PAGE_10, PAGE_11, HALVES };
enum { ALL_LANES = 0xFF, LONG = 20000, NO_LIMIT = 255 };

static struct dovecounter_half halves[HALVES];
static const struct dovecounter_delays delays = {3, 4, 2, 2, 4, 5, 4};
static const struct dovecounter_times times = {.settle = 20, .period = 100, .first = 50, .most = 400};

static void make_halves(void) {
    static const uint8_t pages[HALVES] = {0, 0x00, 0x01, 0x10, 0x11};
    for (int i = 0; i < HALVES; i++) {
        halves[i].device = 0xA0;
        halves[i].upper = i != LOWER;
        halves[i].page = pages[i];
    }
    halves[PAGE_00].bytes[201 - 128] = 40; /* 10 W */
    advertise_one(&halves[LOWER], &halves[PAGE_00], &halves[PAGE_01]);
    memcpy(halves[LOWER].bytes + 90, "\x0D\x1C\x42\x11\xFF", 5);
    halves[PAGE_01].bytes[177 - 128] = 5;
    set_sum(&halves[PAGE_01], 130, 254, 255);
}

/* ---- one port, its module, its bus and its clock ---- */

static struct dovecounter_port port;
static struct dovecounter_module module;
static struct dovecounter_wanted wanted;
static struct dovecounter_port_next next;
static struct dovecounter_port_outcome outcome;
static uint64_t now;
static unsigned refuse_each, transactions, stores;
static unsigned reset_at,
    late_at;              /* the transactions before which the module resets itself, and that is refused too late */
static unsigned needless; /* lanes that were up as wanted, and were applied to */
static int is_stuck;      /* the module stays in its state */
static uint8_t has_pin;   /* the low power pin is on */

/* What the port read last, by the places that it named. */
static struct dovecounter_half seen[HALVES];
static size_t seen_count;

static void insert_module(void) {
    expect("a module", 0, dovecounter_module_begin(halves, HALVES, &delays, &module));
    expect("its pin", 0, dovecounter_module_pin(&module, has_pin));
}

static void want(uint32_t eight_lanes, uint32_t four_lanes) {
    memset(&wanted, 0, sizeof wanted);
    wanted.weights[0x11] = eight_lanes;
    wanted.weights[0x0D] = four_lanes;
    wanted.stay = 1;
    wanted.paired = 1;
    wanted.most_power = NO_LIMIT;
}

static void pass(uint64_t milliseconds) {
    now += milliseconds;
    for (uint64_t i = 0; i < milliseconds && i < 100 && !is_stuck; i++)
        expect("a tick", 0, dovecounter_module_tick(&module));
}

static void keep_half(const uint8_t bytes[128]) {
    size_t place = 0;
    while (place < seen_count && (seen[place].upper != next.upper || seen[place].page != next.page)) place++;
    if (place == seen_count) seen_count++;
    expect("room for a half", 1, seen_count <= HALVES);
    seen[place].device = next.operation.device;
    seen[place].upper = next.upper;
    seen[place].bank = next.bank;
    seen[place].page = next.page;
    memcpy(seen[place].bytes, bytes, 128);
}

static void count_needless(const struct dovecounter_operation *op) {
    enum { CONTROL_PAGE = 0x10, APPLY = 143, ACTIVATED = 4 };
    if (op->kind != DOVECOUNTER_STORE || op->offset != APPLY || module.page != CONTROL_PAGE) return;
    for (int lane = 0; lane < 8; lane++) {
        const struct dovecounter_lane *at = &module.lanes[lane];
        int is_up = at->path == ACTIVATED && at->active == port.goal.control[lane];
        needless += is_up && (op->bytes[0] >> lane & 1);
    }
}

/* Makes the operation, unless the bus refuses, and passes the reply. */
static void make_operation(void) {
    const struct dovecounter_operation *op = &next.operation;
    uint8_t bytes[128], reply = DOVECOUNTER_REFUSED;
    transactions++;
    if (transactions == reset_at) insert_module();
    count_needless(op);
    if (refuse_each != 0 && transactions % refuse_each == 0) {
        reply = DOVECOUNTER_REFUSED;
    } else if (op->kind == DOVECOUNTER_FETCH) {
        if (dovecounter_module_fetch(halves, HALVES, &module, op->device, op->offset, bytes, op->count) == 0)
            reply = DOVECOUNTER_FETCHED;
        if (reply == DOVECOUNTER_FETCHED && next.whole) keep_half(bytes);
    } else {
        stores += op->offset < 126 || op->offset > 127;
        if (dovecounter_module_store(halves, HALVES, &module, op->device, op->offset, op->bytes, op->count) == 0)
            reply = DOVECOUNTER_STORED;
    }
    if (transactions == late_at) reply = DOVECOUNTER_REFUSED;
    expect("a reply", 0, dovecounter_port_take(&port, reply, bytes, op->count, &wanted, now, &outcome));
}

static void ask(void) { expect("what is next", 0, dovecounter_port_next(&port, now, &next)); }

/* Drives the port until it led to this, or nothing is to be done, for some time. */
static int drive_to(uint8_t kind, uint8_t note) {
    uint64_t end = now + LONG;
    while (now < end) {
        ask();
        if (next.kind == DOVECOUNTER_PORT_IDLE) return 0;
        if (next.kind == DOVECOUNTER_PORT_UNTIL) {
            expect("a moment to come", 1, next.moment > now);
            pass(next.moment - now);
            continue;
        }
        expect("an operation", DOVECOUNTER_PORT_DO, next.kind);
        make_operation();
        pass(1);
        if (outcome.kind == kind && outcome.note == note) return 1;
    }
    return 0;
}

static int comes_up(void) { return drive_to(DOVECOUNTER_PORT_WENT, DOVECOUNTER_PORT_CAME_UP); }

static uint8_t lanes_up(void) {
    uint8_t lanes = 0;
    for (int lane = 0; lane < 8; lane++)
        if (module.lanes[lane].path == 4) lanes |= (uint8_t)(1 << lane);
    return lanes;
}

static void plug_in(void) {
    insert_module();
    expect("plugged", 0, dovecounter_port_plug(&port, now));
}

static void begin(void) {
    memset(&port, 0x5A, sizeof port);
    dovecounter_port_new(&times, &port);
    expect("an empty port", DOVECOUNTER_PORT_ABSENT, port.stage);
    want(101, 10);
    refuse_each = transactions = stores = reset_at = late_at = needless = 0;
    seen_count = 0;
}
