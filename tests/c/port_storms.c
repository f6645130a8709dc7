/* Ports that keep modules by chance as they are wanted, in storms: the bus refuses operations, also ones that took effect, and cuts
   stores short; modules reset themselves, and are replaced; wishes change. What a port stores and says is judged at each operation. In the
   end, when nothing goes wrong any more, it is where a port comes that knows nothing of the storm. Takes the number of storms. */
#include "expect.h"

#include <stdlib.h>

enum { ALL_LANES = 0xFF, ACTIVATED = 4, CONTROL_PAGE = 0x10, LANE_PAGE = 0x11 };
enum { CONTROL = 26, DEINIT = 128, APPLY = 143 };

static uint64_t state = 88172645463325252u;

/* A number below the limit. */
static unsigned chance(unsigned below) {
    state ^= state << 13, state ^= state >> 7, state ^= state << 17;
    return (unsigned)(state >> 33) % below;
}

enum { LOWER, PAGE_00, PAGE_01, PAGE_10, PAGE_11, HALVES };

static struct dovecounter_half halves[HALVES];
static struct dovecounter_delays delays;
static struct dovecounter_module module;

static void make_halves(void) {
    static const uint8_t pages[HALVES] = {0, 0x00, 0x01, CONTROL_PAGE, LANE_PAGE}, starts[4] = {0xFF, 0x55, 0x11, 0x01};
    memset(halves, 0, sizeof halves);
    for (int i = 0; i < HALVES; i++) {
        halves[i].device = 0xA0;
        halves[i].upper = i != LOWER;
        halves[i].page = pages[i];
    }
    halves[LOWER].bytes[CONTROL] = chance(4) ? 0 : 0x10; /* LowPwrRequestSW */
    halves[PAGE_00].bytes[201 - 128] = (uint8_t)chance(80);
    advertise_one(&halves[LOWER], &halves[PAGE_00], &halves[PAGE_01]);
    for (unsigned app = 0, count = 1 + chance(5); app < count; app++) {
        unsigned size = chance(4);
        uint8_t *bytes = halves[LOWER].bytes + 86 + 4 * app;
        bytes[0] = (uint8_t)(1 + chance(4));
        bytes[1] = 0x1C;
        bytes[2] = (uint8_t)(1 << size << 4 | 1);
        bytes[3] = starts[size];
        bytes[4] = 0xFF;
        halves[PAGE_01].bytes[176 - 128 + app] = ALL_LANES;
    }
    int size = halves[LOWER].bytes[86 + 2] >> 4, has_default = chance(2) == 0;
    for (int lane = 0; has_default && lane < 8; lane++) /* it brings its first Application up by itself */
        halves[PAGE_11].bytes[206 - 128 + lane] = (uint8_t)(1 << 4 | lane / size * size << 1);
    set_sum(&halves[PAGE_00], 128, 221, 222);
    set_sum(&halves[PAGE_01], 130, 254, 255);
    uint16_t ticks[sizeof delays / sizeof(uint16_t)], longest = chance(2) ? 8 : 200;
    for (size_t i = 0; i < sizeof ticks / sizeof ticks[0]; i++) ticks[i] = (uint16_t)(1 + chance(longest));
    memcpy(&delays, ticks, sizeof delays);
}

static void insert_module(void) { expect("a module", 0, dovecounter_module_begin(halves, HALVES, &delays, &module)); }

/* ---- its port ---- */

static const struct dovecounter_times times = {.settle = 20, .period = 100, .first = 50, .most = 400, .recheck = 3000};
static struct dovecounter_port port;
static struct dovecounter_wanted wanted;
static struct dovecounter_port_next next;
static struct dovecounter_port_outcome outcome;
static uint64_t now;

/* What is known beside the port: the reply that it waits for, and what was read. */
static struct {
    uint8_t reply, bytes[128];
    int is_dropped;            /* the module is to be read anew, or was replaced, since the port asked */
    uint8_t up, may_take_down; /* lanes that were last read to be up, and that were permitted by then */
    int was_reset, is_unread;  /* since then it reset itself, or a first apply was refused */
    unsigned refused_applies;  /* since it was last provisioned, up or left alone */
} known;

static unsigned refused, refused_applies, late, cut, resets, events; /* in percent */
static unsigned long refused_again, taken_late, came_up, left_alone;

static void want_anything(void) {
    static const uint32_t weights[] = {0, 1, 10, 100, 101, 200, 400};
    wanted = (struct dovecounter_wanted){.paired = 1, .stay = weights[chance(7)]};
    for (int id = 1; id <= 4; id++) wanted.weights[id] = weights[chance(7)];
    wanted.most_power = chance(4) ? 255 : (uint8_t)chance(80);
    wanted.may_take_down = chance(3) ? ALL_LANES : (uint8_t)(chance(256) & chance(256));
}

static void pass(uint64_t milliseconds) {
    now += milliseconds;
    for (uint64_t i = 0; i < milliseconds && i < 1000; i++) expect("a tick", 0, dovecounter_module_tick(&module));
}

static uint8_t lanes_up_as_wanted(void) {
    uint8_t lanes = 0;
    for (int lane = 0; lane < 8; lane++)
        if (module.lanes[lane].path == ACTIVATED && module.lanes[lane].active == port.goal.control[lane])
            lanes |= (uint8_t)(1 << lane);
    return lanes & port.goal.lanes;
}

/* ---- what is judged ---- */

/* A port that reads or looks stores nothing but selections, nor does one before it has read its module anew after a first refused
   apply. No lane goes down that was read to be up and may not. No apply comes to lanes that are up as wanted, unless two were refused, or
   the module reset itself since it was read. */
static void judge_store(const struct dovecounter_operation *op) {
    if (op->offset == 126) return;
    expect("a store has a reason", 0,
           port.stage == DOVECOUNTER_PORT_READING || port.stage == DOVECOUNTER_PORT_CONFIRMING ||
               port.stage == DOVECOUNTER_PORT_WATCHING);
    expect("the module was read anew", 0, (unsigned long)known.is_unread);
    int is_sleep = op->offset == CONTROL && (op->bytes[0] & 0x10);
    uint8_t lanes = is_sleep ? ALL_LANES : op->offset == DEINIT || op->offset == APPLY ? op->bytes[0] : 0;
    expect("lanes that go down may", 0, lanes & known.up & ~known.may_take_down);
    if (op->offset == APPLY && module.page == CONTROL_PAGE && known.refused_applies < 2 && !known.was_reset)
        expect("no apply is needless", 0, lanes & lanes_up_as_wanted());
}

/* Notes the lanes that a reading shows, and what is permitted by its last reply. */
static void note_half(const uint8_t bytes[128]) {
    if (!next.upper || next.page != LANE_PAGE || port.stage != DOVECOUNTER_PORT_READING) return;
    known.up = 0;
    for (int lane = 0; lane < 8; lane++)
        if ((bytes[lane / 2] >> lane % 2 * 4 & 0xF) == ACTIVATED) known.up |= (uint8_t)(1 << lane);
    known.may_take_down = wanted.may_take_down | (port.request ? port.request_lanes : 0);
    known.was_reset = known.is_unread = 0;
}

static void judge_outcome(void) {
    int is_refused_apply = next.operation.offset == APPLY && known.reply == DOVECOUNTER_REFUSED;
    int is_first = is_refused_apply && known.refused_applies == 0;
    int is_settled = outcome.kind == DOVECOUNTER_PORT_LEAVES ||
                     (outcome.kind == DOVECOUNTER_PORT_WENT && outcome.note >= DOVECOUNTER_PORT_PROVISIONED);
    known.refused_applies = is_settled ? 0 : known.refused_applies + (unsigned)is_refused_apply;
    known.is_unread |= is_first;
    expect("the first refused apply fails", (unsigned long)is_first, outcome.failure == DOVECOUNTER_PORT_APPLY_REFUSED);
    expect("as is said until it settles", known.refused_applies > 0, port.apply_refused);
    refused_again += (unsigned long)(is_refused_apply && !is_first);
}

/* ---- operations, and their replies ---- */

static void make_operation(void) {
    const struct dovecounter_operation *op = &next.operation;
    if (chance(100) < resets) insert_module(), known.was_reset = 1;
    int is_refused = chance(100) < (op->offset == APPLY ? refused_applies : refused);
    int is_late = is_refused && chance(100) < late;
    uint8_t count = !is_refused || is_late ? op->count : chance(100) < cut ? (uint8_t)chance(op->count) : 0;
    known.reply = DOVECOUNTER_REFUSED;
    if (op->kind == DOVECOUNTER_STORE) judge_store(op);
    if (op->kind == DOVECOUNTER_STORE && count > 0) {
        int is_taken = !dovecounter_module_store(halves, HALVES, &module, op->device, op->offset, op->bytes, count);
        if (is_taken && !is_refused) known.reply = DOVECOUNTER_STORED;
        taken_late += is_taken && is_late && op->offset == APPLY;
    } else if (op->kind == DOVECOUNTER_FETCH && count == op->count) {
        int is_taken = !dovecounter_module_fetch(halves, HALVES, &module, op->device, op->offset, known.bytes, count);
        if (is_taken && !is_refused) known.reply = DOVECOUNTER_FETCHED;
    }
}

static void pass_reply(void) {
    uint64_t due = port.due;
    if (next.whole && known.reply == DOVECOUNTER_FETCHED && !known.is_dropped) note_half(known.bytes);
    expect("a reply", 0,
           dovecounter_port_take(&port, known.reply, known.bytes, next.operation.count, &wanted, now, &outcome));
    expect("no moment goes back", 1, port.due >= due);
    expect("is the reply dropped", (unsigned long)known.is_dropped, outcome.kind == DOVECOUNTER_PORT_DROPPED);
    if (!known.is_dropped) judge_outcome();
}

static void replace_module(void) {
    if (chance(2)) make_halves();
    insert_module();
    expect("pulled", 0, dovecounter_port_pull(&port));
    expect("plugged", 0, dovecounter_port_plug(&port, now));
    known.refused_applies = 0;
}

static void let_happen(void) {
    if (chance(100) >= events) return;
    unsigned what = chance(5);
    if (what == 0) pass(chance(1000));
    if (what == 1) replace_module();
    if (what == 2) want_anything(), expect("asked", 0, dovecounter_port_reconsider(&port));
    if (what == 3) expect("held", 0, dovecounter_port_hold(&port, chance(3) == 0));
    if (what == 4) expect("asked", 0, dovecounter_port_request(&port, (uint8_t)chance(4), (uint8_t)chance(256)));
    if (what > 0) known.is_dropped = 1;
}

/* Goes on until a look finds the module up, or it is left alone, or held; at most for so many turns. */
static void go_on(int turns) {
    for (outcome.note = 0; turns > 0 && outcome.note != DOVECOUNTER_PORT_STILL_UP; turns--) {
        expect("what is next", 0, dovecounter_port_next(&port, now, &next));
        uint64_t until = port.stage == DOVECOUNTER_PORT_LEFT ? port.recheck_at : port.due;
        expect("unless it waits", next.kind == DOVECOUNTER_PORT_UNTIL, !port.held && now < until);
        known.is_dropped = 0;
        if (next.kind == DOVECOUNTER_PORT_DO) make_operation();
        if (port.stage <= DOVECOUNTER_PORT_LEFT && events == 0) return;
        let_happen();
        pass(next.kind == DOVECOUNTER_PORT_UNTIL && next.moment > now ? next.moment - now : 1);
        if (next.kind == DOVECOUNTER_PORT_DO) pass_reply();
    }
}

/* Once nothing goes wrong any more, and it has read anew what it left alone by then. */
static void go_on_in_peace(void) {
    refused = refused_applies = resets = events = 0;
    expect("released", 0, dovecounter_port_hold(&port, 0));
    expect("asked for nothing", 0, dovecounter_port_request(&port, DOVECOUNTER_REQUEST_WAKE, 0));
    go_on(4000);
    pass(times.recheck);
    go_on(4000);
}

static void judge_end(void) {
    struct dovecounter_port found = port;
    expect("it is up or left alone", 1, port.stage == DOVECOUNTER_PORT_WATCHING || port.stage == DOVECOUNTER_PORT_LEFT);
    if (port.stage == DOVECOUNTER_PORT_WATCHING) expect("what is up", port.goal.lanes, lanes_up_as_wanted());
    came_up += port.stage == DOVECOUNTER_PORT_WATCHING;
    left_alone += port.stage == DOVECOUNTER_PORT_LEFT;
    memset(&known, 0, sizeof known);
    dovecounter_port_new(&times, &port);
    expect("plugged", 0, dovecounter_port_plug(&port, now));
    go_on_in_peace();
    expect("as a port that knows nothing", found.stage, port.stage);
    expect("that leaves it for this", found.left.reason, port.left.reason);
    expect_same("or has this goal", found.goal.control, port.goal.control, sizeof port.goal.control);
}

static void storm(void) {
    static const unsigned rates[] = {0, 0, 3, 10, 25, 35};
    refused = rates[chance(6)], resets = rates[chance(4)], events = rates[chance(4)];
    refused_applies = chance(90), late = chance(101), cut = chance(101);
    memset(&known, 0, sizeof known);
    make_halves();
    want_anything();
    insert_module();
    dovecounter_port_new(&times, &port);
    expect("plugged", 0, dovecounter_port_plug(&port, now));
    for (unsigned spells = 1 + chance(4); spells > 0; spells--) go_on(100);
    go_on_in_peace();
    judge_end();
}

int main(int count, char **arguments) {
    for (int storms = count > 1 ? atoi(arguments[1]) : 300; storms > 0; storms--) storm();
    expect("modules came up, and were left alone", 1, came_up > 0 && left_alone > 0);
    expect("applies were refused again, and too late", 1, refused_again > 0 && taken_late > 0);
    return judged("port_storms");
}
