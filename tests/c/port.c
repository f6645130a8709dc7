/* A port that keeps a simulated module as it is wanted, driven through the library for firmware as its header says: a module comes up
   over a bus that refuses, one that is up is left alone after a restart, flags count until they are known, and lanes that are up go
   down by permission alone. And what is refused, for each call. */
#include "one_port.h"

/* ---- what a port does ---- */

static int is_left(uint8_t reason) {
    return drive_to(DOVECOUNTER_PORT_LEAVES, 0) && outcome.left.reason == reason && port.left.reason == reason &&
           port.stage == DOVECOUNTER_PORT_LEFT;
}

static void try_up(void) {
    /* A page is selected, read back and fetched from: that is never done if each third is refused. */
    static const unsigned rates[] = {0, 4, 5, 6, 7, 8, 9, 10, 11};
    for (size_t i = 0; i < sizeof rates / sizeof rates[0]; i++) {
        begin();
        refuse_each = rates[i];
        ask();
        expect("nothing in an empty port", DOVECOUNTER_PORT_IDLE, next.kind);
        plug_in();
        ask();
        expect("a module settles", DOVECOUNTER_PORT_UNTIL, next.kind);
        expect("for so long", (unsigned long)(now + times.settle), (unsigned long)next.moment);
        expect("a module comes up", 1, (unsigned long)comes_up());
        expect("all its lanes", ALL_LANES, lanes_up());
        expect("the goal's lanes", ALL_LANES, port.goal.lanes);
        expect("it is watched", DOVECOUNTER_PORT_WATCHING, port.stage);
        expect("something was stored", 1, stores > 0);
        expect("its next look", (unsigned long)(now - 1 + times.period), (unsigned long)port.due);
    }
}

/* The halves that were read are the module's, by the places that were named. */
static void try_places(void) {
    begin();
    plug_in();
    expect("a module comes up", 1, (unsigned long)comes_up());
    expect("four halves", 4, (unsigned long)seen_count); /* page 02h is lacked */
    struct dovecounter_advertisement advertisement;
    expect("they advertise", 0, dovecounter_advertisement(seen, seen_count, 0, &advertisement));
    expect("two Applications", 2, advertisement.count);
    struct dovecounter_flags flags;
    expect("they have flags", 0, dovecounter_flags(seen, seen_count, &flags));
}

/* A program that restarts finds the module up, and stores nothing. */
static void try_restart(void) {
    begin();
    plug_in();
    expect("a module comes up", 1, (unsigned long)comes_up());
    struct dovecounter_module before = module;
    dovecounter_port_new(&times, &port);
    stores = 0;
    expect("plugged", 0, dovecounter_port_plug(&port, now));
    expect("it is up", 1, (unsigned long)comes_up());
    for (int looks = 0; looks < 5; looks++)
        expect("it is still up", 1, (unsigned long)drive_to(DOVECOUNTER_PORT_WENT, DOVECOUNTER_PORT_STILL_UP));
    expect("nothing was stored", 0, stores);
    expect_same("its lanes", before.lanes, module.lanes, sizeof module.lanes);
}

/* A module that is changed by somebody else, and one that is replaced. */
static void try_changes(void) {
    begin();
    plug_in();
    expect("a module comes up", 1, (unsigned long)comes_up());
    insert_module(); /* nobody said so */
    expect("the change is seen", 1, (unsigned long)drive_to(DOVECOUNTER_PORT_FAILED, 0));
    expect("as a change", DOVECOUNTER_PORT_CHANGED, outcome.failure);
    expect("and waited for", (unsigned long)(now - 1 + times.first), (unsigned long)outcome.moment);
    expect("it comes up again", 1, (unsigned long)comes_up());
    expect("pulled", 0, dovecounter_port_pull(&port));
    ask();
    expect("nothing is left", DOVECOUNTER_PORT_IDLE, next.kind);
    stores = 0;
    plug_in();
    expect("another one comes up", 1, (unsigned long)comes_up());
    expect("all its lanes", ALL_LANES, lanes_up());
}

/* A module that is reset while its lanes come up brings up its default, which isn't told as what is wanted. */
static void try_default(void) {
    static const uint8_t other[8] = {0x20, 0x20, 0x20, 0x20, 0x28, 0x28, 0x28, 0x28};
    uint8_t active[8];
    memcpy(halves[PAGE_11].bytes + 206 - 128, other, sizeof other);
    for (unsigned made = 1; made < 12; made++) {
        begin();
        wanted.may_take_down = ALL_LANES;
        plug_in();
        expect("it is provisioned", 1, (unsigned long)drive_to(DOVECOUNTER_PORT_WENT, DOVECOUNTER_PORT_PROVISIONED));
        expect("its default is not the goal", 1, memcmp(other, port.goal.control, sizeof other) != 0);
        reset_at = transactions + made;
        expect("it comes up", 1, (unsigned long)comes_up());
        expect("its bytes", 0, dovecounter_module_active(&module, active));
        expect_same("are the goal's", port.goal.control, active, sizeof active);
    }
    memset(halves[PAGE_11].bytes + 206 - 128, 0, sizeof other);
}

/* A pull drops the reply that is outstanding. */
static void try_pull(void) {
    begin();
    plug_in();
    pass(times.settle);
    ask();
    expect("an operation", DOVECOUNTER_PORT_DO, next.kind);
    expect("pulled", 0, dovecounter_port_pull(&port));
    expect("plugged", 0, dovecounter_port_plug(&port, now));
    ask();
    expect("the reply first", DOVECOUNTER_PORT_BUSY, next.kind);
    make_operation();
    expect("it is dropped", DOVECOUNTER_PORT_DROPPED, outcome.kind);
    expect("the other comes up", 1, (unsigned long)comes_up());
}

/* While a port is held, it asks for nothing, whatever comes. */
static void try_hold(void) {
    begin();
    plug_in();
    expect("a module comes up", 1, (unsigned long)comes_up());
    expect("held", 0, dovecounter_port_hold(&port, 7));
    expect("as is said", 1, port.held);
    pass(1000);
    ask();
    expect("nothing", DOVECOUNTER_PORT_IDLE, next.kind);
    expect("replaced", 0, dovecounter_port_pull(&port));
    plug_in();
    pass(1000);
    ask();
    expect("still nothing", DOVECOUNTER_PORT_IDLE, next.kind);
    expect("released", 0, dovecounter_port_hold(&port, 0));
    expect("it comes up", 1, (unsigned long)comes_up());
}

/* Each flag that was read counts until it is acknowledged. */
static void try_flags(void) {
    enum { LANE_5 = 4, FLAG = 8 * (140 - 134) + LANE_5 };
    begin();
    plug_in();
    expect("a module comes up", 1, (unsigned long)comes_up());
    pass(times.period);
    uint16_t before = port.flags.lane_counts[FLAG];
    for (unsigned raised = 1; raised <= 3; raised++) {
        module.lane_flags[140 - 134] = 1 << LANE_5;
        expect("it is still up", 1, (unsigned long)drive_to(DOVECOUNTER_PORT_WENT, DOVECOUNTER_PORT_STILL_UP));
        expect("the flag counts", before + raised, port.flags.lane_counts[FLAG]);
        expect("and is dated", (unsigned long)now - 1, (unsigned long)port.flags.lane_last[FLAG]);
    }
    uint64_t last = port.flags.lane_last[FLAG];
    expect("pulled", 0, dovecounter_port_pull(&port));
    expect("it outlives a pull", before + 3, port.flags.lane_counts[FLAG]);
    expect("known too early", 0, dovecounter_port_acknowledge(&port, last - 1));
    expect("it counts", before + 3, port.flags.lane_counts[FLAG]);
    expect("known", 0, dovecounter_port_acknowledge(&port, last));
    expect("it counts no longer", 0, port.flags.lane_counts[FLAG]);
    expect("nor is dated", 0, (unsigned long)port.flags.lane_last[FLAG]);
}

/* Where a CMIS module has flags, one of another family has something else. One with flat memory has no page 11h, whatever its lower half
   says of a selection. */
static void try_other_families(void) {
    enum { SFP = 0x03, QSFP28 = 0x11, QSFP_DD = 0x18, FLAGS = 8 };
    static const struct {
        uint8_t identifier, memory; /* byte 2, which says that memory is flat */
    } kinds[] = {{SFP, 0}, {QSFP28, 0x04}, {QSFP_DD, 0x80}};
    static const struct dovecounter_flag_counts none;
    for (size_t i = 0; i < sizeof kinds / sizeof kinds[0]; i++) {
        uint8_t lower[128] = {
            kinds[i].identifier, 0x50, kinds[i].memory, [FLAGS] = 0xFF, 0xFF, 0xFF, 0xFF, [127] = 0x11};
        uint8_t upper[128];
        memset(upper, 0xFF, sizeof upper);
        begin();
        plug_in();
        pass(times.settle);
        ask();
        expect("the lower half", DOVECOUNTER_FETCH, next.operation.kind);
        expect("as a whole", 128, next.operation.count);
        expect("is read", 0, dovecounter_port_take(&port, DOVECOUNTER_FETCHED, lower, 128, &wanted, now, &outcome));
        expect("its byte 0 is known", kinds[i].identifier, port.identifier);
        for (int flag = 0; flag < 32; flag++) {
            expect("a flag of the module", kinds[i].identifier == QSFP_DD, port.flags.module_counts[flag]);
            expect("and when", kinds[i].identifier == QSFP_DD ? (unsigned long)now : 0,
                   (unsigned long)port.flags.module_last[flag]);
        }
        ask();
        if (kinds[i].identifier != SFP) {
            expect("the upper half", 128, next.operation.offset);
            expect("is read", 0, dovecounter_port_take(&port, DOVECOUNTER_FETCHED, upper, 128, &wanted, now, &outcome));
        }
        expect_same("no flag of a lane", none.lane_counts, port.flags.lane_counts, sizeof none.lane_counts);
        expect_same("no state", &none.states, &port.flags.states, sizeof none.states);
        expect_same("no status", &none.statuses, &port.flags.statuses, sizeof none.statuses);
        expect("pulled", 0, dovecounter_port_pull(&port));
        expect("its byte 0 is no longer known", 0, port.identifier);
    }
}

/* Each lane's state and status is known since when it was read, whatever is acknowledged or pulled. */
static void try_lane_codes(void) {
    enum { LANE_1 = 0, LANE_5 = 4, LANE_6, LOOK = 4 /* operations, each in a millisecond */ };
    static const struct dovecounter_lane_codes none;
    begin();
    expect_same("no state was read", &none, &port.flags.states, sizeof none);
    expect_same("nor a status", &none, &port.flags.statuses, sizeof none);
    plug_in();
    expect("a module comes up", 1, (unsigned long)comes_up());
    for (int lane = 0; lane < 8; lane++) {
        expect("a lane is DPActivated", 4, port.flags.states.codes[lane]);
        expect("its states were seen", 1, port.flags.states.changes[lane] >= 3);
        expect("the last one before the look", (unsigned long)now - 1 - LOOK,
               (unsigned long)port.flags.states.last[lane]);
        expect("its status is ConfigSuccess", 1, port.flags.statuses.codes[lane]);
        expect("it was seen", 1, port.flags.statuses.changes[lane] >= 1);
        expect("before that", 1, port.flags.statuses.last[lane] < now - 1 - LOOK);
    }
    const struct dovecounter_lane_codes states = port.flags.states, statuses = port.flags.statuses;
    expect("it is still up", 1, (unsigned long)drive_to(DOVECOUNTER_PORT_WENT, DOVECOUNTER_PORT_STILL_UP));
    expect_same("no state has changed", &states, &port.flags.states, sizeof states);
    module.lanes[LANE_6].status = 2;
    expect("it is still up again", 1, (unsigned long)drive_to(DOVECOUNTER_PORT_WENT, DOVECOUNTER_PORT_STILL_UP));
    expect("another status", 2, port.flags.statuses.codes[LANE_6]);
    expect("counts", statuses.changes[LANE_6] + 1UL, port.flags.statuses.changes[LANE_6]);
    expect("is dated", (unsigned long)now - 1, (unsigned long)port.flags.statuses.last[LANE_6]);
    expect("alone", (unsigned long)statuses.last[LANE_5], (unsigned long)port.flags.statuses.last[LANE_5]);
    expect_same("still no state has changed", &states, &port.flags.states, sizeof states);
    module.deinit = 1 << LANE_5;
    expect("a lane goes down", 1, (unsigned long)drive_to(DOVECOUNTER_PORT_FAILED, 0));
    expect("as is seen", 1, port.flags.states.codes[LANE_5] != 4);
    expect("once", states.changes[LANE_5] + 1UL, port.flags.states.changes[LANE_5]);
    expect("and dated", (unsigned long)now - 1, (unsigned long)port.flags.states.last[LANE_5]);
    expect("with its path", states.changes[LANE_1] + 1UL, port.flags.states.changes[LANE_1]);
    expect("at that moment", (unsigned long)now - 1, (unsigned long)port.flags.states.last[LANE_1]);
    const struct dovecounter_lane_codes later = port.flags.states;
    expect("pulled", 0, dovecounter_port_pull(&port));
    expect("known", 0, dovecounter_port_acknowledge(&port, now));
    expect_same("they outlive both", &later, &port.flags.states, sizeof later);
}

/* ---- the lanes of a further bank ---- */

enum { BANK = 3, STATES = 0, FLAGS = 134 - 128, STATUSES = 202 - 128 }; /* where page 11h has them */

static struct dovecounter_bank_counts further;
static struct dovecounter_half lanes_of_bank;

static void begin_bank(void) {
    memset(&further, 0, sizeof further);
    lanes_of_bank = (struct dovecounter_half){0xA0, 1, BANK, 0x11, {0}};
}

static void count_at(uint64_t moment) {
    expect("it is counted", 0, dovecounter_bank_count(&further, &lanes_of_bank, moment));
}

/* Each flag counts by itself, as often as it is raised, and until it is known. */
static void try_flags_of_bank(void) {
    static const struct dovecounter_bank_counts none;
    begin_bank();
    count_at(5);
    expect_same("no flag, and no code", &none, &further, sizeof none);
    for (unsigned flag = 0; flag < 152; flag++) {
        begin_bank();
        lanes_of_bank.bytes[FLAGS + flag / 8] = (uint8_t)(1U << flag % 8);
        count_at(7);
        struct dovecounter_bank_counts wanted = none;
        wanted.lane_counts[flag] = 1, wanted.lane_last[flag] = 7;
        expect_same("this flag alone", &wanted, &further, sizeof wanted);
        count_at(9);
        wanted.lane_counts[flag] = 2, wanted.lane_last[flag] = 9;
        expect_same("it was raised again", &wanted, &further, sizeof wanted);
        count_at(8);
        wanted.lane_counts[flag] = 3;
        expect_same("an earlier moment isn't the last", &wanted, &further, sizeof wanted);
        dovecounter_bank_acknowledge(&further, 8);
        expect_same("known too early", &wanted, &further, sizeof wanted);
        dovecounter_bank_acknowledge(&further, 9);
        expect_same("known", &none, &further, sizeof none);
    }
    begin_bank();
    memset(lanes_of_bank.bytes + FLAGS, 0xFF, 19);
    for (unsigned raised = 1; raised <= 65537; raised++) count_at(raised);
    for (unsigned flag = 0; flag < 152; flag++) {
        expect("no more than fit", 65535, further.lane_counts[flag]);
        expect("the last of all", 65537, (unsigned long)further.lane_last[flag]);
    }
}

/* A lane's state and status, which an acknowledgement leaves. */
static void try_codes_of_bank(void) {
    begin_bank();
    for (unsigned lane = 0; lane < 8; lane++) {
        lanes_of_bank.bytes[STATES + lane / 2] |= (uint8_t)((lane + 1) << lane % 2 * 4);
        lanes_of_bank.bytes[STATUSES + lane / 2] |= (uint8_t)(15 - lane) << lane % 2 * 4 & 0xFF;
    }
    count_at(3);
    count_at(4);
    lanes_of_bank.bytes[STATES] = 0x24;       /* lane 1 was 1, lane 2 is as it was */
    lanes_of_bank.bytes[STATUSES + 3] = 0x19; /* lane 8 was 8, lane 7 is as it was */
    count_at(6);
    dovecounter_bank_acknowledge(&further, 100);
    for (unsigned lane = 0; lane < 8; lane++) {
        expect("its state", lane == 0 ? 4 : lane + 1, further.states.codes[lane]);
        expect("has changed", lane == 0 ? 2 : 1, further.states.changes[lane]);
        expect("then", lane == 0 ? 6 : 3, (unsigned long)further.states.last[lane]);
        expect("its status", lane == 7 ? 1 : 15 - lane, further.statuses.codes[lane]);
        expect("has changed too", lane == 7 ? 2 : 1, further.statuses.changes[lane]);
        expect("at that moment", lane == 7 ? 6 : 3, (unsigned long)further.statuses.last[lane]);
    }
}

/* Page 11h of bank 1, 2 or 3 of device A0h is counted, and no other half. */
static void try_halves_of_bank(void) {
    static const struct {
        struct dovecounter_half half;
        uint32_t status;
    } cases[] = {
        {{0xA0, 1, 1, 0x11, {0}}, 0}, {{0xA0, 1, 2, 0x11, {0}}, 0}, {{0xA0, 1, 3, 0x11, {0}}, 0},
        {{0xA0, 1, 0, 0x11, {0}}, 2}, {{0xA0, 1, 4, 0x11, {0}}, 2}, {{0xA0, 1, 255, 0x11, {0}}, 2},
        {{0xA2, 1, 1, 0x11, {0}}, 2}, {{0xA1, 1, 1, 0x11, {0}}, 2}, {{0xA0, 0, 1, 0x11, {0}}, 2},
        {{0xA0, 2, 1, 0x11, {0}}, 2}, {{0xA0, 1, 1, 0x10, {0}}, 2}, {{0xA0, 1, 1, 0x12, {0}}, 2},
    };
    for (size_t i = 0; i < sizeof cases / sizeof cases[0]; i++) {
        begin_bank();
        lanes_of_bank = cases[i].half;
        memset(lanes_of_bank.bytes, 0xFF, sizeof lanes_of_bank.bytes);
        memset(&further, 0x5A, sizeof further);
        const struct dovecounter_bank_counts before = further;
        expect("a half", cases[i].status, dovecounter_bank_count(&further, &lanes_of_bank, 1));
        if (cases[i].status != 0) expect_same("is refused", &before, &further, sizeof before);
        if (cases[i].status == 0) expect("is counted", 0x5A5B, further.lane_counts[0]);
    }
}

/* Other weights want lanes down that are up: only by permission. */
static void try_permission(void) {
    begin();
    plug_in();
    expect("a module comes up", 1, (unsigned long)comes_up());
    want(101, 100);
    stores = 0;
    expect("asked", 0, dovecounter_port_reconsider(&port));
    expect("it is left alone", 1, (unsigned long)is_left(DOVECOUNTER_LEFT_NEEDS_PERMISSION));
    expect("nothing was stored", 0, stores);
    expect("all lanes are up", ALL_LANES, lanes_up());
    wanted.may_take_down = 0x7F;
    expect("asked", 0, dovecounter_port_reconsider(&port));
    expect("lane 8 may not", 1, (unsigned long)is_left(DOVECOUNTER_LEFT_NEEDS_PERMISSION));
    wanted.may_take_down = ALL_LANES;
    expect("asked", 0, dovecounter_port_reconsider(&port));
    expect("it is provisioned", 1, (unsigned long)drive_to(DOVECOUNTER_PORT_WENT, DOVECOUNTER_PORT_PROVISIONED));
    expect("it comes up otherwise", 1, (unsigned long)comes_up());
    expect("all lanes are up", ALL_LANES, lanes_up());
    uint8_t active[8];
    expect("its bytes", 0, dovecounter_module_active(&module, active));
    expect_same("are the goal's", port.goal.control, active, sizeof active);
}

/* A module that is left alone is read and judged anew after a while, unless the port is to hold still, or only somebody can ask. */
static void try_recheck(void) {
    struct dovecounter_times with_recheck = times;
    with_recheck.recheck = 1000;
    begin();
    plug_in();
    want(0, 0);
    expect("nothing is wanted", 1, (unsigned long)is_left(DOVECOUNTER_LEFT_NO_PLAN));
    pass(LONG);
    ask();
    expect("it is left alone for good", DOVECOUNTER_PORT_IDLE, next.kind);
    dovecounter_port_new(&with_recheck, &port);
    plug_in();
    unsigned before = transactions;
    expect("another is left alone", 1, (unsigned long)is_left(DOVECOUNTER_LEFT_NO_PLAN));
    const uint64_t recheck_at = now - 1 + 1000;
    const unsigned reading = transactions - before;
    expect("it is to be read anew", (unsigned long)recheck_at, (unsigned long)port.recheck_at);
    for (int time = 0; time < 2; time++) {
        ask();
        expect("until then", DOVECOUNTER_PORT_UNTIL, next.kind);
        expect("nothing is asked", (unsigned long)recheck_at, (unsigned long)next.moment);
        expect("and it is left", DOVECOUNTER_PORT_LEFT, port.stage);
        pass(recheck_at - 1 - now);
    }
    expect("it is to hold still", 0, dovecounter_port_hold(&port, 1));
    pass(LONG);
    ask();
    expect("and is not read", DOVECOUNTER_PORT_IDLE, next.kind);
    expect("until it isn't", 0, dovecounter_port_hold(&port, 0));
    for (int time = 0; time < 3; time++) {
        before = transactions;
        expect("it is read, and left alone again", 1, (unsigned long)is_left(DOVECOUNTER_LEFT_NO_PLAN));
        expect("as a whole", reading, transactions - before);
        expect("and to be read anew", (unsigned long)(now - 1 + 1000), (unsigned long)port.recheck_at);
    }
    want(101, 10);
    expect("it comes up once it is wanted", 1, (unsigned long)comes_up());
    expect("all lanes are up", ALL_LANES, lanes_up());
}

/* ---- what somebody asks ---- */

static void request(uint8_t what, uint8_t lanes) {
    expect("asked", 0, dovecounter_port_request(&port, what, lanes));
    expect("as is said", what > 3 ? DOVECOUNTER_REQUEST_WAKE : what, port.request);
    stores = 0;
}

static void try_sleep(void) {
    begin();
    plug_in();
    expect("a module comes up", 1, (unsigned long)comes_up());
    wanted.may_take_down = ALL_LANES; /* for provisioning, and not for this */
    request(DOVECOUNTER_REQUEST_SLEEP, 0x7F);
    expect("lane 8 may not go down", 1, (unsigned long)is_left(DOVECOUNTER_LEFT_NEEDS_PERMISSION));
    expect("nothing was stored", 0, stores);
    wanted.may_take_down = 0;
    request(DOVECOUNTER_REQUEST_SLEEP, ALL_LANES);
    expect("it goes to sleep", 1, (unsigned long)is_left(DOVECOUNTER_LEFT_ASLEEP));
    expect("by one store", 1, stores);
    expect("it is in low power", 1, module.state);
    expect("asked", 0, dovecounter_port_reconsider(&port));
    expect("it stays asleep", 1, (unsigned long)is_left(DOVECOUNTER_LEFT_ASLEEP));
    request(DOVECOUNTER_REQUEST_WAKE, 0);
    expect("it comes up", 1, (unsigned long)comes_up());
    expect("all lanes are up", ALL_LANES, lanes_up());
    is_stuck = 1;
    request(DOVECOUNTER_REQUEST_SLEEP, ALL_LANES);
    expect("it doesn't sleep", 1, (unsigned long)drive_to(DOVECOUNTER_PORT_FAILED, 0));
    expect("not asleep", DOVECOUNTER_PORT_NOT_ASLEEP, outcome.failure);
    expect("overdue", DOVECOUNTER_OVERDUE, outcome.fault.code);
    is_stuck = 0;
    expect("pulled", 0, dovecounter_port_pull(&port));
    plug_in();
    expect("another one comes up", 1, (unsigned long)comes_up());
}

static void try_provision(void) {
    begin();
    plug_in();
    expect("a module comes up", 1, (unsigned long)comes_up());
    want(101, 100);
    request(DOVECOUNTER_REQUEST_PROVISION, ALL_LANES);
    expect("it comes up otherwise", 1, (unsigned long)comes_up());
    expect("permission has ended", DOVECOUNTER_REQUEST_WAKE, port.request);
    want(101, 10);
    expect("asked", 0, dovecounter_port_reconsider(&port));
    expect("it is left alone", 1, (unsigned long)is_left(DOVECOUNTER_LEFT_NEEDS_PERMISSION));
    request(DOVECOUNTER_REQUEST_PROVISION, 0x0F);
    expect("not all may go down", 1, (unsigned long)is_left(DOVECOUNTER_LEFT_NEEDS_PERMISSION));
    expect("permission has ended", DOVECOUNTER_REQUEST_WAKE, port.request);
    expect("nothing was stored", 0, stores);
    request(9, ALL_LANES);
    expect("other numbers permit nothing", 1, (unsigned long)is_left(DOVECOUNTER_LEFT_NEEDS_PERMISSION));
}

/* A plugged module whose lanes are up: what is permitted takes its path down only if that doesn't weigh more by staying. */
static void try_plug(void) {
    begin();
    plug_in();
    expect("a module comes up", 1, (unsigned long)comes_up());
    want(400, 201);
    for (int stays = 1; stays >= 0; stays--) {
        wanted.stay = stays ? 50 : 0;
        expect("replaced", 0, dovecounter_port_plug(&port, now));
        request(DOVECOUNTER_REQUEST_PROVISION, ALL_LANES);
        ask();
        expect("it settles", (unsigned long)(now + times.settle), (unsigned long)next.moment);
        expect("it comes up", 1, (unsigned long)comes_up());
        expect("permission has ended", DOVECOUNTER_REQUEST_WAKE, port.request);
        expect("otherwise, if nothing stays", !stays, stores > 0);
    }
    expect("all lanes are up", ALL_LANES, lanes_up());
}

/* A faulty module, which is reset by its pin: it settles, and is read anew, and what was requested is dropped. */
static void try_reset(void) {
    begin();
    plug_in();
    expect("a module comes up", 1, (unsigned long)comes_up());
    request(DOVECOUNTER_REQUEST_PROVISION, 0);
    module.state = DOVECOUNTER_MODULE_FAULT;
    expect("it is faulty", 1, (unsigned long)drive_to(DOVECOUNTER_PORT_FAILED, 0));
    expect("not woken", DOVECOUNTER_PORT_NOT_WOKEN, outcome.failure);
    expect("not ready", DOVECOUNTER_NOT_READY, outcome.fault.code);
    expect("in ModuleFault", DOVECOUNTER_MODULE_FAULT, outcome.fault.first);
    insert_module();
    expect("reset", 0, dovecounter_port_plug(&port, now));
    expect("nothing is requested", DOVECOUNTER_REQUEST_WAKE, port.request);
    ask();
    expect("it settles", DOVECOUNTER_PORT_UNTIL, next.kind);
    expect("for so long", (unsigned long)(now + times.settle), (unsigned long)next.moment);
    expect("it comes up", 1, (unsigned long)comes_up());
    expect("all lanes are up", ALL_LANES, lanes_up());
}

static void try_deactivation(void) {
    begin();
    want(101, 100);
    plug_in();
    expect("a module comes up", 1, (unsigned long)comes_up());
    request(DOVECOUNTER_REQUEST_DEACTIVATE, 0x01);
    expect("lanes 2 to 4 may not go down", 1, (unsigned long)is_left(DOVECOUNTER_LEFT_NEEDS_PERMISSION));
    expect("nothing was stored", 0, stores);
    request(DOVECOUNTER_REQUEST_DEACTIVATE, 0x0F);
    expect("the rest is up", 1, (unsigned long)comes_up());
    expect("lanes 5 to 8", 0xF0, lanes_up());
    expect("the goal's lanes", 0xF0, port.goal.lanes);
    expect("it stays so", 1, (unsigned long)drive_to(DOVECOUNTER_PORT_WENT, DOVECOUNTER_PORT_STILL_UP));
    request(DOVECOUNTER_REQUEST_DEACTIVATE, ALL_LANES);
    expect("nothing is to be up", 1, (unsigned long)comes_up());
    expect("no lane is", 0, lanes_up());
    request(DOVECOUNTER_REQUEST_WAKE, 0);
    expect("it comes up", 1, (unsigned long)comes_up());
    expect("all lanes are up", ALL_LANES, lanes_up());
}

/* ---- whether a module is there ---- */

static uint8_t hear(uint8_t answered, uint64_t took) {
    uint8_t presence = 0x5A;
    uint64_t began = now;
    now += took;
    expect("heard", 0, dovecounter_port_hear(&port, answered, began, now, &presence));
    return presence;
}

static void try_silence(void) {
    begin();
    for (int i = 0; i < 9; i++) expect("nothing is there", DOVECOUNTER_SAME, hear(0, 1000));
    expect("it answers", DOVECOUNTER_PLUGGED, hear(7, 1));
    expect("as after a plug", (unsigned long)(now + times.settle), (unsigned long)port.due);
    for (int i = 0; i < 3; i++) expect("three refusals", DOVECOUNTER_SAME, hear(0, 1000));
    expect("it answers again", DOVECOUNTER_SAME, hear(1, 1));
    for (int i = 0; i < 5; i++) expect("no second", DOVECOUNTER_SAME, hear(0, 200));
    expect("a second and more", DOVECOUNTER_PULLED, hear(0, 1));
    expect("nothing is there", DOVECOUNTER_PORT_ABSENT, port.stage);
}

/* ---- why a module is left alone ---- */

static void try_left(void) {
    begin();
    want(0, 0);
    plug_in();
    expect("no plan", 1, (unsigned long)is_left(DOVECOUNTER_LEFT_NO_PLAN));
    begin();
    halves[LOWER].bytes[26] = 0x10; /* LowPwrRequestSW */
    plug_in();
    halves[LOWER].bytes[26] = 0;
    wanted.most_power = 39;
    expect("too much power", 1, (unsigned long)is_left(DOVECOUNTER_LEFT_NEEDS_POWER));
    wanted.most_power = 40;
    expect("asked", 0, dovecounter_port_reconsider(&port));
    is_stuck = 1;
    expect("it stays asleep", 1, (unsigned long)drive_to(DOVECOUNTER_PORT_FAILED, 0));
    expect("not woken", DOVECOUNTER_PORT_NOT_WOKEN, outcome.failure);
    expect("overdue", DOVECOUNTER_OVERDUE, outcome.fault.code);
    is_stuck = 0;
    expect("it wakes up", 1, (unsigned long)comes_up());
}

/* A bus that refuses all from some operation of waking on: unless the controls were stored by then, that was not in vain. */
static void try_waking_refused(void) {
    enum { FETCHED = 1, STORED };
    for (int made = 0; made <= STORED; made++) {
        begin();
        halves[LOWER].bytes[26] = 0x10; /* LowPwrRequestSW */
        plug_in();
        halves[LOWER].bytes[26] = 0;
        expect("it is asleep", 1, (unsigned long)drive_to(DOVECOUNTER_PORT_WENT, DOVECOUNTER_PORT_IDENTIFIED));
        for (int i = 0; i < made; i++) ask(), make_operation();
        expect("it is to wake up", DOVECOUNTER_PORT_WAKING, port.stage);
        expect("its controls are stored", made == STORED, stores);
        refuse_each = 1;
        expect("waking fails", 1, (unsigned long)drive_to(DOVECOUNTER_PORT_FAILED, 0));
        expect("for that", made == STORED ? DOVECOUNTER_PORT_NOT_WOKEN : DOVECOUNTER_PORT_WAKING_REFUSED,
               outcome.failure);
        expect("was it in vain", made == STORED, port.vain);
        refuse_each = 0;
        expect("it comes up", 1, (unsigned long)comes_up());
    }
}

/* Once more, if it was left alone, since its reading had one page from before a reset, and one from after it. */
static int comes_up_anew(void) {
    if (port.stage == DOVECOUNTER_PORT_LEFT) {
        expect("for that", 1, port.left.reason == DOVECOUNTER_ABSENT || port.left.reason == DOVECOUNTER_BAD_SUM);
        expect("and not in vain", 0, port.vain);
        expect("asked", 0, dovecounter_port_reconsider(&port));
    }
    return comes_up();
}

/* A module that resets itself while it is woken up, or before it is read then, asks for low power again. It is woken up once more. */
static void try_waking_undone(void) {
    enum { BY_SOFTWARE = 0x10, BY_PIN = 0x40 };
    for (unsigned made = 1; made <= 40; made++) {
        begin();
        has_pin = made % 2;
        halves[LOWER].bytes[26] = has_pin ? BY_PIN : BY_SOFTWARE;
        plug_in();
        expect("it is asleep", 1, (unsigned long)drive_to(DOVECOUNTER_PORT_WENT, DOVECOUNTER_PORT_IDENTIFIED));
        reset_at = transactions + made;
        expect("it comes up", 1, (unsigned long)(comes_up() || comes_up_anew()));
        expect("it had reset itself", 1, transactions > reset_at);
        expect("all its lanes", ALL_LANES, lanes_up());
    }
    has_pin = halves[LOWER].bytes[26] = 0;
}

/* Drives the port until it asks for an apply, which the bus refuses. */
static void refuse_apply(void) {
    enum { CONTROL_PAGE = 0x10, APPLY = 143 };
    uint64_t end = now + LONG;
    for (ask(); now < end && (next.operation.offset != APPLY || module.page != CONTROL_PAGE); ask()) {
        if (next.kind == DOVECOUNTER_PORT_DO) make_operation();
        pass(next.kind == DOVECOUNTER_PORT_UNTIL ? next.moment - now : 1);
    }
    refuse_each = 1;
    make_operation();
    refuse_each = 0;
}

/* The first apply that is refused fails, and a second one is stored again; once the module is left alone, the next one is a first one. */
static void try_apply_refused(void) {
    begin();
    plug_in();
    refuse_apply();
    expect("the first one fails", DOVECOUNTER_PORT_FAILED, outcome.kind);
    expect("for that", DOVECOUNTER_PORT_APPLY_REFUSED, outcome.failure);
    expect("as is said", 1, port.apply_refused);
    want(0, 0);
    expect("nothing is wanted", 1, (unsigned long)is_left(DOVECOUNTER_LEFT_NO_PLAN));
    expect("it is forgotten", 0, port.apply_refused);
    want(101, 10);
    expect("asked", 0, dovecounter_port_reconsider(&port));
    refuse_apply();
    expect("it is a first one", DOVECOUNTER_PORT_APPLY_REFUSED, outcome.failure);
    refuse_apply();
    expect("the second one is stored again", DOVECOUNTER_PORT_PAUSED, outcome.kind);
    expect("the module comes up", 1, (unsigned long)comes_up());
    expect("it is forgotten", 0, port.apply_refused);
}

/* ---- what is refused ---- */

static void refuse_all(const char *what, uint32_t wanted_status) {
    struct dovecounter_port before = port;
    struct dovecounter_port_next next_before;
    struct dovecounter_port_outcome outcome_before;
    memset(&next, 0x5A, sizeof next);
    memset(&outcome, 0x5A, sizeof outcome);
    memcpy(&next_before, &next, sizeof next);
    memcpy(&outcome_before, &outcome, sizeof outcome);
    uint8_t none = 0;
    expect(what, wanted_status, dovecounter_port_plug(&port, 1));
    expect(what, wanted_status, dovecounter_port_pull(&port));
    expect(what, wanted_status, dovecounter_port_reconsider(&port));
    expect(what, wanted_status, dovecounter_port_hold(&port, 1));
    expect(what, wanted_status, dovecounter_port_acknowledge(&port, 1));
    expect(what, wanted_status, dovecounter_port_request(&port, 1, 1));
    uint8_t presence = 0x5A;
    expect(what, wanted_status, dovecounter_port_hear(&port, 1, 0, 1, &presence));
    expect(what, 0x5A, presence);
    expect(what, wanted_status, dovecounter_port_next(&port, 1, &next));
    expect(what, wanted_status, dovecounter_port_take(&port, DOVECOUNTER_REFUSED, &none, 0, &wanted, 1, &outcome));
    expect_same(what, &before, &port, sizeof port);
    expect_same(what, &next_before, &next, sizeof next);
    expect_same(what, &outcome_before, &outcome, sizeof outcome);
}

static void refuse_reply(const char *what, uint8_t reply, size_t count) {
    struct dovecounter_port before = port;
    static const uint8_t bytes[200];
    memset(&outcome, 0x5A, sizeof outcome);
    struct dovecounter_port_outcome outcome_before;
    memcpy(&outcome_before, &outcome, sizeof outcome);
    expect(what, DOVECOUNTER_NO_REPLY, dovecounter_port_take(&port, reply, bytes, count, &wanted, now, &outcome));
    expect_same(what, &before, &port, sizeof port);
    expect_same(what, &outcome_before, &outcome, sizeof outcome);
}

static void try_refusals(void) {
    memset(&port, 0, sizeof port);
    refuse_all("zeros", DOVECOUNTER_NO_CONVERSATION);
    begin();
    port.stage = 9;
    refuse_all("no stage", DOVECOUNTER_NO_CONVERSATION);
    port.stage = DOVECOUNTER_PORT_LEFT;
    refuse_all("left for no reason", DOVECOUNTER_NO_CONVERSATION);
    port.stage = DOVECOUNTER_PORT_PROVISIONING;
    refuse_all("no procedure", DOVECOUNTER_NO_CONVERSATION);
    begin();
    port.half_count = 6;
    refuse_all("six halves", DOVECOUNTER_NO_CONVERSATION);
    begin();
    refuse_reply("none is awaited", DOVECOUNTER_REFUSED, 0);
    plug_in();
    pass(times.settle);
    refuse_reply("nor yet", DOVECOUNTER_REFUSED, 0);
    ask();
    expect("a fetch", DOVECOUNTER_FETCH, next.operation.kind);
    expect("of a half", 128, next.operation.count);
    refuse_reply("a store's reply", DOVECOUNTER_STORED, 0);
    refuse_reply("too few bytes", DOVECOUNTER_FETCHED, 127);
    refuse_reply("too many bytes", DOVECOUNTER_FETCHED, 129);
    refuse_reply("no wait", DOVECOUNTER_WAITED, 0);
    expect("pulled", 0, dovecounter_port_pull(&port));
    refuse_reply("no wait", DOVECOUNTER_WAITED, 0);
    make_operation();
    expect("dropped", DOVECOUNTER_PORT_DROPPED, outcome.kind);
}

int main(void) {
    make_halves();
    try_up();
    try_places();
    try_restart();
    try_changes();
    try_default();
    try_pull();
    try_hold();
    try_flags();
    try_other_families();
    try_lane_codes();
    try_flags_of_bank();
    try_codes_of_bank();
    try_halves_of_bank();
    try_permission();
    try_recheck();
    try_sleep();
    try_provision();
    try_plug();
    try_reset();
    try_deactivation();
    try_silence();
    try_left();
    try_waking_refused();
    try_waking_undone();
    try_apply_refused();
    try_refusals();
    return judged("port");
}
