/* Calls that go on with something: a simulated module, a conversation, an update, a change of lanes, a test of a link, a port. */
#ifndef FUZZ_CONVERSATIONS_H
#define FUZZ_CONVERSATIONS_H

#include "fuzz_answers.h"

/* ---- a simulated module ---- */

static struct dovecounter_module module;

static void call_module_begin(void) {
    struct dovecounter_delays delays;
    uint16_t *all = &delays.apply;
    for (int i = 0; i < 7; i++) all[i] = two_bytes() % 1100;
#define BEGIN(it) dovecounter_module_begin(halves, half_count, &delays, it)
    ASK(struct dovecounter_module, found, LIST(OF_ADVERTISEMENT, 51, 53, 54), BEGIN);
    if (!status) module = *found;
}

static uint32_t fetch(uint8_t device, uint8_t offset, size_t size) {
    struct dovecounter_module *it = copied(BYTES, &module, sizeof module);
    uint8_t *bytes = painted(OUT, size);
    uint32_t status = dovecounter_module_fetch(halves, half_count, it, device, offset, bytes, size);
    judge(status, "fetch", LIST(OF_ADVERTISEMENT, 61, 62, 63), bytes, size);
    stop_if(status && memcmp(it, &module, sizeof module), "a refused fetch changes the module");
    module = *it;
    return status;
}

static uint32_t store(uint8_t device, uint8_t offset, const uint8_t *from, size_t size) {
    struct dovecounter_module *it = copied(BYTES, &module, sizeof module);
    const uint8_t *bytes = copied(SMALL, from, size);
    uint32_t status = dovecounter_module_store(halves, half_count, it, device, offset, bytes, size);
    judge(status, "store", LIST(OF_ADVERTISEMENT, 61, 62, 63), it, 0);
    stop_if(status && memcmp(it, &module, sizeof module), "a refused store changes the module");
    module = *it;
    return status;
}

static void call_module(void) {
    uint8_t bytes[16], what = byte(), device = what & 8 ? byte() : 0xA0, offset = byte();
    if (what % 8 == 0) fetch(device, offset, byte());
    if (what % 8 == 1) {
        size_t size = byte() % sizeof bytes;
        fill(bytes, size);
        store(device, offset, bytes, size);
    }
    if (what % 8 == 2) judge(dovecounter_module_tick(&module), "tick", LIST(61), room(OUT, 0), 0);
    if (what % 8 == 3) judge(dovecounter_module_pin(&module, offset), "pin", LIST(61), room(OUT, 0), 0);
    if (what % 8 == 4) {
        uint8_t *active = painted(OUT, 8);
        judge(dovecounter_module_active(&module, active), "active", LIST(61), active, 8);
    }
    if (what % 8 == 5) change(&module, sizeof module);
}

/* Makes an operation on the module, unless the input has the bus refuse it. */
static uint8_t reply_to(const struct dovecounter_operation *it, uint8_t refused) {
    if (it->kind == DOVECOUNTER_WAIT) {
        judge(dovecounter_module_tick(&module), "tick", LIST(61), room(OUT, 0), 0);
        return DOVECOUNTER_WAITED;
    }
    if (refused) return DOVECOUNTER_REFUSED;
    if (it->kind == DOVECOUNTER_FETCH)
        return fetch(it->device, it->offset, it->count) ? DOVECOUNTER_REFUSED : DOVECOUNTER_FETCHED;
    return store(it->device, it->offset, it->bytes, it->count) ? DOVECOUNTER_REFUSED : DOVECOUNTER_STORED;
}

static void stop_if_no_operation(const struct dovecounter_operation *it) {
    int is_wait = it->kind == DOVECOUNTER_WAIT;
    stop_if(it->kind > 2 || it->count > (it->kind == DOVECOUNTER_STORE ? 8 : 128), "an operation");
    stop_if(is_wait ? it->count : !it->count || it->milliseconds, "a wait");
    stop_if(it->offset + it->count > 256 || (it->offset < 128 && it->offset + it->count > 128), "two halves");
}

/* ---- what conversations have in common ---- */

enum { STATUS = 37, SELECTION = 126, FILE_BYTES = 300 };

static uint8_t selected[2];

/* What comes of an operation. */
struct made {
    uint8_t outcome;
    const uint8_t *bytes;
    size_t count;
};

/* On a bus that refuses one of eight, a module shows the page that was selected and success, and else bytes of the input. */
static struct made made_of(struct dovecounter_operation operation) {
    uint8_t how = byte();
    stop_if_no_operation(&operation);
    if (operation.kind == DOVECOUNTER_WAIT) return (struct made){DOVECOUNTER_WAITED, room(OUT, 0), 0};
    if (how % 8 == 7) return (struct made){DOVECOUNTER_REFUSED, room(OUT, 0), 0};
    if (operation.kind == DOVECOUNTER_STORE) {
        if (operation.offset == SELECTION) memcpy(selected, operation.bytes, 2);
        return (struct made){DOVECOUNTER_STORED, room(OUT, 0), 0};
    }
    uint8_t *bytes = filled(OUT, operation.count);
    if (operation.offset == SELECTION && operation.count == 2 && how < 0xF0) memcpy(bytes, selected, 2);
    if (operation.offset == STATUS && how < 0xE0) bytes[0] = 1;
    return (struct made){DOVECOUNTER_FETCHED, bytes, operation.count};
}

/* reply_to_NAME: a reply, of any kind, to the conversation of NAME, which is kept at `kept`. REPLY(it, outcome, bytes, count) is the call. */
#define REPLY_TO(name, kept, reply)                                                                                    \
    static uint32_t reply_to_##name(uint8_t outcome, const uint8_t *bytes, size_t count) {                             \
        void *it = copied(BYTES, &kept, sizeof kept);                                                                  \
        uint32_t status = reply(it, outcome, bytes, count);                                                            \
        judge(status, #reply, LIST(31, 32, 34), it, 0);                                                                \
        stop_if(status != 0 && memcmp(it, &kept, sizeof kept) != 0, "a refused reply changes " #kept);                 \
        memcpy(&kept, it, sizeof kept);                                                                                \
        return status;                                                                                                 \
    }

/* go_on_with_NAME: some operations, as many as a byte says times `each`, and replies by made_of. NEXT(it) is the call. */
#define GO_ON_WITH(name, each, next)                                                                                   \
    static void go_on_with_##name(void) {                                                                              \
        for (int steps = byte() * (each); steps > 0; steps--) {                                                        \
            ASK(struct dovecounter_operation, operation, LIST(31, 32), next);                                          \
            if (status) break;                                                                                         \
            struct made made = made_of(*operation);                                                                    \
            stop_if(reply_to_##name(made.outcome, made.bytes, made.count) != 0, "a reply after " #next);               \
        }                                                                                                              \
        end_##name();                                                                                                  \
    }

/* disturb_NAME: a changed number, or a reply of any kind, by the byte that it answers. After that call_NAME only ends. */
#define DISTURB(name, kept)                                                                                            \
    static uint8_t disturb_##name(void) {                                                                              \
        uint8_t what = byte();                                                                                         \
        if (what & 1) change(&kept, sizeof kept);                                                                      \
        size_t size = byte();                                                                                          \
        if (what & 4) reply_to_##name(what >> 4, filled(OUT, size), size);                                             \
        return what;                                                                                                   \
    }
#define CALL(name, kept)                                                                                               \
    DISTURB(name, kept)                                                                                                \
    static void call_##name(void) {                                                                                    \
        disturb_##name();                                                                                              \
        end_##name();                                                                                                  \
    }

/* ---- conversations ---- */

static struct dovecounter_conversation conversation;
static struct dovecounter_half *read_halves;

static void begin_conversation(void) {
    uint8_t kind = byte(), lanes = byte(), requested = byte();
    const uint8_t *control = filled(SMALL, 8);
    if (kind & 16) {
        patience.pause = two_bytes();
        patience.limit = four_bytes();
        patience.trusts = byte();
    }
    struct dovecounter_conversation *it = painted(OUT, sizeof *it);
    uint32_t status = 0;
    switch (kind % 8) {
    case 0: dovecounter_provision_begin(control, lanes, &patience, it); break;
    case 1: dovecounter_activate_begin(control, lanes, &patience, it); break;
    case 2: dovecounter_wake_begin(&patience, it); break;
    case 3: dovecounter_sleep_begin(&patience, it); break;
    case 4: status = dovecounter_read_begin(lanes, &patience, it); break;
    default: status = dovecounter_read_some_begin(requested, lanes, &patience, it);
    }
    if (!judge(status, "begin", LIST(36), it, sizeof *it)) conversation = *it;
}

#define REPLY(it, outcome, bytes, count) dovecounter_reply(it, read_halves, outcome, bytes, count)
REPLY_TO(conversation, conversation, REPLY)

static uint32_t end_conversation(void) {
#define END(it) dovecounter_end(&conversation, read_halves, it)
    ASK(struct dovecounter_ending, found, LIST(31, 33), END);
    if (!status) stop_if(found->fault.code > 10 || found->steps > 4096, "an ending");
    return status;
}

/* Some operations, of which a byte of the input refuses some, or has other bytes fetched. */
static void go_on(void) {
    for (int steps = byte(); steps > 0; steps--) {
#define NEXT(it) dovecounter_next(&conversation, read_halves, it)
        ASK(struct dovecounter_operation, next, LIST(31, 32), NEXT);
        if (status) break;
        stop_if_no_operation(next);
        struct dovecounter_operation operation = *next;
        uint8_t how = byte(), outcome = reply_to(&operation, how & 1);
        if (how >= 0xF8 && outcome != DOVECOUNTER_WAITED) {
            filled(OUT, operation.count);
            outcome = operation.kind == DOVECOUNTER_STORE ? DOVECOUNTER_STORED : DOVECOUNTER_FETCHED;
        }
        size_t count = outcome == DOVECOUNTER_FETCHED ? operation.count : 0;
        stop_if(reply_to_conversation(outcome, room(OUT, count), count) != 0, "a reply that fits");
    }
    end_conversation();
}

/* A reply of any kind, or a changed number. */
static void call_conversation(void) {
    uint8_t what = byte();
    if (what & 1) change(&conversation, sizeof conversation);
    if (what & 2) change(read_halves, DOVECOUNTER_MOST_READ * sizeof *halves);
    size_t size = byte();
    if (what & 4) reply_to_conversation(what >> 4, filled(OUT, size), size);
    end_conversation();
}

/* ---- firmware ---- */

static struct dovecounter_update update;
static uint8_t *file;
static size_t file_size;

static void begin_update(void) {
    uint8_t kind = byte(), hold = byte();
    file_size = two_bytes() % FILE_BYTES;
    file = filled(TEXT, file_size);
    struct dovecounter_update *it = painted(OUT, sizeof *it);
    switch (kind % 5) {
    case 0: dovecounter_banks_begin(it); break;
    case 1: dovecounter_commit_begin(it); break;
    case 2: dovecounter_abort_begin(it); break;
    case 3: dovecounter_password_begin(four_bytes(), it); break;
    default: dovecounter_update_begin((uint32_t)file_size, hold, it);
    }
    if (kind % 5 < 4) file_size = 0, file = room(TEXT, 0);
    update = *it;
}

#define UPDATE_REPLY(it, outcome, bytes, count) dovecounter_update_reply(it, file, file_size, outcome, bytes, count)
REPLY_TO(update, update, UPDATE_REPLY)

static void look_at_update(void) {
#define PROGRESS(it) dovecounter_update_progress(&update, file, file_size, it)
    ASK(struct dovecounter_update_progress, found, LIST(31), PROGRESS);
    if (!status) stop_if(found->sent > found->all || found->known > 9, "progress");
}

static void end_update(void) {
    look_at_update();
#define UPDATE_END(it) dovecounter_update_end(&update, file, file_size, it)
    ASK(struct dovecounter_update_ending, found, LIST(31, 33), UPDATE_END);
    if (status) return;
    stop_if(found->fault > DOVECOUNTER_UPDATE_LEFT_OPEN || found->known > 9 || found->count > 128,
            "the end of an update");
    struct dovecounter_banks *banks = painted(OTHER, sizeof *banks);
    dovecounter_banks(copied(SMALL, found->reply, found->count), found->count, banks);
    stop_if(banks->running > 2 || banks->committed > 2, "banks");
}

#define UPDATE_NEXT(it) dovecounter_update_next(&update, file, file_size, it)
GO_ON_WITH(update, 4, UPDATE_NEXT)
DISTURB(update, update)

/* Also what a module advertises. */
static void call_update(void) {
    disturb_update();
    end_update();
    struct dovecounter_command_block *block = painted(OUT, sizeof *block);
    dovecounter_command_block(filled(SMALL, 4), block);
    stop_if(block->instances > 3, "instances");
}

/* ---- single lanes ---- */

static struct dovecounter_changing_lanes changing;

static void begin_change(void) {
    const struct dovecounter_lane_change *wants = filled(SMALL, sizeof *wants);
#define LANE_BEGIN(it) dovecounter_lane_begin(wants, &patience, it)
    ASK(struct dovecounter_changing_lanes, found, LIST(31), LANE_BEGIN);
    stop_if((wants->control > DOVECOUNTER_AUTO_SQUELCH_DISABLE_RX) != (status == 31), "a control");
    if (!status) changing = *found;
}

#define LANE_REPLY(it, outcome, bytes, count) dovecounter_lane_reply(it, outcome, bytes, count)
REPLY_TO(change, changing, LANE_REPLY)

static void end_change(void) {
#define LANE_END(it) dovecounter_lane_end(&changing, it)
    ASK(struct dovecounter_lane_end, found, LIST(31, 33), LANE_END);
    if (status) return;
    stop_if(found->outcome > DOVECOUNTER_LANES_GAVE_UP, "the end of a change");
    stop_if(found->lanes != 0 && found->outcome != DOVECOUNTER_LANES_NOT_PERMITTED, "lanes of another end");
}

#define LANE_NEXT(it) dovecounter_lane_next(&changing, it)
GO_ON_WITH(change, 1, LANE_NEXT)
CALL(change, changing)

/* ---- links ---- */

static struct dovecounter_link_test testing;

static void call_capabilities(void) {
    struct dovecounter_link_capabilities *found = painted(OUT, sizeof *found), none = {0};
    uint8_t advertised = byte();
    dovecounter_link_capabilities(advertised, filled(SMALL, 12), found);
    stop_if(found->loopbacks > 15 || found->diagnostics > 1 || found->gates > 1, "what a module can do");
    stop_if(!found->diagnostics && memcmp(found, &none, sizeof none),
            "a module without diagnostics that can do something");
}

static void begin_test(void) {
    const struct dovecounter_link_plan *wants = filled(SMALL, sizeof *wants);
#define LINK_BEGIN(it) dovecounter_link_test_begin(wants, &patience, it)
    ASK(struct dovecounter_link_test, found, LIST(31), LINK_BEGIN);
    stop_if(!status && (wants->side > 1 || wants->loopback > 4 || wants->gate > 7), "a plan");
    if (!status) testing = *found;
}

#define LINK_REPLY(it, outcome, bytes, count) dovecounter_link_test_reply(it, outcome, bytes, count)
REPLY_TO(test, testing, LINK_REPLY)

static void end_test(void) {
#define LINK_END(it) dovecounter_link_test_end(&testing, it)
#define LINK_CHANGES(it) dovecounter_link_test_changes(&testing, it)
#define LINK_RESULTS(it) dovecounter_link_results(&testing, 0, it)
    {
        ASK(struct dovecounter_link_changes, found, LIST(31), LINK_CHANGES);
        stop_if(!status && found->count > 33, "more changes than may be");
    }
    {
        ASK(struct dovecounter_link_results, found, LIST(31), LINK_RESULTS);
        stop_if(!status && found->lost_clock > 1, "a clock that is lost twice");
    }
    ASK(struct dovecounter_link_end, found, LIST(31, 33), LINK_END);
    stop_if(!status && found->outcome > DOVECOUNTER_LINK_GAVE_UP, "the end of a test");
}

#define LINK_NEXT(it) dovecounter_link_test_next(&testing, it)
GO_ON_WITH(test, 1, LINK_NEXT)
DISTURB(test, testing)

/* Also a stop. */
static void call_test(void) {
    if (disturb_test() & 2) {
        struct dovecounter_link_test *it = copied(BYTES, &testing, sizeof testing);
        judge(dovecounter_link_test_stop(it), "link_test_stop", LIST(31), it, 0);
        testing = *it;
    }
    end_test();
}

/* ---- statistics ---- */

static struct dovecounter_vdm statistics;
static struct dovecounter_half read_statistics[DOVECOUNTER_MOST_VDM];

static void begin_vdm(void) {
    struct dovecounter_vdm *found = painted(OUT, sizeof *found);
    uint32_t pause = byte();
    uint8_t bank = byte();
    dovecounter_vdm_begin(pause, bank, found);
    stop_if(found->bank != bank || found->halves != 0 || found->release != DOVECOUNTER_VDM_NEVER_FROZEN, "a beginning");
    statistics = *found;
}

/* Nor does a refused reply change halves. */
static uint32_t vdm_reply(struct dovecounter_vdm *it, uint8_t outcome, const uint8_t *bytes, size_t count) {
    struct dovecounter_half before[DOVECOUNTER_MOST_VDM];
    memcpy(before, read_statistics, sizeof before);
    uint32_t status = dovecounter_vdm_reply(it, read_statistics, outcome, bytes, count);
    stop_if(status && memcmp(before, read_statistics, sizeof before), "a refused reply changes halves");
    stop_if(!status && it->halves > DOVECOUNTER_MOST_VDM, "more halves than may be");
    return status;
}
REPLY_TO(vdm, statistics, vdm_reply)

static void end_vdm(void) {
#define VDM_END(it) dovecounter_vdm_end(&statistics, read_statistics, it)
    ASK(struct dovecounter_vdm_end, found, LIST(31, 33), VDM_END);
    if (status) return;
    stop_if(found->statistics > DOVECOUNTER_VDM_FROZEN || found->missing_count > 16, "the end of statistics");
    stop_if(found->release != statistics.release, "another release at the end");
}

#define VDM_NEXT(it) dovecounter_vdm_next(&statistics, read_statistics, it)
GO_ON_WITH(vdm, 1, VDM_NEXT)
CALL(vdm, statistics)

/* ---- ports ---- */

static struct dovecounter_port port;
static struct dovecounter_wanted wanted;
static uint64_t now;

static void begin_port(void) {
    struct dovecounter_times times;
    uint32_t *all = &times.settle;
    for (int i = 0; i < 4; i++) all[i] = two_bytes();
    dovecounter_port_new(&times, &port);
    wanted = (struct dovecounter_wanted){.stay = stay, .paired = paired, .counts_by_id = counts_by_id};
    wanted.most_power = byte();
    wanted.may_take_down = byte();
    memcpy(wanted.weights, weights, sizeof wanted.weights);
}

static void call_port(void) {
    uint8_t what = byte(), value = byte();
    struct dovecounter_port *it = copied(BYTES, &port, sizeof port);
    uint32_t status = 0;
    uint8_t *presence = painted(SMALL, 1);
    switch (what % 10) {
    case 0: status = dovecounter_port_plug(it, now); break;
    case 1: status = dovecounter_port_pull(it); break;
    case 2: status = dovecounter_port_reconsider(it); break;
    case 3: status = dovecounter_port_hold(it, value); break;
    case 4: status = dovecounter_port_acknowledge(it, now - value); break;
    case 5: change(it, sizeof *it); break;
    case 6: now += (uint64_t)value << (what >> 3); break;
    case 7: status = dovecounter_port_request(it, what >> 4, value); break;
    case 8:
        status =
            judge(dovecounter_port_hear(it, what >> 4 & 1, now - value, now, presence), "hear", LIST(31), presence, 1);
        break;
    default: wanted.may_take_down = value; memcpy(wanted.weights, weights, sizeof wanted.weights);
    }
    judge(status, "a port's event", LIST(31), it, 0);
    stop_if(status && memcmp(it, &port, sizeof port), "a refused event changes the port");
    port = *it;
}

static struct dovecounter_bank_counts bank_counts;

/* Counts what is page 11h of a bank, or of none, and then forgets what was read before a moment. */
static void call_bank_counts(void) {
    struct dovecounter_bank_counts *it = copied(BYTES, &bank_counts, sizeof bank_counts);
    struct dovecounter_half half = {0xA0, 1, byte(), 0x11, {0}};
    uint8_t what = byte();
    for (size_t i = 0; i < sizeof half.bytes; i++) half.bytes[i] = half_count > 0 ? halves[0].bytes[i] ^ what : what;
    if (what == 255) change(&half, sizeof half);
    uint32_t status = dovecounter_bank_count(it, copied(SMALL, &half, sizeof half), now);
    judge(status, "bank_count", LIST(2), it, 0);
    stop_if(status && memcmp(it, &bank_counts, sizeof bank_counts), "a refused half counts");
    for (int flag = 0; flag < 152; flag++)
        stop_if(it->lane_counts[flag] < bank_counts.lane_counts[flag], "a count falls");
    dovecounter_bank_acknowledge(it, now - what);
    for (int flag = 0; flag < 152; flag++)
        stop_if(it->lane_counts[flag] && it->lane_last[flag] <= now - what, "a known flag counts");
    bank_counts = *it;
}

static void take(uint8_t outcome, const uint8_t *bytes, size_t count) {
    struct dovecounter_port *it = copied(BYTES, &port, sizeof port);
    struct dovecounter_port_outcome *found = painted(OTHER, sizeof *found);
    uint32_t status = dovecounter_port_take(it, outcome, bytes, count, &wanted, now, found);
    judge(status, "take", LIST(31, 34), found, sizeof *found);
    stop_if(status && memcmp(it, &port, sizeof port), "a refused reply changes the port");
    if (!status)
        stop_if(found->kind > 4 || found->note > 5 || found->failure > 10 || found->fault.code > 10, "an outcome");
    port = *it;
}

static void go_on_with_port(void) {
    for (int steps = byte(); steps > 0; steps--) {
        struct dovecounter_port *it = copied(BYTES, &port, sizeof port);
        struct dovecounter_port_next *next = painted(OTHER, sizeof *next);
        if (judge(dovecounter_port_next(it, now, next), "next", LIST(31), next, sizeof *next)) return;
        port = *it;
        stop_if(next->kind > 3, "what a port does");
        if (next->kind == DOVECOUNTER_PORT_UNTIL) now = next->moment;
        if (next->kind == DOVECOUNTER_PORT_IDLE) return;
        struct dovecounter_operation operation = next->operation;
        uint8_t how = byte();
        if (next->kind != DOVECOUNTER_PORT_DO) {
            if (how >= 0x80) take(how & 3, filled(OUT, how & 63), how & 63);
            continue;
        }
        stop_if_no_operation(&operation);
        uint8_t outcome = reply_to(&operation, how & 1);
        size_t count = outcome == DOVECOUNTER_FETCHED ? operation.count : 0;
        take(how >= 0xF8 ? how & 7 : outcome, room(OUT, count), count);
        now += how >> 1;
    }
}

#endif
