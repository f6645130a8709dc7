/* Changes of signal integrity settings through the library for firmware. `settings [COUNT] [SEED]` first tries what each call answers,
   and each kind of end; then COUNT changes by chance, 5,000 where nothing is said, of a module that refuses, rejects, takes its time,
   keeps no settings, forgets its page, and whose lanes are up or down. A success means that the lanes have the settings; no other lane
   changes, and none without permission. */
#include "expect.h"

#include <stdbool.h>
#include <stdlib.h>

static uint64_t state;

static unsigned chance(unsigned below) {
    state ^= state << 13, state ^= state >> 7, state ^= state << 17;
    return (unsigned)(state >> 33) % below;
}

/* ---- the module and its bus ---- */

enum {
    APPLY = 144 - 128,
    STAGED = 153 - 128,
    STATUSES = 202 - 128,
    CONTROLS = 206 - 128,
    ACTIVE = 214 - 128,
    COUNT = 21
};

static uint8_t pages[2][128];     /* pages 10h and 11h */
static uint8_t selected[2];       /* bank and page */
static unsigned refuses, forgets; /* of 100 transactions */
static bool deaf;                 /* it refuses all */
static bool stuck;                /* it takes no staged settings */
static bool idle;                 /* it takes no settings into the active set */
static uint8_t rejects;           /* the lanes whose settings it rejects */
static unsigned delay, left;      /* how many reads of statuses show that it isn't done, and how many still will */
static uint8_t stored, applied;   /* whether settings were stored; the lanes that were applied */

static uint8_t *byte_at(uint8_t address) {
    static uint8_t nothing;
    if (address == 126 || address == 127) return &selected[address - 126];
    if (address < 128 || selected[0] != 0 || selected[1] < 0x10 || selected[1] > 0x11) return &nothing;
    return &pages[selected[1] - 0x10][address - 128];
}

static unsigned half(const uint8_t *bytes, unsigned lane) { return bytes[lane / 2] >> 4 * (lane % 2) & 15; }

static void put_half(uint8_t *bytes, unsigned lane, unsigned value) {
    unsigned at = 4 * (lane % 2);
    bytes[lane / 2] = (uint8_t)((bytes[lane / 2] & ~(15U << at)) | value << at);
}

static bool is_up(unsigned lane) { return half(pages[1], lane) == 4 || half(pages[1], lane) == 7; }

/* The bits of the settings that are a lane's. */
static uint8_t mask_at(unsigned at, uint8_t lanes) {
    unsigned mask = 0;
    for (unsigned lane = 0; lane < 8; lane++) {
        if (!(lanes >> lane & 1)) continue;
        if (at == 0 || at == 7 || at == 8)
            mask |= 1U << lane;
        else if (at < 3)
            mask |= lane / 4 == at - 1 ? 3U << 2 * (lane % 4) : 0;
        else
            mask |= lane / 2 == (at < 7 ? at - 3 : (at - 9) % 4) ? 15U << 4 * (lane % 2) : 0;
    }
    return (uint8_t)mask;
}

static void copy_settings(uint8_t *to, const uint8_t *from, uint8_t lanes) {
    for (unsigned at = 0; at < COUNT; at++) {
        uint8_t mask = mask_at(at, lanes);
        to[at] = (uint8_t)((to[at] & ~mask) | (from[at] & mask));
    }
}

static void apply(uint8_t lanes) {
    applied |= lanes;
    left = delay;
    for (unsigned lane = 0; lane < 8; lane++)
        if (lanes >> lane & 1) put_half(&pages[1][STATUSES], lane, rejects >> lane & 1 ? 5 : 1);
    if (!idle) copy_settings(&pages[1][ACTIVE], &pages[0][STAGED], lanes & (uint8_t)~rejects);
}

static void store_one(uint8_t address, uint8_t byte) {
    if (address == 126 || address == 127) {
        selected[address - 126] = byte;
        return;
    }
    expect("a store on page 10h", 0x0010, selected[0] * 256U + selected[1]);
    expect("of settings, or the trigger", 1, address == 144 || (address >= 153 && address < 174));
    if (address == 144)
        apply(byte);
    else {
        stored = 1;
        if (!stuck) *byte_at(address) = byte;
    }
}

/* While it isn't done, statuses are those of a configuration in progress. */
static uint8_t fetch_one(uint8_t address) {
    uint8_t byte = *byte_at(address);
    if (selected[1] == 0x11 && address >= 202 && address < 206 && left > 0) {
        if (address == 205) left--;
        for (unsigned lane = 0; lane < 2; lane++)
            if (applied >> (2 * (address - 202U) + lane) & 1)
                byte = (uint8_t)((byte & ~(15U << 4 * lane)) | 12U << 4 * lane);
    }
    return byte;
}

static uint8_t transact(void *context, const struct dovecounter_operation *operation, uint8_t bytes[128]) {
    (void)context;
    bool is_store = operation->kind == DOVECOUNTER_STORE, refused = deaf || chance(100) < refuses;
    expect("the device", 0xA0, operation->device);
    unsigned taken = !refused ? operation->count : deaf ? 0 : chance(operation->count + 1U);
    for (unsigned i = 0; i < taken; i++) {
        uint8_t address = (uint8_t)(operation->offset + i);
        if (is_store)
            store_one(address, operation->bytes[i]);
        else
            bytes[i] = fetch_one(address);
    }
    if (refused && chance(100) < forgets) selected[0] = selected[1] = 0;
    return refused ? DOVECOUNTER_REFUSED : is_store ? DOVECOUNTER_STORED : DOVECOUNTER_FETCHED;
}

static void pause_for(void *context, uint32_t milliseconds) {
    (void)context;
    expect("a pause", 10, milliseconds);
}

/* A module whose lanes are up and under explicit control, with any settings. */
static void make_module(void) {
    refuses = forgets = delay = left = 0;
    deaf = stuck = idle = false;
    selected[0] = selected[1] = rejects = stored = applied = 0;
    for (unsigned i = 0; i < 128; i++) pages[0][i] = (uint8_t)chance(256), pages[1][i] = (uint8_t)chance(256);
    memset(pages[1], 0x44, 4);
    for (unsigned lane = 0; lane < 8; lane++) pages[0][145 - 128 + lane] = pages[1][CONTROLS + lane] = 0x11;
}

/* ---- changes ---- */

static const struct dovecounter_patience patience = {.pause = 10, .limit = 1000};
static const struct dovecounter_settings_limits limits = {
    .amplitudes = 0x0E, .fixed_input = 9, .pre_cursor = 7, .post_cursor = 5};

/* Lanes 2 and 3 get settings of which each is another number. */
static struct dovecounter_settings_change two_lanes(void) {
    return (struct dovecounter_settings_change){.lanes = 0x06,
                                                .permitted = 0x06,
                                                .tries = 2,
                                                .targets = {.adaptive = 0x02,
                                                            .recall = {9, 1, 2, 9},
                                                            .fixed_input = {99, 9, 8, 99},
                                                            .recover_tx = 0x04,
                                                            .recover_rx = 0x02,
                                                            .pre_cursor = {99, 7, 6, 99},
                                                            .post_cursor = {99, 5, 4, 99},
                                                            .amplitude = {0, 3, 1, 0}}};
}

static struct dovecounter_settings_end run_change(const struct dovecounter_settings_change *change) {
    struct dovecounter_changing_settings changing;
    struct dovecounter_settings_end end = {.outcome = 99};
    expect("a beginning", DOVECOUNTER_DONE, dovecounter_settings_begin(change, &limits, &patience, &changing));
    expect("a run", DOVECOUNTER_DONE, dovecounter_settings_run(&changing, transact, pause_for, NULL));
    expect("an end", DOVECOUNTER_DONE, dovecounter_settings_end(&changing, &end));
    return end;
}

static void expect_end(const char *what, unsigned outcome, unsigned lane, unsigned reached) {
    const struct dovecounter_settings_change change = two_lanes();
    const struct dovecounter_settings_end end = run_change(&change);
    expect(what, outcome, end.outcome);
    expect(what, lane, end.lane);
    expect(what, reached, end.reached);
    expect(what, reached > 0, stored);
    expect(what, reached > 1 ? 0x06 : 0, applied);
}

static void try_ends(void) {
    make_module();
    memset(&pages[1][ACTIVE], 0xFF, COUNT);
    expect_end("active", DOVECOUNTER_SETTINGS_ACTIVE, 0, 2);
    static const uint8_t wanted[COUNT] = {0xFB, 0xE7, 0xFF, 0x9F, 0xF8, 0xFF, 0xFF, 0xFD, 0xFB, 0x7F, 0xF6,
                                          0xFF, 0xFF, 0x5F, 0xF4, 0xFF, 0xFF, 0x3F, 0xF1, 0xFF, 0xFF};
    expect_same("these settings, and each other lane's", wanted, &pages[1][ACTIVE], COUNT);
    make_module();
    pages[1][1] = 0x41;
    expect_end("down", DOVECOUNTER_SETTINGS_NOT_UP, 3, 0);
    make_module();
    pages[1][1] = 0x47;
    pages[1][0] = 0x74;
    expect_end("initialized", DOVECOUNTER_SETTINGS_ACTIVE, 0, 2);
    make_module();
    pages[1][CONTROLS + 2] = pages[0][145 - 128 + 2] = 0x10;
    expect_end("the Application's defaults", DOVECOUNTER_SETTINGS_NOT_EXPLICIT, 3, 0);
    make_module();
    pages[0][145 - 128 + 1] = 0x21;
    expect_end("another control byte", DOVECOUNTER_SETTINGS_NOT_EXPLICIT, 2, 0);
    make_module();
    memset(&pages[0][STAGED], 0xFF, COUNT);
    stuck = true;
    expect_end("not staged", DOVECOUNTER_SETTINGS_NOT_STAGED, 0, 1);
    make_module();
    rejects = 0x84;
    expect_end("rejected", DOVECOUNTER_SETTINGS_REJECTED, 3, 2);
    make_module();
    memset(&pages[1][ACTIVE], 0xFF, COUNT);
    idle = true;
    expect_end("not active", DOVECOUNTER_SETTINGS_NOT_ACTIVE, 2, 2);
    make_module();
    delay = 5;
    expect_end("in progress", DOVECOUNTER_SETTINGS_ACTIVE, 0, 2);
    make_module();
    deaf = true;
    expect_end("overdue", DOVECOUNTER_SETTINGS_OVERDUE, 0, 0);
    make_module();
    delay = 5000;
    expect_end("in progress for too long", DOVECOUNTER_SETTINGS_OVERDUE, 0, 2);
}

/* What isn't advertised or permitted, of a lane of the change alone. */
static void try_limits(void) {
    struct dovecounter_settings_change change;
    struct dovecounter_changing_settings changing = {.magic = 7}, before = changing;
    struct dovecounter_settings_limits none = limits;
#define REFUSED(status, member, value)                                                                                 \
    change = two_lanes();                                                                                              \
    change.member = value;                                                                                             \
    expect(#member, status, dovecounter_settings_begin(&change, &limits, &patience, &changing))
    REFUSED(DOVECOUNTER_NO_SUCH_RECALL, targets.recall[1], 4);
    REFUSED(DOVECOUNTER_NO_SUCH_FIXED_INPUT, targets.fixed_input[2], 10);
    REFUSED(DOVECOUNTER_NO_SUCH_PRE_CURSOR, targets.pre_cursor[1], 8);
    REFUSED(DOVECOUNTER_NO_SUCH_POST_CURSOR, targets.post_cursor[2], 6);
    REFUSED(DOVECOUNTER_NO_SUCH_AMPLITUDE, targets.amplitude[1], 0);
    REFUSED(DOVECOUNTER_NO_SUCH_AMPLITUDE, targets.amplitude[2], 4);
    REFUSED(DOVECOUNTER_NOT_PERMITTED, permitted, 0x04);
    none.amplitudes = 0;
    change = two_lanes();
    expect("no amplitude", DOVECOUNTER_NO_SUCH_AMPLITUDE,
           dovecounter_settings_begin(&change, &none, &patience, &changing));
    expect_same("the change", &before, &changing, sizeof changing);
    change.targets.amplitude[1] = change.targets.amplitude[2] = 0;
    expect("none to choose", DOVECOUNTER_DONE, dovecounter_settings_begin(&change, &none, &patience, &changing));
}

/* What is refused writes nothing. */
static void try_refusals(void) {
    struct dovecounter_changing_settings changing = {0}, before;
    struct dovecounter_operation operation = {.milliseconds = 7};
    struct dovecounter_settings_end end = {.outcome = 7};
    const struct dovecounter_settings_change change = two_lanes();
    const uint8_t bytes[2] = {0};
    make_module();
    for (int i = 0; i < 3; i++) { /* zeros, a stage that isn't there, and an end that isn't there */
        before = changing;
        expect("next", DOVECOUNTER_NO_CONVERSATION, dovecounter_settings_next(&changing, &operation));
        expect("reply", DOVECOUNTER_NO_CONVERSATION, dovecounter_settings_reply(&changing, 0, bytes, 0));
        expect("end", DOVECOUNTER_NO_CONVERSATION, dovecounter_settings_end(&changing, &end));
        expect_same("the change", &before, &changing, sizeof changing);
        dovecounter_settings_begin(&change, &limits, &patience, &changing);
        changing.stage = i == 0 ? 11 : 10;
        changing.end = i == 0 ? 0 : 6;
    }
    expect("what was there", 7, operation.milliseconds & end.outcome);
    dovecounter_settings_begin(&change, &limits, &patience, &changing);
    before = changing;
    expect("not ended", DOVECOUNTER_NOT_ENDED, dovecounter_settings_end(&changing, &end));
    expect("the first operation", DOVECOUNTER_DONE, dovecounter_settings_next(&changing, &operation));
    expect("the selection", 126, operation.offset);
    expect("a fetch", DOVECOUNTER_NO_REPLY, dovecounter_settings_reply(&changing, DOVECOUNTER_FETCHED, bytes, 2));
    expect("a wait", DOVECOUNTER_NO_REPLY, dovecounter_settings_reply(&changing, DOVECOUNTER_WAITED, bytes, 0));
    expect_same("the same change", &before, &changing, sizeof changing);
    expect("refused", DOVECOUNTER_DONE, dovecounter_settings_reply(&changing, DOVECOUNTER_REFUSED, bytes, 0));
    expect("a wait", DOVECOUNTER_DONE, dovecounter_settings_next(&changing, &operation));
    expect("a wait", DOVECOUNTER_WAIT, operation.kind);
    expect("no wait", DOVECOUNTER_NO_REPLY, dovecounter_settings_reply(&changing, DOVECOUNTER_REFUSED, bytes, 0));
    dovecounter_settings_run(&changing, transact, pause_for, NULL);
    expect("ended", DOVECOUNTER_ENDED, dovecounter_settings_next(&changing, &operation));
    expect("ended", DOVECOUNTER_ENDED, dovecounter_settings_reply(&changing, DOVECOUNTER_REFUSED, bytes, 0));
}

/* Whatever the numbers are, each call returns, and stores settings, the trigger, or the page selection. */
static void try_forged(void) {
    const struct dovecounter_settings_change change = two_lanes();
    struct dovecounter_changing_settings changing, begun;
    struct dovecounter_operation operation;
    struct dovecounter_settings_end end;
    uint8_t bytes[128] = {0};
    dovecounter_settings_begin(&change, &limits, &patience, &begun);
    uint8_t *all = (uint8_t *)&changing;
    for (size_t at = 0; at < sizeof changing; at++) all[at] = (uint8_t)(chance(3) ? chance(12) : chance(256));
    changing.magic = begun.magic;
    for (int turn = 0; turn < 20 && dovecounter_settings_next(&changing, &operation) == DOVECOUNTER_DONE; turn++) {
        uint8_t outcome = operation.kind == DOVECOUNTER_WAIT    ? DOVECOUNTER_WAITED
                          : chance(4) == 0                      ? DOVECOUNTER_REFUSED
                          : operation.kind == DOVECOUNTER_STORE ? DOVECOUNTER_STORED
                                                                : DOVECOUNTER_FETCHED;
        uint8_t offset = operation.kind == DOVECOUNTER_STORE ? operation.offset : 126;
        expect("what may be stored", 1,
               offset == 126 || offset == 127 || offset == 144 || (offset >= 153 && offset < 174));
        expect("a reply", DOVECOUNTER_DONE, dovecounter_settings_reply(&changing, outcome, bytes, operation.count));
    }
    dovecounter_settings_end(&changing, &end);
}

/* ---- what an image says ---- */

static struct dovecounter_half halves[5];

static struct dovecounter_half *half_of(unsigned upper, unsigned page) {
    for (struct dovecounter_half *it = halves; it < halves + 5; it++)
        if (it->upper == upper && it->page == page) return it;
    return NULL;
}

/* A module of eight lanes that has nothing but right sums. */
static void make_halves(void) {
    static const uint8_t keys[5][2] = {{0, 0}, {1, 0x00}, {1, 0x01}, {1, 0x10}, {1, 0x11}};
    memset(halves, 0, sizeof halves);
    for (unsigned i = 0; i < 5; i++) halves[i].device = 0xA0, halves[i].upper = keys[i][0], halves[i].page = keys[i][1];
    halves[0].bytes[0] = 0x18, halves[0].bytes[1] = 0x50, halves[0].bytes[85] = 0x02;
    halves[0].bytes[86] = 0xFF;
    half_of(1, 1)->bytes[153 - 128] = 0xE9, half_of(1, 1)->bytes[154 - 128] = 0x57;
    half_of(1, 1)->bytes[127] = (0xE9 + 0x57) & 0xFF;
    for (unsigned i = 0; i < COUNT; i++) {
        half_of(1, 0x10)->bytes[STAGED + i] = (uint8_t)(17 * i);
        half_of(1, 0x11)->bytes[ACTIVE + i] = (uint8_t)(0xE4 - 9 * i);
    }
}

static void expect_targets(const char *what, const uint8_t *bytes, const struct dovecounter_signal_targets *found) {
    expect(what, bytes[0], found->adaptive);
    expect(what, bytes[7], found->recover_tx);
    expect(what, bytes[8], found->recover_rx);
    for (unsigned lane = 0; lane < 8; lane++) {
        expect(what, bytes[1 + lane / 4] >> 2 * (lane % 4) & 3, found->recall[lane]);
        expect(what, half(bytes + 3, lane), found->fixed_input[lane]);
        expect(what, half(bytes + 9, lane), found->pre_cursor[lane]);
        expect(what, half(bytes + 13, lane), found->post_cursor[lane]);
        expect(what, half(bytes + 17, lane), found->amplitude[lane]);
    }
}

static void try_images(void) {
    static const uint8_t nothing[COUNT];
    struct dovecounter_settings settings, none;
    struct dovecounter_settings_limits found = {0}, no_limits;
    make_halves();
    memset(&settings, 0xAA, sizeof settings);
    none = settings, no_limits = found;
    expect("without page 11h", DOVECOUNTER_ABSENT, dovecounter_settings(halves, 4, &settings));
    expect("without page 01h", DOVECOUNTER_ABSENT, dovecounter_settings_limits(halves, 2, &found));
    halves[0].bytes[0] = 0x11;
    expect("another family", DOVECOUNTER_NOT_CMIS, dovecounter_settings(halves, 5, &settings));
    expect("another family", DOVECOUNTER_NOT_CMIS, dovecounter_settings_limits(halves, 5, &found));
    expect_same("no settings", &none, &settings, sizeof settings);
    expect_same("no limits", &no_limits, &found, sizeof found);
    halves[0].bytes[0] = 0x18;
    expect("settings", DOVECOUNTER_DONE, dovecounter_settings(halves, 5, &settings));
    expect("staged", 1, settings.has_staged);
    expect_targets("staged", half_of(1, 0x10)->bytes + STAGED, &settings.staged);
    expect_targets("active", half_of(1, 0x11)->bytes + ACTIVE, &settings.active);
    half_of(1, 0x10)->page = 0x12;
    expect("without page 10h", DOVECOUNTER_DONE, dovecounter_settings(halves, 5, &settings));
    expect("not staged", 0, settings.has_staged);
    expect_targets("none staged", nothing, &settings.staged);
    expect_targets("active", half_of(1, 0x11)->bytes + ACTIVE, &settings.active);
    expect("limits", DOVECOUNTER_DONE, dovecounter_settings_limits(halves, 3, &found));
    expect_same("limits", &limits, &found, sizeof found);
}

/* ---- by chance ---- */

static unsigned ended[8], not_begun;

static void put_chance(uint8_t values[8], unsigned most) {
    for (unsigned i = 0; i < 8; i++) values[i] = (uint8_t)chance(most + 1);
}

static void change_by_chance(void) {
    struct dovecounter_settings_change change = {
        .lanes = (uint8_t)chance(256), .permitted = 0xFF, .tries = (uint8_t)chance(4)};
    struct dovecounter_changing_settings changing;
    uint8_t before[2][128], wanted[COUNT];
    make_module();
    change.targets.adaptive = (uint8_t)chance(256);
    change.targets.recover_tx = (uint8_t)chance(256), change.targets.recover_rx = (uint8_t)chance(256);
    put_chance(change.targets.recall, 3), put_chance(change.targets.fixed_input, limits.fixed_input);
    put_chance(change.targets.pre_cursor, limits.pre_cursor),
        put_chance(change.targets.post_cursor, limits.post_cursor);
    for (unsigned i = 0; i < 8; i++) change.targets.amplitude[i] = (uint8_t)(1 + chance(3));
    for (unsigned lane = 0; lane < 8; lane++) {
        if (chance(40) == 0) put_half(pages[1], lane, chance(16));
        if (chance(40) == 0) pages[0][145 - 128 + lane] ^= 0x10;
        if (chance(40) == 0) rejects |= 1U << lane;
    }
    if (chance(3) == 0) change.permitted = (uint8_t)chance(256);
    refuses = chance(2) ? 0 : chance(chance(4) ? 20 : 60), forgets = chance(2) ? 0 : chance(100);
    delay = chance(4) == 0 ? chance(10) : 0;
    stuck = chance(20) == 0, idle = chance(20) == 0, deaf = chance(50) == 0;
    memcpy(before, pages, sizeof before);
    if (change.lanes & ~change.permitted) {
        not_begun++;
        expect("not permitted", DOVECOUNTER_NOT_PERMITTED,
               dovecounter_settings_begin(&change, &limits, &patience, &changing));
        return;
    }
    for (unsigned at = 0; at < COUNT; at++) wanted[at] = 0;
    wanted[0] = change.targets.adaptive, wanted[7] = change.targets.recover_tx, wanted[8] = change.targets.recover_rx;
    for (unsigned lane = 0; lane < 8; lane++) {
        wanted[1 + lane / 4] |= (uint8_t)(change.targets.recall[lane] << 2 * (lane % 4));
        put_half(wanted + 3, lane, change.targets.fixed_input[lane]);
        put_half(wanted + 9, lane, change.targets.pre_cursor[lane]);
        put_half(wanted + 13, lane, change.targets.post_cursor[lane]);
        put_half(wanted + 17, lane, change.targets.amplitude[lane]);
    }
    uint8_t fit = 0;
    for (unsigned lane = 0; lane < 8; lane++)
        if (is_up(lane) && pages[0][145 - 128 + lane] == pages[1][CONTROLS + lane]) fit |= 1U << lane;
    const struct dovecounter_settings_end end = run_change(&change);
    ended[end.outcome % 8]++;
    for (unsigned at = 0; at < 128; at++) {
        bool of_settings = at >= STAGED && at < STAGED + COUNT, of_active = at >= ACTIVE && at < ACTIVE + COUNT;
        uint8_t staged = of_settings ? mask_at(at - STAGED, change.lanes) : 0;
        uint8_t active = of_active ? mask_at(at - ACTIVE, change.lanes) : 0;
        expect("each other staged bit", before[0][at] & ~staged & 0xFF, pages[0][at] & ~staged & 0xFF);
        if (at < STATUSES || at >= CONTROLS)
            expect("each other active bit", before[1][at] & ~active & 0xFF, pages[1][at] & ~active & 0xFF);
        if (end.outcome == DOVECOUNTER_SETTINGS_ACTIVE && of_active)
            expect("a false success", wanted[at - ACTIVE] & active, pages[1][at] & active);
    }
    expect("which lanes were applied", 1, applied == 0 || applied == change.lanes);
    expect("a lane that is down", 0, (stored || applied) ? change.lanes & ~fit & 0xFF : 0);
    expect("what was reached", 1, (stored == 0 || end.reached >= 1) && (applied == 0 || end.reached == 2));
    if (refuses == 0 && !deaf && !stuck && !idle)
        expect("an end without need", 1,
               (change.lanes & ~fit) != 0
                   ? end.outcome == DOVECOUNTER_SETTINGS_NOT_UP || end.outcome == DOVECOUNTER_SETTINGS_NOT_EXPLICIT
               : (change.lanes & rejects) != 0 ? end.outcome == DOVECOUNTER_SETTINGS_REJECTED
                                               : end.outcome == DOVECOUNTER_SETTINGS_ACTIVE);
}

int main(int count, char **words) {
    unsigned changes = count > 1 ? (unsigned)atoi(words[1]) : 5000;
    state = count > 2 ? strtoull(words[2], NULL, 0) | 1 : 88172645463325252u;
    try_ends();
    try_limits();
    try_refusals();
    try_images();
    for (unsigned i = 0; i < changes && failures < 10; i++) try_forged();
    for (unsigned i = 0; i < changes && failures < 10; i++) change_by_chance();
    printf("settings: %u by chance, %u not permitted; at the end, from active to given up:", changes, not_begun);
    for (int outcome = 0; outcome < 8; outcome++) printf(" %u", ended[outcome]);
    printf("\n");
    for (int outcome = 0; outcome < 7; outcome++) expect("an end that never came", 1, ended[outcome] > 0);
    return judged("settings");
}
