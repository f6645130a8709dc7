/* Provisioning with signal integrity settings through the library for firmware. `explicit [COUNT] [SEED]` first tries what each call
   answers, and each kind of end; then COUNT by chance, 3,000 where nothing is said, of a module that refuses, rejects, keeps no settings,
   forgets its page and leaves ModuleReady. A success means that control bytes and settings are active; before settings are staged, no
   lane goes down; and no setting of another lane is stored. */
#include "expect.h"

#include <stdbool.h>
#include <stdlib.h>

static uint64_t state;

static unsigned chance(unsigned below) {
    state ^= state << 13, state ^= state >> 7, state ^= state << 17;
    return (unsigned)(state >> 33) % below;
}

/* ---- the module and its bus ---- */

enum { DEINIT = 0, APPLY = 143 - 128, CONTROLS = 145 - 128, STAGED = 153 - 128, COUNT = 21 };
enum { STATUSES = 202 - 128, ACTIVE_CONTROLS = 206 - 128, ACTIVE = 214 - 128 };

static uint8_t pages[2][128];        /* pages 10h and 11h */
static uint8_t selected[2];          /* bank and page */
static unsigned module_state;        /* its code */
static unsigned refuses, forgets;    /* of 100 transactions */
static bool deaf, stuck, idle;       /* it refuses all; it stages no settings; it makes none active */
static uint8_t rejects, down;        /* lanes that it rejects; lanes that were taken down */
static unsigned made, leaves;        /* how many transactions were made; after how many it leaves ModuleReady */
static uint8_t staged_before[COUNT]; /* what was staged at the beginning */

static void put_half(uint8_t *bytes, unsigned lane, unsigned value) {
    unsigned at = 4 * (lane % 2);
    bytes[lane / 2] = (uint8_t)((bytes[lane / 2] & ~(15U << at)) | value << at);
}

static uint8_t *byte_at(uint8_t address) {
    static uint8_t byte;
    byte = (uint8_t)(module_state << 1);
    if (address == 3) return &byte;
    if (address == 126 || address == 127) return &selected[address - 126];
    if (address < 128 || selected[0] != 0 || selected[1] < 0x10 || selected[1] > 0x11) return &byte;
    return &pages[selected[1] - 0x10][address - 128];
}

/* The bits of a byte of settings that are a lane's. */
static uint8_t mask_at(unsigned at, unsigned lane) {
    if (at == 0 || at == 7 || at == 8) return (uint8_t)(1U << lane);
    if (at < 3) return lane / 4 == at - 1 ? (uint8_t)(3U << 2 * (lane % 4)) : 0;
    return lane / 2 == (at < 7 ? at - 3 : (at - 9) % 4) ? (uint8_t)(15U << 4 * (lane % 2)) : 0;
}

static bool are_same(const uint8_t *one, const uint8_t *other, unsigned lane) {
    for (unsigned at = 0; at < COUNT; at++)
        if ((one[at] ^ other[at]) & mask_at(at, lane)) return false;
    return true;
}

/* A lane under explicit control gets its staged settings, another one the defaults of its Application, zeros. */
static void apply(unsigned lane) {
    uint8_t control = pages[1][ACTIVE_CONTROLS + lane] = pages[0][CONTROLS + lane];
    if (idle) return;
    for (unsigned at = 0; at < COUNT; at++) {
        uint8_t mask = mask_at(at, lane), from = control & 1 ? pages[0][STAGED + at] : 0;
        pages[1][ACTIVE + at] = (uint8_t)((pages[1][ACTIVE + at] & ~mask) | (from & mask));
    }
}

static void store_one(uint8_t address, uint8_t byte) {
    if (address == 126 || address == 127) {
        selected[address - 126] = byte;
        return;
    }
    expect("a store on page 10h", 0x0010, selected[0] * 256U + selected[1]);
    if (address >= 153 && stuck) return;
    *byte_at(address) = byte;
    for (unsigned lane = 0; lane < 8; lane++) {
        bool is_in = byte >> lane & 1;
        if (address == 128) put_half(pages[1], lane, is_in ? 1 : 4), down |= (uint8_t)(is_in << lane);
        if (address != 143 || !is_in) continue;
        bool is_rejected = rejects >> lane & 1;
        put_half(&pages[1][STATUSES], lane, is_rejected ? 5 : 1);
        if (!is_rejected) apply(lane);
    }
}

static uint8_t transact(void *context, const struct dovecounter_operation *operation, uint8_t bytes[128]) {
    (void)context;
    bool is_store = operation->kind == DOVECOUNTER_STORE, refused = deaf || chance(100) < refuses;
    if (++made == leaves) module_state = 1 + chance(2);
    unsigned taken = !refused ? operation->count : deaf ? 0 : chance(operation->count + 1U);
    for (unsigned i = 0; i < taken; i++) {
        uint8_t address = (uint8_t)(operation->offset + i);
        if (is_store)
            store_one(address, operation->bytes[i]);
        else
            bytes[i] = *byte_at(address);
    }
    if (refused && chance(100) < forgets) selected[0] = selected[1] = 0;
    return refused ? DOVECOUNTER_REFUSED : is_store ? DOVECOUNTER_STORED : DOVECOUNTER_FETCHED;
}

static void pause_for(void *context, uint32_t milliseconds) {
    (void)context;
    expect("a pause", 10, milliseconds);
}

/* A module in ModuleReady whose lanes are up, with any settings and no explicit control. */
static void make_module(void) {
    refuses = forgets = made = leaves = 0;
    deaf = stuck = idle = false;
    selected[0] = selected[1] = rejects = down = 0;
    module_state = 3;
    for (unsigned i = 0; i < 128; i++) pages[0][i] = (uint8_t)chance(256), pages[1][i] = (uint8_t)chance(256);
    memset(pages[1], 0x44, 4);
    for (unsigned lane = 0; lane < 8; lane++) pages[0][CONTROLS + lane] = pages[1][ACTIVE_CONTROLS + lane] = 0x10;
    memcpy(staged_before, &pages[0][STAGED], COUNT);
}

/* ---- what is asked for ---- */

static const struct dovecounter_patience patience = {.pause = 10, .limit = 1000};
static const struct dovecounter_settings_limits limits = {
    .amplitudes = 0x0E, .fixed_input = 9, .pre_cursor = 7, .post_cursor = 5};
static const uint8_t control[8] = {0x20, 0x20, 0x24, 0x24, 0, 0, 0, 0}; /* two paths, on lanes 1 to 4 */

/* Lanes 2, 3 and 6 are to get settings; lane 6 is in no path. */
static const struct dovecounter_settings_change change = {.lanes = 0x26,
                                                          .tries = 2,
                                                          .targets = {.adaptive = 0x22,
                                                                      .recall = {0, 1, 2},
                                                                      .fixed_input = {0, 9, 8},
                                                                      .recover_tx = 0x04,
                                                                      .recover_rx = 0x02,
                                                                      .pre_cursor = {0, 7, 6},
                                                                      .post_cursor = {0, 5, 4},
                                                                      .amplitude = {1, 3, 1, 1, 1, 1, 1, 1}}};
static const uint8_t wanted[COUNT] = {0x02, 0x24, 0,    0x90, 0x08, 0, 0,    0x04, 0x02, 0x70, 0x06,
                                      0,    0,    0x50, 0x04, 0,    0, 0x30, 0x01, 0,    0};
enum { EXPLICIT = 0x06, ALL = 0xFF };

static struct dovecounter_explicit_end run_with(uint8_t lanes) {
    struct dovecounter_explicit it;
    struct dovecounter_explicit_end end = {.steps = 9999};
    expect("a beginning", DOVECOUNTER_DONE,
           dovecounter_explicit_begin(control, lanes, &change, &limits, &patience, &it));
    expect("a run", DOVECOUNTER_DONE, dovecounter_explicit_run(&it, transact, pause_for, NULL));
    expect("an end", DOVECOUNTER_DONE, dovecounter_explicit_end(&it, &end));
    return end;
}

static bool is_active(void) {
    for (unsigned lane = 0; lane < 8; lane++) {
        if (pages[1][ACTIVE_CONTROLS + lane] != (control[lane] | (EXPLICIT >> lane & 1))) return false;
        if (EXPLICIT >> lane & 1 && !are_same(&pages[1][ACTIVE], wanted, lane)) return false;
    }
    return true;
}

static void expect_end(const char *what, unsigned code, unsigned first, unsigned settings, unsigned lane) {
    const struct dovecounter_explicit_end end = run_with(ALL);
    bool success = code == 0 && settings == 0;
    expect(what, code, end.fault.code);
    expect(what, first, end.fault.first);
    expect(what, settings, end.settings);
    expect(what, lane, end.lane);
    expect(what, success, end.steps > 0);
    expect(what, success, is_active());
}

static void try_ends(void) {
    make_module();
    expect_end("a success", DOVECOUNTER_NO_FAULT, 0, DOVECOUNTER_EXPLICIT_SETTINGS_RIGHT, 0);
    expect("all went down", ALL, down);
    make_module();
    module_state = 1;
    expect_end("low power", DOVECOUNTER_NOT_READY, 1, 0, 0);
    expect_same("nothing staged", staged_before, &pages[0][STAGED], COUNT);
    make_module();
    stuck = true;
    expect_end("not staged", DOVECOUNTER_NO_FAULT, 0, DOVECOUNTER_EXPLICIT_SETTINGS_NOT_STAGED, 0);
    expect("none went down", 0, down);
    make_module();
    memset(&pages[1][ACTIVE], 0xFF, COUNT);
    idle = true;
    expect_end("not active", DOVECOUNTER_NO_FAULT, 0, DOVECOUNTER_EXPLICIT_SETTINGS_NOT_ACTIVE, 2);
    make_module();
    rejects = 0x88;
    expect_end("rejected", DOVECOUNTER_REJECTED, 4, 0, 0);
    make_module();
    deaf = true;
    expect_end("overdue", DOVECOUNTER_OVERDUE, 0, 0, 0);
    make_module();
    refuses = 30, forgets = 50;
    expect_end("refusals", DOVECOUNTER_NO_FAULT, 0, 0, 0);
}

/* A lane that is kept isn't applied: it has to be under explicit control, with its settings. */
static void try_kept(void) {
    make_module();
    for (unsigned lane = 0; lane < 8; lane++)
        pages[1][ACTIVE_CONTROLS + lane] = (uint8_t)(control[lane] | (EXPLICIT >> lane & 1));
    memcpy(&pages[1][ACTIVE], wanted, COUNT);
    struct dovecounter_explicit_end end = run_with(0xF9);
    expect("kept", 0, end.fault.code + end.settings + (unsigned)!is_active());
    expect("the others went down", 0xF9, down);
    make_module();
    for (unsigned lane = 0; lane < 8; lane++)
        pages[1][ACTIVE_CONTROLS + lane] = (uint8_t)(control[lane] | (EXPLICIT >> lane & 1));
    memset(&pages[1][ACTIVE], 0xFF, COUNT);
    end = run_with(0xFB);
    expect("kept with others", DOVECOUNTER_EXPLICIT_SETTINGS_NOT_ACTIVE, end.settings);
    expect("which", 3, end.lane);
}

/* What is refused writes nothing. */
static void try_refusals(void) {
    struct dovecounter_explicit it = {0}, before = it;
    struct dovecounter_operation operation = {.milliseconds = 7};
    struct dovecounter_explicit_end end = {.steps = 7};
    struct dovecounter_settings_change other = change;
    const uint8_t bytes[2] = {0};
    make_module();
    other.targets.amplitude[1] = 0;
    expect("no such amplitude", DOVECOUNTER_NO_SUCH_AMPLITUDE,
           dovecounter_explicit_begin(control, ALL, &other, &limits, &patience, &it));
    expect_same("nothing", &before, &it, sizeof it);
    for (int i = 0; i < 4; i++) { /* zeros; a stage, a look and a list of tasks that aren't there */
        before = it;
        expect("next", DOVECOUNTER_NO_CONVERSATION, dovecounter_explicit_next(&it, &operation));
        expect("reply", DOVECOUNTER_NO_CONVERSATION, dovecounter_explicit_reply(&it, 0, bytes, 0));
        expect("end", DOVECOUNTER_NO_CONVERSATION, dovecounter_explicit_end(&it, &end));
        expect_same("it", &before, &it, sizeof it);
        dovecounter_explicit_begin(control, ALL, &change, &limits, &patience, &it);
        if (i == 0) it.staging.stage = 7;
        if (i == 1) it.look = 3;
        if (i == 2) it.procedure.met = 9;
    }
    expect("what was there", 7, operation.milliseconds & end.steps);
    expect("not ended", DOVECOUNTER_NOT_ENDED, dovecounter_explicit_end(&it, &end));
    expect("the first operation", DOVECOUNTER_DONE, dovecounter_explicit_next(&it, &operation));
    expect("the state", 3, operation.offset);
    before = it;
    expect("a store", DOVECOUNTER_NO_REPLY, dovecounter_explicit_reply(&it, DOVECOUNTER_STORED, bytes, 0));
    expect("a wait", DOVECOUNTER_NO_REPLY, dovecounter_explicit_reply(&it, DOVECOUNTER_WAITED, bytes, 0));
    expect_same("the same", &before, &it, sizeof it);
    expect("refused", DOVECOUNTER_DONE, dovecounter_explicit_reply(&it, DOVECOUNTER_REFUSED, bytes, 0));
    expect("a wait", DOVECOUNTER_DONE, dovecounter_explicit_next(&it, &operation));
    expect("a wait", DOVECOUNTER_WAIT, operation.kind);
    expect("no wait", DOVECOUNTER_NO_REPLY, dovecounter_explicit_reply(&it, DOVECOUNTER_REFUSED, bytes, 0));
    dovecounter_explicit_run(&it, transact, pause_for, NULL);
    expect("ended", DOVECOUNTER_ENDED, dovecounter_explicit_next(&it, &operation));
    expect("ended", DOVECOUNTER_ENDED, dovecounter_explicit_reply(&it, DOVECOUNTER_REFUSED, bytes, 0));
}

/* Whatever the numbers are, each call returns, and what goes on can be told a reply. */
static void try_forged(void) {
    struct dovecounter_explicit it, begun;
    struct dovecounter_operation operation;
    struct dovecounter_explicit_end end;
    const uint8_t bytes[128] = {0};
    dovecounter_explicit_begin(control, ALL, &change, &limits, &patience, &begun);
    uint8_t *all = (uint8_t *)&it, *from = (uint8_t *)&begun;
    for (size_t at = 0; at < sizeof it; at++) all[at] = chance(8) ? from[at] : (uint8_t)chance(chance(3) ? 8 : 256);
    it.magic = begun.magic;
    for (int turn = 0; turn < 20 && dovecounter_explicit_next(&it, &operation) == DOVECOUNTER_DONE; turn++) {
        uint8_t outcome = operation.kind == DOVECOUNTER_WAIT    ? DOVECOUNTER_WAITED
                          : chance(4) == 0                      ? DOVECOUNTER_REFUSED
                          : operation.kind == DOVECOUNTER_STORE ? DOVECOUNTER_STORED
                                                                : DOVECOUNTER_FETCHED;
        expect("a reply", DOVECOUNTER_DONE, dovecounter_explicit_reply(&it, outcome, bytes, operation.count));
    }
    dovecounter_explicit_end(&it, &end);
}

/* ---- by chance ---- */

static unsigned successes, others;

static void provision_by_chance(void) {
    make_module();
    refuses = chance(2) ? 0 : chance(chance(4) ? 20 : 60), forgets = chance(2) ? 0 : chance(100);
    stuck = chance(10) == 0, idle = chance(10) == 0, deaf = chance(50) == 0;
    if (chance(8) == 0) rejects = (uint8_t)chance(256);
    if (chance(4) == 0) leaves = 1 + chance(60);
    const struct dovecounter_explicit_end end = run_with(ALL);
    bool success = end.fault.code == 0 && end.settings == 0;
    *(success ? &successes : &others) += 1;
    if (success) expect("a false success", 1, is_active());
    if (end.settings == DOVECOUNTER_EXPLICIT_SETTINGS_NOT_STAGED) expect("none went down", 0, down);
    for (unsigned lane = 0; lane < 8; lane++)
        if (!(EXPLICIT >> lane & 1)) expect("another lane", 1, are_same(&pages[0][STAGED], staged_before, lane));
    for (unsigned lane = 0; lane < 8 && down; lane++)
        if (EXPLICIT >> lane & 1) expect("staged before", 1, are_same(&pages[0][STAGED], wanted, lane));
    if (refuses == 0 && leaves == 0 && !deaf && !stuck && !idle) expect("a success", rejects == 0, success);
}

int main(int count, char **words) {
    unsigned times = count > 1 ? (unsigned)atoi(words[1]) : 3000;
    state = count > 2 ? strtoull(words[2], NULL, 0) | 1 : 88172645463325252u;
    try_ends();
    try_kept();
    try_refusals();
    for (unsigned i = 0; i < times && failures < 10; i++) try_forged();
    for (unsigned i = 0; i < times && failures < 10; i++) provision_by_chance();
    printf("explicit: %u successes and %u other ends by chance\n", successes, others);
    expect("no provisioning, or each, succeeds", 1, successes > 0 && others > 0);
    return judged("explicit");
}
