/* Tests of links through the library for firmware. `links [COUNT] [SEED]` first tries what each call answers, each kind of end and what is
   shown of lanes; then COUNT tests by chance, 5,000 where nothing is said, of a module that refuses, takes no stores, forgets its page, keeps
   what was switched on, and whose paths are up or down; some are stopped. Whatever happens, each control of page 13h is as before or named,
   no other bit was stored, and nothing that is up was touched without permission. */
#include "expect.h"

#include <stdbool.h>
#include <stdlib.h>

static uint64_t state;

static unsigned chance(unsigned below) {
    state ^= state << 13, state ^= state >> 7, state ^= state << 17;
    return (unsigned)(state >> 33) % below;
}

/* ---- the module and its bus ---- */

enum { ADVERTISED, STATES, CONTROLS, RESULTS, PAGES }; /* pages 01h, 11h, 13h and 14h */
enum { DIAGNOSTICS = 142, FIRST_CONTROL = 144, LAST_CONTROL = 183, SELECTOR = 128, SHOWN = 192 };

static uint8_t pages[PAGES][128], before[128];
static uint8_t selected[2];       /* bank and page */
static unsigned refuses, forgets; /* of 100 transactions */
static unsigned deaf_after;       /* so many transactions it refuses all */
static bool stuck, holds;         /* it takes no store of a control; what it has switched on stays on */
static bool touched[128];         /* controls that were stored, or perhaps were */
static uint8_t astray[128];       /* bits of page 13h that were stored otherwise than before */
static unsigned stores, readings; /* of page 13h; of results */
static unsigned stop_at, made;    /* the operation after which the test is stopped, 0 for none */

static uint8_t *byte_at(uint8_t address) {
    static const uint8_t numbers[PAGES] = {0x01, 0x11, 0x13, 0x14};
    static uint8_t nothing;
    if (address == 126 || address == 127) return &selected[address - 126];
    for (int page = 0; address >= 128 && page < PAGES; page++)
        if (selected[0] == 0 && selected[1] == numbers[page]) return &pages[page][address - 128];
    return &nothing;
}

static uint8_t lanes_up(void) {
    unsigned up = 0;
    for (unsigned lane = 0; lane < 8; lane++)
        if ((pages[STATES][lane / 2] >> 4 * (lane % 2) & 15) != 1) up |= 1U << lane;
    return (uint8_t)up;
}

static void note_store(uint8_t address, uint8_t byte) {
    if (address == 126 || address == 127) return;
    if (selected[0] == 0 && selected[1] == 0x14) {
        expect("the selector", SELECTOR, address);
        return;
    }
    expect("a store on page 13h", 0x0013, selected[0] * 256U + selected[1]);
    expect("a control", 1, address >= FIRST_CONTROL && address <= LAST_CONTROL);
    touched[address - 128] = true;
    astray[address - 128] |= byte ^ before[address - 128];
    stores++;
}

static void store_one(uint8_t address, uint8_t byte) {
    bool is_control = address >= 128 && selected[1] == 0x13;
    if (is_control && stuck) return;
    *byte_at(address) = is_control && holds ? (uint8_t)(*byte_at(address) | byte) : byte;
}

static uint8_t transact(void *context, const struct dovecounter_operation *operation, uint8_t bytes[128]) {
    (void)context;
    bool is_store = operation->kind == DOVECOUNTER_STORE, is_deaf = deaf_after > 0 && made >= deaf_after;
    bool refused = is_deaf || chance(100) < refuses;
    expect("the device", 0xA0, operation->device);
    unsigned taken = !refused ? operation->count : is_deaf ? 0 : chance(operation->count + 1U);
    if (is_store) note_store(operation->offset, operation->bytes[0]);
    for (unsigned i = 0; i < taken; i++) {
        uint8_t address = (uint8_t)(operation->offset + i);
        if (is_store)
            store_one(address, operation->bytes[i]);
        else
            bytes[i] = *byte_at(address);
    }
    if (!refused && !is_store && operation->offset == SHOWN) readings++;
    if (refused && chance(100) < forgets) selected[0] = selected[1] = 0;
    if (++made == stop_at) stop_at = 1;
    return refused ? DOVECOUNTER_REFUSED : is_store ? DOVECOUNTER_STORED : DOVECOUNTER_FETCHED;
}

static void pause_for(void *context, uint32_t milliseconds) {
    (void)context;
    expect("a pause", 1, milliseconds == 10 || milliseconds == 1000);
}

static void make_module(void) {
    refuses = forgets = deaf_after = stop_at = made = stores = readings = 0;
    stuck = holds = false;
    selected[0] = selected[1] = 0;
    memset(touched, 0, sizeof touched);
    memset(astray, 0, sizeof astray);
    for (unsigned page = 0; page < PAGES; page++)
        for (unsigned i = 0; i < 128; i++) pages[page][i] = (uint8_t)chance(256);
    memset(pages[STATES], 0x11, 4);
    memset(pages[CONTROLS], 0xFF, 12); /* it can do everything */
    pages[ADVERTISED][DIAGNOSTICS - 128] = 0x20;
    memset(&pages[CONTROLS][FIRST_CONTROL - 128], 0, LAST_CONTROL - FIRST_CONTROL + 1);
    memset(&pages[RESULTS][132 - 128], 0, 8);
}

/* ---- tests ---- */

static const struct dovecounter_patience patience = {.pause = 10, .limit = 1000};

/* As dovecounter_link_test_run does, but that it stops the test where that is due. */
static struct dovecounter_link_end run_test(const struct dovecounter_link_plan *plan,
                                            struct dovecounter_link_test *test) {
    struct dovecounter_operation operation;
    struct dovecounter_link_end end = {99, 0};
    uint8_t bytes[128];
    memcpy(before, pages[CONTROLS], sizeof before);
    expect("a beginning", DOVECOUNTER_DONE, dovecounter_link_test_begin(plan, &patience, test));
    while (dovecounter_link_test_next(test, &operation) == DOVECOUNTER_DONE) {
        uint8_t outcome = DOVECOUNTER_WAITED;
        if (operation.kind == DOVECOUNTER_WAIT)
            pause_for(NULL, operation.milliseconds);
        else
            outcome = transact(NULL, &operation, bytes);
        expect("a reply", DOVECOUNTER_DONE, dovecounter_link_test_reply(test, outcome, bytes, operation.count));
        if (stop_at == 1) expect("a stop", DOVECOUNTER_DONE, dovecounter_link_test_stop(test)), stop_at = 0;
    }
    expect("an end", DOVECOUNTER_DONE, dovecounter_link_test_end(test, &end));
    return end;
}

/* The media side's lanes 1 and 4 make and check PRBS31Q, and are looped back there; media lane 4 belongs to the path of host lane 8. */
static struct dovecounter_link_plan looped(void) {
    struct dovecounter_link_plan plan = {.period = 1000,
                                         .rounds = 2,
                                         .shown = DOVECOUNTER_ERROR_RATIOS,
                                         .side = DOVECOUNTER_MEDIA_SIDE,
                                         .lanes = 0x09,
                                         .generator = DOVECOUNTER_PRBS31Q,
                                         .checker = DOVECOUNTER_PRBS9,
                                         .loopback = DOVECOUNTER_MEDIA_SIDE_OUTPUT,
                                         .looped = 0x08,
                                         .tries = 2,
                                         .media_paths = {0, 0, 0, 0x80}};
    make_module();
    return plan;
}

static void expect_end(const char *what, uint8_t outcome, uint8_t control, struct dovecounter_link_end found) {
    expect(what, outcome, found.outcome);
    expect(what, control, found.control);
}

static void expect_restored(const char *what) { expect_same(what, before, pages[CONTROLS], sizeof before); }

static void try_ends(void) {
    struct dovecounter_link_test test;
    struct dovecounter_link_plan plan = looped();
    expect_end("tested", DOVECOUNTER_LINK_TESTED, 0, run_test(&plan, &test));
    expect_restored("all as before");
    expect("readings", 2, readings);
    plan = looped();
    plan.rounds = 0;
    pages[CONTROLS][152 - 128] = 0x09; /* the generator is on already */
    expect_end("tested once", DOVECOUNTER_LINK_TESTED, 0, run_test(&plan, &test));
    expect("a reading", 1, readings);
    expect("what was on already", 0, touched[152 - 128]);
    plan = looped();
    pages[ADVERTISED][DIAGNOSTICS - 128] = 0xDF;
    expect_end("no pages", DOVECOUNTER_LINK_NO_PAGES, 0, run_test(&plan, &test));
    plan = looped();
    pages[CONTROLS][128 - 128] = 0xFE;
    expect_end("no such loopback", DOVECOUNTER_LINK_UNSUPPORTED, 180, run_test(&plan, &test));
    plan = looped();
    pages[CONTROLS][134 - 128] = 0xFE;
    expect_end("no such pattern", DOVECOUNTER_LINK_UNSUPPORTED, 156, run_test(&plan, &test));
    plan = looped();
    pages[CONTROLS][139 - 128] = 0xFD;
    expect_end("no such check", DOVECOUNTER_LINK_UNSUPPORTED, 172, run_test(&plan, &test));
    plan = looped();
    plan.gate = 3;
    pages[CONTROLS][129 - 128] = 0x3F;
    expect_end("no gates", DOVECOUNTER_LINK_UNSUPPORTED, 177, run_test(&plan, &test));
    plan = looped();
    pages[CONTROLS][130 - 128] = 0xFE;
    expect_end("no ratios", DOVECOUNTER_LINK_NO_RESULTS, 0, run_test(&plan, &test));
    for (uint8_t media = 0; media < 2; media++) {
        plan.shown = media ? DOVECOUNTER_SIGNAL_TO_NOISE_OF_MEDIA : DOVECOUNTER_SIGNAL_TO_NOISE_OF_HOST;
        pages[CONTROLS][130 - 128] = media ? 0x10 : 0x20;
        expect_end("noise of the other side", DOVECOUNTER_LINK_NO_RESULTS, 0, run_test(&plan, &test));
        pages[CONTROLS][130 - 128] ^= 0x30;
        expect_end("noise of its side", DOVECOUNTER_LINK_TESTED, 0, run_test(&plan, &test));
    }
    plan = looped();
    pages[STATES][3] = 0x41;
    expect_end("not permitted", DOVECOUNTER_LINK_NOT_PERMITTED, 180, run_test(&plan, &test));
    expect("stores before that", 0, stores);
    plan.permitted = 0x80;
    expect_end("permitted", DOVECOUNTER_LINK_TESTED, 0, run_test(&plan, &test));
    plan = looped();
    stuck = true;
    expect_end("not switched", DOVECOUNTER_LINK_NOT_SWITCHED, 180, run_test(&plan, &test));
    expect("its stores", 3, stores);
    plan = looped();
    deaf_after = 40;
    expect_end("overdue", DOVECOUNTER_LINK_OVERDUE, 0, run_test(&plan, &test));
    plan = looped();
    stop_at = 20;
    expect_end("stopped", DOVECOUNTER_LINK_STOPPED, 0, run_test(&plan, &test));
    expect_restored("all as before the stop");
}

/* What stays on is named with its byte before. */
static void try_changes(void) {
    struct dovecounter_link_test test;
    struct dovecounter_link_changes left;
    struct dovecounter_link_plan plan = looped();
    holds = true;
    pages[CONTROLS][152 - 128] = 0x02;
    expect_end("left on", DOVECOUNTER_LINK_TESTED, 0, run_test(&plan, &test));
    expect("its names", DOVECOUNTER_DONE, dovecounter_link_test_changes(&test, &left));
    expect("how many are on", 5,
           left.count); /* loopback, two codes of the checker, generator, checker: PRBS31Q is code 0 */
    for (unsigned i = 0; i < left.count; i++) {
        const struct dovecounter_link_change *each = &left.changes[i];
        expect("its byte before", before[each->what.control - 128], each->original);
        if (each->what.control == 152) expect("the generator", 0x0902, each->what.bits * 256U + each->original);
    }
}

static void put_long(uint8_t *place, uint64_t number, bool big) {
    for (unsigned i = 0; i < 8; i++) place[big ? 7 - i : i] = (uint8_t)(number >> 8 * i);
}

static void try_results(void) {
    struct dovecounter_link_test test;
    struct dovecounter_link_results results;
    struct dovecounter_link_plan plan = looped();
    dovecounter_link_test_begin(&plan, &patience, &test);
    expect("before", DOVECOUNTER_DONE, dovecounter_link_results(&test, 0, &results));
    for (unsigned lane = 0; lane < 8; lane++)
        expect("nothing is known", 0, results.host[lane].known + results.media[lane].known);
    pages[RESULTS][SHOWN - 128 + 16 + 6] = 0xA4,
                                      pages[RESULTS][SHOWN - 128 + 16 + 7] = 0xD2; /* media lane 4: 1234e-4 */
    pages[RESULTS][SHOWN - 128] = 0x08, pages[RESULTS][SHOWN - 128 + 1] = 0x05;    /* host lane 1: 5e-23 */
    memcpy(&pages[RESULTS][132 - 128], "\x80\x00\x01\x02\x04\x08\x10\x20", 8);
    run_test(&plan, &test);
    dovecounter_link_results(&test, 0, &results);
    expect("its mantissa", 1234, results.media[3].mantissa);
    expect("its power", 4, (unsigned long)-results.media[3].power);
    expect("a mantissa", 5, results.host[0].mantissa);
    expect("a power", 23, (unsigned long)-results.host[0].power);
    expect("what is known", 1, results.media[3].known);
    expect("lost", 0x04081020,
           (unsigned)results.host_generator << 24 | results.media_generator << 16 | results.host_checker << 8 |
               results.media_checker);
    expect("its clock", 1, results.lost_clock);
    for (unsigned big = 0; big < 2; big++) {
        plan = looped();
        plan.shown = DOVECOUNTER_COUNTS_OF_MEDIA_5_TO_8;
        put_long(&pages[RESULTS][SHOWN - 128 + 32], 3, big);
        put_long(&pages[RESULTS][SHOWN - 128 + 40], 1ULL << 40, big);
        run_test(&plan, &test);
        dovecounter_link_results(&test, (uint8_t)(2 * big), &results);
        expect("its code", 5, pages[RESULTS][0]);
        expect("errors", 3, results.media[6].errors);
        expect("bits", 1, results.media[6].bits == 1ULL << 40);
        expect("counts", 2, results.media[6].known);
        expect("other counts", 0, results.media[2].known + results.host[6].known + (unsigned)results.host[6].errors);
        for (unsigned media = 0; media < 2; media++) {
            uint8_t *noise = &pages[RESULTS][SHOWN - 128 + 16 + 32 * media];
            plan = looped();
            plan.shown = media ? DOVECOUNTER_SIGNAL_TO_NOISE_OF_MEDIA : DOVECOUNTER_SIGNAL_TO_NOISE_OF_HOST;
            noise[!big] = 0x14, noise[big] = 0x80;
            run_test(&plan, &test);
            dovecounter_link_results(&test, (uint8_t)big, &results);
            const struct dovecounter_link_lane *shown = media ? results.media : results.host;
            const struct dovecounter_link_lane *other = media ? results.host : results.media;
            expect("the code of both", 6, pages[RESULTS][0]);
            expect("its noise", 0x1480, shown->noise);
            expect("noise", 4, shown->known);
            expect("of no other side", 0, other->known + (unsigned)other->noise);
        }
    }
}

static void try_capabilities(void) {
    struct dovecounter_link_capabilities can;
    const uint8_t bytes[12] = {0x51, 0xC0, 0x12, 0xFF, 0x01, 0x80, 0x02, 0x40, 0x04, 0x20, 0x08, 0x10};
    dovecounter_link_capabilities(0x20, bytes, &can);
    expect("patterns", 1,
           can.host_generator == 0x8001 && can.media_generator == 0x4002 && can.host_checker == 0x2004 &&
               can.media_checker == 0x1008);
    expect("loopbacks", 0x0101, can.loopbacks * 256U + can.diagnostics);
    expect("lanes", 101, can.single_host_lanes * 100U + can.single_media_lanes * 10U + can.both_sides);
    expect("results", 1101,
           can.counts * 1000U + can.host_noise * 100U + can.media_noise * 10U + can.gates + 10U * can.ratios);
    dovecounter_link_capabilities(0xDF, bytes, &can);
    expect("none", 0, (unsigned)can.host_generator | can.loopbacks | can.diagnostics | can.counts);
}

/* What is refused writes nothing. */
static void expect_refused(struct dovecounter_link_test *test) {
    struct dovecounter_link_test same = *test;
    struct dovecounter_operation operation = {.milliseconds = 7};
    struct dovecounter_link_end end = {.outcome = 7};
    struct dovecounter_link_changes changes = {.count = 7};
    struct dovecounter_link_results results = {.lost_clock = 7};
    const uint8_t bytes[2] = {0};
    expect("next", DOVECOUNTER_NO_CONVERSATION, dovecounter_link_test_next(test, &operation));
    expect("reply", DOVECOUNTER_NO_CONVERSATION, dovecounter_link_test_reply(test, 0, bytes, 0));
    expect("stop", DOVECOUNTER_NO_CONVERSATION, dovecounter_link_test_stop(test));
    expect("end", DOVECOUNTER_NO_CONVERSATION, dovecounter_link_test_end(test, &end));
    expect("changes", DOVECOUNTER_NO_CONVERSATION, dovecounter_link_test_changes(test, &changes));
    expect("results", DOVECOUNTER_NO_CONVERSATION, dovecounter_link_results(test, 0, &results));
    expect("what was there", 7, operation.milliseconds & end.outcome & changes.count & results.lost_clock);
    expect_same("the test", &same, test, sizeof same);
}

static void try_refusals(void) {
    struct dovecounter_link_test test = {0}, begun, same;
    struct dovecounter_operation operation;
    struct dovecounter_link_end end;
    const uint8_t bytes[2] = {0};
    struct dovecounter_link_plan plan = looped(), good = plan;
    expect_refused(&test);
    for (int i = 0; i < 7; i++) { /* each member that has no such number */
        plan = good;
        uint8_t *members[7] = {&plan.shown,     &plan.shown,   &plan.gate,    &plan.side,
                               &plan.generator, &plan.checker, &plan.loopback};
        *members[i] = (uint8_t[]){0, 8, 8, 2, 16, 254, 5}[i];
        expect("no plan", DOVECOUNTER_NO_CONVERSATION, dovecounter_link_test_begin(&plan, &patience, &test));
    }
    expect("nothing was begun", 0, test.magic);
    dovecounter_link_test_begin(&good, &patience, &begun);
    for (int i = 0; i < 12; i++) { /* and each of a test under way */
        test = begun;
        if (i == 11) test.magic++;
        uint8_t *members[12] = {&test.plan.count,    &test.plan.shown,         &test.plan.switches[0].control,
                                &test.stage,         &test.hand.what.control,  &test.fault,
                                &test.fault_control, &test.on_count,           &test.still_on_count,
                                &test.shown_count,   &test.on[0].what.control, &test.plan.count};
        if (i == 10) test.on_count = 1;
        if (i < 11) *members[i] = (uint8_t[]){17, 22, 143, 15, 176, 10, 178, 17, 17, 129, 184}[i];
        expect_refused(&test);
    }
    test = begun;
    expect("not ended", DOVECOUNTER_NOT_ENDED, dovecounter_link_test_end(&test, &end));
    expect("the first operation", DOVECOUNTER_DONE, dovecounter_link_test_next(&test, &operation));
    expect("the selection", 126, operation.offset);
    same = test;
    expect("a fetch", DOVECOUNTER_NO_REPLY, dovecounter_link_test_reply(&test, DOVECOUNTER_FETCHED, bytes, 2));
    expect("a wait", DOVECOUNTER_NO_REPLY, dovecounter_link_test_reply(&test, DOVECOUNTER_WAITED, bytes, 0));
    expect_same("the same test", &same, &test, sizeof same);
    expect("refused", DOVECOUNTER_DONE, dovecounter_link_test_reply(&test, DOVECOUNTER_REFUSED, bytes, 0));
    expect("a wait", DOVECOUNTER_DONE, dovecounter_link_test_next(&test, &operation));
    expect("a wait", DOVECOUNTER_WAIT, operation.kind);
    expect("no wait", DOVECOUNTER_NO_REPLY, dovecounter_link_test_reply(&test, DOVECOUNTER_REFUSED, bytes, 0));
    make_module();
    expect("a run", DOVECOUNTER_DONE, dovecounter_link_test_run(&test, transact, pause_for, NULL));
    expect("ended", DOVECOUNTER_ENDED, dovecounter_link_test_next(&test, &operation));
    expect("ended", DOVECOUNTER_ENDED, dovecounter_link_test_reply(&test, DOVECOUNTER_REFUSED, bytes, 0));
    expect("a stop then", DOVECOUNTER_DONE, dovecounter_link_test_stop(&test));
    expect("ended so", DOVECOUNTER_DONE, dovecounter_link_test_end(&test, &end));
    expect("ended so", DOVECOUNTER_LINK_TESTED, end.outcome);
}

/* Whatever the numbers are, each call returns, and what it stores is a control, the selector or the page selection. */
static void try_forged(void) {
    static const uint8_t controls[] = {144, 152, 160, 163, 168, 175, 177, 180, 183};
    struct dovecounter_link_plan plan = looped();
    struct dovecounter_link_test test, begun;
    struct dovecounter_operation operation;
    struct dovecounter_link_end end;
    struct dovecounter_link_changes changes;
    struct dovecounter_link_results results;
    uint8_t bytes[128] = {0}, *all = (uint8_t *)&test;
    dovecounter_link_test_begin(&plan, &patience, &begun);
    for (size_t at = 0; at < sizeof test; at++) all[at] = (uint8_t)(chance(3) ? chance(16) : chance(256));
    test.magic = begun.magic;
    test.plan.shown = (uint8_t)(1 + chance(7));
    test.plan.count %= 17, test.on_count %= 17, test.still_on_count %= 17, test.shown_count %= 129;
    test.stage %= 15, test.fault %= 10;
    for (unsigned i = 0; i < 16; i++) {
        test.plan.switches[i].control = controls[chance(9)];
        test.on[i].what.control = controls[chance(9)], test.still_on[i].what.control = controls[chance(9)];
    }
    test.hand.what.control = controls[chance(9)], test.fault_control = controls[chance(9)];
    for (int turn = 0; turn < 20 && dovecounter_link_test_next(&test, &operation) == DOVECOUNTER_DONE; turn++) {
        uint8_t outcome = operation.kind == DOVECOUNTER_WAIT    ? DOVECOUNTER_WAITED
                          : chance(4) == 0                      ? DOVECOUNTER_REFUSED
                          : operation.kind == DOVECOUNTER_STORE ? DOVECOUNTER_STORED
                                                                : DOVECOUNTER_FETCHED;
        expect("a control, the selector or a page", 1,
               operation.kind != DOVECOUNTER_STORE || (operation.offset >= 126 && operation.offset <= 128) ||
                   (operation.offset >= FIRST_CONTROL && operation.offset <= LAST_CONTROL));
        if (chance(16) == 0) expect("a stop", DOVECOUNTER_DONE, dovecounter_link_test_stop(&test));
        if (dovecounter_link_test_next(&test, &operation) != DOVECOUNTER_DONE) break;
        dovecounter_link_test_reply(&test, outcome, bytes, operation.count);
    }
    dovecounter_link_test_end(&test, &end);
    expect("its changes", DOVECOUNTER_DONE, dovecounter_link_test_changes(&test, &changes));
    expect("what it showed", DOVECOUNTER_DONE, dovecounter_link_results(&test, (uint8_t)chance(2), &results));
}

/* ---- by chance ---- */

static uint8_t hosts_of(const struct dovecounter_link_plan *plan, bool media, uint8_t lanes) {
    unsigned hosts = 0;
    for (unsigned lane = 0; lane < 8; lane++)
        if (lanes >> lane & 1) hosts |= media ? plan->media_paths[lane] : 1U << lane;
    return (uint8_t)hosts;
}

/* The host lanes of what is disturbed. */
static uint8_t disturbed(const struct dovecounter_link_plan *plan) {
    bool has_pattern = plan->generator != DOVECOUNTER_NO_PATTERN || plan->checker != DOVECOUNTER_NO_PATTERN;
    bool is_looped = plan->loopback != DOVECOUNTER_NO_LOOPBACK,
         of_media = plan->loopback <= DOVECOUNTER_MEDIA_SIDE_INPUT;
    return (uint8_t)((has_pattern ? hosts_of(plan, plan->side == DOVECOUNTER_MEDIA_SIDE, plan->lanes) : 0) |
                     (is_looped ? hosts_of(plan, of_media, plan->looped) : 0));
}

/* The bits of page 13h that the plan is about. */
static void find_masks(const struct dovecounter_link_plan *plan, uint8_t masks[128]) {
    const uint8_t codes[2] = {plan->generator, plan->checker};
    memset(masks, 0, 128);
    masks[177 - 128] = 0x0E;
    if (plan->loopback != DOVECOUNTER_NO_LOOPBACK) masks[179 - 128 + plan->loopback] = plan->looped;
    for (unsigned unit = 0; unit < 2; unit++) {
        unsigned first = 144 - 128 + 16 * unit + (plan->side == DOVECOUNTER_MEDIA_SIDE ? 8 : 0);
        if (codes[unit] == DOVECOUNTER_NO_PATTERN) continue;
        masks[first] = plan->lanes;
        for (unsigned lane = 0; lane < 8; lane++)
            if (plan->lanes >> lane & 1) masks[first + 4 + lane / 2] |= lane % 2 ? 0xF0 : 0x0F;
    }
}

static struct dovecounter_link_plan plan_by_chance(void) {
    struct dovecounter_link_plan plan = {.period = 1000,
                                         .rounds = (uint8_t)chance(4),
                                         .shown = (uint8_t)(1 + chance(7) + 16 * chance(2)),
                                         .gate = (uint8_t)(chance(3) ? 0 : chance(8)),
                                         .side = (uint8_t)chance(2),
                                         .lanes = (uint8_t)chance(256),
                                         .generator = (uint8_t)(chance(4) ? chance(16) : DOVECOUNTER_NO_PATTERN),
                                         .checker = (uint8_t)(chance(4) ? chance(16) : DOVECOUNTER_NO_PATTERN),
                                         .loopback = (uint8_t)chance(5),
                                         .looped = (uint8_t)(chance(2) ? 0xFF : chance(256)),
                                         .permitted = (uint8_t)(chance(3) ? chance(256) : 0),
                                         .tries = (uint8_t)chance(4)};
    if (plan.shown > 21) plan.shown = 21;
    for (unsigned i = 0; i < 8; i++) plan.media_paths[i] = (uint8_t)(chance(2) ? 0xFF : chance(256));
    return plan;
}

static void damage_by_chance(void) {
    for (unsigned i = 0; i < 4 && chance(2); i++) pages[STATES][i] = (uint8_t)(chance(3) ? 0x44 : chance(256));
    for (unsigned i = 0; chance(3) == 0 && i < 12; i++) pages[CONTROLS][i] = (uint8_t)chance(256);
    for (unsigned at = FIRST_CONTROL - 128; at <= LAST_CONTROL - 128 && chance(4); at++)
        pages[CONTROLS][at] = (uint8_t)(chance(2) ? 0 : chance(256));
    refuses = chance(2) ? 0 : chance(chance(4) ? 20 : 60);
    forgets = chance(2) ? 0 : chance(100);
    stuck = chance(12) == 0;
    holds = chance(8) == 0;
    deaf_after = chance(6) ? 0 : 1 + chance(200);
    stop_at = chance(3) ? 0 : 2 + chance(120);
}

static const struct dovecounter_link_change *named(const struct dovecounter_link_changes *left, unsigned control) {
    for (unsigned i = 0; i < left->count; i++)
        if (left->changes[i].what.control == control) return &left->changes[i];
    return NULL;
}

static unsigned ended[12];

static void test_by_chance(void) {
    struct dovecounter_link_test test;
    struct dovecounter_link_changes left;
    uint8_t masks[128];
    make_module();
    const struct dovecounter_link_plan plan = plan_by_chance();
    damage_by_chance();
    const struct dovecounter_link_end end = run_test(&plan, &test);
    ended[end.outcome % 12]++;
    expect("what may be on", DOVECOUNTER_DONE, dovecounter_link_test_changes(&test, &left));
    find_masks(&plan, masks);
    for (unsigned at = 0; at < 128; at++) {
        const struct dovecounter_link_change *name = named(&left, at + 128);
        expect("a neighbour's bit", 0, astray[at] & (uint8_t)~masks[at]);
        if (name == NULL)
            expect("left on and not named", before[at], pages[CONTROLS][at]);
        else
            expect("a byte before", before[at], name->original);
    }
    expect("what was disturbed", 0, stores > 0 ? disturbed(&plan) & lanes_up() & (uint8_t)~plan.permitted : 0);
    if (end.outcome >= DOVECOUNTER_LINK_NO_PAGES && end.outcome <= DOVECOUNTER_LINK_NOT_PERMITTED)
        expect("stores of a refused plan", 0, stores);
    if (end.outcome == DOVECOUNTER_LINK_TESTED) expect("readings", plan.rounds > 1 ? plan.rounds : 1, readings);
    if (end.outcome == DOVECOUNTER_LINK_NOT_PERMITTED)
        expect("a refusal without need", 1, (disturbed(&plan) & lanes_up() & (uint8_t)~plan.permitted) != 0);
}

int main(int count, char **words) {
    unsigned tests = count > 1 ? (unsigned)atoi(words[1]) : 5000;
    state = count > 2 ? strtoull(words[2], NULL, 0) | 1 : 88172645463325252u;
    try_ends();
    try_changes();
    try_results();
    try_capabilities();
    try_refusals();
    for (unsigned i = 0; i < tests && failures < 10; i++) try_forged();
    for (unsigned i = 0; i < tests && failures < 10; i++) test_by_chance();
    printf("links: %u by chance; at the end, from tested to given up:", tests);
    for (int outcome = 0; outcome < 12; outcome++) printf(" %u", ended[outcome]);
    printf("\n");
    static const int by_chance[] = {0, 3, 4, 6, 7, 8, 10};
    for (int i = 0; i < 7; i++) expect("an end that never came", 1, ended[by_chance[i]] > 0);
    return judged("links");
}
