/* Changes of single lanes through the library for firmware. `lanes [COUNT] [SEED]` first tries what each call answers, and each kind of
   end; then COUNT changes by chance, 5,000 where nothing is said, of a module that refuses, takes no stores, forgets its page, and whose
   paths are up or down. No bit but those of the lanes may change, and no store may disturb a lane that is up without permission. */
#include "expect.h"

#include <stdbool.h>
#include <stdlib.h>

static uint64_t state;

static unsigned chance(unsigned below) {
    state ^= state << 13, state ^= state >> 7, state ^= state << 17;
    return (unsigned)(state >> 33) % below;
}

/* ---- the module and its bus ---- */

static const uint8_t address_of[8] = {129, 130, 131, 132, 134, 137, 138, 139};

static uint8_t controls[128], states[128]; /* pages 10h and 11h */
static uint8_t selected[2];                /* bank and page */
static unsigned refuses, forgets;          /* of 100 transactions */
static bool deaf, stuck;                   /* it refuses all; it takes no store of a control */
static unsigned stores;                    /* of controls, of which something came */
static uint8_t up_at_store;                /* the lanes that were up at one of them */

static uint8_t *byte_at(uint8_t address) {
    static uint8_t nothing;
    if (address == 126 || address == 127) return &selected[address - 126];
    if (address < 128 || selected[0] != 0) return &nothing;
    return selected[1] == 0x10 ? &controls[address - 128] : selected[1] == 0x11 ? &states[address - 128] : &nothing;
}

static uint8_t lanes_up(void) {
    unsigned up = 0;
    for (unsigned lane = 0; lane < 8; lane++)
        if ((states[lane / 2] >> 4 * (lane % 2) & 15) != 1) up |= 1U << lane;
    return (uint8_t)up;
}

static void store_one(uint8_t address, uint8_t byte) {
    if (address != 126 && address != 127) {
        expect("a store on page 10h", 0x0010, selected[0] * 256U + selected[1]);
        if (stuck) return;
        stores++;
        up_at_store |= lanes_up();
    }
    *byte_at(address) = byte;
}

static uint8_t transact(void *context, const struct dovecounter_operation *operation, uint8_t bytes[128]) {
    (void)context;
    bool is_store = operation->kind == DOVECOUNTER_STORE, refused = deaf || chance(100) < refuses;
    expect("the device", 0xA0, operation->device);
    unsigned taken = !refused ? operation->count : deaf ? 0 : chance(operation->count + 1U);
    for (unsigned i = 0; i < taken; i++) {
        uint8_t address = (uint8_t)(operation->offset + i);
        if (is_store)
            store_one(address, operation->bytes[i]);
        else
            bytes[i] = *byte_at(address);
    }
    if (refused && chance(100) < forgets) selected[0] = selected[1] = 0;
    return refused ? DOVECOUNTER_REFUSED : is_store ? DOVECOUNTER_STORED : DOVECOUNTER_FETCHED;
}

static void pause_for(void *context, uint32_t milliseconds) {
    (void)context;
    expect("a pause", 10, milliseconds);
}

static void make_module(void) {
    refuses = forgets = stores = 0;
    deaf = stuck = false;
    selected[0] = selected[1] = up_at_store = 0;
    for (unsigned i = 0; i < 128; i++) controls[i] = (uint8_t)chance(256), states[i] = (uint8_t)chance(256);
    memset(states, 0x11, 4);
}

/* ---- changes ---- */

static const struct dovecounter_patience patience = {.pause = 10, .limit = 1000};

static struct dovecounter_lane_end run_change(const struct dovecounter_lane_change *change) {
    struct dovecounter_changing_lanes changing;
    struct dovecounter_lane_end end = {.outcome = 99};
    expect("a beginning", DOVECOUNTER_DONE, dovecounter_lane_begin(change, &patience, &changing));
    expect("a run", DOVECOUNTER_DONE, dovecounter_lane_run(&changing, transact, pause_for, NULL));
    expect("an end", DOVECOUNTER_DONE, dovecounter_lane_end(&changing, &end));
    return end;
}

static void expect_end(const char *what, struct dovecounter_lane_end wanted, struct dovecounter_lane_end found) {
    expect(what, wanted.outcome, found.outcome);
    expect(what, wanted.byte, found.byte);
    expect(what, wanted.lanes, found.lanes);
    expect(what, wanted.stores, found.stores);
}

/* Lanes 3 and 4 of a transmitter are switched off, where media lane 3 belongs to the path of host lane 5. */
static struct dovecounter_lane_change outputs_off(void) {
    struct dovecounter_lane_change change = {DOVECOUNTER_OUTPUT_DISABLE_TX, 0x0C, 1, 3, 0, {0, 0, 0x10}};
    make_module();
    controls[2] = 0x81;
    return change;
}

static void try_ends(void) {
    struct dovecounter_lane_change change = outputs_off();
    expect_end("changed", (struct dovecounter_lane_end){DOVECOUNTER_LANES_CHANGED, 0x8D, 0, 1}, run_change(&change));
    expect_end("unchanged", (struct dovecounter_lane_end){DOVECOUNTER_LANES_UNCHANGED, 0x8D, 0, 0},
               run_change(&change));
    change.on = 2;
    expect_end("off again", (struct dovecounter_lane_end){DOVECOUNTER_LANES_CHANGED, 0x81, 0, 1}, run_change(&change));
    change = outputs_off();
    stuck = true;
    expect_end("ignored", (struct dovecounter_lane_end){DOVECOUNTER_LANES_IGNORED, 0x81, 0, 3}, run_change(&change));
    change = outputs_off();
    states[2] = 0x14;
    expect_end("not permitted", (struct dovecounter_lane_end){DOVECOUNTER_LANES_NOT_PERMITTED, 0x81, 0x10, 0},
               run_change(&change));
    change.permitted = 0x10;
    expect_end("permitted", (struct dovecounter_lane_end){DOVECOUNTER_LANES_CHANGED, 0x8D, 0, 1}, run_change(&change));
    change = outputs_off();
    states[1] = 0x41;
    expect_end("another path", (struct dovecounter_lane_end){DOVECOUNTER_LANES_CHANGED, 0x8D, 0, 1},
               run_change(&change));
    change = outputs_off();
    change.control = DOVECOUNTER_OUTPUT_DISABLE_RX;
    states[1] = 0x41;
    controls[10] = 0x81;
    expect_end("host lanes", (struct dovecounter_lane_end){DOVECOUNTER_LANES_NOT_PERMITTED, 0x81, 0x08, 0},
               run_change(&change));
    change = outputs_off();
    deaf = true;
    expect_end("overdue", (struct dovecounter_lane_end){DOVECOUNTER_LANES_OVERDUE, 0, 0, 0}, run_change(&change));
}

/* Each control stands at its address, and is of its side: media lane 1 belongs to the path of host lane 8. */
static void try_controls(void) {
    for (uint8_t control = 0; control < 8; control++) {
        struct dovecounter_lane_change change = {control, 1, 1, 1, 0, {0x80}};
        bool of_media = control >= DOVECOUNTER_OUTPUT_DISABLE_TX && control <= DOVECOUNTER_OUTPUT_SQUELCH_FORCE_TX;
        make_module();
        controls[address_of[control] - 128] = 0x10;
        states[of_media ? 3 : 0] = of_media ? 0x41 : 0x14;
        expect("its side", of_media ? 0x80 : 0x01, run_change(&change).lanes);
        change.permitted = 0xFF;
        expect("its byte", DOVECOUNTER_LANES_CHANGED, run_change(&change).outcome);
        expect("its address", 0x11, controls[address_of[control] - 128]);
    }
}

/* What is refused writes nothing. */
static void try_refusals(void) {
    struct dovecounter_changing_lanes changing = {0}, before;
    struct dovecounter_operation operation = {.milliseconds = 7};
    struct dovecounter_lane_end end = {.outcome = 7};
    struct dovecounter_lane_change change = outputs_off();
    const uint8_t bytes[2] = {0};
    change.control = 8;
    expect("no control", DOVECOUNTER_NO_CONVERSATION, dovecounter_lane_begin(&change, &patience, &changing));
    for (int i = 0; i < 2; i++) { /* zeros, and a control that isn't there */
        before = changing;
        expect("next", DOVECOUNTER_NO_CONVERSATION, dovecounter_lane_next(&changing, &operation));
        expect("reply", DOVECOUNTER_NO_CONVERSATION, dovecounter_lane_reply(&changing, 0, bytes, 0));
        expect("end", DOVECOUNTER_NO_CONVERSATION, dovecounter_lane_end(&changing, &end));
        expect_same("the change", &before, &changing, sizeof changing);
        change.control = 7;
        dovecounter_lane_begin(&change, &patience, &changing);
        changing.change.control = 8;
    }
    expect("what was there", 7, operation.milliseconds & end.outcome);
    dovecounter_lane_begin(&change, &patience, &changing);
    before = changing;
    expect("not ended", DOVECOUNTER_NOT_ENDED, dovecounter_lane_end(&changing, &end));
    expect("the first operation", DOVECOUNTER_DONE, dovecounter_lane_next(&changing, &operation));
    expect("the selection", 126, operation.offset);
    expect("a fetch", DOVECOUNTER_NO_REPLY, dovecounter_lane_reply(&changing, DOVECOUNTER_FETCHED, bytes, 2));
    expect("a wait", DOVECOUNTER_NO_REPLY, dovecounter_lane_reply(&changing, DOVECOUNTER_WAITED, bytes, 0));
    expect_same("the same change", &before, &changing, sizeof changing);
    expect("refused", DOVECOUNTER_DONE, dovecounter_lane_reply(&changing, DOVECOUNTER_REFUSED, bytes, 0));
    expect("a wait", DOVECOUNTER_DONE, dovecounter_lane_next(&changing, &operation));
    expect("a wait", DOVECOUNTER_WAIT, operation.kind);
    expect("no wait", DOVECOUNTER_NO_REPLY, dovecounter_lane_reply(&changing, DOVECOUNTER_REFUSED, bytes, 0));
    dovecounter_lane_run(&changing, transact, pause_for, NULL);
    expect("ended", DOVECOUNTER_ENDED, dovecounter_lane_next(&changing, &operation));
    expect("ended", DOVECOUNTER_ENDED, dovecounter_lane_reply(&changing, DOVECOUNTER_REFUSED, bytes, 0));
}

/* Whatever the numbers are, each call returns, and what it stores is a control or the page selection. */
static void try_forged(void) {
    struct dovecounter_lane_change change = outputs_off();
    struct dovecounter_changing_lanes changing, begun;
    struct dovecounter_operation operation;
    struct dovecounter_lane_end end;
    uint8_t bytes[128] = {0};
    dovecounter_lane_begin(&change, &patience, &begun);
    uint8_t *all = (uint8_t *)&changing;
    for (size_t at = 0; at < sizeof changing; at++) all[at] = (uint8_t)(chance(3) ? chance(10) : chance(256));
    changing.magic = begun.magic;
    for (int turn = 0; turn < 20 && dovecounter_lane_next(&changing, &operation) == DOVECOUNTER_DONE; turn++) {
        uint8_t outcome = operation.kind == DOVECOUNTER_WAIT    ? DOVECOUNTER_WAITED
                          : chance(4) == 0                      ? DOVECOUNTER_REFUSED
                          : operation.kind == DOVECOUNTER_STORE ? DOVECOUNTER_STORED
                                                                : DOVECOUNTER_FETCHED;
        expect("a control or a page", 1,
               operation.kind != DOVECOUNTER_STORE || operation.offset == 126 || operation.offset == 127 ||
                   memchr(address_of, operation.offset, 8) != NULL);
        expect("a reply", DOVECOUNTER_DONE, dovecounter_lane_reply(&changing, outcome, bytes, operation.count));
    }
    dovecounter_lane_end(&changing, &end);
}

/* ---- by chance ---- */

static uint8_t concerned(const struct dovecounter_lane_change *change) {
    unsigned hosts = 0;
    if (change->control < 1 || change->control > 3) return change->lanes;
    for (unsigned lane = 0; lane < 8; lane++)
        if (change->lanes >> lane & 1) hosts |= change->media_paths[lane];
    return (uint8_t)hosts;
}

static unsigned ended[7];

static void change_by_chance(void) {
    struct dovecounter_lane_change change = {(uint8_t)chance(8),
                                             (uint8_t)chance(256),
                                             (uint8_t)chance(2),
                                             (uint8_t)chance(5),
                                             (uint8_t)(chance(3) ? chance(256) : 0),
                                             {0}};
    uint8_t before[128], wanted[128];
    make_module();
    for (unsigned i = 0; i < 8; i++) change.media_paths[i] = (uint8_t)(chance(2) ? 0xFF : chance(256));
    for (unsigned i = 0; i < 4 && chance(2); i++) states[i] = (uint8_t)(chance(3) ? 0x44 : chance(256));
    refuses = chance(2) ? 0 : chance(chance(4) ? 20 : 60);
    forgets = chance(2) ? 0 : chance(100);
    stuck = chance(8) == 0;
    deaf = chance(50) == 0;
    unsigned at = address_of[change.control] - 128U;
    memcpy(before, controls, sizeof before);
    memcpy(wanted, controls, sizeof wanted);
    wanted[at] = (uint8_t)((before[at] & ~change.lanes) | (change.on == 1 ? change.lanes : 0));
    uint8_t forbidden = (uint8_t)(concerned(&change) & lanes_up() & ~change.permitted);
    const struct dovecounter_lane_end end = run_change(&change);
    ended[end.outcome % 7]++;
    if (stores == 0)
        expect_same("each byte", before, controls, sizeof before);
    else
        expect_same("each other bit", wanted, controls, sizeof wanted);
    expect("what was disturbed", 0, stores > 0 ? concerned(&change) & up_at_store & (uint8_t)~change.permitted : 0);
    expect("more stores", 1, stores <= end.stores && end.stores <= change.most_stores);
    if (end.outcome <= DOVECOUNTER_LANES_CHANGED) expect("a false success", wanted[at], controls[at]);
    if (end.outcome <= DOVECOUNTER_LANES_NOT_PERMITTED) expect("the byte", controls[at], end.byte);
    expect("the lanes", end.outcome == DOVECOUNTER_LANES_NOT_PERMITTED ? forbidden : 0, end.lanes);
    if (refuses == 0 && !deaf && !stuck && change.most_stores > 0)
        expect("an end without need", 1,
               before[at] == wanted[at] ? end.outcome == DOVECOUNTER_LANES_UNCHANGED
               : forbidden != 0         ? end.outcome == DOVECOUNTER_LANES_NOT_PERMITTED
                                        : end.outcome == DOVECOUNTER_LANES_CHANGED);
}

int main(int count, char **words) {
    unsigned changes = count > 1 ? (unsigned)atoi(words[1]) : 5000;
    state = count > 2 ? strtoull(words[2], NULL, 0) | 1 : 88172645463325252u;
    try_ends();
    try_controls();
    try_refusals();
    for (unsigned i = 0; i < changes && failures < 10; i++) try_forged();
    for (unsigned i = 0; i < changes && failures < 10; i++) change_by_chance();
    printf("lanes: %u by chance; at the end, from unchanged to given up:", changes);
    for (int outcome = 0; outcome < 7; outcome++) printf(" %u", ended[outcome]);
    printf("\n");
    for (int outcome = 0; outcome < 6; outcome++) expect("an end that never came", 1, ended[outcome] > 0);
    return judged("lanes");
}
