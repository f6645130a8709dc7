/* Readings of statistics (VDM) through the library for firmware. `vdm [COUNT] [SEED]` first tries what each call answers and each kind of
   end; then COUNT readings by chance, 5,000 where nothing is said, of one bank of a module, which has one to four groups in it, made from
   examples/osfp_800g_vdm.txt, whose statistics change at each transaction while they aren't frozen. It takes some transactions to freeze
   them, refuses at random, forgets its page, lacks pages, clears its flags when they are read, or falls silent. Whatever happens, what is
   called frozen decodes to what was frozen, no other bit was stored, and no freeze is left on that isn't named. */
#include "expect.h"
#include "image.h"

#include <stdbool.h>
#include <stdlib.h>

static uint64_t state;

static unsigned chance(unsigned below) {
    state ^= state << 13, state ^= state >> 7, state ^= state << 17;
    return (unsigned)(state >> 33) % below;
}

/* ---- the module and its bus ---- */

enum {
    ADVERTISED = 0x01,
    DESCRIPTORS = 0x20,
    SAMPLES = 0x24,
    LIMITS = 0x28,
    FLAGS = 0x2C,
    GROUPS = 0x2F,
    PAGES = 0x30
};
enum { CONTROL = 144, DONE = 145, MOST_OPERATIONS = 759, NEVER = 1000 };

static uint8_t lower[128], pages[PAGES][128];
static bool has_page[PAGES];
static unsigned groups;
static uint8_t bank; /* which has pages 20h to 2Fh; the others are in bank 0 */
static uint8_t frozen[PAGES][128],
    given[PAGES][128]; /* as they were when they were frozen; as they were fetched last */
static uint8_t selected[2];
static uint8_t control;                         /* byte 144 before the reading */
static bool is_frozen, is_going;                /* frozen; freezing or going on again */
static unsigned left, slow;                     /* transactions until that is done; how long it takes at most */
static unsigned refuses, forgets, made, stores; /* the first two of 100 transactions */
static unsigned deaf_after;                     /* so many transactions it refuses all; 0 for none */
static uint8_t deaf_page;                       /* the page of which it gives no half; 0 for none */
static unsigned takes;                          /* so many stores of byte 144 it takes */

static void change_statistics(void) {
    for (unsigned page = SAMPLES; page < SAMPLES + 4; page++)
        for (unsigned i = 0; i < 128; i++) pages[page][i] = (uint8_t)chance(256);
    pages[FLAGS][chance(128)] |= (uint8_t)chance(256);
}

static void pass(void) {
    if (is_going && left > 0) left--;
    if (is_going && left == 0) {
        is_going = false;
        is_frozen = pages[GROUPS][CONTROL - 128] >= 0x80;
        if (is_frozen) memcpy(frozen, pages, sizeof frozen);
    }
    if (!is_frozen) change_statistics();
    pages[GROUPS][DONE - 128] = is_going ? 0 : is_frozen ? 0x80 : 0x40;
}

/* Of a page that the module hasn't got, page 00h is shown. */
static uint8_t *byte_at(uint8_t address) {
    if (address == 126 || address == 127) return &selected[address - 126];
    return address < 128 ? &lower[address] : &pages[selected[1]][address - 128];
}

static void store_control(uint8_t byte) {
    uint8_t *place = &pages[GROUPS][CONTROL - 128];
    expect("a page", GROUPS, selected[1]);
    expect("other bits of the control", control & 0x7F, byte & 0x7F);
    stores++;
    if ((*place ^ byte) & 0x80) is_going = true, left = slow == NEVER ? NEVER : chance(slow + 1);
    *place = byte;
}

static uint8_t bank_of(uint8_t page) { return page >= DESCRIPTORS ? bank : 0; }

static void store(const struct dovecounter_operation *operation) {
    if (operation->offset != 126) {
        expect("an address", CONTROL, operation->offset);
        expect("a byte", 1, operation->count);
        store_control(operation->bytes[0]);
        return;
    }
    expect("bytes of a selection", 2, operation->count);
    expect("the bank", bank_of(operation->bytes[1]), operation->bytes[0]);
    selected[1] = operation->bytes[1] < PAGES && has_page[operation->bytes[1]] ? operation->bytes[1] : 0;
    selected[0] = bank_of(selected[1]);
}

static void fetch(const struct dovecounter_operation *operation, uint8_t bytes[128]) {
    for (unsigned i = 0; i < operation->count; i++) bytes[i] = *byte_at((uint8_t)(operation->offset + i));
    if (operation->count == 128) memcpy(given[selected[1]], bytes, 128);
    if (operation->count == 128 && selected[1] == FLAGS) memset(pages[FLAGS], 0, 128);
}

static bool is_deaf_to(const struct dovecounter_operation *operation) {
    bool is_store = operation->kind == DOVECOUNTER_STORE;
    if (deaf_after > 0 && made > deaf_after) return true;
    if (is_store && operation->offset == CONTROL) return stores >= takes;
    return !is_store && operation->count == 128 && deaf_page != 0 && selected[1] == deaf_page;
}

/* What is refused may have been taken. */
static uint8_t transact(void *context, const struct dovecounter_operation *operation, uint8_t bytes[128]) {
    (void)context;
    bool is_store = operation->kind == DOVECOUNTER_STORE;
    made++;
    pass();
    bool is_deaf = is_deaf_to(operation), refused = is_deaf || chance(100) < refuses;
    expect("the device", 0xA0, operation->device);
    if (is_store && !is_deaf && (!refused || chance(2))) store(operation);
    if (!is_store && !refused) fetch(operation, bytes);
    if (refused && chance(100) < forgets) selected[0] = selected[1] = 0;
    return refused ? DOVECOUNTER_REFUSED : is_store ? DOVECOUNTER_STORED : DOVECOUNTER_FETCHED;
}

static void pause_for(void *context, uint32_t milliseconds) {
    (void)context;
    expect("a pause", 10, milliseconds);
}

static const struct dovecounter_half *example(uint8_t upper, uint8_t page) {
    for (size_t i = 0; i < half_count; i++)
        if (halves[i].device == 0xA0 && halves[i].upper == upper && halves[i].page == page) return &halves[i];
    return NULL;
}

/* The pages of a group are those of the example, or by chance. */
static void make_pages(void) {
    for (unsigned page = 0; page < PAGES; page++) {
        unsigned like = page >= DESCRIPTORS && page < FLAGS ? page & ~3U : page;
        const struct dovecounter_half *half = example(1, (uint8_t)like);
        has_page[page] = half != NULL && (like == page || page % 4 < groups);
        for (unsigned i = 0; i < 128; i++)
            pages[page][i] = half == NULL ? 0 : like == page ? half->bytes[i] : (uint8_t)chance(256);
    }
}

static void make_module(unsigned of_groups) {
    groups = of_groups;
    bank = 0;
    memcpy(lower, example(0, 0)->bytes, sizeof lower);
    make_pages();
    control = (uint8_t)chance(128);
    pages[GROUPS][128 - 128] = (uint8_t)(groups - 1);
    pages[GROUPS][CONTROL - 128] = control;
    memset(given, 0, sizeof given);
    selected[0] = selected[1] = 0;
    is_frozen = is_going = false;
    left = refuses = forgets = made = stores = deaf_after = 0;
    deaf_page = 0;
    takes = 2;
    slow = 5;
}

/* ---- readings ---- */

static struct dovecounter_half found[DOVECOUNTER_MOST_VDM + 1];
static struct dovecounter_vdm reading;

/* A freeze was asked for, and no release. */
static bool may_be_frozen(void) { return pages[GROUPS][CONTROL - 128] >= 0x80; }

static bool was_asked; /* by an earlier reading */

static void expect_named(void) {
    if (may_be_frozen() && !was_asked) expect("a freeze that is named", DOVECOUNTER_VDM_MAY_BE_FROZEN, reading.release);
}

/* As dovecounter_vdm_run does, but that it looks after each operation whether a freeze is named. */
static struct dovecounter_vdm_end run(void) {
    struct dovecounter_vdm_end end = {9, 9, 99, {0}};
    struct dovecounter_operation operation;
    uint8_t bytes[128];
    while (dovecounter_vdm_next(&reading, found, &operation) == DOVECOUNTER_DONE) {
        uint8_t outcome = DOVECOUNTER_WAITED;
        if (operation.kind == DOVECOUNTER_WAIT)
            pause_for(NULL, operation.milliseconds);
        else
            outcome = transact(NULL, &operation, bytes);
        expect("a reply", DOVECOUNTER_DONE, dovecounter_vdm_reply(&reading, found, outcome, bytes, operation.count));
        expect_named();
    }
    expect("operations", 1, made <= MOST_OPERATIONS);
    expect("an end", DOVECOUNTER_DONE, dovecounter_vdm_end(&reading, found, &end));
    expect("the release at the end", reading.release, end.release);
    return end;
}

static struct dovecounter_vdm_end read_all(void) {
    memset(&reading, 0xA5, sizeof reading);
    memset(found, 0xA5, sizeof found);
    was_asked = may_be_frozen();
    dovecounter_vdm_begin(10, bank, &reading);
    expect("its bank", bank, reading.bank);
    return run();
}

static void expect_end(const char *what, unsigned statistics, unsigned release, unsigned missing,
                       struct dovecounter_vdm_end end) {
    expect(what, statistics, end.statistics);
    expect("its release", release, end.release);
    expect("pages that are missing", missing, end.missing_count);
    for (unsigned i = end.missing_count; i < 16; i++) expect("zeros after them", 0, end.missing[i]);
}

/* A page by its number. */
static unsigned numbered(unsigned page) { return 256U * bank + page; }

static bool is_statistic(unsigned number) { return number >= numbered(DESCRIPTORS) && number <= numbered(FLAGS); }

/* Each half is as it was fetched. */
static void expect_halves(void) {
    for (unsigned i = 0; i < reading.halves; i++) {
        expect("a half of device A0", 0xA0, found[i].device);
        expect("an upper half", 1, found[i].upper);
        expect("a half of its bank", bank_of(found[i].page), found[i].bank);
        expect("a half that the module has", 1, found[i].page < PAGES && has_page[found[i].page]);
        expect_same("a half", given[found[i].page], found[i].bytes, 128);
    }
}

static bool is_missing(const struct dovecounter_vdm_end *end, uint8_t page) {
    for (unsigned i = 0; i < end->missing_count; i++)
        if (end->missing[i] == numbered(page)) return true;
    return false;
}

static struct dovecounter_half of_page(uint8_t page, const uint8_t bytes[128]) {
    struct dovecounter_half half = {.device = 0xA0, .upper = 1, .bank = bank_of(page), .page = page};
    memcpy(half.bytes, bytes, 128);
    return half;
}

/* The halves as they were when they were frozen, but for flags, which go by what was fetched. Answers how many. */
static size_t put_frozen(const struct dovecounter_vdm_end *end, struct dovecounter_half all[16]) {
    size_t count = 0;
    all[count++] = of_page(0, lower), all[0].upper = 0;
    all[count++] = of_page(ADVERTISED, pages[ADVERTISED]);
    all[count++] = of_page(GROUPS, pages[GROUPS]);
    for (uint8_t page = DESCRIPTORS; page <= FLAGS; page++)
        if ((page == FLAGS || page % 4 < groups) && !is_missing(end, page))
            all[count++] = of_page(page, page == FLAGS ? given[page] : frozen[page]);
    return count;
}

/* A bank has the lanes from 8 * bank + 1 on; a descriptor may name sixteen. */
static bool is_in_bank(const struct dovecounter_observable *one) {
    return one->lane == 0 || (one->lane > 8 * bank && one->lane <= 8 * bank + 16);
}

/* What is decoded is what was frozen. Answers how many of it are of lanes, or of data paths. */
static unsigned expect_decoded(const struct dovecounter_vdm_end *end) {
    struct dovecounter_half all[16];
    unsigned of_lanes = 0;
    struct dovecounter_observable one, other;
    uint16_t place = DOVECOUNTER_FIRST_INSTANCE, other_place = place;
    size_t count = put_frozen(end, all);
    found[reading.halves] = all[0];
    expect("halves", reading.halves + 1U, count);
    do {
        memset(&one, 0, sizeof one), memset(&other, 0, sizeof other);
        expect("a decoding", 0, dovecounter_observables(found, reading.halves + 1U, &place, &one));
        expect("another decoding", 0, dovecounter_observables(all, count, &other_place, &other));
        expect("its place", other_place, place);
        expect_same("an observation", &other, &one, sizeof one);
        expect("a lane of the bank", 1, place == 0 || is_in_bank(&one));
        of_lanes += place != 0 && one.lane != 0;
    } while (place != 0 && failures == 0);
    return of_lanes;
}

/* ---- each kind of end ---- */

static void try_ends(void) {
    make_module(1);
    struct dovecounter_vdm_end end = read_all();
    expect_end("all", DOVECOUNTER_VDM_FROZEN, DOVECOUNTER_VDM_RELEASED, 0, end);
    expect("stores", 2, stores);
    expect("halves of one group", 6, reading.halves);
    expect_halves();
    expect_decoded(&end);
    make_module(4), bank = 3;
    expect_end("all of four groups", DOVECOUNTER_VDM_FROZEN, DOVECOUNTER_VDM_RELEASED, 0, read_all());
    expect("halves of four groups", DOVECOUNTER_MOST_VDM, reading.halves);
    make_module(2), pages[ADVERTISED][142 - 128] &= 0xBF;
    expect_end("none", DOVECOUNTER_VDM_UNSUPPORTED, DOVECOUNTER_VDM_NEVER_FROZEN, 0, read_all());
    expect("stores of none", 0, stores);
    make_module(2), deaf_page = ADVERTISED;
    expect_end("an unknown one", DOVECOUNTER_VDM_UNKNOWN, DOVECOUNTER_VDM_NEVER_FROZEN, 0, read_all());
    make_module(2), deaf_page = GROUPS;
    expect_end("unknown groups", DOVECOUNTER_VDM_UNKNOWN, DOVECOUNTER_VDM_NEVER_FROZEN, 0, read_all());
    expect("operations: a selection, its reading back and a fetch, and three times those", 12, made);
    make_module(2), takes = 0;
    expect_end("no freeze", DOVECOUNTER_VDM_NOT_TAKEN, DOVECOUNTER_VDM_MAY_BE_FROZEN, 0, read_all());
    make_module(2), takes = 1;
    expect_end("no release", DOVECOUNTER_VDM_FROZEN, DOVECOUNTER_VDM_MAY_BE_FROZEN, 0, read_all());
}

static void try_slow_ones(void) {
    make_module(2), slow = NEVER;
    expect_end("a freeze that is never done", DOVECOUNTER_VDM_PENDING, DOVECOUNTER_VDM_ACCEPTED, 0, read_all());
    make_module(2), slow = 0, deaf_page = SAMPLES;
    struct dovecounter_vdm_end end = read_all();
    expect_end("a page that isn't given", DOVECOUNTER_VDM_FROZEN, DOVECOUNTER_VDM_RELEASED, 1, end);
    expect("that page", SAMPLES, end.missing[0]);
    make_module(2), has_page[LIMITS] = has_page[FLAGS] = false;
    end = read_all();
    expect_end("pages that it hasn't got", DOVECOUNTER_VDM_FROZEN, DOVECOUNTER_VDM_RELEASED, 2, end);
    expect("the first", LIMITS, end.missing[0]);
    expect("the second", FLAGS, end.missing[1]);
}

/* Each bank is read by itself: with its number go its pages, and its lanes. */
static void try_banks(void) {
    for (unsigned each = 0; each < 4; each++) {
        make_module(1), bank = (uint8_t)each;
        struct dovecounter_vdm_end end = read_all();
        expect_end("a bank", DOVECOUNTER_VDM_FROZEN, DOVECOUNTER_VDM_RELEASED, 0, end);
        expect_halves();
        expect("instances of its lanes", 1, expect_decoded(&end) > 40);
        make_module(4), bank = (uint8_t)each, has_page[SAMPLES + 2] = false;
        end = read_all();
        expect_end("one without a page", DOVECOUNTER_VDM_FROZEN, DOVECOUNTER_VDM_RELEASED, 1, end);
        expect("that page of it", 256 * each + SAMPLES + 2, end.missing[0]);
    }
    make_module(4), bank = 255;
    expect_end("the last number", DOVECOUNTER_VDM_FROZEN, DOVECOUNTER_VDM_RELEASED, 0, read_all());
    expect_halves();
    make_module(1), bank = 1, has_page[GROUPS] = false;
    expect_end("one that isn't there", DOVECOUNTER_VDM_UNKNOWN, DOVECOUNTER_VDM_NEVER_FROZEN, 0, read_all());
    expect("page 01h alone", ADVERTISED, reading.halves == 1 ? found[0].page : 0);
}

/* A module that falls silent while it is frozen: the next reading, by the same bytes, releases it. */
static void try_silence(void) {
    make_module(1), slow = 0, deaf_after = 8;
    expect_end("silence", DOVECOUNTER_VDM_FROZEN, DOVECOUNTER_VDM_MAY_BE_FROZEN, 4, read_all());
    expect("a freeze that is left", 1, may_be_frozen());
    deaf_after = 0, takes = 3, made = 0;
    expect_end("the next one", DOVECOUNTER_VDM_FROZEN, DOVECOUNTER_VDM_RELEASED, 0, read_all());
    expect("a freeze that is over", 0, may_be_frozen());
}

/* ---- what each call answers ---- */

static void expect_refused(const char *what, unsigned wanted, uint8_t outcome, size_t count) {
    struct dovecounter_vdm before = reading;
    struct dovecounter_half halves_before[DOVECOUNTER_MOST_VDM];
    uint8_t bytes[200] = {0};
    memcpy(halves_before, found, sizeof halves_before);
    expect(what, wanted, dovecounter_vdm_reply(&reading, found, outcome, bytes, count));
    expect_same("a reading that is left alone", &before, &reading, sizeof before);
    expect_same("halves that are left alone", halves_before, found, sizeof halves_before);
}

static void try_statuses(void) {
    struct dovecounter_operation operation, same;
    struct dovecounter_vdm_end end, same_end;
    memset(&operation, 0x5A, sizeof operation), memset(&end, 0x5A, sizeof end);
    same = operation, same_end = end;
    memset(&reading, 0, sizeof reading);
    expect("no reading", DOVECOUNTER_NO_CONVERSATION, dovecounter_vdm_next(&reading, found, &operation));
    expect("no end of none", DOVECOUNTER_NO_CONVERSATION, dovecounter_vdm_end(&reading, found, &end));
    expect_refused("no reply to none", DOVECOUNTER_NO_CONVERSATION, DOVECOUNTER_REFUSED, 0);
    dovecounter_vdm_begin(10, 0, &reading);
    expect("no half yet", 0, reading.halves);
    expect("no end yet", DOVECOUNTER_NOT_ENDED, dovecounter_vdm_end(&reading, found, &end));
    expect_same("no operation", &same, &operation, sizeof operation);
    expect_same("nothing at the end", &same_end, &end, sizeof end);
    expect_refused("a fetch of a store", DOVECOUNTER_NO_REPLY, DOVECOUNTER_FETCHED, 2);
    expect_refused("no wait", DOVECOUNTER_NO_REPLY, DOVECOUNTER_WAITED, 0);
    expect_refused("no such outcome", DOVECOUNTER_NO_REPLY, 4, 0);
    expect("a selection", DOVECOUNTER_DONE, dovecounter_vdm_reply(&reading, found, DOVECOUNTER_STORED, lower, 0));
    expect_refused("too few bytes", DOVECOUNTER_NO_REPLY, DOVECOUNTER_FETCHED, 1);
    expect("a refusal", DOVECOUNTER_DONE, dovecounter_vdm_reply(&reading, found, DOVECOUNTER_REFUSED, lower, 0));
    expect_refused("a pause", DOVECOUNTER_NO_REPLY, DOVECOUNTER_REFUSED, 0);
    make_module(1), read_all();
    expect("no operation at the end", DOVECOUNTER_ENDED, dovecounter_vdm_next(&reading, found, &operation));
    expect_refused("no reply at the end", DOVECOUNTER_ENDED, DOVECOUNTER_STORED, 0);
}

/* Numbers that are no reading's. */
static void try_numbers(void) {
    struct dovecounter_operation operation;
    struct dovecounter_vdm good;
    dovecounter_vdm_begin(10, 0, &good);
    reading = good, reading.magic++;
    expect("another magic", DOVECOUNTER_NO_CONVERSATION, dovecounter_vdm_next(&reading, found, &operation));
    reading = good, reading.stage = 8;
    expect("another stage", DOVECOUNTER_NO_CONVERSATION, dovecounter_vdm_next(&reading, found, &operation));
    reading = good, reading.statistics = 5;
    expect("other statistics", DOVECOUNTER_NO_CONVERSATION, dovecounter_vdm_next(&reading, found, &operation));
    reading = good, reading.release = 4;
    expect("another release", DOVECOUNTER_NO_CONVERSATION, dovecounter_vdm_next(&reading, found, &operation));
    reading = good, reading.halves = 1;
    expect("too little room", DOVECOUNTER_NO_CONVERSATION, dovecounter_vdm_next(&reading, found, &operation));
    reading = good, reading.stage = 7, reading.halves = 255;
    expect("too many halves", DOVECOUNTER_NO_CONVERSATION, dovecounter_vdm_next(&reading, found, &operation));
    reading = good, reading.stage = 7, reading.todo_count = 17;
    expect("too many pages", DOVECOUNTER_NO_CONVERSATION, dovecounter_vdm_next(&reading, found, &operation));
    reading = good, reading.stage = 7, reading.page_count = 17;
    expect("too many pages of all", DOVECOUNTER_NO_CONVERSATION, dovecounter_vdm_next(&reading, found, &operation));
}

static void try_run(void) {
    make_module(3), bank = 2;
    dovecounter_vdm_begin(10, bank, &reading);
    expect("a whole run", DOVECOUNTER_DONE, dovecounter_vdm_run(&reading, found, transact, pause_for, NULL));
    expect("its release", DOVECOUNTER_VDM_RELEASED, reading.release);
    expect("its halves", 12, reading.halves);
}

/* ---- by chance ---- */

static unsigned ends[5], releases[4];

static void try_any(void) {
    make_module(1 + chance(4));
    bank = (uint8_t)(chance(2) ? 0 : chance(4));
    refuses = chance(3) == 0 ? 0 : chance(chance(2) ? 10 : 60);
    forgets = chance(100);
    slow = chance(20) == 0 ? NEVER : chance(chance(3) == 0 ? 90 : 10);
    if (chance(8) == 0) deaf_after = 1 + chance(80);
    if (chance(8) == 0) deaf_page = (uint8_t)(DESCRIPTORS + chance(13));
    if (chance(8) == 0) has_page[DESCRIPTORS + chance(13)] = false;
    if (chance(20) == 0) pages[ADVERTISED][142 - 128] &= 0xBF;
    takes = chance(10) == 0 ? chance(2) : 99;
    struct dovecounter_vdm_end end = read_all();
    ends[end.statistics]++, releases[end.release]++;
    expect_halves();
    for (unsigned i = 0; i < end.missing_count; i++) expect("a page that is missing", 1, is_statistic(end.missing[i]));
    if (end.statistics == DOVECOUNTER_VDM_FROZEN) expect_decoded(&end);
    if (end.release >= DOVECOUNTER_VDM_ACCEPTED) expect("the freeze bit", 0, pages[GROUPS][CONTROL - 128] & 0x80);
    if (end.release == DOVECOUNTER_VDM_RELEASED) expect("a release that is over", 0, is_frozen || is_going);
    if (end.release == DOVECOUNTER_VDM_NEVER_FROZEN) expect("no store", 0, stores);
}

int main(int count, char **words) {
    long many = count > 1 ? atol(words[1]) : 5000;
    state = count > 2 ? strtoull(words[2], NULL, 10) : 88172645463325252u;
    if (freopen("examples/osfp_800g_vdm.txt", "r", stdin) == NULL) return perror("examples/osfp_800g_vdm.txt"), 2;
    read_halves();
    try_ends();
    try_slow_ones();
    try_banks();
    try_silence();
    try_statuses();
    try_numbers();
    try_run();
    for (long i = 0; i < many && failures == 0; i++) try_any();
    for (unsigned each = 0; each < 5; each++) expect("each end comes", 1, many < 1000 || ends[each] > 0);
    for (unsigned each = 0; each < 4; each++) expect("each release comes", 1, many < 1000 || releases[each] > 0);
    printf("vdm: %ld readings, of which %u froze all\n", many, ends[DOVECOUNTER_VDM_FROZEN]);
    return judged("vdm");
}
