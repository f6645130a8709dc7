/* any_module [RUNS] [SEED]: the functions of the header on modules by chance, 1,000 of them if nothing is said. What is planned is
   provisioned and activated on the simulated module, over a bus that refuses, and read from it. Every status has to be one of the
   function's table, a refusal may write nothing, and what is answered has to be what the header says. After the end of each input and
   output there is memory that nobody can touch. The last lines count what the modules came to. */
#define _DEFAULT_SOURCE

#include "chance.h"

#include <stdbool.h>

/* ---- inputs and outputs, each of which ends at memory that can't be touched ---- */

static uint8_t *half_end, *weight_end, *kept_end, *text_end, *output_end;

static struct dovecounter_half *halves;
static size_t half_count;
static uint32_t *weights;

static void make_memory(void) {
    half_end = end_of_memory(MOST_HALVES * sizeof *halves);
    weight_end = end_of_memory(256 * sizeof *weights);
    kept_end = end_of_memory(8 * sizeof(struct dovecounter_path));
    text_end = end_of_memory(DOVECOUNTER_CERTIFICATE_SIZE);
    output_end = end_of_memory(4096);
    weights = (void *)(weight_end - 256 * sizeof *weights);
}

static void *output(size_t size) { return memset(output_end - size, 0x5A, size); }

#define OF_HALVES 1, 2
#define OF_ADVERTISEMENT OF_HALVES, 11, 12, 13, 14, 15, 16
#define OF_FAMILY OF_HALVES, 71, 74, 76, 83

/* The status is 0 or one of the list, and on any other than 0 the output is as it was. */
#define JUDGE(status, output, ...) judge(#status, status, (const uint8_t[]){__VA_ARGS__, 0}, output, sizeof *(output))

static uint32_t judge(const char *what, uint32_t status, const uint8_t *known, const void *found, size_t size) {
    const uint8_t *bytes = found;
    if (status == DOVECOUNTER_DONE) return status;
    while (*known && *known != status) known++;
    expect(what, *known, status);
    for (size_t i = 0; i < size; i++) expect(what, 0x5A, bytes[i]);
    return status;
}

/* ---- what a module says ---- */

static void try_identity(void) {
    struct dovecounter_identity *it = output(sizeof *it);
    if (JUDGE(dovecounter_identity(halves, half_count, it), it, OF_FAMILY)) return;
    const char *const texts[] = {it->vendor, it->part, it->part_revision, it->serial, it->date};
    for (int i = 0; i < 5; i++) expect("an end of a text", 1, memchr(texts[i], 0, 17) != 0);
    expect("a family", 1, 1 <= it->family && it->family <= 3);
}

static void try_flags(void) {
    struct dovecounter_flags *it = output(sizeof *it);
    if (JUDGE(dovecounter_flags(halves, half_count, it), it, OF_FAMILY, 84, 86)) return;
    expect("lanes of flags", 1, memchr("\0\1\4\10", it->lanes, 4) != 0);
    expect("flags of lanes that are there", 0, it->rx_los >> it->lanes);
}

static void try_monitors(void) {
    struct dovecounter_monitors *it = output(sizeof *it);
    if (JUDGE(dovecounter_monitors(halves, half_count, it), it, OF_FAMILY, 84, 85, 86)) return;
    const struct dovecounter_lane_values *const all[] = {&it->tx_power, &it->tx_bias, &it->rx_power};
    for (int i = 0; i < 3; i++)
        for (int lane = 0; lane < 8; lane++)
            if (lane >= it->lanes || all[i]->support != DOVECOUNTER_MEASURED)
                expect("no value", 0, (unsigned long)all[i]->values[lane]);
}

/* ---- plans ---- */

static struct dovecounter_advertisement advertisement;

/* Whether lane counts of 0 are looked up. */
static uint8_t counts_by_id;

static unsigned run_of(unsigned first, unsigned count) { return ((1u << count) - 1) << (first - 1); }

/* The paths are allowed and share no lane, the kept ones are among them, and weight, lanes and control bytes are theirs. */
static void expect_plan(const struct dovecounter_plan *plan, const struct dovecounter_path *kept, size_t kept_count) {
    unsigned host = 0, media = advertisement.unsupported, kept_lanes = 0;
    uint64_t weight = 0;
    uint8_t control[8] = {0};
    size_t kept_found = 0;
    for (int i = 0; i < plan->count; i++) {
        struct dovecounter_path path = plan->paths[i];
        const struct dovecounter_application *app = &advertisement.applications[path.application - 1];
        unsigned host_run = run_of(path.host, app->host_lanes), media_run = run_of(path.media, app->media_lanes);
        expect("first host lane", 1, app->host_starts >> (path.host - 1) & 1);
        expect("first media lane", 1, app->media_starts >> (path.media - 1) & 1);
        expect("lanes of its own", 0, (host & host_run) | (media & media_run) | (host_run | media_run) >> 8);
        host |= host_run, media |= media_run, weight += weights[app->host_id];
        for (int lane = path.host; lane < path.host + app->host_lanes && lane <= 8; lane++)
            control[lane - 1] = (uint8_t)(path.application << 4 | (path.host - 1) << 1);
        for (size_t k = 0; k < kept_count; k++)
            if (!memcmp(&kept[k], &path, sizeof path)) kept_lanes |= host_run, kept_found++;
    }
    expect("kept paths", kept_count, kept_found);
    expect("weight", 1, weight == plan->weight);
    expect("lanes", host, plan->lanes);
    expect("lanes outside", ~kept_lanes & 0xFF, plan->outside);
    expect_same("control bytes", control, plan->control, 8);
}

/* The certificate of a plan is good, and none for a module of the other pairing. A damaged one is judged or refused. */
static void try_certificate(uint8_t paired, const struct dovecounter_path *kept, size_t kept_count) {
    size_t length = 0, same = 0;
    expect("too small for a certificate", DOVECOUNTER_TOO_SMALL,
           dovecounter_certificate(halves, half_count, paired, counts_by_id, weights, 0, kept, kept_count, text_end, 0,
                                   &length));
    expect("a certificate's length", 1, 0 < length && length <= DOVECOUNTER_CERTIFICATE_SIZE);
    uint8_t *text = text_end - length;
    expect("a certificate", DOVECOUNTER_DONE,
           dovecounter_certificate(halves, half_count, paired, counts_by_id, weights, 0, kept, kept_count, text, length,
                                   &same));
    expect("the same length", length, same);
    struct dovecounter_judgement *found = output(sizeof *found);
    expect("checked", DOVECOUNTER_DONE,
           dovecounter_check(halves, half_count, paired, counts_by_id, weights, 0, text, length, found));
    expect("good", 0, found->reason);
    expect("checked", DOVECOUNTER_DONE,
           dovecounter_check(halves, half_count, !paired, counts_by_id, weights, 0, text, length, found));
    expect("of the other pairing", 10, found->reason);
    text[chance((unsigned)length)] ^= (uint8_t)(1 << chance(8));
    found = output(sizeof *found);
    JUDGE(dovecounter_check(halves, half_count, paired, counts_by_id, weights, 0, text, length, found), found, 21, 22,
          23, 24);
}

/* Writes some paths of the plan where kept ones are handed over, and seldom one by chance. */
static struct dovecounter_path *keep_some(const struct dovecounter_plan *plan, size_t *count) {
    struct dovecounter_path some[8];
    *count = 0;
    for (int i = 0; i < plan->count; i++)
        if (chance(3)) some[(*count)++] = plan->paths[i];
    if (*count < 8 && chance(8) == 0) some[(*count)++] = (struct dovecounter_path){any_byte(), any_byte(), any_byte()};
    return memcpy(kept_end - *count * sizeof *some, some, *count * sizeof *some);
}

/* Plans, and plans anew with some of the paths kept; answers whether there is a plan. */
static int try_plans(struct dovecounter_plan *plan, uint32_t wanted) {
    uint8_t paired = (uint8_t)chance(2);
    size_t count = 0;
    const struct dovecounter_path *kept = (void *)kept_end;
    struct dovecounter_plan *found = output(sizeof *found);
    uint32_t status = JUDGE(dovecounter_plan(halves, half_count, paired, counts_by_id, weights, 0, kept, count, found),
                            found, OF_ADVERTISEMENT);
    expect("the status of the advertisement", wanted, status);
    if (status) return 0;
    *plan = *found;
    expect_plan(plan, kept, count);
    kept = keep_some(plan, &count);
    for (int id = 0; id < 256; id++) weights[id] = chance(4);
    found = output(sizeof *found);
    if (JUDGE(dovecounter_plan(halves, half_count, paired, counts_by_id, weights, 0, kept, count, found), found, 43))
        return 1;
    expect_plan(found, kept, count);
    try_certificate(paired, kept, count);
    return 1;
}

/* ---- a module in software ---- */

static struct dovecounter_module module;
static unsigned refusals; /* of 16 operations */

/* Makes an operation, and says what came of it. */
static uint8_t transact(const struct dovecounter_operation *it, uint8_t *bytes) {
    expect("a tick", DOVECOUNTER_DONE, dovecounter_module_tick(&module));
    if (chance(16) < refusals) return DOVECOUNTER_REFUSED;
    if (it->kind == DOVECOUNTER_STORE)
        return dovecounter_module_store(halves, half_count, &module, it->device, it->offset, it->bytes, it->count)
                   ? DOVECOUNTER_REFUSED
                   : DOVECOUNTER_STORED;
    return dovecounter_module_fetch(halves, half_count, &module, it->device, it->offset, bytes, it->count)
               ? DOVECOUNTER_REFUSED
               : DOVECOUNTER_FETCHED;
}

static struct dovecounter_half read_halves[DOVECOUNTER_MOST_READ];
static struct dovecounter_patience patience;

/* Other numbers are refused or are another conversation's. */
static void try_damaged(struct dovecounter_conversation it) {
    struct dovecounter_half halves_of_it[DOVECOUNTER_MOST_READ];
    struct dovecounter_operation *operation = output(sizeof *operation);
    memcpy(halves_of_it, read_halves, sizeof read_halves);
    ((uint8_t *)&it)[chance(sizeof it)] = any_byte();
    JUDGE(dovecounter_next(&it, halves_of_it, operation), operation, 31, 32);
    struct dovecounter_ending *ending = output(sizeof *ending);
    JUDGE(dovecounter_end(&it, halves_of_it, ending), ending, 31, 33);
    uint32_t status = dovecounter_reply(&it, halves_of_it, DOVECOUNTER_REFUSED, output_end, 0);
    expect("a reply", 1, status == 0 || status == 31 || status == 32 || status == 34);
}

/* Does what is asked for, and tells of it. Looks at the state of a module that was found ready are none of its operations. */
static void do_next(struct dovecounter_conversation *it, const struct dovecounter_operation *operation,
                    unsigned *operations, bool *found_ready) {
    uint8_t bytes[128], outcome = DOVECOUNTER_WAITED;
    if (operation->kind == DOVECOUNTER_WAIT)
        expect("a tick", DOVECOUNTER_DONE, dovecounter_module_tick(&module));
    else
        outcome = transact(operation, bytes);
    bool is_state = it->watches && outcome == DOVECOUNTER_FETCHED && operation->offset == 3;
    if (outcome != DOVECOUNTER_WAITED && !(is_state && *found_ready)) ++*operations;
    if (is_state) *found_ready = true;
    size_t count = outcome == DOVECOUNTER_FETCHED ? operation->count : 0;
    uint8_t *end = memcpy(output_end - count, bytes, count);
    if (chance(64) == 0) try_damaged(*it);
    memcpy(end, bytes, count);
    expect("a reply", DOVECOUNTER_DONE, dovecounter_reply(it, read_halves, outcome, end, count));
}

/* Answers the code of the fault, 0 for success. */
static uint8_t carry_out(struct dovecounter_conversation *it) {
    struct dovecounter_operation operation;
    struct dovecounter_ending ending;
    unsigned operations = 0;
    bool found_ready = false;
    while (dovecounter_next(it, read_halves, &operation) == DOVECOUNTER_DONE)
        do_next(it, &operation, &operations, &found_ready);
    expect("operations", 1, operations <= 4096);
    expect("an end", DOVECOUNTER_DONE, dovecounter_end(it, read_halves, &ending));
    expect("steps", ending.fault.code ? 0 : operations, ending.steps);
    return ending.fault.code;
}

/* The module's halves are read: of two for one place the first. Flags are cleared meanwhile, and selections change. Halves of selected
   pages come whole where one refusal of many would have them read anew from the first piece on. */
static void try_reading(void) {
    struct dovecounter_conversation reading;
    uint8_t most = patience.trusts || refusals < 2 ? (uint8_t)(8 + chance(248)) : 128;
    expect("reading", DOVECOUNTER_DONE, dovecounter_read_begin(most, &patience, &reading));
    uint8_t code = carry_out(&reading);
    expect("all was read", 1, code == 0 || code == 8);
    for (int i = 0; i < reading.halves; i++) {
        const struct dovecounter_half *read = &read_halves[i];
        if (!read->upper || read->page > 2) continue;
        size_t same = 0;
        while (same < half_count && memcmp(&halves[same], read, 4)) same++;
        expect("a half of the module", 1, same < half_count && !memcmp(halves[same].bytes, read->bytes, 128));
    }
}

static unsigned long ends[9];

static void try_procedures(const struct dovecounter_plan *plan) {
    struct dovecounter_conversation procedure;
    uint8_t active[8];
    dovecounter_wake_begin(&patience, &procedure);
    if (chance(8)) ends[carry_out(&procedure)]++;
    dovecounter_provision_begin(plan->control, plan->outside, &patience, &procedure);
    uint8_t code = carry_out(&procedure);
    ends[code]++;
    if (code) return;
    expect("active bytes", DOVECOUNTER_DONE, dovecounter_module_active(&module, active));
    expect_same("the plan is active", plan->control, active, 8);
    dovecounter_activate_begin(plan->control, plan->lanes, &patience, &procedure);
    code = carry_out(&procedure);
    ends[code]++;
    for (int lane = 0; lane < 8 && !code; lane++)
        if (plan->lanes >> lane & 1) expect("a lane is DPActivated", 4, module.lanes[lane].path);
    dovecounter_sleep_begin(&patience, &procedure);
    ends[carry_out(&procedure)]++;
}

static void try_simulated(const struct dovecounter_plan *plan) {
    struct dovecounter_delays delays;
    uint16_t *all = &delays.apply;
    for (int i = 0; i < 7; i++) all[i] = (uint16_t)(chance(40) ? 1 + chance(9) : chance(1200));
    refusals = chance(4) ? chance(5) : chance(17);
    patience = (struct dovecounter_patience){chance(9), chance(4) ? UINT32_MAX : chance(900), (uint8_t)chance(2)};
    struct dovecounter_module *found = output(sizeof *found);
    if (JUDGE(dovecounter_module_begin(halves, half_count, &delays, found), found, OF_ADVERTISEMENT, 51, 53, 54))
        return;
    module = *found;
    if (refusals < 8) try_reading();
    try_procedures(plan);
    ((uint8_t *)&module)[chance(sizeof module)] = any_byte();
    uint8_t *bytes = output(128);
    uint32_t status = dovecounter_module_fetch(halves, half_count, &module, 0xA0, 0, bytes, 128);
    judge("other numbers", status, (const uint8_t[]){61, 0}, bytes, 128);
}

int main(int count, char **words) {
    long runs = count > 1 ? atol(words[1]) : 1000, planned = 0;
    if (count > 2) state = strtoull(words[2], 0, 10) * 2654435761u + 88172645463325252u;
    make_memory();
    for (long run = 0; run < runs; run++) {
        make_module();
        half_count = made_count;
        halves = memcpy(half_end - made_count * sizeof *made, made, made_count * sizeof *made);
        for (int id = 0; id < 256; id++) weights[id] = chance(4) ? chance(4) : chance(1u << 31) << 1;
        counts_by_id = (uint8_t)chance(2);
        try_identity();
        try_flags();
        try_monitors();
        struct dovecounter_durations *durations = output(sizeof *durations);
        uint32_t status = JUDGE(dovecounter_durations(halves, half_count, durations), durations, OF_ADVERTISEMENT);
        struct dovecounter_advertisement *found = output(sizeof *found);
        uint32_t same =
            JUDGE(dovecounter_advertisement(halves, half_count, counts_by_id, found), found, OF_ADVERTISEMENT);
        expect("the status of the durations", status, same);
        advertisement = *found;
        struct dovecounter_plan plan;
        if (!try_plans(&plan, same)) continue;
        planned++;
        try_simulated(&plan);
    }
    printf("any_module: %ld modules, %ld with a plan; procedures ended with", runs, planned);
    for (int code = 0; code < 9; code++) printf(" %d: %lu", code, ends[code]);
    printf("\n");
    expect("hardly a module has a plan", 1, runs < 100 || planned > runs / 10);
    expect("no procedure succeeds", 1, runs < 100 || ends[0] > 0);
    return judged("any_module");
}
