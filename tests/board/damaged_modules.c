/* Prints a hash of all that the library answers on modules by chance, one a line: each machine has to print the same. What a call writes
 * is hashed with what was there before, each byte. Needs the header images.h, and RUNS, how many modules. */
#include "board.h"
#include "dovecounter.h"
#include "images.h"

#include <stddef.h>

enum { HALVES = 20, OFFSET = 128 };

void *memcpy(void *restrict to, const void *restrict from, size_t count);
void *memset(void *to, int byte, size_t count);

static uint64_t state = 20261126, hash;
static struct dovecounter_half halves[HALVES];
static size_t half_count;
static uint8_t paired, by_id;
static uint32_t weights[256], stay;
static struct dovecounter_path kept[9];
static size_t kept_count;
static struct dovecounter_plan plan;
static uint8_t text[DOVECOUNTER_CERTIFICATE_SIZE];
static struct dovecounter_module module;
static struct dovecounter_conversation conversation;
static struct dovecounter_half halves_read[DOVECOUNTER_MOST_READ];
static struct dovecounter_patience patience;

/* A number below the limit. */
static uint32_t below(uint32_t limit) {
    state ^= state << 13;
    state ^= state >> 7;
    state ^= state << 17;
    return (uint32_t)(state >> 16) % limit;
}
static bool one_of(uint32_t count) { return below(count) == 0; }
static uint32_t any(void) { return below(0xFFFF) << 16 | below(0xFFFF); }

static void add(const void *from, size_t count) {
    const uint8_t *bytes = from;
    for (size_t i = 0; i < count; i++) hash = (hash ^ bytes[i]) * 1099511628211u;
}
static uint32_t add_status(uint32_t status) {
    add(&status, sizeof status);
    return status;
}

/* A call that writes a structure, whose bytes are then hashed: those that it leaves are 5A. */
#define ADD(type, call)                                                                                                \
    do {                                                                                                               \
        struct dovecounter_##type written;                                                                             \
        memset(&written, 0x5A, sizeof written);                                                                        \
        add_status(call);                                                                                              \
        add(&written, sizeof written);                                                                                 \
    } while (0)

/* The sums of pages 00h and 01h are right, but for one of sixteen. */
static void set_sums(void) {
    for (size_t i = 0; i < half_count; i++) {
        struct dovecounter_half *half = &halves[i];
        if (half->upper != 1 || half->device != 0xA0 || half->page > 1 || one_of(16)) continue;
        uint8_t sum = 0, to = half->page == 0 ? 94 : 127;
        for (int at = half->page == 0 ? 0 : 2; at < to; at++) sum = (uint8_t)(sum + half->bytes[at]);
        half->bytes[to] = sum;
    }
}

static void make_module(void) {
    const struct image *image = &images[below(IMAGES)];
    memset(halves, 0, sizeof halves);
    memcpy(halves, image->halves, image->count * sizeof *halves);
    half_count = image->count;
    for (uint32_t changes = below(12); changes > 0; changes--) {
        struct dovecounter_half *half = &halves[below((uint32_t)half_count)];
        uint32_t at = below(128), byte = one_of(3) ? 1u << below(8) : below(256);
        if (one_of(64))
            ((uint8_t *)half)[at % 4] = (uint8_t)byte;
        else
            half->bytes[at] = (uint8_t)byte;
    }
    if (one_of(40)) half_count = below(18);
    set_sums();
    for (int i = 0; i < 256; i++) weights[i] = one_of(3) ? any() : below(1000);
    paired = (uint8_t)below(2);
    by_id = (uint8_t)below(2);
    stay = one_of(3) ? any() : 0;
    patience.pause = below(200);
    patience.limit = one_of(3) ? below(2000) : DOVECOUNTER_UNBOUNDED;
    patience.trusts = (uint8_t)below(3);
}

static void plan_lanes(void) {
    memset(kept, 0, sizeof kept);
    kept_count = 0;
    memset(&plan, 0x5A, sizeof plan);
    add_status(dovecounter_plan(halves, half_count, paired, by_id, weights, stay, kept, 0, &plan));
    add(&plan, sizeof plan);
    if (plan.count <= 8 && one_of(2)) {
        kept_count = below(plan.count + 1u);
        memcpy(kept, plan.paths, kept_count * sizeof *kept);
        if (one_of(4)) kept[0].host = (uint8_t)below(10);
    }
    ADD(plan, dovecounter_plan(halves, half_count, paired, by_id, weights, stay, kept, kept_count, &written));
}

static void decode(void) {
    ADD(advertisement, dovecounter_advertisement(halves, half_count, by_id, &written));
    ADD(identity, dovecounter_identity(halves, half_count, &written));
    ADD(flags, dovecounter_flags(halves, half_count, &written));
    ADD(monitors, dovecounter_monitors(halves, half_count, &written));
    ADD(durations, dovecounter_durations(halves, half_count, &written));
    ADD(patience, dovecounter_patience(halves, half_count, &written));
}

static void check(size_t length) {
    ADD(judgement, dovecounter_check(halves, half_count, paired, by_id, weights, stay, text, length, &written));
}

/* The certificate, and the verdicts on it and on three that differ in a byte and an end. */
static void certify(void) {
    struct {
        size_t length;
        uint32_t after; /* which stays as it is */
    } put = {77, 0x5A5A5A5A};
    size_t size = one_of(10) ? below(3000) : sizeof text;
    uint32_t status = add_status(dovecounter_certificate(halves, half_count, paired, by_id, weights, stay, kept,
                                                         kept_count, text, size, &put.length));
    size_t length = put.length;
    uint32_t told[2] = {(uint32_t)length, put.after};
    add(told, sizeof told);
    if (status != DOVECOUNTER_DONE) return;
    add(text, length);
    check(length);
    for (int i = 0; i < 3; i++) {
        uint32_t at = below((uint32_t)length);
        uint8_t before = text[at];
        text[at] = (uint8_t)(one_of(4) ? below(256) : '0' + below(10));
        check(one_of(8) ? below((uint32_t)length) : length);
        text[at] = before;
    }
}

/* What came of an operation on the simulated module, which refuses one of six. */
static uint8_t transact(const struct dovecounter_operation *operation, uint8_t bytes[128]) {
    uint8_t device = operation->device, offset = operation->offset, count = operation->count;
    add_status(dovecounter_module_tick(&module));
    if (one_of(6)) return DOVECOUNTER_REFUSED;
    uint32_t status =
        operation->kind == DOVECOUNTER_FETCH
            ? dovecounter_module_fetch(halves, half_count, &module, device, offset, bytes, count)
            : dovecounter_module_store(halves, half_count, &module, device, offset, operation->bytes, count);
    if (add_status(status) != DOVECOUNTER_DONE) return DOVECOUNTER_REFUSED;
    return operation->kind == DOVECOUNTER_FETCH ? DOVECOUNTER_FETCHED : DOVECOUNTER_STORED;
}

/* Tells the conversation what came of what it wanted. */
static void reply(uint8_t outcome, const struct dovecounter_operation *operation, const uint8_t bytes[128]) {
    size_t count = outcome == DOVECOUNTER_FETCHED ? operation->count : 0;
    add_status(dovecounter_reply(&conversation, halves_read, outcome, bytes, count));
    add(&conversation, sizeof conversation);
    add(bytes, 128);
}

/* Whether there is something to do, which is written to *operation. */
static bool wants(struct dovecounter_operation *operation) {
    memset(operation, 0x5A, sizeof *operation);
    uint32_t status = add_status(dovecounter_next(&conversation, halves_read, operation));
    add(operation, sizeof *operation);
    return status == DOVECOUNTER_DONE;
}

static void carry_out(void) {
    struct dovecounter_operation operation;
    for (int i = 0; i < 200 && wants(&operation); i++) {
        uint8_t bytes[128] = {0}, outcome = DOVECOUNTER_WAITED;
        if (operation.kind != DOVECOUNTER_WAIT) outcome = transact(&operation, bytes);
        reply(outcome, &operation, bytes);
        add(&module, sizeof module);
    }
    ADD(ending, dovecounter_end(&conversation, halves_read, &written));
}

static void turn_byte(void *of, size_t size) { ((uint8_t *)of)[below((uint32_t)size)] ^= (uint8_t)(1 + below(255)); }

/* A conversation of which a byte is another. */
static void try_other_numbers(void) {
    turn_byte(&conversation, sizeof conversation);
    ADD(operation, dovecounter_next(&conversation, halves_read, &written));
    ADD(ending, dovecounter_end(&conversation, halves_read, &written));
}

/* Procedures on a simulated module; then such numbers as C must not make. */
static void provision(void) {
    struct dovecounter_delays delays;
    for (size_t i = 0; i < sizeof delays / 2; i++) ((uint16_t *)&delays)[i] = (uint16_t)(1 + below(9));
    memset(&module, 0x5A, sizeof module);
    uint32_t status = add_status(dovecounter_module_begin(halves, half_count, &delays, &module));
    add(&module, sizeof module);
    if (status != DOVECOUNTER_DONE) return;
    dovecounter_wake_begin(&patience, &conversation);
    carry_out();
    dovecounter_provision_begin(plan.control, plan.outside, &patience, &conversation);
    carry_out();
    dovecounter_activate_begin(plan.control, plan.lanes, &patience, &conversation);
    carry_out();
    dovecounter_sleep_begin(&patience, &conversation);
    carry_out();
    turn_byte(&module, sizeof module);
    add_status(dovecounter_module_tick(&module));
    try_other_numbers();
}

/* The page that a reading has selected. */
static uint8_t page;

/* The bytes of the half that an operation fetches, as far as there is one. */
static void fetch(const struct dovecounter_operation *operation, uint8_t bytes[128]) {
    memset(bytes, 0, 128);
    for (size_t i = 0; i < half_count; i++) {
        const struct dovecounter_half *half = &halves[i];
        bool is_upper = operation->offset >= OFFSET;
        if (half->device != operation->device || half->upper != is_upper) continue;
        if (is_upper && half->page != page) continue;
        uint32_t from = operation->offset % OFFSET;
        for (uint32_t at = 0; at < operation->count && from + at < OFFSET; at++) bytes[at] = half->bytes[from + at];
        return;
    }
}

/* What came of an operation on the halves, which refuse one of six. */
static uint8_t carried_out(const struct dovecounter_operation *operation, uint8_t bytes[128]) {
    if (one_of(6)) return DOVECOUNTER_REFUSED;
    if (operation->kind == DOVECOUNTER_STORE) {
        page = operation->bytes[operation->count - 1];
        return DOVECOUNTER_STORED;
    }
    fetch(operation, bytes);
    if (operation->offset == 126) bytes[1] = page;
    if (operation->offset == 127) bytes[0] = page;
    return DOVECOUNTER_FETCHED;
}

static void read_module(void) {
    struct dovecounter_operation operation;
    memset(&conversation, 0x5A, sizeof conversation);
    page = 0;
    add_status(dovecounter_read_begin((uint8_t)(1 + below(128)), &patience, &conversation));
    for (int i = 0; i < 200 && wants(&operation); i++) {
        uint8_t bytes[128] = {0}, outcome = DOVECOUNTER_WAITED;
        if (operation.kind != DOVECOUNTER_WAIT) outcome = carried_out(&operation, bytes);
        reply(outcome, &operation, bytes);
    }
    add(halves_read, sizeof halves_read);
    ADD(ending, dovecounter_end(&conversation, halves_read, &written));
    try_other_numbers();
}

/* Weights as a text, in which a byte may be another, and texts into buffers that may be too small. */
static void read_texts(void) {
    static const char lines[] = "[host]\n0Dh = 101\n# of four lanes\n11h = 400\n  FEh=4294967295\n";
    uint8_t copy[sizeof lines], words[DOVECOUNTER_TEXT_SIZE];
    uint32_t found[256];
    size_t line = 5, length = 7;
    memcpy(copy, lines, sizeof lines);
    memset(found, 0x5A, sizeof found);
    memset(words, 0x5A, sizeof words);
    if (one_of(2)) turn_byte(copy, sizeof copy - 1);
    add_status(dovecounter_weights(copy, below(sizeof copy), found, &line));
    add(found, sizeof found);
    uint32_t status = any() % 70;
    add_status(dovecounter_status_text(status, words, below(sizeof words), &length));
    add_status(dovecounter_fault_text(status % 10, words, below(sizeof words), &length));
    add_status(dovecounter_verdict_text(status % 12, words, below(sizeof words), &length));
    add_status(dovecounter_code_name(status % 30, (uint8_t)status, words, below(64), &length));
    add_status(dovecounter_media_name((uint8_t)(status % 7), (uint8_t)status, words, below(64), &length));
    add(words, sizeof words);
    uint32_t told[2] = {(uint32_t)line, (uint32_t)length};
    add(told, sizeof told);
}

static void print_hash(void) {
    char digits[18] = {0};
    for (int i = 0; i < 16; i++) digits[i] = "0123456789abcdef"[hash >> (60 - 4 * i) & 15];
    digits[16] = '\n';
    print(digits);
}

int main(void) {
    for (int run = 0; run < RUNS; run++) {
        hash = 14695981039346656037u;
        make_module();
        plan_lanes();
        decode();
        certify();
        provision();
        read_module();
        read_texts();
        print_hash();
    }
    return 0;
}
