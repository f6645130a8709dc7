/* Reads modules in software through the library for firmware, as its header says: modules of each family, on buses that carry much
   or little at once and refuse some operations, and compares the halves that were read with the module's memory. */
#include "expect.h"

#include <stdbool.h>
#include <stdlib.h>

/* ---- a module in software ---- */

struct module {
    const char *name;
    uint8_t lower[2][128];      /* of 0xA0 and 0xA2 */
    uint8_t upper[4][256][128]; /* pages of 0xA0, by bank */
    bool has_page[256];         /* a page that it lacks shows as page 00h of bank 0 */
    unsigned banks;             /* so does one of a further bank */
    bool selects_by_page;       /* byte 127 alone: SFF-8636 */
    unsigned wanted_halves;
};

static struct module module;

static void make(const char *name, uint8_t identifier, uint8_t byte_2, unsigned wanted) {
    memset(&module, 0, sizeof module);
    module.name = name;
    for (int i = 0; i < 2 * 128; i++) module.lower[i / 128][i % 128] = (uint8_t)(rand() / 7);
    for (int page = 0; page < 256; page++) {
        module.has_page[page] = true;
        for (int i = 0; i < 4 * 128; i++) module.upper[i / 128][page][i % 128] = (uint8_t)(rand() / 7);
    }
    module.banks = 3;
    module.lower[0][0] = identifier;
    module.lower[0][2] = byte_2;
    module.lower[0][126] = module.lower[0][127] = 0;
    module.wanted_halves = wanted;
}

static uint8_t byte_at(uint8_t device, unsigned address) {
    if (address < 128) return module.lower[device == 0xA2][address];
    return module.upper[module.lower[0][126]][module.lower[0][127]][address - 128];
}

static uint8_t carry_out(const struct dovecounter_operation *operation, uint8_t bytes[128]) {
    expect("the device", 1, operation->device == 0xA0 || operation->device == 0xA2);
    expect("bytes in one half", operation->offset / 128, (unsigned)(operation->offset + operation->count - 1) / 128);
    if (operation->kind == DOVECOUNTER_FETCH) {
        for (unsigned i = 0; i < operation->count; i++) bytes[i] = byte_at(operation->device, operation->offset + i);
        return DOVECOUNTER_FETCHED;
    }
    expect("a store on the selection", module.selects_by_page ? 127 : 126, operation->offset);
    uint8_t page = operation->bytes[operation->count - 1], bank = operation->count > 1 ? operation->bytes[0] : 0;
    bool is_there = module.has_page[page] && bank < module.banks;
    module.lower[0][126] = is_there ? bank : 0;
    module.lower[0][127] = is_there ? page : 0;
    return DOVECOUNTER_STORED;
}

/* ---- readings ---- */

static bool is_of_module(const struct dovecounter_half *half) {
    if (half->upper)
        return half->device == 0xA0 && half->bank < module.banks &&
               memcmp(half->bytes, module.upper[half->bank][half->page], 128) == 0;
    struct dovecounter_half shown = *half; /* the selection changes while the module is read */
    if (half->device == 0xA0) memcpy(shown.bytes + 126, module.lower[0] + 126, 2);
    return memcmp(shown.bytes, module.lower[half->device == 0xA2], 128) == 0;
}

static struct dovecounter_conversation reading;
static struct dovecounter_half halves[DOVECOUNTER_MOST_READ];
static struct dovecounter_patience patience = {.pause = 9, .limit = DOVECOUNTER_UNBOUNDED};

static struct {
    unsigned operations, piece;
    int refusals; /* of 256 operations */
    bool was_refused;
} bus;

static uint8_t transact(void *context, const struct dovecounter_operation *operation, uint8_t bytes[128]) {
    expect("the context", 1, context == &bus);
    expect("no more bytes than the bus carries", 1, operation->count <= bus.piece);
    expect("no milliseconds", 0, operation->milliseconds);
    expect("a pause after a refusal", 0, bus.was_refused);
    bus.was_refused = rand() / 8 % 256 < bus.refusals;
    bus.operations++;
    return bus.was_refused ? DOVECOUNTER_REFUSED : carry_out(operation, bytes);
}

static void pause(void *context, uint32_t milliseconds) {
    expect("the context of a pause", 1, context == &bus);
    expect("the milliseconds", 9, milliseconds);
    bus.was_refused = false;
}

/* Answers how many operations it took. */
static unsigned read_module(uint8_t most, int refusals) {
    struct dovecounter_ending ending;
    bus.operations = 0;
    bus.piece = most < 128 ? most / 8 * 8 : 128;
    bus.refusals = refusals;
    bus.was_refused = false;
    expect("begun", DOVECOUNTER_DONE, dovecounter_read_begin(most, &patience, &reading));
    expect("a run", DOVECOUNTER_DONE, dovecounter_run(&reading, halves, transact, pause, &bus));
    expect("an end", DOVECOUNTER_DONE, dovecounter_end(&reading, halves, &ending));
    expect(module.name, refusals < 256 ? 0 : 4, ending.fault.code);
    expect("steps", refusals < 256 ? bus.operations : 0, ending.steps);
    expect("halves", refusals < 256 ? module.wanted_halves : 0, reading.halves);
    for (int i = 0; i < reading.halves; i++) expect("a half of the module", 1, is_of_module(&halves[i]));
    return bus.operations;
}

/* A reading that doubts fetches a selected page from its first piece on after each refusal, so it gets through fewer of them. */
static void try_module(unsigned wanted_operations) {
    static const uint8_t sizes[] = {128, 255, 127, 64, 60, 32, 31, 24, 16, 8, 15};
    expect("operations", wanted_operations, read_module(128, 0));
    for (patience.trusts = 0; patience.trusts < 2; patience.trusts++)
        for (size_t i = 0; i < sizeof sizes; i++)
            for (int refusals = 0; refusals < (patience.trusts ? 128 : 48); refusals += patience.trusts ? 20 : 8)
                read_module(sizes[i], refusals);
    patience.trusts = 0;
    expect("operations of which each was refused", 4096, read_module(8, 256));
}

static struct dovecounter_operation next_operation(void) {
    struct dovecounter_operation operation;
    expect("an operation", DOVECOUNTER_DONE, dovecounter_next(&reading, halves, &operation));
    return operation;
}

static void reply_to(const struct dovecounter_operation *operation, bool refused) {
    uint8_t bytes[128] = {0}, outcome = DOVECOUNTER_WAITED;
    if (operation->kind != DOVECOUNTER_WAIT) outcome = refused ? DOVECOUNTER_REFUSED : carry_out(operation, bytes);
    size_t count = outcome == DOVECOUNTER_FETCHED ? operation->count : 0;
    expect("a reply", DOVECOUNTER_DONE, dovecounter_reply(&reading, halves, outcome, bytes, count));
}

/* The operation is refused; what comes after the pause. */
static struct dovecounter_operation after_refusal_of(struct dovecounter_operation operation) {
    reply_to(&operation, true);
    operation = next_operation();
    expect("a pause", DOVECOUNTER_WAIT, operation.kind);
    reply_to(&operation, false);
    return next_operation();
}

/* A piece of page 01h is refused: if the reading doubts, the page is selected again and fetched from its first piece on; if it trusts,
   the piece is fetched again. A piece of the lower half, which needs no page, is fetched again in both. */
static void try_refused_piece(uint8_t trusts) {
    struct dovecounter_operation operation;
    patience.trusts = trusts;
    make("a refused piece", 0x18, 0, 5);
    expect("begun", DOVECOUNTER_DONE, dovecounter_read_begin(32, &patience, &reading));
    for (operation = next_operation(); operation.offset != 96; operation = next_operation())
        reply_to(&operation, false);
    operation = after_refusal_of(operation);
    expect("the piece of the lower half", 96, operation.offset);
    for (; operation.offset != 192 || module.lower[0][127] != 0x01; operation = next_operation())
        reply_to(&operation, false);
    operation = after_refusal_of(operation);
    expect("the kind", trusts ? DOVECOUNTER_FETCH : DOVECOUNTER_STORE, operation.kind);
    expect("the piece, or the selection", trusts ? 192 : 126, operation.offset);
    if (!trusts) reply_to(&operation, false), operation = next_operation();
    if (!trusts) reply_to(&operation, false), operation = next_operation();
    expect("the piece that is fetched", trusts ? 192 : 128, operation.offset);
    patience.trusts = 0;
}

/* What the decoders say of a module that was read, although they don't take it. */
static void refuse_to_decode(void) {
    struct dovecounter_identity identity;
    struct dovecounter_flags flags;
    struct dovecounter_monitors monitors;
    struct dovecounter_advertisement advertisement;
    expect("no identity", DOVECOUNTER_UNKNOWN_MODULE, dovecounter_identity(halves, reading.halves, &identity));
    expect("no flags", DOVECOUNTER_UNKNOWN_MODULE, dovecounter_flags(halves, reading.halves, &flags));
    expect("no monitors", DOVECOUNTER_UNKNOWN_MODULE, dovecounter_monitors(halves, reading.halves, &monitors));
    expect("no advertisement", DOVECOUNTER_NOT_CMIS,
           dovecounter_advertisement(halves, reading.halves, 0, &advertisement));
}

static void try_modules(void) {
    make("CMIS", 0x18, 0, 5);
    try_module(13);
    expect("operations of 32 bytes", 28, read_module(32, 0));
    expect("operations of 8 bytes", 88, read_module(8, 0));
    module.has_page[0x02] = false;
    module.wanted_halves = 4;
    try_module(12);
    make("CMIS with flat memory", 0x1E, 0x80, 2);
    try_module(2);
    make("SFP-DD with CMIS", 0x1F, 0, 5);
    try_module(13);
    read_module(128, 0);
    refuse_to_decode();
    make("SFF-8636", 0x11, 0, 3);
    module.selects_by_page = true;
    try_module(7);
    make("SFF-8636 with flat memory", 0x11, 0x04, 2);
    try_module(2);
    make("SFF-8472 with diagnostics", 0x03, 0, 2);
    module.lower[0][92] = 0x40;
    try_module(2);
    make("SFF-8472 with an address change", 0x03, 0, 1);
    module.lower[0][92] = 0x44;
    try_module(1);
    make("another", 0x0B, 0, 1);
    try_module(1);
}

/* ---- what is refused ---- */

static void refuse_reply(const char *what, uint32_t wanted, struct dovecounter_conversation it, uint8_t outcome,
                         size_t count) {
    static const uint8_t bytes[200];
    struct dovecounter_conversation before = it;
    struct dovecounter_half halves_before[DOVECOUNTER_MOST_READ];
    memcpy(halves_before, halves, sizeof halves);
    expect(what, wanted, dovecounter_reply(&it, halves, outcome, bytes, count));
    expect_same("a refused reply changes nothing", &before, &it, sizeof it);
    expect_same("and no half", halves_before, halves, sizeof halves);
}

/* Numbers that no reading has. */
static void try_other_numbers(void) {
    struct dovecounter_operation operation;
    struct dovecounter_ending ending;
    for (int i = 0; i < 12; i++) {
        struct dovecounter_conversation other = reading;
        if (i == 0) other.saved.steps = 4097;
        if (i == 1) other.saved.met = 6;
        if (i == 2) other.saved.steps = 4; /* for five halves */
        if (i == 3) other.saved.met = 4;   /* of which five were read */
        if (i == 4) other.piece = 0;
        if (i == 5) other.read = 128;
        if (i == 6) other.saved.due = 2;
        if (i == 7) other.doubts = 2;
        if (i == 8) other.taken = 2;
        if (i == 9) other.taken_page = 1;
        if (i == 10) other.saved.selection = 1; /* and a page */
        if (i == 11) other.saved.selection = 3;
        expect("no operation", DOVECOUNTER_NO_CONVERSATION, dovecounter_next(&other, halves, &operation));
        expect("no end", DOVECOUNTER_NO_CONVERSATION, dovecounter_end(&other, halves, &ending));
        refuse_reply("no reply", DOVECOUNTER_NO_CONVERSATION, other, DOVECOUNTER_REFUSED, 0);
    }
    halves[0].device = 0xA1;
    expect("a half without a place", DOVECOUNTER_NO_CONVERSATION, dovecounter_next(&reading, halves, &operation));
    halves[0].device = 0xA0;
}

static void try_refusals(void) {
    static const uint8_t none[1];
    struct dovecounter_conversation other;
    struct dovecounter_operation operation;
    struct dovecounter_ending ending;
    make("refusals", 0x18, 0, 5);
    memset(&reading, 0, sizeof reading);
    expect("zeros", DOVECOUNTER_NO_CONVERSATION, dovecounter_next(&reading, halves, &operation));
    refuse_reply("zeros take no reply", DOVECOUNTER_NO_CONVERSATION, reading, DOVECOUNTER_REFUSED, 0);
    expect("seven bytes at once", DOVECOUNTER_TOO_FEW_BYTES, dovecounter_read_begin(7, &patience, &reading));
    expect("nothing is written", DOVECOUNTER_NO_CONVERSATION, dovecounter_next(&reading, halves, &operation));
    expect("eight bytes at once", DOVECOUNTER_DONE, dovecounter_read_begin(8, &patience, &reading));
    expect("no end yet", DOVECOUNTER_NOT_ENDED, dovecounter_end(&reading, halves, &ending));
    refuse_reply("a fetch is not stored", DOVECOUNTER_NO_REPLY, reading, DOVECOUNTER_STORED, 0);
    refuse_reply("a fetch is no wait", DOVECOUNTER_NO_REPLY, reading, DOVECOUNTER_WAITED, 0);
    refuse_reply("seven bytes are not eight", DOVECOUNTER_NO_REPLY, reading, DOVECOUNTER_FETCHED, 7);
    refuse_reply("200 bytes are not eight", DOVECOUNTER_NO_REPLY, reading, DOVECOUNTER_FETCHED, 200);
    refuse_reply("no such outcome", DOVECOUNTER_NO_REPLY, reading, 4, 8);
    expect("refused", DOVECOUNTER_DONE, dovecounter_reply(&reading, halves, DOVECOUNTER_REFUSED, none, 0));
    refuse_reply("a wait is no refusal", DOVECOUNTER_NO_REPLY, reading, DOVECOUNTER_REFUSED, 0);
    read_module(128, 0);
    refuse_reply("nothing after the end", DOVECOUNTER_ENDED, reading, DOVECOUNTER_REFUSED, 0);
    try_other_numbers();
    for (size_t place = 0; place < sizeof reading; place++)
        for (int byte = 0; byte < 256; byte += 5) {
            other = reading;
            memset((unsigned char *)&other + place, byte, 1);
            uint32_t status = dovecounter_next(&other, halves, &operation);
            expect("a known status", 1,
                   status == DOVECOUNTER_DONE || status == DOVECOUNTER_ENDED || status == DOVECOUNTER_NO_CONVERSATION);
            if (status == DOVECOUNTER_DONE) dovecounter_reply(&other, halves, DOVECOUNTER_REFUSED, none, 0);
        }
}

/* Reads what is requested, without a refusal; answers how many operations it took. */
static unsigned read_some(uint8_t requested) {
    struct dovecounter_ending ending;
    bus.operations = 0;
    bus.piece = 128;
    bus.refusals = 0;
    bus.was_refused = false;
    expect("begun", DOVECOUNTER_DONE, dovecounter_read_some_begin(requested, 128, &patience, &reading));
    expect("a run", DOVECOUNTER_DONE, dovecounter_run(&reading, halves, transact, pause, &bus));
    expect("an end", DOVECOUNTER_DONE, dovecounter_end(&reading, halves, &ending));
    expect("no fault", 0, ending.fault.code);
    for (int i = 0; i < reading.halves; i++) expect("a half of the module", 1, is_of_module(&halves[i]));
    return bus.operations;
}

/* What is requested is read alone, after the lower half; bits for modules of other families request nothing, nor does a bank that the
   module lacks. */
static void try_requests(void) {
    static const struct {
        uint8_t requested;
        unsigned operations, halves;
        uint8_t bank, newest;
    } requests[] = {
        {0, 1, 1, 0, 0x00},
        {DOVECOUNTER_CMIS_PAGE_11, 4, 2, 0, 0x11},
        {DOVECOUNTER_CMIS_PAGE_00 | DOVECOUNTER_CMIS_PAGE_02, 7, 3, 0, 0x02},
        {DOVECOUNTER_SFF8636_PAGE_00 | DOVECOUNTER_SFF8636_PAGE_03 | DOVECOUNTER_SFF8472_DIAGNOSTICS, 1, 1, 0, 0x00},
        {0x7F, 13, 5, 0, 0x11},
        {0xFF, 13, 5, 0, 0x11},
        {DOVECOUNTER_CMIS_BANK_1, 4, 2, 1, 0x11},
        {DOVECOUNTER_CMIS_BANK_2, 4, 2, 2, 0x11},
        {DOVECOUNTER_CMIS_BANK_1 | DOVECOUNTER_CMIS_BANK_2 | DOVECOUNTER_CMIS_BANK_3, 9, 3, 2, 0x11},
    };
    make("requests", 0x18, 0, 5);
    expect("seven bytes at once", DOVECOUNTER_TOO_FEW_BYTES, dovecounter_read_some_begin(0, 7, &patience, &reading));
    for (size_t i = 0; i < sizeof requests / sizeof *requests; i++) {
        expect("operations", requests[i].operations, read_some(requests[i].requested));
        expect("halves", requests[i].halves, reading.halves);
        expect("the newest", requests[i].newest, halves[0].page);
        expect("of this bank", requests[i].bank, halves[0].bank);
    }
}

/* ---- further banks ---- */

static uint8_t further_banks(const struct dovecounter_half *of, size_t count) {
    uint8_t requested = 0x5A;
    expect("further banks", DOVECOUNTER_DONE, dovecounter_further_banks(of, count, &requested));
    return requested;
}

/* Of a module that advertises banks by this code, and has so many: what is requested, the operations of that, and the halves. */
static void try_banks(uint8_t code, unsigned banks, uint8_t wanted, unsigned operations, unsigned wanted_halves) {
    make("banks", 0x1F, 0, 5);
    module.lower[0][1] = 0x50;
    module.upper[0][0x01][142 - 128] = (uint8_t)(0xFC | code);
    module.banks = banks;
    read_module(128, 0);
    uint8_t requested = further_banks(halves, reading.halves);
    expect("the request", wanted, requested);
    if (requested == 0) return;
    expect("operations", operations, read_some(requested));
    expect("halves", wanted_halves, reading.halves);
    for (unsigned i = 0; i + 1 < wanted_halves; i++) {
        expect("the page", 0x11, halves[i].page);
        expect("the bank", wanted_halves - 1 - i, halves[i].bank);
    }
}

/* Modules without further banks: of other families or revisions, with flat memory, or without page 01h. */
static void try_no_banks(void) {
    struct dovecounter_half own[] = {{.device = 0xA0, .bytes = {0x18, 0x30}}, {0xA0, 1, 0, 0x01, {[142 - 128] = 2}}};
    expect("four banks", 0x87, further_banks(own, 2));
    expect("banks without page 01h", 0, further_banks(own, 1));
    expect("banks without the lower half", 0, further_banks(own + 1, 1));
    own[0].bytes[2] = 0x80;
    expect("banks of flat memory", 0, further_banks(own, 2));
    own[0].bytes[2] = 0;
    own[0].bytes[1] = 0x60;
    expect("banks of revision 6", 0, further_banks(own, 2));
    own[0].bytes[1] = 0x50;
    own[0].bytes[0] = 0x11;
    expect("banks of SFF-8636", 0, further_banks(own, 2));
    own[0].bytes[0] = 0x03;
    expect("banks of SFF-8472", 0, further_banks(own, 2));
    own[0].bytes[0] = 0x0B;
    expect("banks of another", 0, further_banks(own, 2));
}

static void try_further_banks(void) {
    struct dovecounter_half many[17] = {{0}};
    uint8_t requested = 0x5A;
    try_banks(0, 1, 0, 0, 0);
    try_banks(1, 2, DOVECOUNTER_CMIS_BANK_1, 4, 2);
    try_banks(1, 1, DOVECOUNTER_CMIS_BANK_1, 3, 1); /* it lacks what it advertises */
    try_banks(2, 4, DOVECOUNTER_CMIS_BANK_1 | DOVECOUNTER_CMIS_BANK_2 | DOVECOUNTER_CMIS_BANK_3, 10, 4);
    try_banks(2, 3, DOVECOUNTER_CMIS_BANK_1 | DOVECOUNTER_CMIS_BANK_2 | DOVECOUNTER_CMIS_BANK_3, 9, 3);
    try_banks(3, 4, 0, 0, 0); /* the code is reserved */
    try_no_banks();
    for (int i = 0; i < 17; i++) many[i].device = 0xA0;
    expect("17 halves", DOVECOUNTER_TOO_MANY_HALVES, dovecounter_further_banks(many, 17, &requested));
    expect("16 halves", 0, further_banks(many, 16));
    many[15].upper = 2;
    expect("a half without a place", DOVECOUNTER_NO_PLACE, dovecounter_further_banks(many, 16, &requested));
    expect("nothing is written", 0x5A, requested);
}

int main(void) {
    try_modules();
    try_requests();
    try_further_banks();
    try_refused_piece(0);
    try_refused_piece(1);
    try_refusals();
    return judged("reading");
}
