/* Runs the loop of examples/port_loop.c on a simulated module, from some seconds before the clock passes 2^32 on: a module is plugged,
   comes up and is watched, the program restarts, the module is pulled, others bring up a default, fail or are in low power, and a bus
   refuses all. Reads the text of the module's image on standard input. */
#include "dovecounter.h"

static unsigned asked; /* how often the library was asked what is to be done */
#define dovecounter_port_next(port, now, next) (asked++, dovecounter_port_next(port, now, next))
#include "../../examples/port_loop.c"

#include "expect.h"
#include "image.h"

static const struct dovecounter_delays delays = {4, 4, 4, 4, 4, 4, 4};
static struct dovecounter_module module;
static uint64_t clock_now = ((uint64_t)1 << 32) - 3000;
static unsigned transactions, stores, lines;
static bool is_present, refuses_all;

uint64_t milliseconds(void) { return clock_now; }
bool module_is_present(void) { return is_present; }

static void pass_one(void) {
    clock_now++;
    if (is_present) expect("a tick", DOVECOUNTER_DONE, dovecounter_module_tick(&module));
}

static bool is_made(uint32_t status) {
    transactions++;
    pass_one();
    return status == DOVECOUNTER_DONE;
}

bool i2c_fetch(uint8_t address, uint8_t offset, uint8_t *bytes, uint8_t count) {
    if (refuses_all) return is_made(DOVECOUNTER_NOT_TAKEN);
    return is_made(
        dovecounter_module_fetch(halves, half_count, &module, (uint8_t)(address << 1), offset, bytes, count));
}

bool i2c_store(uint8_t address, uint8_t offset, const uint8_t *bytes, uint8_t count) {
    stores += offset != 126;
    return is_made(
        dovecounter_module_store(halves, half_count, &module, (uint8_t)(address << 1), offset, bytes, count));
}

/* The lines that are awaited, in their order. */
static const struct line {
    const char *what;
    uint8_t code, fault, first;
} * awaited;

void print_line(const char *what, uint8_t code, uint8_t fault, uint8_t first) {
    const struct line *line = &awaited[lines++];
    expect(what, 0, (unsigned long)strcmp(what, line->what));
    expect(what, line->code, code);
    expect(what, line->fault, fault);
    expect(what, line->first, first);
}

/* Calls the loop for so long, in which these lines are printed. */
static void run(const char *what, uint64_t time, unsigned count, const struct line wanted_lines[]) {
    awaited = wanted_lines;
    lines = transactions = stores = asked = 0;
    for (uint64_t end = clock_now + time; clock_now < end && lines <= count; pass_one()) poll_port();
    expect(what, count, lines);
    expect("the library is asked where it rests", 1, asked <= 2 * transactions + 1);
}

static void plug(void) {
    is_present = true;
    expect("a module", DOVECOUNTER_DONE, dovecounter_module_begin(halves, half_count, &delays, &module));
}

static void pull(void) {
    static const struct line pulled[] = {{"pulled", 0, 0, 0}, {"", 0, 0, 0}};
    is_present = false;
    run("it is pulled", 100, 1, pulled);
    expect("and left alone", 0, transactions);
}

static void expect_up(void) {
    for (int lane = 0; lane < 8; lane++) expect("a lane is up", DOVECOUNTER_DP_ACTIVATED, module.lanes[lane].path);
}

static void try_life(void) {
    static const struct line nothing[] = {{"", 0, 0, 0}};
    static const struct line plugged[] = {{"plugged", 0, 0, 0}, {"", 0, 0, 0}};
    static const struct line comes_up[] = {{"went on", DOVECOUNTER_PORT_IDENTIFIED, 0, 0},
                                           {"went on", DOVECOUNTER_PORT_PROVISIONED, 0, 0},
                                           {"went on", DOVECOUNTER_PORT_CAME_UP, 0, 0},
                                           {"", 0, 0, 0}};
    static const struct line is_up[] = {
        {"plugged", 0, 0, 0}, {"went on", DOVECOUNTER_PORT_CAME_UP, 0, 0}, {"", 0, 0, 0}};
    begin_port(false);
    run("an empty cage", 100, 0, nothing);
    expect("has no transaction", 0, transactions);
    plug();
    run("a module settles", 1990, 1, plugged);
    expect("without a transaction", 0, transactions);
    run("it comes up", 5000, 3, comes_up);
    expect_up();
    run("it is watched", 25000, 0, nothing);
    expect("by two looks", 1, transactions >= 8);
    expect("that store nothing", 0, stores);
    begin_port(false);
    run("a restart finds it up", 5000, 2, is_up);
    expect("and stores nothing", 0, stores);
    expect_up();
    pull();
}

static void expect_active(uint8_t first, uint8_t last) {
    expect("the first active byte", first, module.lanes[0].active);
    expect("the last active byte", last, module.lanes[7].active);
    expect_up();
}

/* A module brings 400G up by itself, which a restart of the firmware leaves, and a plug or a start of the board doesn't. */
static void try_default(void) {
    static const struct line stays[] = {
        {"plugged", 0, 0, 0}, {"went on", DOVECOUNTER_PORT_CAME_UP, 0, 0}, {"", 0, 0, 0}};
    static const struct line goes[] = {{"plugged", 0, 0, 0},
                                       {"went on", DOVECOUNTER_PORT_IDENTIFIED, 0, 0},
                                       {"went on", DOVECOUNTER_PORT_PROVISIONED, 0, 0},
                                       {"went on", DOVECOUNTER_PORT_CAME_UP, 0, 0},
                                       {"", 0, 0, 0}};
    struct dovecounter_half *page = &halves[0];
    while (!page->upper || page->page != 0x11) page++;
    uint8_t before[8];
    memcpy(before, page->bytes + 206 - 128, 8);
    memset(page->bytes + 206 - 128, 0x10, 8);
    for (int start = 0; start < 3; start++) {
        if (start != 1) begin_port(start == 2); /* in the second round the cage was seen empty */
        plug();
        if (start == 0)
            run("a default is left after a restart", 15000, 2, stays);
        else
            run("a default is replaced", 15000, 4, goes);
        expect_active(start == 0 ? 0x10 : 0x20, start == 0 ? 0x10 : 0x2C);
        pull();
    }
    memcpy(page->bytes + 206 - 128, before, 8);
}

static void try_low_power(void) {
    static const struct line woken[] = {{"plugged", 0, 0, 0},
                                        {"went on", DOVECOUNTER_PORT_IDENTIFIED, 0, 0},
                                        {"went on", DOVECOUNTER_PORT_WOKEN, 0, 0},
                                        {"went on", DOVECOUNTER_PORT_IDENTIFIED, 0, 0},
                                        {"went on", DOVECOUNTER_PORT_PROVISIONED, 0, 0},
                                        {"went on", DOVECOUNTER_PORT_CAME_UP, 0, 0},
                                        {"", 0, 0, 0}};
    static const struct line left[] = {
        {"plugged", 0, 0, 0}, {"left alone", DOVECOUNTER_LEFT_NEEDS_POWER, 0, 0}, {"", 0, 0, 0}};
    halves[0].bytes[26] = 0x10; /* LowPwrRequestSW */
    plug();
    run("a module in low power is woken", 9000, 6, woken);
    expect_up();
    pull();
    halves[1].bytes[201 - 128]++; /* a quarter of a watt */
    set_sum(&halves[1], 128, 221, 222);
    plug();
    run("one that needs more power isn't", 60000, 2, left);
    expect("and is left alone", 13, transactions);
    run("for five minutes", 235000, 0, left + 2);
    expect("without a transaction", 0, transactions);
    run("then it is judged anew", 60000, 1, left + 1);
    halves[1].bytes[201 - 128]--;
    set_sum(&halves[1], 128, 221, 222);
    run("and woken once it needs less", 310000, 5, woken + 1);
    expect_up();
    pull();
}

/* A module fails while its lanes are provisioned: its state stands beside the fault. */
static void try_failure(void) {
    static const struct line fails[] = {
        {"plugged", 0, 0, 0},
        {"went on", DOVECOUNTER_PORT_IDENTIFIED, 0, 0},
        {"failed", DOVECOUNTER_PORT_NOT_PROVISIONED, DOVECOUNTER_NOT_READY, DOVECOUNTER_MODULE_FAULT},
        {"", 0, 0, 0}};
    plug();
    run("a module that will fail", 100, 1, fails);
    awaited = fails;
    for (; port.stage != DOVECOUNTER_PORT_PROVISIONING; pass_one()) poll_port();
    module.state = DOVECOUNTER_MODULE_FAULT;
    run("fails", 100, 1, fails + 2);
    pull();
}

static void try_silence(void) {
    static const struct line failed[] = {
        {"plugged", 0, 0, 0}, {"failed", DOVECOUNTER_PORT_UNREAD, 0, 0}, {"", 0, 0, 0}};
    static struct line more[11]; /* ten, and one that isn't awaited */
    for (int i = 0; i < 10; i++) more[i] = failed[1];
    more[10] = failed[2];
    refuses_all = true;
    plug();
    run("a bus that refuses all", 15000, 2, failed);
    expect("that is tried again after a second", 120, transactions);
    run("less and less often, for twenty minutes", 1200000, 10, more);
    pull();
}

int main(void) {
    read_halves();
    expect("first lanes are paired, as modules may have them", 1, wanted.paired);
    try_life();
    try_default();
    try_failure();
    try_low_power();
    try_silence();
    return judged("port_loop");
}
