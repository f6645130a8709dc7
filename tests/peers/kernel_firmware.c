/* Updates by Linux's own code and by the library for firmware, each on the same module with two banks: first on modules without faults,
   which both have to update alike, then by chance. Of the library nothing may go wrong; of Linux it is counted. `kernel_firmware [COUNT]
   [SEED]`. tests/slow/kernel_firmware builds this with Linux's sources. */
#include "kernel.h"
#include "module_fw.h"

#include "../c/two_banks_bus.h"

/* ---- Linux's bus: a call of the driver is a transaction, and the driver selects the page */

static unsigned long passed; /* milliseconds */

unsigned long kernel_time(void) { return passed; }

void msleep(unsigned milliseconds) {
    passed += milliseconds;
    pause_for(NULL, milliseconds);
}

static int transact_for_linux(const struct ethtool_module_eeprom *place, bool stores) {
    bool refused;
    unsigned taken = begin_transaction(place->length, &refused);
    passed++;
    selected[0] = place->bank;
    selected[1] = place->page;
    for (unsigned i = 0; i < taken; i++) {
        uint8_t address = (uint8_t)(place->offset + i);
        if (stores)
            store_one(address, place->data[i]);
        else
            place->data[i] = fetch_one(address);
    }
    return refused ? -EIO : 0;
}

static int get(struct net_device *device, const struct ethtool_module_eeprom *place, struct netlink_ext_ack *ack) {
    (void)device, (void)ack;
    return transact_for_linux(place, false);
}

static int set(struct net_device *device, const struct ethtool_module_eeprom *place, struct netlink_ext_ack *ack) {
    (void)device, (void)ack;
    return transact_for_linux(place, true);
}

/* To the module it is a loss of power. */
static int reset(struct net_device *device, u32 *what) {
    (void)device, (void)what;
    lose_power(&module);
    return 0;
}

/* ---- what Linux reports */

static bool completed;
static unsigned errors;

void ethnl_module_fw_flash_ntf_start(struct net_device *device, struct ethnl_module_fw_flash_ntf_params *to) {
    (void)device, (void)to;
}

void ethnl_module_fw_flash_ntf_in_progress(struct net_device *device, struct ethnl_module_fw_flash_ntf_params *to,
                                           u64 done, u64 total) {
    (void)device, (void)to;
    expect("progress", 1, done < total && total == size);
}

void ethnl_module_fw_flash_ntf_complete(struct net_device *device, struct ethnl_module_fw_flash_ntf_params *to) {
    (void)device, (void)to;
    completed = true;
}

void ethnl_module_fw_flash_ntf_err(struct net_device *device, struct ethnl_module_fw_flash_ntf_params *to, char *text,
                                   char *more) {
    (void)device, (void)to, (void)text, (void)more;
    errors++;
}

/* ---- one update: whether its end is reported as a success */

static bool update_by_linux(void) {
    static const struct ethtool_ops ops = {
        .get_module_eeprom_by_page = get, .set_module_eeprom_by_page = set, .reset = reset};
    struct net_device device = {.ethtool_ops = &ops};
    const struct firmware firmware = {.size = size, .data = file};
    struct ethtool_cmis_fw_update_params update = {.dev = &device, .fw = &firmware};
    completed = false;
    errors = 0;
    ethtool_cmis_fw_update(&update);
    expect("an end", 1, completed != (errors > 0));
    return completed;
}

/* As cmis-port does: it begins again if an earlier download was open, and was given up. */
static bool update_by_library(void) {
    struct dovecounter_update update;
    struct dovecounter_update_ending ending = {.fault = 255};
    for (int turn = 0; turn < 2; turn++) {
        dovecounter_update_begin(size, 0, &update);
        dovecounter_update_run(&update, file, size, transact, pause_for, NULL);
        expect("an end", DOVECOUNTER_DONE, dovecounter_update_end(&update, file, size, &ending));
        if (ending.fault != DOVECOUNTER_UPDATE_LEFT_OPEN || ending.known != DOVECOUNTER_FIRMWARE_ABORTED) break;
    }
    return ending.fault == DOVECOUNTER_UPDATE_DONE && ending.known == DOVECOUNTER_FIRMWARE_COMMITTED;
}

/* ---- both on one module */

static const struct host {
    const char *name;
    bool (*update)(void);
} hosts[2] = {{"the library", update_by_library}, {"Linux", update_by_linux}};

struct drawn {
    struct two_banks module;
    uint64_t state;
    unsigned refuses;
};

static struct drawn keep(void) { return (struct drawn){module, state, refuses}; }

/* The same module, and the same chances. */
static void begin_again(const struct drawn *drawn) {
    module = drawn->module;
    state = drawn->state;
    refuses = drawn->refuses;
    selected[0] = selected[1] = 0;
    made = cut = 0;
}

static bool has_new_image(void) { return module.committed[module.running] && has_file(module.running); }

static void try_good_modules(void) {
    for (uint8_t start_size = 0; start_size <= 112; start_size++) {
        fill_file(start_size + 1 + chance(3000));
        begin_module(start_size);
        module.start_size = start_size;
        module.background = start_size % 2;
        const struct drawn drawn = keep();
        for (int host = 0; host < 2; host++) {
            begin_again(&drawn);
            expect(hosts[host].name, 1, hosts[host].update() && has_new_image() && module.running == 1);
            expect("what it did", 3, module.starts + module.runs + module.commits);
            expect("a moment without an image", 0, module.moments_without);
        }
    }
}

/* ---- by chance */

static struct count {
    unsigned updates, moments, without, successes, false_successes, left_open;
} counts[2][2][2]; /* by host, whether another bank ran than the committed one, and whether power was lost */

static void judge(int host, bool differs, bool succeeded) {
    struct count *count = &counts[host][differs][cut != 0];
    pass_time(&module, 100000);
    count->updates++;
    count->moments += module.moments_without > 0;
    count->successes += succeeded;
    count->false_successes += succeeded && !has_new_image();
    count->left_open += module.open;
    lose_power(&module);
    count->without += !has_image(&module);
}

/* If power is to be lost, it is after a part of what the update takes if power isn't lost. */
static void update_by_chance(void) {
    fill_file(1 + chance(chance(10) ? 600 : 4000));
    make_module();
    bool loses = chance(2);
    uint64_t part = chance(1000);
    if (module.valid[0] && module.valid[1] && chance(2)) module.running = module.committed[0] ? 1 : 0;
    const struct drawn drawn = keep();
    bool differs = !module.committed[module.running];
    for (int host = 0; host < 2; host++) {
        unsigned last = 0;
        begin_again(&drawn);
        if (loses) hosts[host].update(), last = made;
        begin_again(&drawn);
        if (loses) cut = 1 + (unsigned)(part * last / 1000);
        judge(host, differs, hosts[host].update());
    }
}

static void print_counts(void) {
    printf("%-11s | %-14s | %-8s | %7s | %12s | %9s | %7s | %13s | %9s\n", "host", "bank that runs", "power", "updates",
           "ever without", "then none", "success", "false success", "left open");
    for (int row = 0; row < 8; row++) {
        const struct count *count = &counts[row >> 2][row >> 1 & 1][row & 1];
        printf("%-11s | %-14s | %-8s | %7u | %12u | %9u | %7u | %13u | %9u\n", hosts[row >> 2].name,
               row >> 1 & 1 ? "not committed" : "committed", row & 1 ? "lost" : "not lost", count->updates,
               count->moments, count->without, count->successes, count->false_successes, count->left_open);
    }
}

int main(int count, char **words) {
    unsigned updates = count > 1 ? (unsigned)atoi(words[1]) : 2000;
    if (count > 2) state = strtoull(words[2], NULL, 0) | 1;
    try_good_modules();
    for (unsigned i = 0; i < updates && failures < 10; i++) update_by_chance();
    print_counts();
    for (int row = 0; row < 4; row++) {
        const struct count *count = &counts[0][row >> 1][row & 1];
        expect("a moment without an image, or a false success", 0,
               count->moments + count->without + count->false_successes);
    }
    return judged("kernel_firmware");
}
