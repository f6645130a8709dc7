#include "two_banks.h"

#include <string.h>

enum {
    SUCCESS = 0x01,
    UNKNOWN_COMMAND = 0x41,
    BAD_PARAMETER = 0x42,
    BAD_CHECK = 0x45,
    NO_ACCESS = 0x46,
    NOT_NOW = 0x47
};
enum { BUSY = 0x81, QUICK = 3000, FOR_EVER = 3600000 }; /* the last two in milliseconds */

static uint32_t next(struct two_banks *module, uint32_t below) {
    uint64_t x = module->random += 0x9E3779B97F4A7C15U; /* splitmix64 */
    x = (x ^ (x >> 30)) * 0xBF58476D1CE4E5B9U;
    x = (x ^ (x >> 27)) * 0x94D049BB133111EBU;
    return (uint32_t)((x ^ (x >> 31)) % below);
}

bool has_image(const struct two_banks *module) {
    return (module->committed[0] && module->valid[0]) || (module->committed[1] && module->valid[1]);
}

static void look(struct two_banks *module) { module->moments_without += !has_image(module); }

void begin_two_banks(struct two_banks *module, uint64_t seed) {
    memset(module, 0, sizeof *module);
    module->random = seed;
    module->committed[0] = module->valid[0] = true;
    module->lengths[0] = 1;
    module->start_size = 64;
    module->mechanism = 1;
    module->reply_count = 110;
    module->instances = 1;
    module->background = module->boots = true;
    module->slowest = 20;
}

void load_bank(struct two_banks *module, int bank, const uint8_t *image, uint32_t length) {
    memcpy(module->images[bank], image, length);
    module->lengths[bank] = length;
    module->valid[bank] = true;
}

bool is_deaf(const struct two_banks *module) {
    return module->off_left > 0 || (module->busy_left > 0 && !module->background);
}

uint8_t fetch_flags(struct two_banks *module) {
    uint8_t flags = module->completed ? 0x40 : 0;
    module->completed = false;
    return flags;
}

uint8_t fetch_status(const struct two_banks *module) { return module->status; }

uint8_t fetch_of_block(const struct two_banks *module, uint8_t address) { return module->page[address - 128]; }

/* ---- messages ---- */

static uint32_t read_32(const uint8_t *bytes) {
    return (uint32_t)bytes[0] << 24 | (uint32_t)bytes[1] << 16 | (uint32_t)bytes[2] << 8 | bytes[3];
}

static uint8_t check_code(const uint8_t *bytes, size_t count) {
    unsigned sum = 0;
    for (size_t i = 0; i < count; i++) sum += bytes[i];
    return (uint8_t)~sum;
}

static void reply(struct two_banks *module, const uint8_t *bytes, uint8_t count) {
    memcpy(module->page + 8, bytes, count);
    module->page[6] = count;
    module->page[7] = check_code(bytes, count);
}

static void put_duration(uint8_t *bytes, unsigned milliseconds, bool tens) {
    unsigned count = tens ? (milliseconds + 9) / 10 : milliseconds;
    bytes[0] = (uint8_t)(count >> 8);
    bytes[1] = (uint8_t)count;
}

/* The longest that a command takes that is none of a download. */
static unsigned quick_time(const struct two_banks *module) { return module->slowest < QUICK ? module->slowest : QUICK; }

/* CMD 0040h: of what it supports nothing, and how long a command may take. */
static void tell_module_features(struct two_banks *module) {
    uint8_t bytes[36] = {0};
    put_duration(bytes + 34, quick_time(module), false);
    reply(module, bytes, sizeof bytes);
}

/* CMD 0041h */
static void tell_features(struct two_banks *module) {
    uint8_t bytes[18] = {1, module->tens ? 8 : 0, module->start_size, 0xFF, 15, module->mechanism};
    for (int at = 8; at < 18; at += 2) put_duration(bytes + at, module->slowest, module->tens);
    reply(module, bytes, sizeof bytes);
}

/* CMD 0100h: of each bank, whether it runs, is committed, is not valid; its version is the first bytes of its image. */
static void tell_banks(struct two_banks *module) {
    uint8_t bytes[110] = {0, 3};
    for (int bank = 0; bank < 2; bank++) {
        unsigned bits =
            (module->running == bank) | (unsigned)module->committed[bank] << 1 | (unsigned)!module->valid[bank] << 2;
        bytes[0] |= (uint8_t)(bits << 4 * bank);
        memcpy(bytes + 2 + 36 * bank, module->images[bank], 4);
    }
    reply(module, bytes, module->reply_count);
}

/* CMD 0101h: the bank that doesn't run is erased. */
static uint8_t start(struct two_banks *module, const uint8_t *body, uint8_t count) {
    int other = 1 - module->running;
    uint32_t size = read_32(body);
    if (module->open && module->not_again != 0) return module->not_again;
    if (count != 8 + module->start_size || size > MOST_IMAGE || size < module->start_size) return BAD_PARAMETER;
    module->starts++;
    module->valid[other] = false;
    module->open = true;
    module->size = size;
    module->covered = module->start_size;
    memset(module->images[other], 0xFF, MOST_IMAGE);
    memcpy(module->images[other], body + 8, module->start_size);
    return SUCCESS;
}

/* CMD 0102h */
static uint8_t abort_download(struct two_banks *module) {
    if (module->aborts_none) return UNKNOWN_COMMAND;
    module->aborts++;
    module->open = module->open && module->stays_open;
    return SUCCESS;
}

/* CMD 0103h */
static uint8_t take_block(struct two_banks *module, const uint8_t *body, uint8_t count) {
    uint32_t at = module->start_size + read_32(body), length = count - 4U;
    if (!module->open) return NOT_NOW;
    if (module->no_block != 0) return module->no_block;
    if (count <= 4 || at > module->covered || at + length > module->size) return BAD_PARAMETER;
    memcpy(module->images[1 - module->running] + at, body + 4, length);
    if (at + length > module->covered) module->covered = at + length;
    return SUCCESS;
}

/* CMD 0107h */
static uint8_t complete(struct two_banks *module) {
    int other = 1 - module->running;
    if (!module->open || module->covered != module->size) return NOT_NOW;
    module->open = false;
    module->valid[other] = true;
    module->committed[other] = false;
    module->lengths[other] = module->size;
    return SUCCESS;
}

/* CMD 0109h: the other bank is to run, after a reset. */
static uint8_t run(struct two_banks *module, const uint8_t *body, uint8_t count) {
    if (count != 4 || body[1] != 0) return BAD_PARAMETER;
    if (!module->valid[1 - module->running]) return NOT_NOW;
    module->runs++;
    module->reset_to = 1 - module->running;
    module->reset_left = 1 + module->late;
    return SUCCESS;
}

/* CMD 010Ah */
static uint8_t commit(struct two_banks *module) {
    module->commits++;
    if (module->commits_none) return SUCCESS;
    module->committed[module->running] = true;
    module->committed[1 - module->running] = false;
    return SUCCESS;
}

static uint8_t enter(struct two_banks *module, const uint8_t *body, uint8_t count) {
    module->is_open_to_all = count == 4 && read_32(body) == module->password;
    return module->is_open_to_all ? SUCCESS : NO_ACCESS;
}

static uint8_t carry_out(struct two_banks *module) {
    const uint8_t *body = module->page + 8;
    unsigned id = (unsigned)module->page[0] << 8 | module->page[1];
    uint8_t count = module->page[4];
    if (id == 0x0001) return enter(module, body, count);
    if (id == 0x0040) return tell_module_features(module), SUCCESS;
    if (id == 0x0041) return tell_features(module), SUCCESS;
    if (id == 0x0100) return tell_banks(module), SUCCESS;
    if (module->password != 0 && !module->is_open_to_all) return NO_ACCESS;
    switch (id) {
    case 0x0101: return start(module, body, count);
    case 0x0102: return abort_download(module);
    case 0x0103: return take_block(module, body, count);
    case 0x0107: return complete(module);
    case 0x0109: return run(module, body, count);
    case 0x010A: return commit(module);
    default: return UNKNOWN_COMMAND;
    }
}

/* The store of byte 129 has the module carry the message out. */
static void trigger(struct two_banks *module) {
    uint8_t message[128];
    memcpy(message, module->page, 5);
    memcpy(message + 5, module->page + 8, 120);
    bool loads = module->page[0] == 1 && module->page[1] != 0 && module->page[1] <= 7; /* 0101h to 0107h */
    module->status = BUSY;
    module->busy_left = 1 + next(module, loads ? module->slowest : quick_time(module));
    if (next(module, 300) < module->unlucky) module->busy_left = FOR_EVER;
    if (module->page[4] > 120 || module->page[5] != check_code(message, 5U + module->page[4])) {
        module->status = BAD_CHECK;
        module->busy_left = 0;
        module->completed = true;
    }
}

void store_to_block(struct two_banks *module, uint8_t address, uint8_t byte) {
    if (module->busy_left > 0) return;
    module->page[address - 128] = byte;
    if (address == 129) trigger(module);
}

/* ---- time ---- */

/* A command that fails may have had its effect. */
static void end_command(struct two_banks *module) {
    bool fails = next(module, 100) < module->unlucky, late = next(module, 2) == 0;
    uint8_t status = fails && !late ? 0x40 : carry_out(module);
    module->status = fails && status == SUCCESS ? 0x40 : status;
    module->completed = true;
}

static void boot(struct two_banks *module, int bank) {
    bool can_run = bank >= 0 && module->valid[bank] && (module->boots || module->committed[bank]);
    module->running = can_run ? bank : module->committed[0] && module->valid[0] ? 0 : 1;
    module->restarts++;
    module->status = 0;
    module->completed = false;
    module->busy_left = module->reset_left = 0;
    module->off_left = 200 + next(module, 2000);
    module->open = module->open && can_run && next(module, 2) == 0;
    memset(module->page, 0, sizeof module->page);
}

/* In the midst of a command it may have had its effect, or a part of it. */
void lose_power(struct two_banks *module) {
    bool acts = module->busy_left > 0 && next(module, 2) == 0;
    if (acts) carry_out(module);
    look(module);
    module->is_open_to_all = false;
    module->open = false;
    boot(module, -1);
}

static unsigned least(unsigned one, unsigned other) { return other > 0 && other < one ? other : one; }

static bool has_passed(unsigned *left, unsigned step) {
    if (*left == 0) return false;
    *left -= step;
    return *left == 0;
}

void pass_time(struct two_banks *module, unsigned milliseconds) {
    while (milliseconds > 0) {
        unsigned step = least(least(least(milliseconds, module->busy_left), module->reset_left), module->off_left);
        milliseconds -= step;
        has_passed(&module->off_left, step);
        bool ends = has_passed(&module->busy_left, step);
        bool resets = has_passed(&module->reset_left, step);
        if (ends) end_command(module);
        if (resets) boot(module, module->reset_to);
        look(module);
    }
}
