/* A bus to a module with two banks (tests/port/two_banks.c), which may refuse and may lose power, and such modules by chance. */
#ifndef TWO_BANKS_BUS_H
#define TWO_BANKS_BUS_H

#include "expect.h"

#include "../port/two_banks.c"

static struct two_banks module;
static uint8_t file[MOST_IMAGE];
static uint32_t size;
static uint64_t state = 88172645463325252u;

static unsigned chance(unsigned below) {
    state ^= state << 13, state ^= state >> 7, state ^= state << 17;
    return (unsigned)(state >> 33) % below;
}

static void fill_file(uint32_t wanted) {
    size = wanted;
    for (uint32_t i = 0; i < size; i++) file[i] = (uint8_t)chance(256);
}

static bool has_file(int bank) {
    return module.valid[bank] && module.lengths[bank] == size && memcmp(module.images[bank], file, size) == 0;
}

/* ---- the bus ---- */

static uint8_t selected[2]; /* bank and page */
static unsigned refuses;    /* of 100 transactions */
static unsigned made, cut;  /* transactions and pauses; after which one power is lost, or 0 */

static uint8_t fetch_one(uint8_t address) {
    static const uint8_t advertised[] = {0x40, 15, 0, 0}; /* page 01h from byte 163 on: an instance, any length */
    if (address == 1) return 0x50;
    if (address == 3) return 3 << 1; /* ModuleReady */
    if (address == 8) return fetch_flags(&module);
    if (address == 37) return fetch_status(&module);
    if (address == 126 || address == 127) return selected[address - 126];
    if (address >= 163 && address <= 166 && selected[1] == 1) return advertised[address - 163];
    if (address >= 128 && selected[0] == 0 && selected[1] == 0x9F) return fetch_of_block(&module, address);
    return 0;
}

static void store_one(uint8_t address, uint8_t byte) {
    if (address == 126 || address == 127)
        selected[address - 126] = byte;
    else if (address >= 128 && selected[0] == 0 && selected[1] == 0x9F)
        store_to_block(&module, address, byte);
    else
        expect("a store elsewhere", 0, address);
}

/* A module that restarts selects page 00h. */
static void look_for_restarts(void) {
    static unsigned seen;
    if (module.restarts != seen) selected[0] = selected[1] = 0;
    seen = module.restarts;
}

/* How many bytes of a transaction are taken, and whether it is refused then. */
static unsigned begin_transaction(unsigned count, bool *refused) {
    pass_time(&module, 1);
    if (++made == cut) lose_power(&module);
    look_for_restarts();
    *refused = is_deaf(&module) || chance(100) < refuses;
    return !*refused ? count : is_deaf(&module) ? 0 : chance(count + 1U);
}

static uint8_t transact(void *context, const struct dovecounter_operation *operation, uint8_t bytes[128]) {
    (void)context;
    bool stores = operation->kind == DOVECOUNTER_STORE, refused;
    unsigned taken = begin_transaction(operation->count, &refused);
    for (unsigned i = 0; i < taken; i++) {
        uint8_t address = (uint8_t)(operation->offset + i);
        if (stores)
            store_one(address, operation->bytes[i]);
        else
            bytes[i] = fetch_one(address);
    }
    return refused ? DOVECOUNTER_REFUSED : stores ? DOVECOUNTER_STORED : DOVECOUNTER_FETCHED;
}

static void pause_for(void *context, uint32_t milliseconds) {
    (void)context;
    unsigned before = milliseconds / 2;
    pass_time(&module, before);
    if (++made == cut) lose_power(&module);
    pass_time(&module, milliseconds - before);
    look_for_restarts();
}

/* ---- modules ---- */

static void begin_module(uint64_t seed) {
    begin_two_banks(&module, seed);
    memcpy(module.images[0], "\1\2\3\4", 4);
    selected[0] = selected[1] = 0;
    refuses = made = cut = 0;
}

static void make_module(void) {
    begin_module(state);
    int old = (int)chance(2);
    module.running = old;
    load_bank(&module, 0, (const uint8_t *)"old", 3);
    load_bank(&module, 1, (const uint8_t *)"older", 5);
    module.committed[old] = true;
    module.committed[1 - old] = false;
    module.valid[1 - old] = chance(2);
    if (chance(6) == 0 && module.valid[1 - old]) module.running = 1 - old; /* it runs, and isn't committed */
    module.start_size = (uint8_t)(chance(3) ? chance(113) : 0);
    module.reply_count = (uint8_t)(1 + chance(110));
    module.background = chance(2);
    module.tens = chance(2);
    module.boots = chance(5);
    module.slowest = 1 + chance(chance(8) ? 50 : 3000);
    module.late = chance(2) ? 0 : chance(3000);
    module.unlucky = chance(3) ? 0 : chance(30);
    module.open = chance(4) == 0; /* an earlier download */
    module.size = 100;
    module.not_again = (uint8_t)(chance(3) == 0 ? 0 : chance(2) ? 0x43 : 0x47);
    module.aborts_none = chance(4) == 0;
    refuses = chance(2) ? 0 : chance(chance(4) ? 5 : 40);
    cut = chance(2) ? 0 : 1 + chance(chance(2) ? 300 : 60 + size / 6);
}

#endif
