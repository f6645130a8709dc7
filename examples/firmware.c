/* Reads the text of a module's image on standard input, plans the module's lanes, and provisions the plan on a module in
   software whose bus refuses every fifth transaction. Prints the plan, the number of transactions and the active bytes.

       cc -Iinclude examples/firmware.c crates/firmware_api/out/libfirmware_api.a -o firmware
       ./firmware < examples/qsfp_dd_400g_dr4.txt */
#include "dovecounter.h"

#include <stdio.h>
#include <string.h>

/* Weights by HostInterfaceID: four paths of 100GAUI-2 outweigh one of 400GAUI-8. */
static const uint32_t weights[256] = {[0x0D] = 101, [0x11] = 400};

/* The module carries nothing yet, so no path is kept. */
static const struct dovecounter_path kept[1];
enum { KEPT = 0 };

/* ---- the image's text: `lower A0 HEX`, or `upper A0 BANK PAGE HEX` ---- */

enum { MOST_HALVES = 16 };

static int read_bytes(const char *digits, uint8_t bytes[128]) {
    for (int i = 0; i < 128; i++) {
        unsigned byte;
        if (sscanf(digits + 2 * i, "%2x", &byte) != 1) return 0;
        bytes[i] = (uint8_t)byte;
    }
    return 1;
}

static int read_half(const char *line, struct dovecounter_half *half) {
    unsigned device, bank = 0, page = 0;
    char digits[257];
    if (sscanf(line, "lower %x %256s", &device, digits) == 2)
        half->upper = 0;
    else if (sscanf(line, "upper %x %x %x %256s", &device, &bank, &page, digits) == 4)
        half->upper = 1;
    else
        return 0;
    half->device = (uint8_t)device;
    half->bank = (uint8_t)bank;
    half->page = (uint8_t)page;
    return strlen(digits) == 256 && read_bytes(digits, half->bytes);
}

static size_t read_halves(FILE *in, struct dovecounter_half halves[MOST_HALVES]) {
    char line[512];
    size_t count = 0;
    while (count < MOST_HALVES && fgets(line, sizeof line, in))
        if (read_half(line, &halves[count])) count++;
    return count;
}

/* ---- a module in software: page 10h takes what is stored, and page 11h follows at once ---- */

struct module {
    uint8_t page;         /* selected */
    uint8_t control[128]; /* page 10h, from byte 128 on */
    uint8_t status[128];  /* page 11h, from byte 128 on */
    unsigned transactions;
};

static void set_lane(uint8_t four[4], int lane, uint8_t code) {
    int shift = lane % 2 * 4;
    four[lane / 2] = (uint8_t)((four[lane / 2] & 0xF0 >> shift) | code << shift);
}

/* DPDeinit: lanes whose bit is set are DPDeactivated, all others DPActivated. */
static void deinitialize(struct module *module, uint8_t lanes) {
    for (int lane = 0; lane < 8; lane++) set_lane(module->status, lane, lanes >> lane & 1 ? 1 : 4);
}

/* ApplyDPInit: the lanes get their staged bytes as active ones, and the status ConfigSuccess. */
static void apply(struct module *module, uint8_t lanes) {
    for (int lane = 0; lane < 8; lane++)
        if (lanes >> lane & 1) {
            set_lane(module->status + 202 - 128, lane, 1);
            module->status[206 - 128 + lane] = module->control[145 - 128 + lane];
        }
}

static void store_byte(struct module *module, uint8_t address, uint8_t byte) {
    if (address == 127) module->page = byte;
    if (address < 128 || module->page != 0x10) return;
    module->control[address - 128] = byte;
    if (address == 128) deinitialize(module, byte);
    if (address == 143) apply(module, byte);
}

static uint8_t fetch_byte(const struct module *module, uint8_t address) {
    if (address == 3) return 3 << 1; /* ModuleReady */
    if (address == 127) return module->page;
    if (address < 128) return 0;
    return module->page == 0x10 ? module->control[address - 128] : module->status[address - 128];
}

/* Makes a transaction on the bus, which refuses every fifth; a fetch fills `bytes`. */
static uint8_t transact(struct module *module, const struct dovecounter_operation *operation, uint8_t *bytes) {
    if (++module->transactions % 5 == 0) return DOVECOUNTER_REFUSED;
    for (uint8_t i = 0; i < operation->count; i++) {
        uint8_t address = (uint8_t)(operation->offset + i);
        if (operation->kind == DOVECOUNTER_STORE)
            store_byte(module, address, operation->bytes[i]);
        else
            bytes[i] = fetch_byte(module, address);
    }
    return operation->kind == DOVECOUNTER_STORE ? DOVECOUNTER_STORED : DOVECOUNTER_FETCHED;
}

static uint8_t transact_with(void *module, const struct dovecounter_operation *operation, uint8_t bytes[128]) {
    return transact(module, operation, bytes);
}

/* This module follows at once. */
static void wait_ms(void *module, uint32_t milliseconds) {
    (void)module;
    (void)milliseconds;
}

enum { NO_ANSWER = 255 };

/* Carries the procedure out and returns the code of its fault, 0 for success, or NO_ANSWER after an impossible reply. */
static uint8_t carry_out(struct module *module, struct dovecounter_conversation *procedure) {
    static struct dovecounter_half none[DOVECOUNTER_MOST_READ]; /* procedures read no halves */
    struct dovecounter_ending ending;
    if (dovecounter_run(procedure, none, transact_with, wait_ms, module) != DOVECOUNTER_DONE) return NO_ANSWER;
    return dovecounter_end(procedure, none, &ending) == DOVECOUNTER_DONE ? ending.fault.code : NO_ANSWER;
}

static void print_plan(const struct dovecounter_plan *plan) {
    printf("weight %lu\n", (unsigned long)plan->weight);
    for (uint8_t i = 0; i < plan->count; i++)
        printf("path %u %u %u\n", plan->paths[i].application, plan->paths[i].host, plan->paths[i].media);
}

int main(void) {
    static struct dovecounter_half halves[MOST_HALVES];
    static struct module module;
    struct dovecounter_plan plan;
    struct dovecounter_conversation procedure;
    struct dovecounter_patience patience;
    size_t count = read_halves(stdin, halves);
    uint32_t status = dovecounter_plan(halves, count, 1, 0, weights, 0, kept, KEPT, &plan);
    if (status == DOVECOUNTER_DONE) status = dovecounter_patience(halves, count, &patience);
    if (status != DOVECOUNTER_DONE) {
        printf("status %u\n", (unsigned)status);
        return 1;
    }
    print_plan(&plan);
    dovecounter_provision_begin(plan.control, plan.outside, &patience, &procedure);
    uint8_t fault = carry_out(&module, &procedure);
    if (fault == 0) {
        dovecounter_activate_begin(plan.control, plan.lanes, &patience, &procedure);
        fault = carry_out(&module, &procedure);
    }
    if (fault != 0) {
        printf("fault %u\n", fault);
        return 4;
    }
    printf("transactions %u\nactive", module.transactions);
    for (int i = 0; i < 8; i++) printf(" %02x", module.status[206 - 128 + i]);
    printf("\n");
    return 0;
}
