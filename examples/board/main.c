/* Firmware for a Cortex-M4: reads the module in the cage, plans its lanes, provisions the plan and activates it. It has no heap, and of
   the C library nothing but memory.c. docs/for_firmware.md has how it is built and run on an emulated board. */
#include "board.h"
#include "dovecounter.h"

/* Weights by HostInterfaceID: four paths of 100GAUI-2 weigh more than one of 400GAUI-8. */
static const uint32_t weights[256] = {[0x0D] = 101, [0x11] = 400};

/* The module carries nothing yet, so no path is kept, and all lanes are taken down. Firmware that may restart while the module carries
   traffic plans and judges as examples/plan_and_provision.c does. */
static const struct dovecounter_path kept[1];
enum { KEPT = 0 };

/* What is large is here and not on the stack: docs/firmware.md, "Size and stack". */
static struct dovecounter_half halves[DOVECOUNTER_MOST_READ];
static struct dovecounter_conversation conversation;
static struct dovecounter_plan plan;

/* Before anything is known of the module. */
static struct dovecounter_patience patience = {.pause = 100, .limit = 10000};

static void print_number(const char *before, uint32_t number) {
    char digits[11] = {0};
    int at = 10;
    do {
        digits[--at] = (char)('0' + number % 10);
        number /= 10;
    } while (number != 0);
    print(before);
    print(digits + at);
}

static uint8_t transact(void *context, const struct dovecounter_operation *operation, uint8_t bytes[128]) {
    (void)context;
    if (operation->kind == DOVECOUNTER_STORE)
        return bus_store(operation->device, operation->offset, operation->bytes, operation->count)
                   ? DOVECOUNTER_STORED
                   : DOVECOUNTER_REFUSED;
    return bus_fetch(operation->device, operation->offset, bytes, operation->count) ? DOVECOUNTER_FETCHED
                                                                                    : DOVECOUNTER_REFUSED;
}

static void wait_ms(void *context, uint32_t milliseconds) {
    (void)context;
    bus_pause(milliseconds);
}

/* True once the conversation that has begun has succeeded. */
static bool carry_out(const char *what) {
    struct dovecounter_ending ending;
    if (dovecounter_run(&conversation, halves, transact, wait_ms, NULL) != DOVECOUNTER_DONE) return false;
    if (dovecounter_end(&conversation, halves, &ending) != DOVECOUNTER_DONE) return false;
    print(what);
    print_number(": operations ", ending.steps);
    print_number(", fault ", ending.fault.code);
    print("\n");
    return ending.fault.code == 0;
}

static bool plan_lanes(void) {
    size_t count = conversation.halves;
    uint32_t status = dovecounter_plan(halves, count, 1, 0, weights, 0, kept, KEPT, &plan);
    if (status == DOVECOUNTER_DONE) status = dovecounter_patience(halves, count, &patience);
    if (status != DOVECOUNTER_DONE) {
        print_number("no plan, status ", status);
        print("\n");
        return false;
    }
    if (plan.count == 0) { /* to provision it would take all lanes down */
        print("no path is worth anything\n");
        return false;
    }
    print_number("weight ", (uint32_t)plan.weight);
    for (uint8_t i = 0; i < plan.count; i++) {
        print_number("\npath app ", plan.paths[i].application);
        print_number(" host ", plan.paths[i].host);
        print_number(" media ", plan.paths[i].media);
    }
    print("\n");
    return true;
}

int main(void) {
    dovecounter_read_begin(128, &patience, &conversation);
    if (!carry_out("read") || !plan_lanes()) return 1;
    dovecounter_provision_begin(plan.control, plan.outside, &patience, &conversation);
    if (!carry_out("provisioned")) return 1;
    dovecounter_activate_begin(plan.control, plan.lanes, &patience, &conversation);
    return carry_out("activated") ? 0 : 1;
}
