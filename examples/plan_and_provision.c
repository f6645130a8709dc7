/* Firmware that may block: reads the module in a cage, plans its lanes, and brings the plan up without taking down a path that stays.
   The board has i2c_fetch, i2c_store and sleep_ms; nobody else uses the module meanwhile. */
#include "dovecounter.h"

#include <stdbool.h>
#include <string.h>

enum { MOST_MILLIWATTS = 12000 }; /* what a module in this cage may draw */

/* The board's bus, by 7-bit addresses. Each makes one transaction, without a retry, and returns whether the module acknowledged every
   byte. */
bool i2c_fetch(uint8_t address, uint8_t offset, uint8_t *bytes, uint8_t count);
bool i2c_store(uint8_t address, uint8_t offset, const uint8_t *bytes, uint8_t count);
void sleep_ms(uint32_t milliseconds);

/* What came of it. After a success nothing here is set but what the effect says of lanes. */
struct outcome {
    uint32_t status;                  /* of the call that refused, such as DOVECOUNTER_NOT_CMIS */
    struct dovecounter_fault fault;   /* of the conversation that failed */
    struct dovecounter_effect effect; /* and its hindrance: what stands against the change */
};

static struct dovecounter_half memory[DOVECOUNTER_MOST_READ]; /* as read */
static struct dovecounter_conversation conversation;
static struct dovecounter_patience patience;

static void wait_ms(void *context, uint32_t milliseconds) {
    (void)context;
    sleep_ms(milliseconds);
}

static uint8_t transact(void *context, const struct dovecounter_operation *operation, uint8_t bytes[128]) {
    (void)context;
    uint8_t address = operation->device >> 1, offset = operation->offset, count = operation->count;
    if (operation->kind == DOVECOUNTER_FETCH)
        return i2c_fetch(address, offset, bytes, count) ? DOVECOUNTER_FETCHED : DOVECOUNTER_REFUSED;
    return i2c_store(address, offset, operation->bytes, count) ? DOVECOUNTER_STORED : DOVECOUNTER_REFUSED;
}

/* Carries out the conversation that has begun, and returns whether it succeeded. */
static bool carry_out(struct outcome *outcome) {
    struct dovecounter_ending ending = {0};
    outcome->status = dovecounter_run(&conversation, memory, transact, wait_ms, NULL);
    if (outcome->status == DOVECOUNTER_DONE) outcome->status = dovecounter_end(&conversation, memory, &ending);
    outcome->fault = ending.fault;
    return outcome->status == DOVECOUNTER_DONE && ending.fault.code == DOVECOUNTER_NO_FAULT;
}

/* Reads, plans and judges. Four paths of 100GAUI-2 outweigh one of 400GAUI-8, unless that is active and `stay` is above 4. */
static bool judge_plan(uint32_t stay, uint8_t may_take_down, struct dovecounter_plan *plan, struct outcome *outcome) {
    static const uint32_t weights[256] = {[0x0D] = 101, [0x11] = 400};
    static const struct dovecounter_path kept[1]; /* none: `stay` is enough */
    dovecounter_read_begin(128, &patience, &conversation);
    if (!carry_out(outcome)) return false;
    outcome->status = dovecounter_plan(memory, conversation.halves, 1, 0, weights, stay, kept, 0, plan);
    if (outcome->status != DOVECOUNTER_DONE) return false;
    dovecounter_patience(memory, conversation.halves, &patience); /* succeeds, since the plan did */
    struct dovecounter_change change = {
        .lanes = plan->lanes, .outside = plan->outside, .spares = 1, .activates = 1, .may_take_down = may_take_down};
    memcpy(change.control, plan->control, sizeof change.control);
    outcome->status = dovecounter_judge(memory, conversation.halves, &change, &outcome->effect);
    return outcome->status == DOVECOUNTER_DONE;
}

/* Returns whether the plan is up. Pass 0 and 0xFF for a module that carries nothing, else 50 and 0: then no lane that is up goes down. */
bool plan_and_provision(uint32_t stay, uint8_t may_take_down, struct dovecounter_plan *plan, struct outcome *outcome) {
    struct dovecounter_effect *effect = &outcome->effect;
    *outcome = (struct outcome){0};
    patience = (struct dovecounter_patience){.pause = 100, .limit = 10000}; /* until the module is known */
    if (!judge_plan(stay, may_take_down, plan, outcome)) return false;
    if (effect->hindrance == DOVECOUNTER_OTHER_STATE && effect->state == DOVECOUNTER_MODULE_LOW_PWR) {
        struct dovecounter_identity module;
        dovecounter_identity(memory, conversation.halves, &module); /* succeeds too */
        if (module.max_power > MOST_MILLIWATTS) return false;
        dovecounter_wake_begin(&patience, &conversation);
        if (!carry_out(outcome) || !judge_plan(stay, may_take_down, plan, outcome)) return false;
    }
    if (effect->hindrance != DOVECOUNTER_UNHINDERED) return false;
    if (effect->is_done) return true;
    if (!effect->is_active) {
        dovecounter_provision_begin(plan->control, effect->taken, &patience, &conversation);
        if (!carry_out(outcome)) return false;
    }
    dovecounter_activate_begin(plan->control, plan->lanes, &patience, &conversation);
    return carry_out(outcome);
}
