/* The part of a main loop that provisions a plan and brings its data paths up. It never waits: the bus interrupts when a
   transaction is over, and the main loop calls `poll_module` whenever it comes by. Before that read the module, plan, judge the change, and
   wake the module, as plan_and_provision.c does: conversations for reading and waking go through the same dovecounter_next and
   dovecounter_reply.

   The board has i2c_start and milliseconds, its interrupt calls i2c_over, and nobody else uses the module meanwhile. */
#include "dovecounter.h"

#include <stdatomic.h>
#include <stdbool.h>
#include <string.h>

/* Starts one transaction, which the driver doesn't repeat by itself; a fetch fills `bytes` (procedures fetch at most 8). Many drivers
   take 7-bit addresses: operation->device >> 1. */
void i2c_start(const struct dovecounter_operation *operation, uint8_t bytes[128]);

/* A clock, modulo 2^32, which is enough here; a port needs one of 64 bits (port_loop.c). */
uint32_t milliseconds(void);

/* How often a stage is begun, and how many milliseconds pass at least before it is begun again. */
enum { MOST_BEGINNINGS = 3, BEFORE_AGAIN = 500 };

enum stage { IDLE, PROVISIONING, ACTIVATING, UP, FAILED };

static enum stage stage = IDLE;
static struct dovecounter_plan plan;
static uint8_t taken; /* lanes to provision */
static struct dovecounter_patience patience;
static struct dovecounter_conversation conversation;
static struct dovecounter_half halves[DOVECOUNTER_MOST_READ]; /* procedures read none */
static struct dovecounter_operation operation;                /* the last one */
static uint8_t bytes[128];                                    /* of a fetch */
static unsigned beginnings;                                   /* of this stage */
static uint32_t since;                                        /* when what is under way began */
static bool rests;                                            /* a stage is begun again, after a while */
static bool under_way;                                        /* a transaction, or a wait */
static atomic_bool over;               /* set by the interrupt, which may run on another processor, */
static uint8_t outcome;                /* once it has written what came of the transaction */
static struct dovecounter_fault fault; /* why it failed, */
static uint32_t status;                /* or the status of the call that failed */

/* Called by the interrupt when a transaction is over, with DOVECOUNTER_REFUSED after the first NACK. */
void i2c_over(uint8_t what) {
    outcome = what;
    over = true;
}

static void begin(enum stage wanted) {
    rests = wanted == stage;
    beginnings = rests ? beginnings + 1 : 1;
    stage = wanted;
    since = milliseconds();
    if (wanted == PROVISIONING)
        dovecounter_provision_begin(plan.control, taken, &patience, &conversation);
    else
        dovecounter_activate_begin(plan.control, plan.lanes, &patience, &conversation);
}

/* Begins to carry out a plan, with the effect that dovecounter_judge told of the memory as just read (spares and activates were 1), and the
   patience from dovecounter_patience. Returns false if something stands against it, or another plan is under way. Only lanes of
   effect->taken are provisioned, not all of plan->outside: after a restart of the firmware, paths that are up stay up. */
bool carry_out(const struct dovecounter_plan *wanted, const struct dovecounter_effect *effect,
               const struct dovecounter_patience *patient) {
    if (stage == PROVISIONING || stage == ACTIVATING) return false;
    if (effect->hindrance != DOVECOUNTER_UNHINDERED) return false;
    plan = *wanted;
    taken = effect->taken;
    patience = *patient;
    memset(&fault, 0, sizeof fault);
    if (effect->is_done)
        stage = UP;
    else
        begin(effect->is_active ? ACTIVATING : PROVISIONING);
    return true;
}

/* Whether it makes sense to begin the procedure again after a while: the module may just have been slow, or may have shown the success
   of an earlier apply while it was provisioned. If activation finds the plan no longer active, read, plan and judge again. */
static bool may_begin_again(uint8_t code) {
    return code == DOVECOUNTER_GAVE_UP_WAITING || code == DOVECOUNTER_OVERDUE ||
           (code == DOVECOUNTER_NOT_ACTIVE && stage == PROVISIONING);
}

/* The procedure has ended. */
static void end(void) {
    struct dovecounter_ending ending;
    status = dovecounter_end(&conversation, halves, &ending);
    uint8_t code = ending.fault.code;
    if (status != DOVECOUNTER_DONE) {
        stage = FAILED;
    } else if (may_begin_again(code) && beginnings < MOST_BEGINNINGS) {
        begin(stage);
    } else if (code != DOVECOUNTER_NO_FAULT) {
        fault = ending.fault;
        stage = FAILED;
    } else if (stage == PROVISIONING) {
        begin(ACTIVATING);
    } else {
        stage = UP;
    }
}

/* Whether what is under way is over. */
static bool is_over(void) {
    if (operation.kind != DOVECOUNTER_WAIT) return over;
    outcome = DOVECOUNTER_WAITED;
    /* not >=: the current millisecond may be nearly over when the wait begins */
    return milliseconds() - since > operation.milliseconds;
}

/* Starts what comes next, if anything does. */
static void go_on(void) {
    status = dovecounter_next(&conversation, halves, &operation);
    if (status == DOVECOUNTER_ENDED) {
        end();
        return;
    }
    if (status != DOVECOUNTER_DONE) {
        stage = FAILED;
        return;
    }
    under_way = true;
    over = false;
    since = milliseconds();
    if (operation.kind != DOVECOUNTER_WAIT) i2c_start(&operation, bytes);
}

/* Called by the main loop; returns the stage. */
enum stage poll_module(void) {
    if (stage != PROVISIONING && stage != ACTIVATING) return stage;
    if (rests && milliseconds() - since < BEFORE_AGAIN) return stage;
    rests = false;
    if (under_way && !is_over()) return stage;
    if (under_way) {
        under_way = false;
        status = dovecounter_reply(&conversation, halves, outcome, bytes, operation.count);
        if (status != DOVECOUNTER_DONE) return stage = FAILED; /* such as DOVECOUNTER_STORED for a fetch */
    }
    go_on();
    return stage;
}
