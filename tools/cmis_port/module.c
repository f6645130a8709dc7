/* The reading of a module, and procedures on it. */
#include "port.h"

#include <err.h>
#include <unistd.h>

enum { NO_OUTCOME = 255 }; /* what ends a conversation in the middle */

static const char *const works[] = {"provisioning", "activation", "waking up", "going to sleep"};

/* Shown by the first half that is read, while the second may be silent. */
bool is_other_family(const struct port *port) {
    struct dovecounter_advertisement module;
    return dovecounter_advertisement(port->halves, port->half_count, 0, &module) == DOVECOUNTER_NOT_CMIS;
}

/* A conversation that is carried out, and what is to be seen to meanwhile. */
struct talk {
    struct port *port;
    struct dovecounter_conversation conversation;
    struct dovecounter_half *halves; /* those that a reading has read */
    const char *name;                /* that is shown; NULL of a reading */
    bool of_any_family;              /* a reading goes on whatever the first half shows */
    unsigned before;                 /* operations that were made before it */
};

/* `bytes` are those of a fetch from `offset` on, which is 0 if nothing was fetched. */
static void show_progress(const struct talk *talk, uint8_t offset, const uint8_t *bytes) {
    const char *const *names = offset == PATH_STATES ? path_states : offset == CONFIG_STATUSES ? config_statuses : NULL;
    if (talk->name == NULL || !isatty(STDERR_FILENO)) return;
    fprintf(stderr, "\r\033[K%s:", talk->name);
    if (names != NULL) print_codes(stderr, bytes, names);
    fprintf(stderr, "%s %u of at most 4096 operations\r", names != NULL ? "," : "", talk->port->made - talk->before);
}

/* Whether the reading has to end, since its first half shows another family. */
static bool has_enough(const struct talk *talk) {
    if (talk->name != NULL || talk->of_any_family) return false;
    talk->port->half_count = talk->conversation.halves;
    return is_other_family(talk->port);
}

static uint8_t make(void *context, const struct dovecounter_operation *operation, uint8_t bytes[128]) {
    struct talk *talk = context;
    uint8_t most = talk->port->most;
    if (talk->port->ending != GOES_ON || has_enough(talk)) return NO_OUTCOME;
    uint8_t outcome = transact(talk->port, operation, bytes);
    show_progress(talk, outcome == DOVECOUNTER_FETCHED ? operation->offset : 0, bytes);
    return most == talk->port->most ? outcome : NO_OUTCOME;
}

static void wait_ms(void *context, uint32_t ms) {
    struct talk *talk = context;
    if (talk->port->ending == GOES_ON) pause_ms(talk->port, ms);
}

/* Carries a conversation out. Answers the code of its fault, or 0; NO_ANSWER if it was not ended. */
static unsigned run(struct talk *talk, struct dovecounter_ending *ending) {
    struct port *port = talk->port;
    talk->before = port->made;
    uint32_t status = dovecounter_run(&talk->conversation, talk->halves, make, wait_ms, talk);
    clear_progress();
    if (status != DOVECOUNTER_DONE || dovecounter_end(&talk->conversation, talk->halves, ending) != DOVECOUNTER_DONE)
        return NO_ANSWER;
    return ending->fault.code;
}

/* Reads what is requested, or if that is 0, all of bank 0, from the beginning again if the adapter fetches less at once. */
static bool read_requested(struct talk *talk, uint8_t requested) {
    const struct dovecounter_patience patience = {.pause = 20, .limit = 2000};
    struct port *port = talk->port;
    struct dovecounter_ending ending;
    unsigned fault;
    uint8_t most;
    port->ending = GOES_ON;
    do {
        most = port->most;
        if (requested == 0)
            dovecounter_read_begin(most, &patience, &talk->conversation);
        else
            dovecounter_read_some_begin(requested, most, &patience, &talk->conversation);
        fault = run(talk, &ending);
    } while (port->ending == GOES_ON && most != port->most);
    if (port->ending != GOES_ON) return false;
    if (fault == NO_ANSWER || fault == 0) return true; /* another family, or all was read */
    stop(port, fault == 4 ? "4096 operations were not enough to read the module"
                          : "the module answers too seldom to be read");
    return false;
}

/* Reads what the library asks for. */
bool read_module(struct port *port, bool of_any_family) {
    struct talk talk = {.port = port, .halves = port->halves, .of_any_family = of_any_family};
    if (port->is_told) return true;
    bool whole = read_requested(&talk, 0);
    port->half_count = talk.conversation.halves;
    return whole;
}

/* Reads the lanes of the further banks that a module advertises which was read, as far as they are there. Of this reading pages of these
   banks alone are taken: the lower half has lost its flags to the one before. */
bool read_further_banks(struct port *port) {
    struct dovecounter_half halves[DOVECOUNTER_MOST_READ];
    struct talk talk = {.port = port, .halves = halves, .of_any_family = true};
    uint8_t requested = 0;
    if (!port->is_told) dovecounter_further_banks(port->halves, port->half_count, &requested);
    if (requested == 0) return true;
    bool whole = read_requested(&talk, requested);
    for (uint8_t i = 0; i < talk.conversation.halves; i++)
        if (halves[i].bank != 0) port->halves[port->half_count++] = halves[i];
    return whole;
}

/* The bytes of the lower half or of page 11h of bank 0 from this one on; NULL if they were not read. */
const uint8_t *bytes_at(const struct port *port, uint8_t offset) {
    for (size_t i = 0; i < port->half_count; i++) {
        const struct dovecounter_half *half = &port->halves[i];
        bool upper = offset >= 128;
        bool is_in_bank = half->device == 0xA0 && half->bank == 0;
        if (is_in_bank && half->upper == upper && half->page == (upper ? 0x11 : 0)) return half->bytes + offset % 128;
    }
    return NULL;
}

unsigned state_of(const struct port *port) { return *bytes_at(port, MODULE_STATE) >> 1 & 7; }

/* The lanes whose data paths are in this state. */
unsigned lanes_in(const struct port *port, unsigned path_state) {
    unsigned lanes = 0;
    for (unsigned lane = 0; lane < 8; lane++)
        if (code_of(bytes_at(port, PATH_STATES), lane) == path_state) lanes |= 1U << lane;
    return lanes;
}

/* As much as the module asks for. */
struct dovecounter_patience patience_for(const struct port *port) {
    struct dovecounter_patience patience = {.pause = 100, .limit = 10000};
    dovecounter_patience(port->halves, port->half_count, &patience);
    return patience;
}

static void begin(const struct port *port, enum work work, struct dovecounter_conversation *conversation) {
    const struct dovecounter_patience patience = patience_for(port);
    switch (work) {
    case PROVISION: dovecounter_provision_begin(port->plan.control, judge(port).taken, &patience, conversation); break;
    case ACTIVATE: dovecounter_activate_begin(port->plan.control, port->plan.lanes, &patience, conversation); break;
    case WAKE: dovecounter_wake_begin(&patience, conversation); break;
    case SLEEP: dovecounter_sleep_begin(&patience, conversation); break;
    }
}

/* Carries a procedure out. Says the fault that it ended in, or 0; NO_ANSWER if it was not ended. */
unsigned carry_out(struct port *port, enum work work) {
    struct talk talk = {.port = port, .halves = port->halves, .name = works[work]};
    struct dovecounter_ending ending;
    begin(port, work, &talk.conversation);
    unsigned fault = run(&talk, &ending);
    if (fault == NO_ANSWER) return NO_ANSWER;
    if (fault != 0) say_fault(port->bus.name, ending.fault);
    port->steps[work] = ending.steps;
    return fault;
}
