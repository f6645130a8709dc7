/* What a module lists itself (VDM): read now and then, after a look at a module that is as wanted or left alone, bank by bank, while the
   statistics of the bank are frozen. Of each reading one operation is made at a time, as of all else that is done at a port, and between two
   banks other things come first. */
#include "cmisd.h"

#include <string.h>

static bool is_unsupported(const struct dovecounter_vdm_end *end) {
    return end->statistics == DOVECOUNTER_VDM_UNSUPPORTED;
}

static bool is_whole(const struct dovecounter_vdm_end *end) {
    return end->statistics == DOVECOUNTER_VDM_FROZEN && end->release == DOVECOUNTER_VDM_RELEASED &&
           end->missing_count == 0;
}

static const char *words_of(const struct dovecounter_vdm_end *end) {
    if (is_unsupported(end)) return "the module lists nothing";
    if (is_whole(end)) return "what the module lists was read while it was frozen";
    if (end->release == DOVECOUNTER_VDM_MAY_BE_FROZEN) return "its statistics may still be frozen";
    switch (end->statistics) {
    case DOVECOUNTER_VDM_UNKNOWN: return "page 01h or 2Fh can't be read";
    case DOVECOUNTER_VDM_FROZEN: break;
    default: return "its statistics weren't frozen while they were read: they may not belong together";
    }
    if (end->missing_count > 0) return "a page that the module advertises can't be read";
    return "the module doesn't show that its statistics go on, though it took the request";
}

/* Only what differs from the reading of this bank before is told. */
static void tell_end(struct port *port, const struct dovecounter_vdm_end *end) {
    uint8_t number = port->listing.bank;
    struct listed_bank *bank = &port->listing.banks[number];
    const char *found = words_of(end);
    char words[WORDS_SIZE];
    if (bank->told == found) return;
    bank->told = found;
    if (number != 0) snprintf(words, sizeof words, "bank %u: %s", number, found);
    tell(port, "listed", number == 0 ? found : words);
}

/* Of banks that are no longer there nothing is known, nor told. */
static void end_round(struct port *port) {
    struct listing *it = &port->listing;
    it->next = 0;
    it->due = now() + (int64_t)port->entry.vdm * 1000;
    for (uint8_t bank = 1; bank < BANKS; bank++)
        if (bank_from(port, bank) != bank) memset(&it->banks[bank], 0, sizeof it->banks[bank]);
    if (port->half_count > 0 && !port->is_retired) put_image(port);
}

/* Keeps what was read of the bank. A module that lists nothing does so in no bank. */
static void keep(struct listing *it, bool is_none) {
    struct listed_bank *bank = &it->banks[it->bank];
    memcpy(bank->read, it->halves, sizeof bank->read);
    bank->read_count = it->reading.halves;
    for (uint8_t each = 0; is_none && each < BANKS; each++) it->banks[each].read_count = 0;
}

/* The round goes on with the next bank, unless it was to begin anew meanwhile: then what was read isn't kept. */
static void finish(struct port *port) {
    struct listing *it = &port->listing;
    struct dovecounter_vdm_end end;
    it->is_under_way = false;
    it->due = 0;
    if (dovecounter_vdm_end(&it->reading, it->halves, &end) != DOVECOUNTER_DONE) return end_round(port);
    if (it->next != 0) keep(it, is_unsupported(&end));
    if (it->next != 0 && (is_unsupported(&end) || bank_from(port, it->next) == BANKS)) end_round(port);
    if (!port->is_retired) tell_end(port, &end);
}

/* Of a module that is gone nothing is known. */
void forget_module(struct port *port) {
    memset(&port->listing, 0, sizeof port->listing);
    memset(&port->outputs, 0, sizeof port->outputs);
}

/* A round that is interrupted begins anew, so that what is read first isn't much older than the rest. */
void begin_round(struct port *port) { port->listing.next = 0; }

/* What it lists isn't known until it is read again. */
void list_anew(struct port *port) {
    struct listing *it = &port->listing;
    for (uint8_t bank = 0; bank < BANKS; bank++) it->banks[bank].read_count = 0;
    it->due = 0;
    begin_round(port);
}

/* Whether a reading may begin, since no conversation of the library is under way. */
static bool may_begin(const struct port *port) {
    uint8_t reason = port->core.left.reason;
    bool is_watched = port->core.stage == DOVECOUNTER_PORT_WATCHING;
    bool is_left = port->core.stage == DOVECOUNTER_PORT_LEFT;
    bool is_awake = reason == DOVECOUNTER_LEFT_NO_PLAN || reason == DOVECOUNTER_LEFT_NEEDS_PERMISSION;
    return port->entry.vdm > 0 && ((is_watched && port->is_rested) || (is_left && is_awake));
}

/* Begins a reading if one is due; else sees that the port is due by then. A bank may have gone since the one before it was read. */
void begin_listing(struct port *port) {
    struct listing *it = &port->listing;
    if (!may_begin(port)) return;
    if (it->due <= now() && bank_from(port, it->next) == BANKS) end_round(port);
    if (it->due > now()) {
        if (it->due < port->due) port->due = it->due;
        return;
    }
    it->bank = bank_from(port, it->next);
    it->next = (uint8_t)(it->bank + 1);
    dovecounter_vdm_begin(PAUSE, it->bank, &it->reading);
    it->is_under_way = true;
    port->goes_on_at = 0;
    port->due = now();
}

/* Whether it asks for a pause that isn't over, until which nothing is due. */
bool is_pausing(struct port *port, const struct dovecounter_operation *operation) {
    bool waits = operation->kind == DOVECOUNTER_WAIT;
    if (waits && port->goes_on_at == 0) port->goes_on_at = now() + operation->milliseconds;
    if (waits && port->goes_on_at > now()) {
        port->due = port->goes_on_at;
        return true;
    }
    port->goes_on_at = 0;
    return false;
}

/* Makes an operation that isn't the port's own; its outcome. */
uint8_t make_aside(struct port *port, const struct dovecounter_operation *operation, uint8_t bytes[128]) {
    bool answered;
    if (operation->kind == DOVECOUNTER_WAIT) return DOVECOUNTER_WAITED;
    make(port, operation, bytes, &answered);
    if (!answered) return DOVECOUNTER_REFUSED;
    return operation->kind == DOVECOUNTER_STORE ? DOVECOUNTER_STORED : DOVECOUNTER_FETCHED;
}

/* Makes the next operation of the reading under way, waits as long as it asks, or ends it. */
void go_on_listing(struct port *port) {
    struct listing *it = &port->listing;
    struct dovecounter_operation operation;
    uint8_t bytes[128];
    if (dovecounter_vdm_next(&it->reading, it->halves, &operation) != DOVECOUNTER_DONE) return finish(port);
    if (is_pausing(port, &operation)) return;
    uint8_t outcome = make_aside(port, &operation, bytes);
    dovecounter_vdm_reply(&it->reading, it->halves, outcome, bytes, operation.count);
}
