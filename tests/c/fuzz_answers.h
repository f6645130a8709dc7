/* Calls that answer by a module's memory, and those that have texts. */
#ifndef FUZZ_ANSWERS_H
#define FUZZ_ANSWERS_H

#include "fuzz_input.h"

/* ---- what a module is ---- */

static struct dovecounter_half *halves;
static size_t half_count;
static uint32_t *weights;
static struct dovecounter_path *kept;
static size_t kept_count;
static uint32_t stay;
static uint8_t paired, counts_by_id;

static void call_advertisement(void) {
#define ADVERTISEMENT(it) dovecounter_advertisement(halves, half_count, counts_by_id, it)
    ASK(struct dovecounter_advertisement, found, LIST(OF_ADVERTISEMENT), ADVERTISEMENT);
    if (status) return;
    stop_if(found->count > 15, "more than 15 Applications");
    for (int i = 0; i < 15; i++) stop_if((found->applications[i].number != 0) != (i < found->count), "numbers");
}

static void call_identity(void) {
#define IDENTITY(it) dovecounter_identity(halves, half_count, it)
    ASK(struct dovecounter_identity, found, LIST(OF_FAMILY), IDENTITY);
    if (status) return;
    stop_if(found->family < 1 || found->family > 3, "a family");
    stop_if(!memchr(found->vendor, 0, 17) || !memchr(found->date, 0, 17), "a text's end");
}

static void call_flags(void) {
#define FLAGS(it) dovecounter_flags(halves, half_count, it)
    ASK(struct dovecounter_flags, found, LIST(OF_FAMILY, 84, 86), FLAGS);
    if (!status) stop_if(found->lanes > 8 || found->rx_los >> found->lanes, "lanes of flags");
}

static void call_monitors(void) {
#define MONITORS(it) dovecounter_monitors(halves, half_count, it)
    ASK(struct dovecounter_monitors, found, LIST(OF_FAMILY, 84, 85, 86), MONITORS);
    if (!status) stop_if(found->lanes > 8 || found->tx_bias.support > 2 || found->sum > 1, "monitors");
}

static void call_durations(void) {
#define DURATIONS(it) dovecounter_durations(halves, half_count, it)
    ASK(struct dovecounter_durations, found, LIST(OF_ADVERTISEMENT), DURATIONS);
    if (!status) stop_if(found->module_power_up == 0, "a state that takes no time");
}

static void call_further_banks(void) {
#define FURTHER_BANKS(it) dovecounter_further_banks(halves, half_count, it)
    ASK(uint8_t, found, LIST(1, 2), FURTHER_BANKS);
    if (!status) stop_if(*found != 0 && *found != 0x81 && *found != 0x87, "a request for further banks");
}

/* Each place of the list in turn. */
static void call_observables(void) {
    uint16_t *place = copied(SMALL, &(uint16_t){two_bytes()}, sizeof *place);
    for (int made = 0; made < 1200; made++) {
        uint16_t before = *place;
        struct dovecounter_observable *found = painted(OUT, sizeof *found);
        uint32_t status = dovecounter_observables(halves, half_count, place, found);
        if (judge(status, "observables", LIST(1, 2, 71, 74, 76), found, sizeof *found)) {
            stop_if(*place != before, "a refusal that moves on");
            return;
        }
        if (*place == 0) return;
        stop_if(*place <= before, "a place that isn't after the one before");
        stop_if(found->quantity < 1 || found->quantity > 35 || found->unit < 1 || found->unit > 14, "an observable");
        stop_if(!memchr(found->quantity_name, 0, 28) || !memchr(found->unit_name, 0, 28), "a name's end");
    }
    stop_if(1, "a list without an end");
}

static struct dovecounter_patience patience;

static void call_patience(void) {
#define PATIENCE(it) dovecounter_patience(halves, half_count, it)
    ASK(struct dovecounter_patience, found, LIST(OF_ADVERTISEMENT), PATIENCE);
    if (status) return;
    stop_if(found->pause < 100 || found->limit < 10000, "patience");
    patience = *found;
}

/* ---- texts ---- */

static void call_text(void) {
    uint8_t which = byte();
    uint32_t number = which & 4 ? byte() : four_bytes();
    size_t size = which & 8 ? DOVECOUNTER_TEXT_SIZE : byte(), *length = painted(SMALL, sizeof *length);
    uint8_t *text = painted(OUT, size);
    uint32_t status = which & 16       ? dovecounter_code_name(number, (uint8_t)number, text, size, length)
                      : which & 32     ? dovecounter_media_name(which >> 6, (uint8_t)number, text, size, length)
                      : which % 4 == 0 ? dovecounter_status_text(number, text, size, length)
                      : which % 4 == 1 ? dovecounter_fault_text(number, text, size, length)
                      : which % 4 == 2 ? dovecounter_verdict_text(number, text, size, length)
                                       : dovecounter_version(text, size, length);
    judge(status, "a text", LIST(3, 4), text, size);
    if (judge(status, "a text's length", LIST(3, 4), length, sizeof *length)) return;
    stop_if(*length > size, "a text beyond its buffer");
    for (size_t i = 0; i < *length; i++) stop_if(text[i] < ' ' || text[i] > '~', "a text that isn't ASCII");
}

/* A line `0Dh = 101` for each ID, or bytes of the input. */
static void call_weights(void) {
    size_t size = two_bytes() % 2048, *line = painted(SMALL, sizeof *line);
    const uint8_t *text = filled(TEXT, size);
    uint32_t *found = painted(OUT, 256 * sizeof *found);
    uint32_t status = dovecounter_weights(text, size, found, line);
    judge(status, "weights", LIST(91, 92, 94), found, 256 * sizeof *found);
    if (status) stop_if((*line == 0) != (status == 92) || *line > size + 1, "the line of a fault");
    if (!status) memcpy(weights, found, 256 * sizeof *found);
}

/* ---- plans ---- */

static void call_plan(void) {
#define PLAN(it) dovecounter_plan(halves, half_count, paired, counts_by_id, weights, stay, kept, kept_count, it)
    ASK(struct dovecounter_plan, found, LIST(OF_ADVERTISEMENT, 42, 43), PLAN);
    if (status) return;
    stop_if(found->count > 8, "paths of a plan");
    for (int i = 0; i < 8; i++) {
        int is_there = i < found->count;
        stop_if((found->paths[i].application != 0) != is_there, "a path's Application");
        stop_if(is_there && !(found->lanes >> (found->paths[i].host - 1) & 1), "a path's lane");
    }
    if (byte() & 1) kept_count = found->count, kept = copied(KEPT, found->paths, kept_count * sizeof *kept);
}

/* A change to a plan, by the next bytes. What goes down isn't left as it is, and a hindrance is one of five. */
static void call_judge(void) {
    const struct dovecounter_change *change = filled(SMALL, sizeof *change);
#define JUDGE(it) dovecounter_judge(halves, half_count, change, it)
    ASK(struct dovecounter_effect, found, LIST(1, 2, 14), JUDGE);
    if (status) return;
    stop_if(found->goes_down & (found->stays | found->comes_up), "a lane that goes down and doesn't");
    stop_if(found->hindrance > 5 || found->state > 7 || found->is_active > 1 || found->is_done > 1, "an effect");
    stop_if(found->hindrance == 5 && found->lanes & ~found->goes_down, "a lane that would go down");
    stop_if(found->is_done && found->taken, "lanes that are taken though all is done");
}

#define CERTIFICATE(text, size, length)                                                                                \
    dovecounter_certificate(halves, half_count, paired, counts_by_id, weights, stay, kept, kept_count, text, size,     \
                            length)
#define CHECK(text, size, it) dovecounter_check(halves, half_count, paired, counts_by_id, weights, stay, text, size, it)

/* The certificate of the plan is good; one with some bytes changed is judged or refused. */
static void call_certificate(void) {
    size_t *length = painted(SMALL, sizeof *length);
    uint32_t status = CERTIFICATE(room(TEXT, 0), 0, length);
    if (status != DOVECOUNTER_TOO_SMALL) {
        judge(status, "certificate", LIST(OF_ADVERTISEMENT, 42, 43), length, sizeof *length);
        stop_if(status == 0, "a certificate of no bytes");
        return;
    }
    size_t size = *length;
    stop_if(size > DOVECOUNTER_CERTIFICATE_SIZE, "a certificate's length");
    uint8_t *text = painted(TEXT, size);
    stop_if(CERTIFICATE(text, size, length) || *length != size, "a certificate that was asked for");
    struct dovecounter_judgement *found = painted(OUT, sizeof *found);
    stop_if(CHECK(text, size, found) || found->reason, "a certificate that isn't good");
    for (int changes = byte() % 4; changes > 0; changes--) change(text, size);
    found = painted(OUT, sizeof *found);
    if (!judge(CHECK(text, size, found), "a changed certificate", LIST(21, 22, 23, 24), found, sizeof *found))
        stop_if(found->reason > 10, "a reason");
}

static void call_check(void) {
    size_t size = two_bytes() % 4096;
    const uint8_t *text = filled(TEXT, size);
    struct dovecounter_judgement *found = painted(OUT, sizeof *found);
    uint32_t status = CHECK(text, size, found);
    if (!judge(status, "check", LIST(OF_ADVERTISEMENT, 21, 22, 23, 24), found, sizeof *found))
        stop_if(found->reason > 10, "a reason");
}

static void set_options(void) {
    uint8_t options = byte();
    paired = options & 1, counts_by_id = options >> 1 & 1;
    stay = options & 4 ? four_bytes() : 0;
    uint8_t id = byte();
    weights[id] = (uint32_t)two_bytes() << (options & 16);
    if (options & 8) kept_count = byte() % 10, kept = filled(KEPT, kept_count * sizeof *kept);
}

#endif
