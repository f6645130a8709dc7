/* Which outputs are disabled (page 10h), since lanes with such outputs don't come up: read after each reading of a module, and after lanes
   came up or did not, once the library does nothing at the module before another moment. Only pages are selected for that, so it may end
   anywhere. */
#include "cmisd.h"

#include <string.h>

static const struct {
    const char *name;
    uint8_t control;
} outputs[] = {{"OutputDisableTx", DOVECOUNTER_OUTPUT_DISABLE_TX}, {"OutputDisableRx", DOVECOUNTER_OUTPUT_DISABLE_RX}};

/* A change of no lane reads a control, and stores nothing. */
static void begin(struct outputs *it) {
    const struct dovecounter_patience patience = {.pause = PAUSE, .limit = LIMIT};
    const struct dovecounter_lane_change change = {.control = outputs[it->at].control};
    it->is_under_way = dovecounter_lane_begin(&change, &patience, &it->reading) == DOVECOUNTER_DONE;
}

/* Begins if they are to be read, and no conversation of the library is under way. */
bool begin_outputs(struct port *port) {
    struct outputs *it = &port->outputs;
    bool is_left = port->core.stage == DOVECOUNTER_PORT_LEFT;
    if (!it->is_due || !(port->is_rested || is_left)) return false;
    it->is_due = false;
    it->at = 0;
    begin(it);
    port->goes_on_at = 0;
    port->due = now();
    return it->is_under_way;
}

static void say_disabled(char words[WORDS_SIZE], const struct outputs *it) {
    size_t length = 0;
    snprintf(words, WORDS_SIZE, "none is disabled");
    for (size_t i = 0; i < OUTPUTS; i++) {
        if (it->disabled[i] == 0) continue;
        const char *before = length > 0 ? ", " : "";
        length += (size_t)snprintf(words + length, WORDS_SIZE - length, "%s%s", before, outputs[i].name);
        for (unsigned lane = 0; lane < 8; lane++)
            if (it->disabled[i] >> lane & 1)
                length += (size_t)snprintf(words + length, WORDS_SIZE - length, " %u", lane + 1);
    }
}

/* Only what differs from what was read before is told; at first none is disabled. */
static void take_outputs(struct port *port) {
    struct outputs *it = &port->outputs;
    char words[WORDS_SIZE];
    bool is_new = memcmp(it->disabled, it->read, sizeof it->read) != 0;
    memcpy(it->disabled, it->read, sizeof it->read);
    it->is_known = true;
    say_disabled(words, it);
    if (is_new) tell(port, "outputs", words);
}

/* Makes the next operation, waits as long as it asks, or goes on with the other control. */
void go_on_with_outputs(struct port *port) {
    struct outputs *it = &port->outputs;
    struct dovecounter_operation operation;
    struct dovecounter_lane_end end;
    uint8_t bytes[128];
    if (dovecounter_lane_next(&it->reading, &operation) == DOVECOUNTER_DONE) {
        if (is_pausing(port, &operation)) return;
        uint8_t outcome = make_aside(port, &operation, bytes);
        dovecounter_lane_reply(&it->reading, outcome, bytes, operation.count);
        return;
    }
    it->is_under_way = false;
    if (dovecounter_lane_end(&it->reading, &end) != DOVECOUNTER_DONE) return;
    it->is_known = it->is_known && end.outcome == DOVECOUNTER_LANES_UNCHANGED;
    if (end.outcome != DOVECOUNTER_LANES_UNCHANGED) return;
    it->read[it->at++] = end.byte;
    if (it->at < OUTPUTS)
        begin(it);
    else
        take_outputs(port);
}

/* With the module's other memory, after which they are read. */
void print_outputs(FILE *out, const struct port *port) {
    bool are_known = port->half_count > 0 && port->outputs.is_known;
    for (size_t i = 0; i < OUTPUTS && are_known; i++) print_lane_list(out, outputs[i].name, port->outputs.disabled[i]);
}
