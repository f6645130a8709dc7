/* Says how deep the stack of each call of the library for firmware is. */
#include "dovecounter.h"
#include "painted.h"

#include <stdbool.h>

static uint32_t weights[256];
static struct dovecounter_path kept[1];
static struct dovecounter_plan plan;
static struct dovecounter_advertisement advertisement;
static struct dovecounter_judgement judgement;
static struct dovecounter_conversation procedure, reading;
static struct dovecounter_half halves_read[DOVECOUNTER_MOST_READ];
static struct dovecounter_patience patience = {.pause = 100, .limit = 10000};
static struct dovecounter_operation operation;
static struct dovecounter_ending ending;
static const struct dovecounter_delays delays = {4, 4, 4, 4, 4, 4, 4};
static struct dovecounter_module module;
static uint8_t bytes[8];
static struct dovecounter_durations durations;
static struct dovecounter_identity identity;
static struct dovecounter_flags flags;
static struct dovecounter_monitors monitors;
/* Potentials that are looked up in the text take most. */
static const char certificate[] =
    "certificate 1\nweight 0\nstate 0 00 18446744073709551615\nstate 1 00 18446744073709551615\nend\n";

static struct dovecounter_patience advertised;

static void *nothing(void *x) { return x; }
static void *advertises(void *x) {
    dovecounter_advertisement(halves, half_count, 0, &advertisement);
    return x;
}
static void *plans(void *x) {
    dovecounter_plan(halves, half_count, 0, 0, weights, 0, kept, 0, &plan);
    return x;
}
static void *checks(void *x) {
    dovecounter_check(halves, half_count, 0, 0, weights, 0, (const uint8_t *)certificate, strlen(certificate),
                      &judgement);
    return x;
}
static void *writes(void *x) {
    static uint8_t text[DOVECOUNTER_CERTIFICATE_SIZE];
    size_t length;
    dovecounter_certificate(halves, half_count, 0, 0, weights, 0, kept, 0, text, sizeof text, &length);
    return x;
}
static void *provisions(void *x) {
    dovecounter_provision_begin(plan.control, 0xFF, &patience, &procedure);
    return x;
}
static void *activates(void *x) {
    dovecounter_activate_begin(plan.control, 0xFF, &patience, &procedure);
    return x;
}
static void *asks(void *x) {
    dovecounter_next(&procedure, halves_read, &operation);
    return x;
}
static void *replies(void *x) {
    static const uint8_t ready = 6;
    dovecounter_reply(&procedure, halves_read, DOVECOUNTER_FETCHED, &ready, 1);
    return x;
}
static void *answers(void *x) {
    dovecounter_end(&procedure, halves_read, &ending);
    return x;
}
static void *begins(void *x) {
    dovecounter_module_begin(halves, half_count, &delays, &module);
    return x;
}
static void *fetches(void *x) {
    dovecounter_module_fetch(halves, half_count, &module, 0xA0, 0, bytes, 8);
    return x;
}
static void *stores(void *x) {
    dovecounter_module_store(halves, half_count, &module, 0xA0, 0, bytes, 8);
    return x;
}
static void *ticks(void *x) {
    dovecounter_module_tick(&module);
    return x;
}
static void *pins(void *x) {
    dovecounter_module_pin(&module, 0);
    return x;
}
static void *says_active(void *x) {
    dovecounter_module_active(&module, bytes);
    return x;
}

static void *lasts(void *x) {
    dovecounter_durations(halves, half_count, &durations);
    return x;
}
static void *reads(void *x) {
    dovecounter_read_begin(128, &patience, &reading);
    return x;
}
static void *reads_next(void *x) {
    dovecounter_next(&reading, halves_read, &operation);
    return x;
}
static void *read_replies(void *x) {
    dovecounter_reply(&reading, halves_read, DOVECOUNTER_FETCHED, halves[0].bytes, 128);
    return x;
}

static void *identifies(void *x) {
    dovecounter_identity(halves, half_count, &identity);
    return x;
}
static void *flags_raised(void *x) {
    dovecounter_flags(halves, half_count, &flags);
    return x;
}
static void *measures(void *x) {
    dovecounter_monitors(halves, half_count, &monitors);
    return x;
}

static void *reads_weights(void *x) {
    static const char text[] = "[host]\n0Dh = 101\n11h = 400\n";
    size_t line;
    dovecounter_weights((const uint8_t *)text, strlen(text), weights, &line);
    return x;
}
static void *wakes(void *x) {
    dovecounter_wake_begin(&patience, &procedure);
    return x;
}
static void *sleeps(void *x) {
    dovecounter_sleep_begin(&patience, &procedure);
    return x;
}
static void *has_patience(void *x) {
    dovecounter_patience(halves, half_count, &advertised);
    return x;
}
static void *ends_reading(void *x) {
    dovecounter_end(&reading, halves_read, &ending);
    return x;
}

/* A bus that carries the halves, for a whole reading. */
static uint8_t page;

static uint8_t transact(void *context, const struct dovecounter_operation *it, uint8_t read[128]) {
    (void)context;
    if (it->kind == DOVECOUNTER_STORE) {
        page = it->bytes[it->count - 1];
        return DOVECOUNTER_STORED;
    }
    for (size_t i = 0; i < half_count; i++) {
        const struct dovecounter_half *half = &halves[i];
        bool is_there =
            half->device == it->device && half->upper == it->offset / 128 && (!half->upper || half->page == page);
        if (is_there) memcpy(read, half->bytes + it->offset % 128, it->count);
    }
    if (it->offset == 126) read[1] = page;
    return DOVECOUNTER_FETCHED;
}
static void pause(void *context, uint32_t milliseconds) {
    (void)context;
    (void)milliseconds;
}
static void *reads_all(void *x) {
    dovecounter_read_begin(128, &patience, &reading);
    dovecounter_run(&reading, halves_read, transact, pause, 0);
    return x;
}

static struct dovecounter_observable observable;

static void *observes(void *x) {
    uint16_t place = 0;
    do dovecounter_observables(halves, half_count, &place, &observable);
    while (place != 0);
    return x;
}

static struct dovecounter_port port;
static struct dovecounter_port_next port_next;
static struct dovecounter_port_outcome outcome;
static struct dovecounter_wanted wanted;
static uint8_t fetched[128];

/* A port that reads the module, plans, and begins to provision. */
static void *keeps(void *x) {
    static const struct dovecounter_times times = {1, 1, 1, 1, 1};
    dovecounter_port_new(&times, &port);
    dovecounter_port_plug(&port, 0);
    for (uint64_t now = 1; now < 40; now++) {
        dovecounter_port_next(&port, now, &port_next);
        if (port_next.kind != DOVECOUNTER_PORT_DO) continue;
        uint8_t reply = transact(0, &port_next.operation, fetched);
        size_t count = reply == DOVECOUNTER_FETCHED ? port_next.operation.count : 0;
        dovecounter_port_take(&port, reply, fetched, count, &wanted, now, &outcome);
    }
    return x;
}

static struct dovecounter_bank_counts bank_counts;

static void *counts_a_bank(void *x) {
    static const struct dovecounter_half lanes = {0xA0, 1, 1, 0x11, {1}};
    dovecounter_bank_count(&bank_counts, &lanes, 1);
    dovecounter_bank_acknowledge(&bank_counts, 0);
    return x;
}

static struct dovecounter_update update;
static struct dovecounter_update_ending update_ending;
static struct dovecounter_update_progress update_progress;
static const uint8_t file[300];

/* Some operations of an update, each answered. */
static void *updates(void *x) {
    dovecounter_update_begin(sizeof file, 0, &update);
    for (int made = 0; made < 40; made++) {
        if (dovecounter_update_next(&update, file, sizeof file, &operation) != DOVECOUNTER_DONE) break;
        uint8_t reply = operation.kind == DOVECOUNTER_WAIT ? DOVECOUNTER_WAITED : transact(0, &operation, fetched);
        size_t count = reply == DOVECOUNTER_FETCHED ? operation.count : 0;
        dovecounter_update_reply(&update, file, sizeof file, reply, fetched, count);
    }
    dovecounter_update_progress(&update, file, sizeof file, &update_progress);
    dovecounter_update_end(&update, file, sizeof file, &update_ending);
    return x;
}

static const struct dovecounter_lane_change outputs_off = {DOVECOUNTER_OUTPUT_DISABLE_TX, 0x0C, 1, 3, 0xFF, {0}};
static struct dovecounter_changing_lanes changing;
static struct dovecounter_lane_end lane_end;

/* All operations of a change of lanes, each answered. */
static void *switches(void *x) {
    dovecounter_lane_begin(&outputs_off, &patience, &changing);
    for (int made = 0; made < 40; made++) {
        if (dovecounter_lane_next(&changing, &operation) != DOVECOUNTER_DONE) break;
        uint8_t reply = operation.kind == DOVECOUNTER_WAIT ? DOVECOUNTER_WAITED : transact(0, &operation, fetched);
        size_t count = reply == DOVECOUNTER_FETCHED ? operation.count : 0;
        dovecounter_lane_reply(&changing, reply, fetched, count);
    }
    dovecounter_lane_end(&changing, &lane_end);
    return x;
}

static const struct dovecounter_link_plan loops = {.shown = DOVECOUNTER_ERROR_RATIOS,
                                                   .generator = DOVECOUNTER_PRBS31Q,
                                                   .checker = DOVECOUNTER_PRBS31Q,
                                                   .lanes = 0xFF,
                                                   .permitted = 0xFF,
                                                   .loopback = DOVECOUNTER_HOST_SIDE_OUTPUT,
                                                   .looped = 0xFF};
static struct dovecounter_link_test testing;
static struct dovecounter_link_end link_end;
static struct dovecounter_link_changes link_changes;
static struct dovecounter_link_results link_results;

/* All operations of a test of a link, each answered. */
static void *tests_links(void *x) {
    dovecounter_link_test_begin(&loops, &patience, &testing);
    for (int made = 0; made < 100; made++) {
        if (dovecounter_link_test_next(&testing, &operation) != DOVECOUNTER_DONE) break;
        uint8_t reply = operation.kind == DOVECOUNTER_WAIT ? DOVECOUNTER_WAITED : transact(0, &operation, fetched);
        size_t count = reply == DOVECOUNTER_FETCHED ? operation.count : 0;
        if (made == 50) dovecounter_link_test_stop(&testing);
        dovecounter_link_test_reply(&testing, reply, fetched, count);
    }
    dovecounter_link_test_end(&testing, &link_end);
    dovecounter_link_test_changes(&testing, &link_changes);
    dovecounter_link_results(&testing, 0, &link_results);
    return x;
}

static const struct dovecounter_settings_limits limits = {.amplitudes = 15, .pre_cursor = 7};
static const struct dovecounter_settings_change tunes = {
    .lanes = 0x0C, .permitted = 0xFF, .tries = 3, .targets.pre_cursor = {[2] = 7, [3] = 7}};
static struct dovecounter_settings settings;
static struct dovecounter_changing_settings tuning;
static struct dovecounter_settings_end settings_end;

static void *has_settings(void *x) {
    dovecounter_settings(halves, half_count, &settings);
    return x;
}

/* All operations of a change of settings, each answered. */
static void *tunes_lanes(void *x) {
    dovecounter_settings_begin(&tunes, &limits, &patience, &tuning);
    for (int made = 0; made < 40; made++) {
        if (dovecounter_settings_next(&tuning, &operation) != DOVECOUNTER_DONE) break;
        uint8_t reply = operation.kind == DOVECOUNTER_WAIT ? DOVECOUNTER_WAITED : transact(0, &operation, fetched);
        size_t count = reply == DOVECOUNTER_FETCHED ? operation.count : 0;
        dovecounter_settings_reply(&tuning, reply, fetched, count);
    }
    dovecounter_settings_end(&tuning, &settings_end);
    return x;
}

static const uint8_t paired_lanes[8] = {0, 0, 0x24, 0x24, 0, 0, 0, 0};
static struct dovecounter_explicit provisioning;
static struct dovecounter_explicit_end provisioned;

/* Of a ready module whose lanes are down: what is stored on page 10h, and the same as active on page 11h. */
static uint8_t controls[256];

static uint8_t tuned_at(unsigned at) {
    bool is_state = at < 132 || (at >= 202 && at < 206);
    if (at == 3) return 0x06;
    if (at < 128 || controls[127] == 0x10) return controls[at];
    return is_state ? 0x11 : controls[at - 61];
}

static uint8_t answer_tuned(const struct dovecounter_operation *it, uint8_t bytes[128]) {
    if (it->kind == DOVECOUNTER_WAIT) return DOVECOUNTER_WAITED;
    for (unsigned i = 0; i < it->count; i++) {
        if (it->kind == DOVECOUNTER_STORE) controls[it->offset + i] = it->bytes[i];
        bytes[i] = tuned_at(it->offset + i);
    }
    return it->kind == DOVECOUNTER_STORE ? DOVECOUNTER_STORED : DOVECOUNTER_FETCHED;
}

/* All operations of provisioning with settings, each answered. */
static void *provisions_with_settings(void *x) {
    dovecounter_explicit_begin(paired_lanes, 0x0C, &tunes, &limits, &patience, &provisioning);
    while (dovecounter_explicit_next(&provisioning, &operation) == DOVECOUNTER_DONE) {
        uint8_t reply = answer_tuned(&operation, fetched);
        size_t count = reply == DOVECOUNTER_FETCHED ? operation.count : 0;
        dovecounter_explicit_reply(&provisioning, reply, fetched, count);
    }
    dovecounter_explicit_end(&provisioning, &provisioned);
    return x;
}

static struct dovecounter_vdm statistics;
static struct dovecounter_half read_statistics[DOVECOUNTER_MOST_VDM];
static struct dovecounter_vdm_end statistics_end;

/* A module of four groups, of which each bit that is waited for is 1. */
static uint8_t answer_statistics(const struct dovecounter_operation *it, uint8_t bytes[128]) {
    static uint8_t selected[2];
    if (it->kind == DOVECOUNTER_WAIT) return DOVECOUNTER_WAITED;
    if (it->kind == DOVECOUNTER_STORE && it->offset == 126) memcpy(selected, it->bytes, 2);
    for (size_t i = 0; i < 128; i++) bytes[i] = 0xFF;
    if (it->kind == DOVECOUNTER_FETCH && it->offset == 126) memcpy(bytes, selected, 2);
    return it->kind == DOVECOUNTER_STORE ? DOVECOUNTER_STORED : DOVECOUNTER_FETCHED;
}

/* All operations of a reading of statistics, each answered. */
static void *reads_statistics(void *x) {
    dovecounter_vdm_begin(20, 1, &statistics);
    while (dovecounter_vdm_next(&statistics, read_statistics, &operation) == DOVECOUNTER_DONE) {
        uint8_t reply = answer_statistics(&operation, fetched);
        dovecounter_vdm_reply(&statistics, read_statistics, reply, fetched, operation.count);
    }
    dovecounter_vdm_end(&statistics, read_statistics, &statistics_end);
    return x;
}

int main(void) {
    read_halves();
    wanted.weights[0x0D] = 101;
    wanted.most_power = 255;
    wanted.may_take_down = 0xFF;
    weights[0x0D] = 101;
    weights[0x11] = 400;
    size_t alone = used(nothing);
    print_used("dovecounter_advertisement", advertises, alone);
    print_used("dovecounter_plan", plans, alone);
    print_used("dovecounter_certificate", writes, alone);
    print_used("dovecounter_check", checks, alone);
    print_used("dovecounter_provision_begin", provisions, alone);
    print_used("dovecounter_next", asks, alone);
    print_used("dovecounter_reply", replies, alone);
    print_used("dovecounter_end", answers, alone);
    print_used("dovecounter_activate_begin", activates, alone);
    print_used("dovecounter_module_begin", begins, alone);
    print_used("dovecounter_module_fetch", fetches, alone);
    print_used("dovecounter_module_store", stores, alone);
    print_used("dovecounter_module_tick", ticks, alone);
    print_used("dovecounter_module_pin", pins, alone);
    print_used("dovecounter_module_active", says_active, alone);
    print_used("dovecounter_durations", lasts, alone);
    print_used("dovecounter_read_begin", reads, alone);
    print_used("dovecounter_next of a reading", reads_next, alone);
    print_used("dovecounter_reply of a reading", read_replies, alone);
    print_used("dovecounter_end of a reading", ends_reading, alone);
    print_used("dovecounter_run of a reading", reads_all, alone);
    if (reading.halves != DOVECOUNTER_MOST_READ) return 1;
    print_used("dovecounter_identity", identifies, alone);
    print_used("dovecounter_flags", flags_raised, alone);
    print_used("dovecounter_monitors", measures, alone);
    print_used("dovecounter_weights", reads_weights, alone);
    print_used("dovecounter_wake_begin", wakes, alone);
    print_used("dovecounter_sleep_begin", sleeps, alone);
    print_used("dovecounter_patience", has_patience, alone);
    print_used("dovecounter_observables", observes, alone);
    print_used("the calls of a port", keeps, alone);
    if (port.stage != DOVECOUNTER_PORT_PROVISIONING && port.stage != DOVECOUNTER_PORT_WAKING) return 1;
    print_used("the calls of a further bank", counts_a_bank, alone);
    if (bank_counts.states.changes[0] == 0) return 1;
    print_used("the calls of an update", updates, alone);
    print_used("the calls of a change of lanes", switches, alone);
    print_used("the calls of a test of a link", tests_links, alone);
    print_used("dovecounter_settings", has_settings, alone);
    print_used("the calls of a change of settings", tunes_lanes, alone);
    print_used("the calls of provisioning with settings", provisions_with_settings, alone);
    if (provisioned.steps == 0) return 1;
    print_used("the calls of a reading of statistics", reads_statistics, alone);
    if (statistics.halves != DOVECOUNTER_MOST_VDM || statistics_end.release != DOVECOUNTER_VDM_RELEASED) return 1;
    return 0;
}
