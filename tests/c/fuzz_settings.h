/* Calls about signal integrity settings: those of the halves, a change that goes on, and a plan that is provisioned with some. */
#ifndef FUZZ_SETTINGS_H
#define FUZZ_SETTINGS_H

#include "fuzz_conversations.h"

static struct dovecounter_changing_settings tuning;

static void call_settings(void) {
#define SETTINGS(it) dovecounter_settings(halves, half_count, it)
    ASK(struct dovecounter_settings, found, LIST(OF_ADVERTISEMENT), SETTINGS);
    if (!status) stop_if(found->has_staged > 1, "whether settings are staged");
}

static void call_settings_limits(void) {
#define LIMITS(it) dovecounter_settings_limits(halves, half_count, it)
    ASK(struct dovecounter_settings_limits, found, LIST(OF_ADVERTISEMENT), LIMITS);
    if (status) return;
    stop_if(found->amplitudes > 15 || found->fixed_input > 15, "limits");
    stop_if(found->pre_cursor > 15 || found->post_cursor > 15, "limits of cursors");
}

static void begin_settings(void) {
    const struct dovecounter_settings_change *wants = filled(SMALL, sizeof *wants);
    const struct dovecounter_settings_limits *can = filled(TEXT, sizeof *can);
#define SETTINGS_BEGIN(it) dovecounter_settings_begin(wants, can, &patience, it)
    ASK(struct dovecounter_changing_settings, found, LIST(106, 101, 102, 103, 104, 105), SETTINGS_BEGIN);
    stop_if(((wants->lanes & ~wants->permitted) != 0) != (status == 106), "a permission");
    if (!status) tuning = *found;
}

#define SETTINGS_REPLY(it, outcome, bytes, count) dovecounter_settings_reply(it, outcome, bytes, count)
REPLY_TO(settings, tuning, SETTINGS_REPLY)

static void end_settings(void) {
#define SETTINGS_END(it) dovecounter_settings_end(&tuning, it)
    ASK(struct dovecounter_settings_end, found, LIST(31, 33), SETTINGS_END);
    if (status) return;
    stop_if(found->outcome > DOVECOUNTER_SETTINGS_GAVE_UP, "the end of a change of settings");
    stop_if(found->reached > 2, "what it reached");
}

#define SETTINGS_NEXT(it) dovecounter_settings_next(&tuning, it)
GO_ON_WITH(settings, 1, SETTINGS_NEXT)
DISTURB(settings, tuning)

static void call_tuning(void) {
    disturb_settings();
    end_settings();
}

/* ---- provisioning with settings ---- */

static struct dovecounter_explicit provisioning;

static void begin_explicit(void) {
    const uint8_t *control = filled(KEPT, 8), lanes = byte();
    const struct dovecounter_settings_change *wants = filled(SMALL, sizeof *wants);
    const struct dovecounter_settings_limits *can = filled(TEXT, sizeof *can);
#define EXPLICIT_BEGIN(it) dovecounter_explicit_begin(control, lanes, wants, can, &patience, it)
    ASK(struct dovecounter_explicit, found, LIST(101, 102, 103, 104, 105), EXPLICIT_BEGIN);
    if (!status) provisioning = *found;
    kept_count = 0, kept = room(KEPT, 0);
}

#define EXPLICIT_REPLY(it, outcome, bytes, count) dovecounter_explicit_reply(it, outcome, bytes, count)
REPLY_TO(explicit, provisioning, EXPLICIT_REPLY)

static void end_explicit(void) {
#define EXPLICIT_END(it) dovecounter_explicit_end(&provisioning, it)
    ASK(struct dovecounter_explicit_end, found, LIST(31, 33), EXPLICIT_END);
    if (status) return;
    stop_if(found->settings > DOVECOUNTER_EXPLICIT_SETTINGS_NOT_ACTIVE, "settings of an end");
    stop_if(found->lane > 8 || (found->lane != 0 && found->settings == 0), "the lane of an end");
    stop_if(found->fault.code > 10 || (found->fault.code && found->steps), "a failure with steps");
}

#define EXPLICIT_NEXT(it) dovecounter_explicit_next(&provisioning, it)
GO_ON_WITH(explicit, 1, EXPLICIT_NEXT)
CALL(explicit, provisioning)
#endif
