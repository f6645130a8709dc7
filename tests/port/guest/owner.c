#include "owner.h"

#include <stdio.h>
#include <string.h>

static void plug_in(struct owner *owner) {
    power_up(&owner->module);
    owner->made = owner->unplug = 0;
    owner->plugged = true;
}

void obey(struct owner *owner, const char *line) {
    unsigned value;
    load_line(&owner->module, line);
    if (strncmp(line, "module-image ", 13) == 0) begin_emulator(&owner->module, 1);
    if (strcmp(line, "end") == 0) plug_in(owner);
    if (strcmp(line, "out") == 0) owner->plugged = false;
    if (sscanf(line, "unplug %u", &value) == 1) owner->unplug = value;
    if (sscanf(line, "refuse %u", &value) == 1) owner->refuse = value;
    if (sscanf(line, "error %u", &value) == 1) owner->error = value;
    if (sscanf(line, "longest %u", &value) == 1) owner->longest = value;
    if (sscanf(line, "slowest %u", &value) == 1) owner->module.slowest = value;
    if (sscanf(line, "silent %u", &value) == 1) owner->module.silent = value;
}

void live_until(struct owner *owner, int64_t milliseconds) {
    for (; owner->plugged && owner->lived < milliseconds; owner->lived++) pass_millisecond(&owner->module);
    owner->lived = milliseconds;
}

void begin_transaction(struct owner *owner) {
    owner->made++;
    if (owner->unplug != 0 && owner->made > owner->unplug) owner->plugged = false;
    owner->refused = next_random(&owner->random) % 100 < owner->refuse;
}

bool carry_message(struct owner *owner, unsigned address, bool fetches, uint8_t *bytes, size_t count) {
    size_t taken = owner->refused && count > 0 ? (size_t)(next_random(&owner->random) % count) : count;
    if (!owner->plugged || address != 0x50 || (fetches && owner->refused)) return false;
    for (size_t i = 0; fetches && i < count; i++) bytes[i] = fetch_byte(&owner->module, (uint8_t)(owner->pointer + i));
    if (!fetches && count > 0) owner->pointer = bytes[0];
    for (size_t i = 1; !fetches && i < taken; i++)
        store_byte(&owner->module, (uint8_t)(owner->pointer + i - 1), bytes[i]);
    return !owner->refused;
}
