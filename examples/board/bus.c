/* In place of an I2C driver: a simulated module, which refuses every fifth transaction. A tick passes in each, and in 10 ms of a pause. */
#include "board.h"
#include "dovecounter.h"
#include "image.h"

static struct dovecounter_module module;
static unsigned transactions;

/* Whether the module may be asked: it has begun, and does not refuse. */
static bool begin(void) {
    static const struct dovecounter_delays delays = {4, 4, 4, 4, 4, 4, 4};
    if (transactions == 0 && dovecounter_module_begin(image, IMAGE, &delays, &module) != DOVECOUNTER_DONE) return false;
    dovecounter_module_tick(&module);
    return ++transactions % 5 != 0;
}

bool bus_fetch(uint8_t device, uint8_t offset, uint8_t *bytes, uint8_t count) {
    return begin() && dovecounter_module_fetch(image, IMAGE, &module, device, offset, bytes, count) == DOVECOUNTER_DONE;
}

bool bus_store(uint8_t device, uint8_t offset, const uint8_t *bytes, uint8_t count) {
    return begin() && dovecounter_module_store(image, IMAGE, &module, device, offset, bytes, count) == DOVECOUNTER_DONE;
}

void bus_pause(uint32_t milliseconds) {
    for (; milliseconds >= 10; milliseconds -= 10) dovecounter_module_tick(&module);
}
