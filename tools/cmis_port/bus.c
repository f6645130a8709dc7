/* The bus of a port: /dev/i2c-N, or the file that Linux's driver optoe shows. */
#include "bus.h"

#include <err.h>
#include <errno.h>
#include <fcntl.h>
#include <libgen.h>
#include <linux/i2c-dev.h>
#include <linux/i2c.h>
#include <string.h>
#include <sys/ioctl.h>
#include <time.h>
#include <unistd.h>

int64_t now(void) {
    struct timespec time;
    clock_gettime(CLOCK_MONOTONIC, &time);
    return (int64_t)time.tv_sec * 1000 + time.tv_nsec / 1000000;
}

bool transact_i2c(struct bus *bus, const struct dovecounter_operation *operation, uint8_t *bytes) {
    bool stores = operation->kind == DOVECOUNTER_STORE;
    uint16_t address = operation->device >> 1, count = operation->count;
    uint8_t sent[1 + sizeof operation->bytes] = {operation->offset};
    struct i2c_msg messages[] = {{address, 0, stores ? 1 + count : 1, sent}, {address, I2C_M_RD, count, bytes}};
    struct i2c_rdwr_ioctl_data data = {messages, stores ? 1 : 2};
    memcpy(sent + 1, operation->bytes, sizeof operation->bytes);
    int made = ioctl(bus->file, I2C_RDWR, &data);
    if (made >= 0) errno = EIO; /* of fewer messages */
    return made == (int)data.nmsgs;
}

bool is_selection(const struct dovecounter_operation *operation) {
    return operation->offset == 126 || operation->offset == 127;
}

/* optoe has the lower half first, then the pages; of an SFP module A2h after the 256 bytes of A0h. */
static off_t place_in_row(const struct bus *bus, const struct dovecounter_operation *operation) {
    if (operation->device == 0xA2) return 256 + operation->offset;
    return operation->offset + (operation->offset < 128 ? 0 : 128 * bus->selection[1]);
}

/* A selection is kept here, since optoe selects pages by itself. As in a module, it becomes page 00h of bank 0 if the page is not there,
   and no page of another bank is. */
static void transact_selection(struct bus *bus, const struct dovecounter_operation *operation, uint8_t *bytes) {
    uint8_t byte, *selection = bus->selection + operation->offset % 2;
    bool stores = operation->kind == DOVECOUNTER_STORE;
    memcpy(stores ? selection : bytes, stores ? operation->bytes : selection, operation->count);
    if (!stores) return;
    bool is_there = bus->selection[0] == 0 && pread(bus->file, &byte, 1, 128 + 128 * bus->selection[1]) != 0;
    if (!is_there) memset(bus->selection, 0, 2);
}

bool transact_in_a_row(struct bus *bus, const struct dovecounter_operation *operation, uint8_t *bytes) {
    off_t place = place_in_row(bus, operation);
    size_t count = operation->count;
    if (place == 126 || place == 127) return transact_selection(bus, operation, bytes), true;
    errno = ENODATA; /* if the file ends before */
    if (operation->kind == DOVECOUNTER_FETCH) return pread(bus->file, bytes, count, place) == (ssize_t)count;
    return pwrite(bus->file, operation->bytes, count, place) == (ssize_t)count;
}

/* Whether the file is an adapter that carries I2C, or no adapter. */
static bool is_bus(struct bus *bus) {
    unsigned long functions = 0;
    bool is_adapter = ioctl(bus->file, I2C_FUNCS, &functions) == 0;
    bus->carry = is_adapter ? transact_i2c : transact_in_a_row;
    if (!is_adapter || functions & I2C_FUNC_I2C) return true;
    warnx("%s: its adapter carries SMBus alone, and a module needs I2C", bus->name);
    return false;
}

static void name_driver(const struct bus *bus) {
    char link[64], driver[256] = "";
    const char *number = strrchr(bus->name, '-');
    snprintf(link, sizeof link, "/sys/bus/i2c/devices/%.9s-0050/driver", number != NULL ? number + 1 : "");
    if (readlink(link, driver, sizeof driver - 1) > 0)
        warnx("%s: the kernel has the module too, by the driver %s", bus->name, basename(driver));
}

/* Opens a file, with a number above those of the standard streams even if fill_streams found no /dev/null. */
int open_apart(const char *name, int flags) {
    int file = open(name, flags | O_CLOEXEC, 0666);
    if (file < 0 || file > STDERR_FILENO) return file;
    int apart = fcntl(file, F_DUPFD_CLOEXEC, STDERR_FILENO + 1);
    close(file);
    return apart;
}

static bool open_file(struct bus *bus) {
    bus->file = open_apart(bus->name, O_RDWR);
    if (bus->file < 0) warn("%s", bus->name);
    if (bus->file < 0 || !is_bus(bus)) return false;
    if (!lock_bus(bus)) return false;
    if (bus->carry == transact_i2c) name_driver(bus);
    return true;
}

bool open_bus(struct bus *bus) {
    if (strncmp(bus->name, "sim:", 4) != 0) return open_file(bus);
    bus->carry = transact_simulated;
    return open_simulated(&bus->simulated, bus->name + 4);
}

/* What was not opened is left alone. */
void close_bus(struct bus *bus) {
    unlock_bus(bus);
    if (bus->file >= 0) close(bus->file);
    bus->file = -1;
}
