#define _GNU_SOURCE
#include "shim.h"

#include <dlfcn.h>
#include <errno.h>
#include <fcntl.h>
#include <linux/i2c-dev.h>
#include <linux/i2c.h>
#include <signal.h>
#include <stdarg.h>
#include <stdio.h>
#include <stdlib.h>
#include <string.h>
#include <sys/socket.h>
#include <sys/un.h>
#include <time.h>
#include <unistd.h>

struct shim shim = {.file = -1, .error = EREMOTEIO};

enum { LONGEST = 1000000 }; /* milliseconds of a pause that a module sees: nothing changes in it for longer */
enum { START = 3600 };      /* seconds: what the clock shows at first */

static const char adapter[] = "/dev/i2c-99", eeprom[] = "/sys/bus/i2c/devices/99-0050/eeprom";

/* The C library's function of this name. */
#define REAL(name) ((__typeof__(&name))dlsym(RTLD_NEXT, #name))

/* ---- time ---- */

static int64_t microseconds(void) {
    struct timespec time;
    if (!shim.real_time) return shim.microseconds;
    REAL(clock_gettime)(CLOCK_MONOTONIC, &time);
    return (int64_t)time.tv_sec * 1000000 + time.tv_nsec / 1000;
}

int clock_gettime(clockid_t clock, struct timespec *time) {
    if (shim.file < 0 || shim.real_time || clock != CLOCK_MONOTONIC) return REAL(clock_gettime)(clock, time);
    time->tv_sec = shim.microseconds / 1000000;
    time->tv_nsec = shim.microseconds % 1000000 * 1000;
    return 0;
}

int sigtimedwait(const sigset_t *set, siginfo_t *info, const struct timespec *time) {
    const struct timespec none = {0};
    if (shim.file < 0 || shim.real_time) return REAL(sigtimedwait)(set, info, time);
    shim.microseconds += (int64_t)time->tv_sec * 1000000 + time->tv_nsec / 1000;
    return REAL(sigtimedwait)(set, info, &none);
}

/* ---- what the environment says ---- */

static void read_byte(const char *word) {
    struct shim_byte *byte = &shim.bytes[shim.byte_count++];
    if (shim.byte_count > 64 || sscanf(word, "byte=%2x.%2x=%2x", &byte->page, &byte->address, &byte->byte) != 3)
        abort();
}

/* Words of what few adapters and modules do. */
static void read_rare_word(const char *word, unsigned value) {
    sscanf(word, "hold=%255s", shim.hold);
    sscanf(word, "other=%255s", shim.other);
    if (strncmp(word, "byte=", 5) == 0) read_byte(word);
    if (strncmp(word, "too-long=", 9) == 0) shim.too_long = (int)value;
    if (strncmp(word, "answers=", 8) == 0) shim.answers = value;
    if (strncmp(word, "mute=", 5) == 0) shim.mute = value;
    if (strncmp(word, "takes=", 6) == 0) shim.takes = value;
    if (strncmp(word, "status=", 7) == 0) memset(shim.module.status, (int)value, sizeof shim.module.status);
    if (strncmp(word, "ignored=", 8) == 0) shim.module.ignored = value;
    if (strncmp(word, "reject=", 7) == 0) shim.module.reject = (uint8_t)value;
    if (strncmp(word, "unstaged=", 9) == 0) shim.module.unstaged = value;
    if (strcmp(word, "fixed") == 0) shim.module.fixed = true;
    if (strcmp(word, "untuned") == 0) shim.module.untuned = true;
    if (strcmp(word, "locked") == 0) shim.locked = true;
    if (strcmp(word, "partial") == 0) shim.partial = true;
    if (strcmp(word, "twice") == 0) shim.twice = true;
}

/* Words of pages 13h and 14h. */
static void read_link_word(const char *word, unsigned value) {
    struct diagnostics *diagnostics = &shim.diagnostics;
    if (strcmp(word, "links") == 0) shim.links = true;
    if (strncmp(word, "errors=", 7) == 0) diagnostics->rate = value;
    if (strncmp(word, "held=", 5) == 0) diagnostics->held = (uint8_t)value;
    if (strncmp(word, "loopbacks=", 10) == 0) diagnostics->controls[0] = (uint8_t)value;
    if (strncmp(word, "results=", 8) == 0) diagnostics->controls[2] = (uint8_t)value;
    if (strcmp(word, "tests-none") == 0) diagnostics->fixed = true;
    if (strncmp(word, "unlocked=", 9) == 0) diagnostics->unlocked = (uint8_t)value;
}

/* Words of pages 20h to 2Fh: of all banks, or of the bank that follows, else of bank 0. */
static void read_statistics_word(const char *word, unsigned value) {
    struct statistics *bank = &shim.statistics[value % 4];
    if (strcmp(word, "statistics") == 0) shim.lists = true;
    for (struct statistics *each = shim.statistics; each < shim.statistics + 4; each++) {
        if (strncmp(word, "freeze=", 7) == 0) each->lasts = value;
        if (strcmp(word, "moves") == 0) each->moves = true;
    }
    if (strncmp(word, "stuck-statistics", 16) == 0) bank->stuck = true;
    if (strncmp(word, "stay-frozen", 11) == 0) bank->stays = true;
    if (strncmp(word, "denies-freeze", 13) == 0) bank->denies = true;
}

/* Words of the firmware. */
static void read_firmware_word(const char *word, unsigned value) {
    struct two_banks *firmware = &shim.firmware;
    sscanf(word, "keep=%255s", shim.keep);
    if (strcmp(word, "banks") == 0) shim.banks = true;
    if (strcmp(word, "deaf") == 0) firmware->background = false;
    if (strcmp(word, "fallen-back") == 0) firmware->boots = false;
    if (strcmp(word, "uncommitted") == 0) firmware->running = 1, load_bank(firmware, 1, (const uint8_t *)"\2\1\0\7", 4);
    if (strcmp(word, "stays-open") == 0) firmware->stays_open = true;
    if (strcmp(word, "aborts-none") == 0) firmware->aborts_none = true;
    if (strcmp(word, "commits-none") == 0) firmware->commits_none = true;
    if (strncmp(word, "left-open=", 10) == 0) firmware->open = true, firmware->not_again = (uint8_t)value;
    if (strncmp(word, "no-block=", 9) == 0) firmware->no_block = (uint8_t)value;
    if (strcmp(word, "both-run") == 0) firmware->valid[0] = false;
    if (strncmp(word, "instances=", 10) == 0) firmware->instances = (uint8_t)value;
    if (strncmp(word, "start=", 6) == 0) firmware->start_size = (uint8_t)value;
    if (strncmp(word, "mechanism=", 10) == 0) firmware->mechanism = (uint8_t)value;
    if (strncmp(word, "lasts=", 6) == 0) firmware->slowest = value;
    if (strncmp(word, "late=", 5) == 0) firmware->late = value;
    if (strncmp(word, "password=", 9) == 0) firmware->password = value;
}

static void read_word(const char *word) {
    unsigned value = 0;
    const char *after = strchr(word, '=');
    if (after != NULL) value = (unsigned)strtoul(after + 1, NULL, 0);
    read_rare_word(word, value);
    read_link_word(word, value);
    read_statistics_word(word, value);
    read_firmware_word(word, value);
    sscanf(word, "image=%255s", shim.image);
    sscanf(word, "out=%255s", shim.out);
    sscanf(word, "driver=%31s", shim.driver);
    if (strncmp(word, "seed=", 5) == 0) shim.random = value;
    if (strncmp(word, "refuse=", 7) == 0) shim.refuse = value;
    if (strncmp(word, "longest=", 8) == 0) shim.longest = value;
    if (strncmp(word, "unplug=", 7) == 0) shim.unplug = value;
    if (strncmp(word, "swap=", 5) == 0) shim.swap = value;
    if (strncmp(word, "interrupt=", 10) == 0) shim.interrupt = value;
    if (strncmp(word, "interrupt-print=", 16) == 0) shim.print = value;
    if (strncmp(word, "signal=", 7) == 0) shim.signal = value;
    if (strncmp(word, "fault=", 6) == 0) shim.fault = value;
    if (strncmp(word, "lose=", 5) == 0) shim.lose = value;
    if (strncmp(word, "durations=", 10) == 0) shim.durations = (uint8_t)value;
    if (strncmp(word, "error=", 6) == 0) shim.error = (int)value;
    if (strncmp(word, "slowest=", 8) == 0) shim.module.slowest = value;
    if (strncmp(word, "silent=", 7) == 0) shim.module.silent = value;
    if (strncmp(word, "stuck=", 6) == 0) shim.module.stuck = (int)value;
    if (strcmp(word, "succeeded") == 0) memset(shim.module.status, SUCCESS, sizeof shim.module.status);
    if (strcmp(word, "smbus") == 0) shim.smbus = true;
    if (strcmp(word, "real-time") == 0) shim.real_time = true;
}

/* In byte 222 of page 00h that of bytes 128 to 221, and in byte 255 of page 01h that of bytes 130 to 254. */
static void write_sum(unsigned number) {
    uint8_t *page = shim.module.pages[number];
    unsigned sum = 0, first = number == 0 ? 128 : 130, place = number == 0 ? 222 : 255;
    for (unsigned at = first; at < place; at++) sum += page[at - 128];
    page[place - 128] = (uint8_t)sum;
}

/* MaxDurationDPDeinit and DPInit in byte 144 of page 01h, those of the transmitter in byte 168. */
static void advertise_durations(void) {
    uint8_t *page = shim.module.pages[1];
    page[144 - 128] = page[168 - 128] = shim.durations;
    write_sum(1);
}

/* A module with a command data block has page 9Fh, and advertises its instances in byte 163 of page 01h. */
static void advertise_firmware(void) {
    shim.module.present[0x9F] = true;
    shim.module.pages[1][163 - 128] = (uint8_t)(shim.firmware.instances << 6);
    write_sum(1);
}

/* A module with pages 13h and 14h advertises them in bit 5 of byte 142 of page 01h. */
static void advertise_links(void) {
    shim.module.present[0x13] = shim.module.present[0x14] = true;
    shim.module.pages[1][142 - 128] |= 0x20;
    write_sum(1);
}

/* A sum is right again after each byte but itself. */
static void change_bytes(void) {
    for (const struct shim_byte *each = shim.bytes; each < shim.bytes + shim.byte_count; each++) {
        bool upper = each->address >= 128;
        uint8_t *half = upper ? shim.module.pages[each->page] : shim.module.lower;
        half[each->address % 128] = (uint8_t)each->byte;
        if (upper && each->page < 2 && each->address != (each->page == 0 ? 222 : 255)) write_sum(each->page);
    }
}

static void load_image(struct emulator *module, const char *name) {
    char line[400];
    FILE *file = fopen(name, "r");
    if (file == NULL) abort();
    while (fgets(line, sizeof line, file)) load_line(module, line);
    fclose(file);
}

static void begin(void) {
    const char *words = getenv("PORT");
    char *copy = strdup(words != NULL ? words : ""), *rest = NULL;
    if (copy == NULL) abort();
    shim.microseconds = (int64_t)START * 1000000;
    begin_emulator(&shim.module, 1);
    begin_diagnostics(&shim.diagnostics);
    begin_two_banks(&shim.firmware, 1);
    shim.statistics[0].pages = shim.module.pages;
    for (unsigned bank = 1; bank < 4; bank++) shim.statistics[bank].pages = shim.module.further[bank - 1];
    load_bank(&shim.firmware, 0, (const uint8_t *)"\1\2\0\3", 4);
    for (char *word = strtok_r(copy, " ", &rest); word != NULL; word = strtok_r(NULL, " ", &rest)) read_word(word);
    free(copy);
    shim.module.random += shim.random;
    load_image(&shim.module, shim.image);
    if (shim.durations != 0) advertise_durations();
    if (shim.banks) advertise_firmware();
    if (shim.links) advertise_links();
    change_bytes();
    power_up(&shim.module);
    shim.fresh = shim.module;
    if (shim.other[0] != 0) load_image(&shim.fresh, shim.other);
    power_up(&shim.fresh);
    shim.lived = microseconds() / 1000;
}

static void tell_firmware(FILE *out) {
    const struct two_banks *it = &shim.firmware;
    FILE *kept = shim.keep[0] != 0 ? fopen(shim.keep, "w") : NULL;
    fprintf(out, "running %c committed %s%s starts %u runs %u commits %u aborts %u without %u\n", "AB"[it->running],
            it -> committed[0] ? "A" : "", it->committed[1] ? "B" : "", it->starts, it->runs, it->commits, it->aborts,
            it->moments_without);
    if (kept == NULL) return;
    fwrite(it->images[it->running], 1, it->lengths[it->running], kept);
    fclose(kept);
}

/* Of a further bank only if it has any. */
static void tell_statistics(FILE *out) {
    char text[512];
    for (unsigned bank = 0; bank < 4; bank++) {
        if (bank != 0 && !shim.module.has_further[bank - 1][0x2F]) continue;
        if (bank != 0) fprintf(out, "bank %u ", bank);
        fwrite(text, 1, describe_statistics(&shim.statistics[bank], text, sizeof text), out);
    }
}

__attribute__((destructor)) static void tell(void) {
    char text[512];
    FILE *out = shim.out[0] != 0 ? fopen(shim.out, "w") : NULL;
    if (out == NULL) return;
    fwrite(text, 1, describe(&shim.module, text, sizeof text), out);
    fprintf(out, "seconds %lld\n", (long long)shim.microseconds / 1000000 - START);
    if (shim.banks) tell_firmware(out);
    if (shim.links) fwrite(text, 1, describe_diagnostics(&shim.diagnostics, text, sizeof text), out);
    if (shim.lists) tell_statistics(out);
    fclose(out);
}

/* ---- the module behind both ---- */

static void wait_for_removal(const char *name) {
    FILE *file = fopen(name, "w");
    if (file == NULL) abort();
    fclose(file);
    while (access(name, F_OK) == 0) usleep(1000);
}

static bool is_muted(void) {
    if (shim.made == 20) shim.muted = microseconds() + 1000 * (int64_t)shim.mute;
    return microseconds() < shim.muted || (shim.answers != 0 && shim.made % shim.answers != 0);
}

static void interrupt(void) {
    kill(getpid(), shim.signal != 0 ? (int)shim.signal : SIGINT);
    if (shim.twice) kill(getpid(), SIGTERM);
}

/* Whether the next transaction reaches the module; else errno says why. */
static bool reaches(void) {
    shim.made++;
    if (shim.made == 10 && shim.hold[0] != 0) wait_for_removal(shim.hold);
    shim.microseconds += 300; /* of the transaction */
    if (shim.made == shim.swap) shim.module = shim.fresh;
    if (shim.made == shim.interrupt) interrupt();
    if (shim.made == shim.fault) enter_state(&shim.module, 5);
    if (shim.made == shim.lose) shim.module.present[0x11] = false;
    int64_t until = microseconds() / 1000;
    if (until - shim.lived > LONGEST) shim.lived = until - LONGEST;
    for (; shim.lived < until; shim.lived++) {
        pass_millisecond(&shim.module);
        if (shim.banks) pass_time(&shim.firmware, 1);
        if (shim.links) pass_diagnostics(&shim.diagnostics);
        for (unsigned bank = 0; shim.lists && bank < 4; bank++) pass_statistics(&shim.statistics[bank]);
        if (shim.firmware.off_left > 0) store_byte(&shim.module, 127, 0); /* a reset selects page 00h */
    }
    errno = shim.error;
    if (shim.banks && is_deaf(&shim.firmware)) return false;
    if (shim.unplug != 0 && shim.made > shim.unplug)
        errno = ENXIO;
    else if (!is_muted() && next_random(&shim.random) % 100 >= shim.refuse)
        return true;
    shim.microseconds += 1000 * (int64_t)shim.takes;
    return false;
}

static bool is_of_links(uint8_t address) {
    return shim.links && address >= 128 && (shim.module.page == 0x13 || shim.module.page == 0x14);
}

static bool is_of_statistics(uint8_t address) {
    return shim.lists && address >= 128 && shim.module.page >= 0x20 && shim.module.page <= 0x2F;
}

static struct statistics *statistics_of_bank(void) { return &shim.statistics[shim.module.bank]; }

static bool is_of_block(uint8_t address) { return shim.banks && address >= 128 && shim.module.page == 0x9F; }

static uint8_t fetch_one(uint8_t address) {
    if (shim.banks && address == 37) return fetch_status(&shim.firmware);
    if (is_of_links(address)) return fetch_diagnostics(&shim.diagnostics, shim.module.page, address);
    if (is_of_statistics(address)) return fetch_statistics(statistics_of_bank(), shim.module.page, address);
    return is_of_block(address) ? fetch_of_block(&shim.firmware, address) : fetch_byte(&shim.module, address);
}

static void store_one(uint8_t address, uint8_t byte) {
    if (is_of_block(address))
        store_to_block(&shim.firmware, address, byte);
    else if (is_of_links(address))
        store_diagnostics(&shim.diagnostics, shim.module.page, address, byte);
    else if (is_of_statistics(address))
        store_statistics(statistics_of_bank(), shim.module.page, address, byte);
    else
        store_byte(&shim.module, address, byte);
}

static void fetch_bytes(uint8_t address, size_t count, uint8_t *bytes) {
    for (size_t i = 0; i < count; i++) bytes[i] = fetch_one((uint8_t)(address + i));
}

static void store_bytes(uint8_t address, size_t count, const uint8_t *bytes) {
    for (size_t i = 0; i < count; i++) store_one((uint8_t)(address + i), bytes[i]);
}

/* ---- /dev/i2c-99 ---- */

static bool is_locked(const struct i2c_msg *message) {
    bool stores = !(message->flags & I2C_M_RD) && message->len == 2 && message->buf[0] >= 128;
    return shim.locked && stores && shim.module.page == 0x10;
}

static bool is_denied(const struct i2c_msg *message) {
    bool stores = !(message->flags & I2C_M_RD) && message->len == 2;
    return stores && is_of_statistics(message->buf[0]) &&
           denies_freeze(statistics_of_bank(), shim.module.page, message->buf[0], message->buf[1]);
}

/* Of page 9Fh the module gives no more bytes at once than byte 164 of page 01h advertises. */
static bool is_too_long(const struct i2c_msg *message) {
    return is_of_block(shim.pointer) && message->len > 8 * (1 + shim.module.pages[1][164 - 128]);
}

static int transfer(const struct i2c_rdwr_ioctl_data *data) {
    if (data->nmsgs == 2 && data->msgs[0].len != 1) abort(); /* a store with a fetch after it */
    for (unsigned i = 0; i < data->nmsgs; i++)
        if (shim.longest != 0 && data->msgs[i].len > shim.longest)
            return errno = shim.too_long != 0 ? shim.too_long : EOPNOTSUPP, -1;
    bool denied = is_denied(&data->msgs[0]), reached = reaches() && !is_locked(&data->msgs[0]) && !denied;
    if (reached && shim.partial && data->nmsgs == 2) return 1;
    for (unsigned i = 0; i < data->nmsgs; i++) {
        struct i2c_msg *message = &data->msgs[i];
        if (message->addr != 0x50) return errno = ENXIO, -1;
        if (message->flags & I2C_M_RD) {
            if (!reached || is_too_long(message)) return -1;
            fetch_bytes(shim.pointer, message->len, message->buf);
        } else {
            /* a refused store may have given some of its bytes, unless the module itself denies it */
            size_t taken = reached ? message->len - 1U : denied ? 0 : next_random(&shim.random) % message->len;
            shim.pointer = message->buf[0];
            if (!(shim.unplug != 0 && shim.made > shim.unplug)) store_bytes(shim.pointer, taken, message->buf + 1);
            if (!reached) return -1;
        }
    }
    return (int)data->nmsgs;
}

int ioctl(int file, unsigned long request, ...) {
    va_list arguments;
    va_start(arguments, request);
    void *argument = va_arg(arguments, void *);
    va_end(arguments);
    if (file < 0 || file != shim.file) return REAL(ioctl)(file, request, argument);
    if (shim.in_a_row) return errno = ENOTTY, -1;
    if (request == I2C_FUNCS) {
        *(unsigned long *)argument = shim.smbus ? I2C_FUNC_SMBUS_EMUL : I2C_FUNC_I2C | I2C_FUNC_SMBUS_EMUL;
        return 0;
    }
    if (request == I2C_RDWR && !shim.smbus) return transfer(argument);
    return errno = EOPNOTSUPP, -1;
}

/* ---- the file of optoe, which selects pages by itself ---- */

/* Selects the page of this place in the file, and says where that is in the module's 256 bytes. */
static uint8_t select_place(off_t place) {
    const uint8_t selection[2] = {0, (uint8_t)(place < 256 ? 0 : place / 128 - 1)};
    store_bytes(126, 2, selection);
    return (uint8_t)(place < 128 ? place : 128 + place % 128);
}

ssize_t pread(int file, void *bytes, size_t count, off_t place) {
    if (file < 0 || file != shim.file) return REAL(pread)(file, bytes, count, place);
    if (!reaches()) return -1;
    if (place >= 128 && !shim.module.present[place / 128 - 1]) return 0;
    fetch_bytes(select_place(place), count, bytes);
    return (ssize_t)count;
}

ssize_t pwrite(int file, const void *bytes, size_t count, off_t place) {
    if (file < 0 || file != shim.file) return REAL(pwrite)(file, bytes, count, place);
    if (!reaches()) return -1;
    if (shim.partial) count--;
    store_bytes(select_place(place), count, bytes);
    return (ssize_t)count;
}

/* ---- files ---- */

int fflush(FILE *file) {
    static unsigned printed;
    if (file == stdout && shim.print != 0 && ++printed == shim.print) interrupt();
    return REAL(fflush)(file);
}

int open(const char *path, int flags, ...) {
    mode_t mode = 0;
    if (flags & O_CREAT) {
        va_list arguments;
        va_start(arguments, flags);
        mode = va_arg(arguments, mode_t);
        va_end(arguments);
    }
    if (getenv("NO_NULL") != NULL && strcmp(path, "/dev/null") == 0) return errno = ENOENT, -1;
    if (strcmp(path, adapter) != 0 && strcmp(path, eeprom) != 0) return REAL(open)(path, flags, mode);
    if (getenv("PORT") != NULL) begin();
    shim.in_a_row = strcmp(path, eeprom) == 0;
    return shim.file = REAL(open)(shim.image, O_RDWR | O_CLOEXEC); /* two programs at once lock the same file */
}

/* Where a cmisd is looked for is kept in the file that ASKED names. */
int connect(int file, __CONST_SOCKADDR_ARG name, socklen_t length) {
    const char *asked = getenv("ASKED");
    FILE *out = asked != NULL ? fopen(asked, "a") : NULL;
    if (out != NULL) fprintf(out, "%s\n", name.__sockaddr_un__->sun_path), fclose(out);
    return REAL(connect)(file, name, length);
}

ssize_t readlink(const char *path, char *target, size_t room) {
    if (strcmp(path, "/sys/bus/i2c/devices/99-0050/driver") != 0) return REAL(readlink)(path, target, room);
    if (shim.driver[0] == 0) return errno = ENOENT, -1;
    return snprintf(target, room, "../../../bus/i2c/drivers/%s", shim.driver);
}
