/* Adapters with simulated modules, each in a file that the test has in memory too: so a module outlives the daemon, and the test sees what
   becomes of it, and lets it be plugged, pulled, reset or silent. The daemon is linked with these in place of the system's calls. */
#include "../../tools/cmis_port/bus.h"
#include "../port/statistics.c"
#include "../port/two_banks.c"

#include <errno.h>
#include <fcntl.h>
#include <linux/i2c-dev.h>
#include <linux/i2c.h>
#include <pthread.h>
#include <stdarg.h>
#include <stdlib.h>
#include <string.h>
#include <sys/ioctl.h>
#include <sys/mman.h>
#include <sys/stat.h>
#include <time.h>
#include <unistd.h>

enum { GROUPS_PAGE = 0x2F, LANE_FLAGS = 19 };
enum { SIZE = 1 << 18, LOW_POWER = 1, READY = 3, ACTIVATED = 4, INITIALIZED = 7, MOST_TICKS = 2000 };

/* The numbers come first, in the order that `run` knows. */
struct adapter {
    /* what the test asks for */
    uint32_t present, refuse, late, blocks, serial, resets, pin, raises, smbus, rejects, identifier;
    uint32_t wanted[8], has_firmware;
    uint32_t lists;          /* it has pages 20h to 2Fh; so many milliseconds and one pass until they are frozen */
    uint32_t dark;           /* its lanes aren't shown as DPActivated but as DPInitialized */
    uint32_t outputs;        /* byte 138 of page 10h (OutputDisableRx), if it isn't 0 */
    uint32_t drowsy;         /* it is in ModuleLowPwr whenever its lower half is read as a whole */
    uint32_t refuse_applies; /* so many applies are refused */
    uint32_t takes;          /* milliseconds for each transaction */
    uint32_t hides;          /* a fetch of this byte of page 10h alone is refused, if it isn't 0 */
    uint32_t probes;         /* what became of it: fetches of byte 0 alone */
    uint32_t refuses_banks;  /* asked for: selections of further banks are refused */
    uint32_t denies;         /* a bit for each bank whose statistics it refuses to freeze */
    uint32_t shows;          /* asked for: the state that byte 3 shows, if it isn't 0 */
    uint32_t refuses_power;  /* so is this: transactions with byte 26 are refused */
    /* these became of it */
    uint32_t transactions, refused, stores, needless, dropped, unread, state, deinit;
    uint32_t paths[8], active[8];
    uint32_t seen_serial, seen_resets, read_lower, read_lanes, stores_of_power, commits;
    uint32_t frozen, freezes; /* a bit for each bank whose statistics are, or are to be; how often that was stored */
    uint32_t module_flags[32], lane_flags[152]; /* how often each was answered as raised */
    char image[256];
    uint32_t state_changes[8], status_changes[8]; /* how often a lane's code was answered to be another one */
    uint32_t silent;                              /* in how many milliseconds at most four in a row were refused */
    uint32_t steps, waits; /* asked for: no more transactions than so many, if it isn't 0; whether one waits for that */
    uint32_t raises_further; /* asked for: in so many of 1000 transactions a flag of the lanes above 8 is raised */
    uint32_t further_flags[FURTHER_BANKS][152]; /* how often each was answered as raised */
    /* not the test's */
    uint32_t judged[8]; /* what was wanted as a transaction began */
    uint64_t random;
    int64_t ticked, silent_since;
    uint32_t refused_in_a_row;
    uint8_t states[8], statuses[8];
    uint8_t further_raised[FURTHER_BANKS][LANE_FLAGS];
    struct simulated simulated;
    struct two_banks banks;
    struct statistics statistics[BANKS];
    uint8_t listed[BANKS][0x30][128];
};
_Static_assert(sizeof(struct adapter) <= SIZE, "the file is too small");

static unsigned below(struct adapter *it, unsigned limit) {
    it->random ^= it->random << 13;
    it->random ^= it->random >> 7;
    it->random ^= it->random << 17;
    return (unsigned)(it->random >> 16) % limit;
}

static bool is_up(const struct adapter *it, unsigned lane) {
    const struct dovecounter_lane *is = &it->simulated.module.lanes[lane];
    return is->path == ACTIVATED && it->judged[lane] != 0 && is->active == it->judged[lane];
}

/* The pages of what a module lists, as its image has them. */
static void begin_statistics(struct adapter *it) {
    memset(it->statistics, 0, sizeof it->statistics);
    for (size_t i = 0; i < it->simulated.count; i++) {
        const struct dovecounter_half *half = &it->simulated.halves[i];
        if (half->upper && half->bank < BANKS && half->page >= 0x20 && half->page <= 0x2F)
            memcpy(it->listed[half->bank][half->page], half->bytes, sizeof half->bytes);
    }
    for (unsigned bank = 0; bank < BANKS; bank++) it->statistics[bank].moves = true;
}

/* Another module, or the one that has reset itself. */
static void begin(struct adapter *it) {
    const struct dovecounter_delays delays = {8, 8, 8, 8, 8, 8, 8};
    if (it->serial != it->seen_serial) {
        it->read_lower = it->read_lanes = 0;
        memset(&it->simulated, 0, sizeof it->simulated);
        if (!open_simulated(&it->simulated, it->image)) abort();
        begin_statistics(it);
    }
    dovecounter_module_begin(it->simulated.halves, it->simulated.count, &delays, &it->simulated.module);
    it->seen_serial = it->serial;
    it->seen_resets = it->resets;
}

/* Its reset by a Run is one of the module too. */
static void pass_firmware_time(struct adapter *it, unsigned ticks) {
    unsigned before = it->banks.restarts;
    if (it->banks.random == 0) begin_two_banks(&it->banks, 1);
    pass_time(&it->banks, ticks);
    if (it->banks.restarts != before) begin(it);
}

static void pass_in_bank(struct adapter *it, unsigned bank, int64_t ticks) {
    struct statistics *statistics = &it->statistics[bank];
    statistics->pages = it->listed[bank]; /* which each process has elsewhere */
    statistics->lasts = it->lists;
    statistics->denies = it->denies >> bank & 1;
    for (int64_t tick = 0; tick < ticks; tick++) pass_statistics(statistics);
}

/* A tick is a millisecond. */
static void let_time_pass(struct adapter *it) {
    int64_t time = now(), ticks = time - it->ticked;
    it->ticked = time;
    dovecounter_module_pin(&it->simulated.module, it->pin != 0);
    ticks = ticks < MOST_TICKS ? ticks : MOST_TICKS;
    if (it->has_firmware) pass_firmware_time(it, (unsigned)ticks);
    for (unsigned bank = 0; it->lists != 0 && bank < BANKS; bank++) pass_in_bank(it, bank, ticks);
    for (; ticks > 0; ticks--) dovecounter_module_tick(&it->simulated.module);
    if (it->raises > 1000) it->simulated.module.module_flags = 0xFF;
    if (below(it, 1000) < it->raises)
        it->simulated.module.lane_flags[1 + below(it, 18)] |= (uint8_t)(1U << below(it, 8));
    if (below(it, 1000) < it->raises_further)
        it->further_raised[below(it, FURTHER_BANKS)][below(it, LANE_FLAGS)] |= (uint8_t)(1U << below(it, 8));
}

/* ---- what is judged */

/* A store that takes down or applies a lane that is up as wanted is needless; one to another module before it was read is too early. */
static void judge_store(struct adapter *it, const struct i2c_msg *message) {
    uint8_t offset = message->buf[0];
    uint8_t page = it->simulated.module.page;
    if (offset == 126 || offset == 127 || page == 0x9F || (it->lists != 0 && page == 0x2F)) return;
    it->stores++;
    it->stores_of_power += offset == 26;
    it->unread += !it->read_lower || !it->read_lanes;
    if (it->simulated.module.page != 0x10 || (offset != 128 && offset != 143)) return;
    for (unsigned lane = 0; lane < 8; lane++)
        if (message->buf[1] >> lane & 1 && is_up(it, lane)) it->needless++;
}

static void count_flags(uint32_t *counts, unsigned first, unsigned size, unsigned offset, const uint8_t *bytes,
                        unsigned count) {
    for (unsigned flag = 0; flag < size; flag++) {
        unsigned address = first + flag / 8;
        if (address >= offset && address < offset + count) counts[flag] += bytes[address - offset] >> flag % 8 & 1;
    }
}

/* Each lane has four bits. */
static void count_changes(uint32_t changes[8], uint8_t codes[8], const uint8_t *bytes) {
    for (unsigned lane = 0; lane < 8; lane++) {
        uint8_t code = bytes[lane / 2] >> lane % 2 * 4 & 15;
        changes[lane] += code != codes[lane];
        codes[lane] = code;
    }
}

/* Those of bank 0, which the daemon counts. */
static void judge_fetch(struct adapter *it, unsigned offset, const uint8_t *bytes, unsigned count) {
    bool shows_lanes = it->simulated.module.page == 0x11 && it->simulated.module.bank == 0;
    unsigned end = offset + count;
    if (shows_lanes && offset <= 128 && end >= 132) count_changes(it->state_changes, it->states, bytes + 128 - offset);
    if (shows_lanes && offset <= 202 && end >= 206)
        count_changes(it->status_changes, it->statuses, bytes + 202 - offset);
    count_flags(it->module_flags, 8, 32, offset, bytes, count);
    if (shows_lanes) count_flags(it->lane_flags, 134, 152, offset, bytes, count);
    if (offset == 0 && count == 128) it->read_lower = 1;
    if (offset == 128 && count == 128 && shows_lanes) it->read_lanes = 1;
}

/* ---- a transaction */

/* Whether byte 37 or page 9Fh is meant. */
static bool is_of_firmware(const struct adapter *it, uint8_t offset) {
    return it->has_firmware && (offset == 37 || (offset >= 128 && it->simulated.module.page == 0x9F));
}

static bool is_of_statistics(const struct adapter *it, uint8_t offset) {
    uint8_t page = it->simulated.module.page;
    return it->lists != 0 && offset >= 128 && page >= 0x20 && page <= 0x2F;
}

/* The banks whose statistics are frozen, or are to be. */
static uint32_t frozen_banks(const struct adapter *it) {
    uint32_t banks = 0;
    for (unsigned bank = 0; bank < BANKS; bank++) {
        bool is_asked = it->listed[bank][GROUPS_PAGE][144 - 128] >= 0x80;
        if (it->statistics[bank].is_frozen || is_asked) banks |= 1U << bank;
    }
    return banks;
}

/* A store is astray too if others than this bank's are frozen. Answers whether it is taken. */
static bool use_statistics(struct adapter *it, const struct i2c_rdwr_ioctl_data *data) {
    const struct i2c_msg *sent = &data->msgs[0], *taken = &data->msgs[1];
    uint8_t page = it->simulated.module.page, bank = it->simulated.module.bank;
    struct statistics *statistics = &it->statistics[bank];
    if (data->nmsgs == 1 && denies_freeze(statistics, page, sent->buf[0], sent->buf[1])) return false;
    for (unsigned i = 0; data->nmsgs == 2 && i < taken->len; i++)
        taken->buf[i] = fetch_statistics(statistics, page, (uint8_t)(sent->buf[0] + i));
    for (unsigned i = 1; data->nmsgs == 1 && i < sent->len; i++) {
        uint32_t before = statistics->stores;
        store_statistics(statistics, page, (uint8_t)(sent->buf[0] + i - 1), sent->buf[i]);
        it->freezes += statistics->stores - before;
        it->unread += (frozen_banks(it) & ~(1U << bank)) != 0;
    }
    it->frozen = frozen_banks(it);
    it->unread += statistics->astray;
    return true;
}

static void use_firmware(struct adapter *it, const struct i2c_rdwr_ioctl_data *data) {
    const struct i2c_msg *sent = &data->msgs[0], *taken = &data->msgs[1];
    for (unsigned i = 0; data->nmsgs == 2 && i < taken->len; i++)
        taken->buf[i] =
            sent->buf[0] == 37 ? fetch_status(&it->banks) : fetch_of_block(&it->banks, (uint8_t)(sent->buf[0] + i));
    for (unsigned i = 1; data->nmsgs == 1 && i < sent->len; i++)
        store_to_block(&it->banks, (uint8_t)(sent->buf[0] + i - 1), sent->buf[i]);
    it->commits = it->banks.commits;
}

static bool is_done(struct adapter *it, const struct i2c_rdwr_ioctl_data *data) {
    struct simulated *module = &it->simulated;
    const struct i2c_msg *sent = &data->msgs[0];
    uint8_t device = (uint8_t)(sent->addr << 1), offset = sent->buf[0];
    if (it->has_firmware && is_deaf(&it->banks)) return false;
    if (is_of_firmware(it, offset)) return use_firmware(it, data), true;
    if (is_of_statistics(it, offset)) return use_statistics(it, data);
    if (data->nmsgs == 1)
        return dovecounter_module_store(module->halves, module->count, &module->module, device, offset, sent->buf + 1,
                                        sent->len - 1U) == DOVECOUNTER_DONE;
    return dovecounter_module_fetch(module->halves, module->count, &module->module, device, offset, data->msgs[1].buf,
                                    data->msgs[1].len) == DOVECOUNTER_DONE;
}

static void darken(const struct i2c_msg *states) {
    for (unsigned i = 0; i < 4; i++) {
        uint8_t *byte = &states->buf[i];
        if (*byte % 16 == ACTIVATED) *byte = (uint8_t)(*byte - ACTIVATED + INITIALIZED);
        if (*byte / 16 == ACTIVATED) *byte = (uint8_t)(*byte + (INITIALIZED - ACTIVATED) * 16);
    }
}

static void show_low_power(const struct i2c_rdwr_ioctl_data *data) {
    bool is_half = data->nmsgs == 2 && data->msgs[0].buf[0] == 0 && data->msgs[1].len == 128;
    if (is_half) data->msgs[1].buf[3] = LOW_POWER << 1;
}

/* Another state, in whatever has byte 3. */
static void show_state(const struct adapter *it, const struct i2c_rdwr_ioctl_data *data) {
    uint8_t offset = data->msgs[0].buf[0];
    bool is_fetched = data->nmsgs == 2 && offset <= 3 && offset + data->msgs[1].len > 3;
    if (is_fetched) data->msgs[1].buf[3 - offset] = (uint8_t)(it->shows << 1);
}

/* The simulated module keeps none. */
static void show_outputs(const struct adapter *it, const struct i2c_rdwr_ioctl_data *data) {
    uint8_t offset = data->msgs[0].buf[0];
    bool is_fetched = data->nmsgs == 2 && offset <= 138 && offset + data->msgs[1].len > 138;
    if (is_fetched && it->simulated.module.page == 0x10) data->msgs[1].buf[138 - offset] = (uint8_t)it->outputs;
}

/* Of further banks the simulated module keeps no flags: each one is answered once. */
static void show_further_flags(struct adapter *it, unsigned offset, uint8_t *bytes, unsigned count) {
    unsigned bank = it->simulated.module.bank;
    if (it->simulated.module.page != 0x11 || bank == 0 || bank >= BANKS) return;
    for (unsigned i = 0; i < count; i++) {
        unsigned place = offset + i - 134;
        if (place >= LANE_FLAGS) continue;
        bytes[i] = it->further_raised[bank - 1][place];
        it->further_raised[bank - 1][place] = 0;
    }
    count_flags(it->further_flags[bank - 1], 134, 8 * LANE_FLAGS, offset, bytes, count);
}

/* Whether this is an apply, and is refused. */
static bool refuses_apply(struct adapter *it, const struct i2c_rdwr_ioctl_data *data) {
    bool is_apply = data->nmsgs == 1 && data->msgs[0].buf[0] == 143 && it->simulated.module.page == 0x10;
    if (it->refuse_applies == 0 || !is_apply) return false;
    it->refuse_applies--;
    return true;
}

static bool selects_bank(const struct i2c_msg *message) {
    return message->buf[0] == 126 && message->len == 3 && message->buf[1] != 0;
}

static bool transact(struct adapter *it, const struct i2c_rdwr_ioctl_data *data) {
    bool was_up[8];
    if (it->random == 0) it->random = 88172645463325252U + (uint64_t)now() * 1000003;
    it->transactions++;
    if (!it->present || below(it, 100) < it->refuse) return false;
    if (it->refuses_power && data->msgs[0].buf[0] == 26) return false;
    if (it->refuses_banks && selects_bank(&data->msgs[0])) return false;
    if (it->serial != it->seen_serial || it->resets != it->seen_resets) begin(it);
    let_time_pass(it);
    memcpy(it->judged, it->wanted, sizeof it->judged); /* the test may want something else meanwhile */
    for (unsigned lane = 0; lane < 8; lane++) was_up[lane] = is_up(it, lane);
    if (data->nmsgs == 1) judge_store(it, &data->msgs[0]);
    bool is_answered = !refuses_apply(it, data) && is_done(it, data) && below(it, 100) >= it->late;
    if (it->identifier != 0 && data->nmsgs == 2 && data->msgs[0].buf[0] == 0)
        data->msgs[1].buf[0] = (uint8_t)it->identifier;
    if (it->rejects && data->nmsgs == 2 && data->msgs[0].buf[0] == 202 && it->simulated.module.page == 0x11)
        memset(data->msgs[1].buf, 0x22, data->msgs[1].len); /* ConfigRejected */
    if (data->nmsgs == 2 && is_answered)
        show_further_flags(it, data->msgs[0].buf[0], data->msgs[1].buf, data->msgs[1].len);
    if (it->outputs && is_answered) show_outputs(it, data);
    if (it->drowsy && is_answered) show_low_power(data);
    if (it->shows && is_answered) show_state(it, data);
    if (it->dark && data->nmsgs == 2 && data->msgs[0].buf[0] == 128 && it->simulated.module.page == 0x11)
        darken(&data->msgs[1]);
    if (is_answered && data->nmsgs == 2) judge_fetch(it, data->msgs[0].buf[0], data->msgs[1].buf, data->msgs[1].len);
    if (data->nmsgs == 1) dovecounter_module_tick(&it->simulated.module);
    for (unsigned lane = 0; lane < 8; lane++) it->dropped += was_up[lane] && !is_up(it, lane);
    return is_answered;
}

/* Whether this is a fetch of a byte that is hidden. */
static bool is_hidden(const struct adapter *it, const struct i2c_rdwr_ioctl_data *data) {
    bool is_alone = data->nmsgs == 2 && data->msgs[0].buf[0] == it->hides && data->msgs[1].len == 1;
    return it->hides != 0 && is_alone && it->simulated.module.page == 0x10;
}

static void judge_silence(struct adapter *it, bool is_answered) {
    if (is_answered) it->refused_in_a_row = 0;
    if (is_answered) return;
    if (it->refused_in_a_row++ == 0) it->silent_since = now();
    uint32_t lasts = (uint32_t)(now() - it->silent_since);
    if (it->refused_in_a_row > 3 && lasts > it->silent) it->silent = lasts;
}

static void show(struct adapter *it) {
    const struct dovecounter_module *module = &it->simulated.module;
    it->state = module->state;
    it->deinit = module->deinit;
    for (unsigned lane = 0; lane < 8; lane++) it->paths[lane] = module->lanes[lane].path;
    for (unsigned lane = 0; lane < 8; lane++) it->active[lane] = module->lanes[lane].active;
}

static int answer(volatile struct adapter *waits, struct adapter *it, unsigned long request, void *argument) {
    if (request == I2C_FUNCS) {
        *(unsigned long *)argument = it->smbus ? I2C_FUNC_SMBUS_EMUL : I2C_FUNC_I2C | I2C_FUNC_SMBUS_EMUL;
        return 0;
    }
    const struct i2c_rdwr_ioctl_data *data = argument;
    while (waits->blocks) usleep(2000);
    for (; waits->steps != 0 && waits->transactions >= waits->steps; usleep(1000)) waits->waits = 1;
    waits->waits = 0;
    if (waits->takes) usleep(1000 * waits->takes);
    it->probes += data->nmsgs == 2 && data->msgs[0].buf[0] == 0 && data->msgs[1].len == 1;
    bool is_answered = !is_hidden(it, data) && transact(it, data);
    judge_silence(it, is_answered);
    show(it);
    it->refused += !is_answered;
    errno = EREMOTEIO;
    return is_answered ? (int)data->nmsgs : -1;
}

int __real_ioctl(int file, unsigned long request, ...);
int __wrap_ioctl(int file, unsigned long request, ...);

int __wrap_ioctl(int file, unsigned long request, ...) {
    struct stat about;
    va_list arguments;
    va_start(arguments, request);
    void *argument = va_arg(arguments, void *);
    va_end(arguments);
    if ((request != I2C_FUNCS && request != I2C_RDWR) || fstat(file, &about) != 0 || about.st_size != SIZE)
        return __real_ioctl(file, request, argument);
    struct adapter *it = mmap(NULL, SIZE, PROT_READ | PROT_WRITE, MAP_SHARED, file, 0);
    if (it == MAP_FAILED) abort();
    int answered = answer(it, it, request, argument);
    int error = errno;
    munmap(it, SIZE);
    errno = error;
    return answered;
}

/* Adapters are in the folder that ADAPTERS names, and hang on i2c-0. */
int __real_open(const char *name, int flags, ...);
int __wrap_open(const char *name, int flags, ...);

int __wrap_open(const char *name, int flags, ...) {
    char path[400];
    const char *adapters = getenv("ADAPTERS");
    bool is_adapter = adapters != NULL && strncmp(name, "/dev/i2c-", 9) == 0;
    va_list arguments;
    va_start(arguments, flags);
    unsigned mode = flags & O_CREAT ? va_arg(arguments, unsigned) : 0;
    va_end(arguments);
    if (is_adapter) snprintf(path, sizeof path, "%s/%s", adapters, name + strlen("/dev/"));
    return __real_open(is_adapter ? path : name, flags, mode);
}

/* HASTE says how many times as fast the clock runs that can't be set. */
static int64_t haste(void) {
    const char *text = getenv("HASTE");
    return text != NULL ? strtol(text, NULL, 10) : 1;
}

static struct timespec time_of(int64_t microseconds) {
    return (struct timespec){microseconds / 1000000, microseconds % 1000000 * 1000};
}

static int64_t microseconds_of(const struct timespec *time) {
    return (int64_t)time->tv_sec * 1000000 + time->tv_nsec / 1000;
}

int __real_pthread_cond_timedwait(pthread_cond_t *condition, pthread_mutex_t *mutex, const struct timespec *time);
int __wrap_pthread_cond_timedwait(pthread_cond_t *condition, pthread_mutex_t *mutex, const struct timespec *time);

int __wrap_pthread_cond_timedwait(pthread_cond_t *condition, pthread_mutex_t *mutex, const struct timespec *time) {
    struct timespec real = time_of(microseconds_of(time) / haste());
    return __real_pthread_cond_timedwait(condition, mutex, &real);
}

/* The clock that can be set is ahead by the seconds that the file `clock` in that folder has, if there is one. That is read first, so that
   the daemon reads both clocks one right after the other. */
int __real_clock_gettime(clockid_t clock, struct timespec *time);
int __wrap_clock_gettime(clockid_t clock, struct timespec *time);

int __wrap_clock_gettime(clockid_t clock, struct timespec *time) {
    char path[400] = "", text[24] = "";
    bool is_set = clock == CLOCK_REALTIME && getenv("ADAPTERS") != NULL;
    if (is_set) snprintf(path, sizeof path, "%s/clock", getenv("ADAPTERS"));
    int file = is_set ? __real_open(path, O_RDONLY | O_CLOEXEC) : -1;
    int64_t ahead = file >= 0 && read(file, text, sizeof text - 1) > 0 ? (int64_t)(strtod(text, NULL) * 1000) : 0;
    if (file >= 0) close(file);
    int answered = __real_clock_gettime(clock, time);
    if (clock == CLOCK_MONOTONIC && haste() > 1) *time = time_of(microseconds_of(time) * haste());
    if (file < 0) return answered;
    int64_t thousandths = (int64_t)time->tv_sec * 1000 + time->tv_nsec / 1000000 + ahead;
    *time = (struct timespec){thousandths / 1000, thousandths % 1000 * 1000000};
    return answered;
}

char *__real_realpath(const char *name, char *path);
char *__wrap_realpath(const char *name, char *path);

char *__wrap_realpath(const char *name, char *path) {
    static const char devices[] = "/sys/bus/i2c/devices/";
    bool is_adapter = strncmp(name, devices, strlen(devices)) == 0 && strncmp(name + strlen(devices), "i2c-", 4) == 0;
    if (!is_adapter) return __real_realpath(name, path);
    sprintf(path, "/sys/devices/pci0000:00/i2c-0/%.99s", name + strlen(devices));
    return path;
}

/* The journal is standard error here. */
int __wrap_sd_journal_send_with_location(const char *file, const char *line, const char *function, const char *format,
                                         ...);

int __wrap_sd_journal_send_with_location(const char *file, const char *line, const char *function, const char *format,
                                         ...) {
    char text[2000] = "";
    size_t length = 0;
    va_list arguments;
    (void)file, (void)line, (void)function;
    va_start(arguments, format);
    for (const char *at = format; at != NULL; at = va_arg(arguments, const char *)) {
        for (; *at != 0; at++) { /* of what is formatted it knows texts alone */
            bool is_text = strncmp(at, "%s", 2) == 0;
            if (length + 1 < sizeof text)
                length += (size_t)snprintf(text + length, sizeof text - length, is_text ? "%s" : "%.1s",
                                           is_text ? va_arg(arguments, const char *) : at);
            at += is_text;
        }
        if (length + 1 < sizeof text) length += (size_t)snprintf(text + length, sizeof text - length, ";");
    }
    va_end(arguments);
    fprintf(stderr, "journal: %s\n", text);
    return 0;
}
