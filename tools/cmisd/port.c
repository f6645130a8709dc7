/* What is done at a port, by the thread of its adapter: the operation that the library names, or a look at whether a module is there. */
#include "cmisd.h"

#include <err.h>
#include <errno.h>
#include <limits.h>
#include <stddef.h>
#include <stdlib.h>
#include <string.h>
#include <sys/stat.h>
#include <unistd.h>

enum { SECOND = 1000, SOON = 100, LONGEST = 64 * SECOND }; /* milliseconds */

/* What hangs on one adapter, beyond all multiplexers, has one thread. */
struct adapter {
    char name[TEXT_SIZE];
    pthread_cond_t woken;
    struct port *ports; /* those on it, of all of `ports` */
    struct adapter *next;
};

pthread_mutex_t state = PTHREAD_MUTEX_INITIALIZER;
struct port *ports;
static struct adapter *adapters;
static bool is_stopping;
static pthread_cond_t ended;

/* No status but DONE can come of what is called here. */
static void must(uint32_t status) {
    if (status == DOVECOUNTER_DONE) return;
    warnx("the library answers %u", status);
    abort();
}

struct port *port_of(const char *name) {
    for (struct port *each = ports; each != NULL; each = each->next)
        if (!each->is_retired && strcmp(each->entry.name, name) == 0) return each;
    return NULL;
}

static bool is_same_file(const struct stat *one, const struct stat *other) {
    return one->st_dev == other->st_dev && one->st_ino == other->st_ino;
}

/* The port whose bus is this file, whatever name that is given. */
struct port *port_on(const char *bus) {
    struct stat wanted, about;
    if (stat(bus, &wanted) != 0) return NULL;
    for (struct port *each = ports; each != NULL; each = each->next) {
        if (each->is_retired || stat(each->entry.bus, &about) != 0) continue;
        bool is_device = S_ISCHR(wanted.st_mode) && S_ISCHR(about.st_mode);
        if (is_device ? about.st_rdev == wanted.st_rdev : is_same_file(&about, &wanted)) return each;
    }
    return NULL;
}

bool is_there(const struct port *port) { return port->core.stage != DOVECOUNTER_PORT_ABSENT; }

/* Whether nothing is to be done at its bus, which others may use then. */
bool is_still(const struct port *port) { return port->is_held || port->is_lent || !port->entry.manage; }

static void forget(struct port *port) {
    port->is_read_again = false;
    port->half_count = 0;
    forget_banks(port);
    begin_round(port);
}

/* Others have had its bus, and may have changed or exchanged the module. What comes of that is told if it is new. */
static void doubt(struct port *port) {
    forget(port);
    list_anew(port);
    port->outputs.is_known = port->outputs.is_under_way = false;
}

/* ---- the bus */

/* Whether one that was configured before it still has its bus. */
static bool has_former(const struct port *port) {
    for (const struct port *each = ports; each != port; each = each->next)
        if (strcmp(each->entry.bus, port->entry.bus) == 0) return true;
    return false;
}

/* Whether its bus isn't closed, perhaps by the former port. */
bool uses_bus(const struct port *port) { return port->is_open || has_former(port); }

static void shut(struct port *port) {
    if (port->is_open) close_bus(&port->bus);
    port->is_open = port->is_lost = false;
    if (port->is_lent && !port->is_free) send_to_borrower(port);
    port->is_free = port->is_lent;
    send_to_holders(port, true);
}

/* Lets the module out of its reset. If it was in it, it needs as long as after a plug. */
static void let_out(struct port *port) {
    bool was_in = port->entry.manage && port->entry.reset[0] != 0 && read_pin(port, port->entry.reset) == 1;
    if (port->is_retired) return;
    set_pin(port, port->entry.reset, false);
    if (!was_in || port->is_retired || !is_there(port)) return;
    doubt(port);
    port->before.is_once = false;
    must(dovecounter_port_plug(&port->core, (uint64_t)now()));
}

/* Opens the bus anew, or waits longer and longer. */
static void reopen(struct port *port) {
    port->bus = (struct bus){.name = port->entry.bus, .file = -1, .lock.file = -1};
    port->is_open = open_bus(&port->bus);
    if (port->is_open) let_out(port);
    if (!port->is_open) close_bus(&port->bus);
    port->due = now();
    port->reopens_at = port->is_open ? 0 : now() + port->reopens_in;
    port->reopens_in = port->is_open ? SECOND : port->reopens_in < LONGEST ? 2 * port->reopens_in : LONGEST;
}

/* Whether a driver has made its file anew: nothing is answered by the one that is open. */
static bool has_other_file(const struct port *port) {
    struct stat opened, named;
    bool are_known = fstat(port->bus.file, &opened) == 0 && stat(port->entry.bus, &named) == 0;
    return are_known && !is_same_file(&opened, &named);
}

/* Makes an operation, while others use the state. Answers when it began. */
int64_t make(struct port *port, const struct dovecounter_operation *operation, uint8_t bytes[128], bool *answered) {
    int64_t began = port->began = now();
    pthread_mutex_unlock(&state);
    *answered = port->bus.carry(&port->bus, operation, bytes);
    pthread_mutex_lock(&state);
    port->began = 0;
    port->operations++;
    port->nacks += !*answered;
    port->is_lost = port->is_lost || (!*answered && has_other_file(port));
    port->due = now();
    return began;
}

/* ---- whether a module is there */

static void take_presence(struct port *port, uint8_t presence) {
    bool is_plugged = presence == DOVECOUNTER_PLUGGED;
    if (presence == DOVECOUNTER_SAME) return;
    forget(port);
    forget_module(port);
    port->before.is_once = false;
    if (!is_plugged) remove_image(port);
    tell(port, is_plugged ? "plugged" : "pulled", "");
    if (!is_plugged) shut(port);
}

/* Whether it reached the module: a selection in a file of optoe didn't. */
static bool is_of_module(const struct port *port, const struct dovecounter_operation *operation) {
    return port->bus.carry != transact_in_a_row || !is_selection(operation);
}

/* Without a pin, the library says by each transaction with the module whether that is there. */
static void take_answer(struct port *port, bool answered, int64_t began) {
    uint8_t presence;
    if (port->entry.presence[0] != 0) return;
    must(dovecounter_port_hear(&port->core, answered, (uint64_t)began, (uint64_t)now(), &presence));
    take_presence(port, presence);
}

/* The next module is to wait in low power until it was read. */
static void look_at_pin(struct port *port) {
    int found = read_pin(port, port->entry.presence);
    if (port->is_retired) return;
    bool was_there = is_there(port), is_new = !port->is_seen || (found == 1) != was_there;
    if (found < 0 && !port->is_blind) warn("%s: %s", port->entry.name, port->entry.presence);
    port->is_blind = found < 0;
    if (found < 0 || !is_new) return;
    port->is_seen = true;
    if (found == 0) set_pin(port, port->entry.low_power, true);
    if (port->is_retired) return;
    if (found == 1) must(dovecounter_port_plug(&port->core, (uint64_t)now()));
    if (found == 0) must(dovecounter_port_pull(&port->core));
    if (found == 1 || was_there) take_presence(port, found == 1 ? DOVECOUNTER_PLUGGED : DOVECOUNTER_PULLED);
}

/* Looks at the pin, or fetches byte 0, which clears no flag, if nothing was answered for a second. */
static void look(struct port *port) {
    static const struct dovecounter_operation first = {.kind = DOVECOUNTER_FETCH, .device = 0xA0, .count = 1};
    uint8_t bytes[128];
    bool has_pin = port->entry.presence[0] != 0, answered = true;
    int64_t began = has_pin ? 0 : make(port, &first, bytes, &answered);
    if (port->is_retired) return;
    port->due = now();
    port->looks_at = now() + (answered || !is_there(port) ? SECOND : SOON);
    if (has_pin)
        look_at_pin(port);
    else
        take_answer(port, answered, began);
}

/* ---- what the library decides */

/* Answers where it is kept. */
static size_t take_half(struct port *port, const struct dovecounter_half *half) {
    size_t at = 0;
    while (at < port->half_count && memcmp(&port->halves[at], half, offsetof(struct dovecounter_half, bytes)) != 0)
        at++;
    if (at == MOST_HALVES) return at;
    if (at == port->half_count) port->half_count++;
    port->halves[at] = *half;
    return at;
}

/* Keeps what an answer shows of the memory: halves, and bytes of those that were read before. The library reads which page is selected
   after each selection, and fetches no bytes of a page before that, or of a bank other than 0. */
static void remember(struct port *port, const struct dovecounter_port_next *next, uint8_t outcome,
                     const uint8_t bytes[128]) {
    const struct dovecounter_operation *made = &next->operation;
    uint8_t upper = made->offset >= 128;
    if (outcome != DOVECOUNTER_FETCHED) return;
    if (made->offset == 126 && made->count == 2) port->page = bytes[1];
    uint8_t page = next->whole ? next->page : upper ? port->page : 0;
    const struct dovecounter_half *known = half_of(port, upper, page);
    struct dovecounter_half half = {made->device, upper, next->bank, page, {0}};
    if (!next->whole && known == NULL) return;
    if (!next->whole) half = *known;
    memcpy(half.bytes + made->offset % 128, bytes, made->count);
    size_t at = take_half(port, &half);
    if (!next->whole) return;
    port->read_at = now();
    port->anew |= (uint16_t)(1U << at);
}

/* A module with lanes was read, perhaps as up already. */
static bool may_have_other_outputs(const struct port *port, const struct dovecounter_port_outcome *led_to) {
    bool is_read = led_to->kind == DOVECOUNTER_PORT_LEAVES || led_to->note == DOVECOUNTER_PORT_IDENTIFIED ||
                   led_to->note == DOVECOUNTER_PORT_CAME_UP;
    return is_read && half_of(port, 1, LANES_PAGE) != NULL;
}

static void carry_out(struct port *port, const struct dovecounter_port_next *next) {
    uint8_t bytes[128];
    struct dovecounter_port_outcome led_to;
    bool answered, stores = next->operation.kind == DOVECOUNTER_STORE;
    int64_t began = make(port, &next->operation, bytes, &answered);
    uint8_t outcome = !answered ? DOVECOUNTER_REFUSED : stores ? DOVECOUNTER_STORED : DOVECOUNTER_FETCHED;
    size_t count = answered && !stores ? next->operation.count : 0;
    if (port->is_retired) return;
    remember(port, next, outcome, bytes);
    must(dovecounter_port_take(&port->core, outcome, bytes, count, &port->entry.wanted, (uint64_t)now(), &led_to));
    port->is_rested = led_to.note >= DOVECOUNTER_PORT_CAME_UP || led_to.kind == DOVECOUNTER_PORT_FAILED;
    tell_flags(port);
    hear(port, &led_to);
    port->outputs.is_due = port->outputs.is_due || may_have_other_outputs(port, &led_to);
    if (led_to.kind == DOVECOUNTER_PORT_FAILED || led_to.note == DOVECOUNTER_PORT_WOKEN) forget(port);
    if (!is_of_module(port, &next->operation)) return;
    if (answered && port->entry.presence[0] == 0) port->looks_at = now() + SECOND;
    take_answer(port, answered, began);
}

/* What the library wants next; a module that it has left alone it begins to read again by itself. */
static void find_next(struct port *port, struct dovecounter_port_next *next) {
    bool was_left = port->core.stage == DOVECOUNTER_PORT_LEFT;
    must(dovecounter_port_next(&port->core, (uint64_t)now(), next));
    if (!was_left || port->core.stage == DOVECOUNTER_PORT_LEFT) return;
    port->is_read_again = true;
    port->anew = 0;
}

/* Whoever has made the file of its bus anew may have exchanged the module too, which is read and judged anew. */
static void leave_lost(struct port *port) {
    shut(port);
    doubt(port);
    must(dovecounter_port_reconsider(&port->core));
}

/* Until its bus can be opened a port only looks at its pin, if it has one. */
static void wait_for_bus(struct port *port) {
    bool has_pin = port->entry.presence[0] != 0;
    if (port->reopens_at <= now()) return reopen(port);
    if (has_pin && port->looks_at <= now()) return look(port);
    port->due = has_pin && port->looks_at < port->reopens_at ? port->looks_at : port->reopens_at;
}

/* One operation, one look, or none, and when the next is due. What a module lists is read to the end even if the port is to be still, or to
   go, so that its statistics aren't left frozen. */
static void step(struct port *port) {
    struct dovecounter_port_next next;
    bool still = is_still(port), has_pin = port->entry.presence[0] != 0;
    bool lists = port->listing.is_under_way, ends = port->is_retired || is_stopping;
    bool reads = port->outputs.is_under_way || port->banks.is_under_way;
    bool looks = (has_pin || !still) && port->looks_at <= now();
    if (has_former(port)) return (void)(port->due = now() + SOON);
    if (lists && (ends || !looks)) return go_on_listing(port);
    if (port->is_lost && !lists) leave_lost(port);
    if (still && !lists) shut(port);
    if (!still && !port->is_open) return wait_for_bus(port);
    if (port->outputs.is_under_way && !looks) return go_on_with_outputs(port);
    if (port->banks.is_under_way && !looks) return go_on_with_banks(port);
    if (looks && (has_pin || lists || reads)) return look(port);
    find_next(port, &next);
    if (next.kind == DOVECOUNTER_PORT_DO) return carry_out(port, &next);
    if (!still && port->looks_at <= now()) return look(port);
    port->due = has_pin || !still ? port->looks_at : INT64_MAX;
    if (next.kind == DOVECOUNTER_PORT_UNTIL && next.moment < (uint64_t)port->due) port->due = (int64_t)next.moment;
    if (!still && !begin_outputs(port) && !begin_banks(port)) begin_listing(port);
}

/* ---- threads */

static void init_condition(pthread_cond_t *condition) {
    pthread_condattr_t attributes;
    pthread_condattr_init(&attributes);
    pthread_condattr_setclock(&attributes, CLOCK_MONOTONIC);
    pthread_cond_init(condition, &attributes);
    pthread_condattr_destroy(&attributes);
}

static void wait_until(pthread_cond_t *condition, int64_t moment) {
    struct timespec time = {moment / 1000, moment % 1000 * 1000000};
    pthread_cond_timedwait(condition, &state, &time);
}

static void drop(struct port *port) {
    struct port **link = &ports, **beside = &port->adapter->ports;
    shut(port);
    while (*link != port) link = &(*link)->next;
    while (*beside != port) beside = &(*beside)->beside;
    *link = port->next;
    *beside = port->beside;
    free(port);
}

/* The port of an adapter that has been due for longest: so none waits for more than one operation of each other. */
static struct port *next_due(const struct adapter *adapter) {
    struct port *first = adapter->ports;
    for (struct port *each = first; each != NULL; each = each->beside)
        if (each->due < first->due) first = each;
    return first;
}

static void *work(void *context) {
    struct adapter *adapter = context, **link = &adapters;
    struct port *port;
    pthread_mutex_lock(&state);
    while ((port = next_due(adapter)) != NULL) {
        if ((port->is_retired || is_stopping) && !port->listing.is_under_way && !has_former(port))
            drop(port);
        else if (port->due > now())
            wait_until(&adapter->woken, port->due < now() + LONGEST ? port->due : now() + LONGEST);
        else
            step(port);
    }
    while (*link != adapter) link = &(*link)->next;
    *link = adapter->next;
    pthread_cond_destroy(&adapter->woken);
    free(adapter);
    pthread_cond_broadcast(&ended);
    pthread_mutex_unlock(&state);
    return NULL;
}

void begin_ports(void) { init_condition(&ended); }

/* What a bus hangs on, by the path that the kernel has for it, in which multiplexers come later: i2c-0 of ../i2c-0/i2c-7/7-0050/eeprom. */
static void name_adapter(const char *bus, char name[TEXT_SIZE]) {
    char link[64], path[PATH_MAX] = "";
    bool is_device = strncmp(bus, "/dev/i2c-", 9) == 0;
    snprintf(link, sizeof link, "/sys/bus/i2c/devices/%.20s", bus + (is_device ? 5 : 0));
    const char *found = realpath(is_device ? link : bus, path) != NULL ? strstr(path, "/i2c-") : NULL;
    if (found == NULL)
        snprintf(name, TEXT_SIZE, "%s", bus);
    else
        snprintf(name, TEXT_SIZE, "%.*s", (int)strcspn(found + 1, "/"), found + 1);
}

static struct adapter *adapter_for(const char *bus) {
    char name[TEXT_SIZE];
    pthread_t thread;
    name_adapter(bus, name);
    for (struct adapter *each = adapters; each != NULL; each = each->next)
        if (strcmp(each->name, name) == 0) return each;
    struct adapter *adapter = calloc(1, sizeof *adapter);
    if (adapter == NULL) err(EXIT_FAILURE, "%s", name);
    snprintf(adapter->name, TEXT_SIZE, "%s", name);
    init_condition(&adapter->woken);
    adapter->next = adapters;
    adapters = adapter;
    if (pthread_create(&thread, NULL, work, adapter) != 0) err(EXIT_FAILURE, "%s", name);
    pthread_detach(thread);
    return adapter;
}

/* ---- what the configuration and people ask for */

static void wake(struct port *port) {
    if (port->due > now()) port->due = now();
    port->reopens_at = 0;
    pthread_cond_signal(&port->adapter->woken);
}

/* The module is read and judged anew. */
static void ask_again(struct port *port) {
    forget(port);
    must(dovecounter_port_reconsider(&port->core));
    wake(port);
}

/* Somebody asks this in place of what was asked before. */
void request(struct port *port, uint8_t what, uint8_t lanes, bool is_once) {
    if (!port->before.is_once) port->before.request = port->core.request, port->before.lanes = port->core.request_lanes;
    port->before.is_once = is_once;
    must(dovecounter_port_request(&port->core, what, lanes));
    forget(port);
    wake(port);
}

static void hold_or_release(struct port *port) {
    doubt(port);
    must(dovecounter_port_hold(&port->core, is_still(port)));
    if (!is_still(port) && port->core.stage == DOVECOUNTER_PORT_READING) port->since = now();
    tell(port, is_still(port) ? "held" : "released", "");
    wake(port);
}

/* Who waits for it to be held hears of it once the bus is closed. */
void hold(struct port *port, bool held) {
    bool was_still = is_still(port);
    port->is_held = held;
    if (!held) send_to_holders(port, false);
    if (is_still(port) != was_still) hold_or_release(port);
}

/* Whoever borrows it hears of it once the bus is closed. */
void lend(struct port *port, bool lent) {
    bool was_still = is_still(port);
    port->is_lent = lent;
    port->is_free = false;
    if (is_still(port) != was_still)
        hold_or_release(port);
    else
        wake(port);
}

/* People's wishes for the port before, which had the same name, outlast it: that it is held, and if the bus is the same, that this is lent
   and what was asked of the module, which is there as before. */
static void take_over(struct port *port, struct port *former) {
    port->is_held = former->is_held;
    if (strcmp(port->entry.bus, former->entry.bus) != 0) return;
    port->is_lent = former->is_lent;
    port->is_free = former->is_free;
    former->is_lent = false;
    if (!is_there(former)) return;
    port->is_seen = true;
    must(dovecounter_port_plug(&port->core, (uint64_t)now()));
    must(dovecounter_port_request(&port->core, former->core.request, former->core.request_lanes));
    port->before = former->before;
}

/* In place of another one, unless that is NULL. */
static void add(const struct entry *entry, struct port *former) {
    struct port *port = calloc(1, sizeof *port), **link = &ports;
    if (port == NULL) err(EXIT_FAILURE, "%s", entry->name);
    memcpy(&port->entry, entry, sizeof *entry);
    port->adapter = adapter_for(entry->bus);
    port->since = now();
    port->reopens_in = SECOND;
    dovecounter_port_new(&entry->times, &port->core);
    if (former != NULL) take_over(port, former);
    must(dovecounter_port_hold(&port->core, is_still(port)));
    while (*link != NULL) link = &(*link)->next;
    *link = port;
    port->beside = port->adapter->ports;
    port->adapter->ports = port;
    port->has_new_counts = true;
    tell(port, "added", "");
    wake(port);
}

static void retire(struct port *port) {
    tell(port, "removed", "");
    port->is_retired = true;
    port->due = INT64_MIN;
    for (const char *const *each = (const char *const[]){"image", "json", "prom", NULL}; *each != NULL; each++)
        remove_file(port->entry.name, *each);
    pthread_cond_signal(&port->adapter->woken);
}

/* At the new interval, which begins now; without one the image has nothing of that. */
static void list_otherwise(struct port *port) {
    list_anew(port);
    if (port->half_count > 0 && port->core.stage != DOVECOUNTER_PORT_READING) put_image(port);
    wake(port);
}

/* A port whose entry and weights are the same is not touched. Of one that is managed from now on, and is empty, the pin is looked at as if for
   the first time, since low power wasn't set. */
static void change(struct port *port, const struct entry *entry) {
    bool is_wanted_otherwise = memcmp(&port->entry.wanted, &entry->wanted, sizeof entry->wanted) != 0;
    bool was_still = is_still(port), lists_otherwise = port->entry.vdm != entry->vdm;
    if (port->entry.manage < entry->manage) port->is_seen = is_there(port);
    memcpy(&port->entry, entry, sizeof *entry);
    if (lists_otherwise) list_otherwise(port);
    if (is_wanted_otherwise) ask_again(port);
    if (is_wanted_otherwise) tell(port, "changed", "");
    if (is_still(port) != was_still) hold_or_release(port);
}

/* Whether the bus, the pins and the times are the same. */
static bool is_same_port(const struct entry *entry, const struct entry *other) {
    return memcmp(entry->bus, other->bus, offsetof(struct entry, wanted) - offsetof(struct entry, bus)) == 0;
}

void apply(const struct configuration *configuration) {
    for (struct port *each = ports; each != NULL; each = each->next)
        if (!each->is_retired && entry_of(configuration, each->entry.name) == NULL) retire(each);
    for (size_t i = 0; i < configuration->count; i++) {
        const struct entry *entry = &configuration->entries[i];
        struct port *port = port_of(entry->name);
        bool is_same = port != NULL && is_same_port(&port->entry, entry);
        if (port != NULL && !is_same) retire(port);
        if (is_same)
            change(port, entry);
        else
            add(entry, port);
    }
}

/* Begins no further operation, and waits for those under way, at most for so long. Answers whether all have ended. */
bool stop_all(int64_t most) {
    int64_t until = now() + most;
    is_stopping = true;
    for (struct adapter *each = adapters; each != NULL; each = each->next) pthread_cond_signal(&each->woken);
    while (adapters != NULL && now() < until) wait_until(&ended, now() + SOON);
    return adapters == NULL;
}
