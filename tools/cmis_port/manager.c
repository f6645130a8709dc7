/* A port that cmisd keeps: it tells what it knows of the module; and it lends the bus, and takes the module up again when the connection
   ends, however this program does. */
#include "port.h"

#include <err.h>
#include <limits.h>
#include <poll.h>
#include <stdlib.h>
#include <string.h>
#include <sys/socket.h>
#include <sys/un.h>
#include <time.h>
#include <unistd.h>

enum { LINE_SIZE = 1 << 17, LETS_GO = 10000, BUS_SIZE = 128 }; /* bytes; milliseconds; bytes */
enum { MOST_TOLD = 64 };                                       /* halves of an image */

const char no_module[] = "there is no module, as cmisd has it";

/* A connection to the cmisd that runs, or -1. */
int connect_to_manager(void) {
    struct sockaddr_un name = {.sun_family = AF_UNIX};
    const char *folder = getenv("CMISD_FOLDER");
    int length = snprintf(name.sun_path, sizeof name.sun_path, "%s/control", folder != NULL ? folder : "/run/cmisd");
    int file = length < (int)sizeof name.sun_path ? socket(AF_UNIX, SOCK_STREAM | SOCK_CLOEXEC, 0) : -1;
    if (file < 0 || connect(file, (struct sockaddr *)&name, sizeof name) == 0) return file;
    close(file);
    return -1;
}

/* Takes a line, and "" if none comes in time; whether there is one, or the connection has ended. */
static bool take_line(int file, char line[LINE_SIZE]) {
    int64_t end = now() + LETS_GO;
    size_t length = 0;
    ssize_t got = 1;
    while (got > 0 && length < LINE_SIZE - 1 && memchr(line, '\n', length) == NULL) {
        struct pollfd waits = {.fd = file, .events = POLLIN};
        int64_t left = end - now();
        if (left <= 0 || poll(&waits, 1, (int)left) <= 0) return false;
        got = recv(file, line + length, LINE_SIZE - 1 - length, 0);
        length += got > 0 ? (size_t)got : 0;
    }
    line[length] = 0;
    return true;
}

/* Sends a line, and takes the answer; "" if the connection ends before. Whether it came in time. */
static bool ask(int manager, const char *command, const char *word, char answer[LINE_SIZE]) {
    answer[0] = 0;
    return dprintf(manager, "%s %s\n", command, word) <= 0 || take_line(manager, answer);
}

/* What cmisd knows a bus by, or NULL: what the kernel has it by may be too long for a line. */
static const char *path_of(const char *name, char path[PATH_MAX]) {
    if (strncmp(name, "sim:", 4) == 0 || realpath(name, path) == NULL) return NULL;
    return name[0] == '/' ? name : path;
}

/* ---- what cmisd knows */

/* The value of a member, as cmisd writes JSON, or NULL. In its texts no quotation mark occurs, so that no text is taken for a name. */
static const char *member(const char *line, const char *name) {
    char key[24];
    snprintf(key, sizeof key, "\"%s\": ", name);
    const char *found = strstr(line, key);
    return found != NULL ? found + strlen(key) : NULL;
}

bool is_on(const char *line, const char *name) {
    const char *value = member(line, name);
    return value != NULL && strncmp(value, "true", 4) == 0;
}

/* The bytes of a text, in which \n and \u00XX alone are escaped, as far as the line goes; none if there is no such member. */
size_t take_text(const char *line, const char *name, char *text, size_t size) {
    const char *at = member(line, name);
    size_t length = 0;
    unsigned code = '\n';
    int taken = 0; /* bytes of a number */
    for (at += at != NULL; at != NULL && *at != '"' && *at != 0 && length + 1 < size; length++) {
        bool is_escaped = at[0] == '\\' && at[1] != 0;
        bool is_number = is_escaped && sscanf(at, "\\u%4x%n", &code, &taken) == 1;
        text[length] = is_number ? (char)code : is_escaped ? '\n' : *at;
        at += is_number ? taken : is_escaped ? 2 : 1;
    }
    text[length] = 0;
    return length;
}

/* Asks about the port with this name, or else with this bus; whether a cmisd runs that has it. */
static bool consult(const char *name, char answer[LINE_SIZE]) {
    char path[PATH_MAX];
    const char *const words[] = {strchr(name, '/') == NULL ? name : NULL, path_of(name, path)};
    bool is_known = false;
    for (int i = 0; i < 2 && !is_known; i++) {
        int manager = words[i] != NULL ? connect_to_manager() : -1;
        is_known = manager >= 0 && ask(manager, "memory", words[i], answer) && strncmp(answer, "{\"port\"", 7) == 0;
        if (manager >= 0) close(manager);
    }
    return is_known;
}

/* What the module lists itself (VDM) is left out: no command that takes the memory needs it. */
static void take_memory(struct port *port, char *image, size_t length) {
    static struct dovecounter_half told[MOST_TOLD];
    FILE *file = length > 0 ? fmemopen(image, length, "r") : NULL;
    if (file == NULL) return;
    size_t count = read_halves(file, told, MOST_TOLD);
    fclose(file);
    for (size_t i = 0; i < count && port->half_count < MOST_HALVES; i++)
        if (!told[i].upper || told[i].page >> 4 != 2) port->halves[port->half_count++] = told[i];
}

/* What the plan of cmisd goes by, unless words of this command line say so. */
static void take_wanted(struct port *port, const char *answer, char text[LINE_SIZE]) {
    size_t line, length = take_text(answer, "weights", text, LINE_SIZE);
    const char *stay = member(answer, "stay");
    if (port->is_weighed) return;
    dovecounter_weights((uint8_t *)text, length, port->weights, &line);
    port->unpaired = port->unpaired || !is_on(answer, "paired");
    port->counts_by_id = port->counts_by_id || is_on(answer, "counts_by_id");
    port->stay = stay != NULL ? (uint32_t)strtoul(stay, NULL, 10) : 0;
}

/* Says how old the memory is; or why there is none. */
static bool say_age(const struct port *port, const char *answer) {
    const char *age = member(answer, "age");
    if (!is_on(answer, "present")) return warnx("%s: %s", port->bus.name, no_module), false;
    if (age == NULL || port->half_count == 0) return warnx("%s: cmisd is reading it: ask again", port->bus.name), false;
    warnx("%s: as cmisd read it %.1f s ago", port->bus.name, strtod(age, NULL) / 1000);
    return true;
}

/* Asks about the port of a command that but reads, or that is named as cmisd has it; then its name becomes that of its bus. */
void ask_manager(struct port *port, bool reads) {
    static char answer[LINE_SIZE], bus[BUS_SIZE];
    if ((!reads && strchr(port->bus.name, '/') != NULL) || !consult(port->bus.name, answer)) return;
    take_text(answer, "bus", bus, sizeof bus);
    port->bus.name = bus;
    port->told = answer;
}

/* Takes the memory as cmisd has it in place of the bus, unless it leaves that to others. Whether the command can go on. */
bool take_told(struct port *port) {
    static char text[LINE_SIZE];
    if (port->told == NULL || is_on(port->told, "held")) return true;
    take_memory(port, text, take_text(port->told, "image", text, sizeof text));
    take_wanted(port, port->told, text);
    return port->is_told = say_age(port, port->told);
}

/* A moment, in seconds since 1970, by the clock on the wall. */
static void print_moment(const char *digits) {
    char text[32];
    time_t seconds = (time_t)strtoll(digits, NULL, 10);
    struct tm parts;
    strftime(text, sizeof text, "%F %T", localtime_r(&seconds, &parts));
    fputs(text, stdout);
}

/* A line for each object of a list, as in `flag tx-los lane 3 count 2 last 2026-11-27 15:40:12`. */
static void print_objects(const char *list) {
    for (const char *at = list + 1; *at != ']' && *at != 0; at++) {
        size_t digits = at[-1] == ' ' ? strspn(at, "0123456789.") : 0;
        if (digits > 0 && memchr(at, '.', digits) != NULL)
            print_moment(at), at += digits - 1;
        else if (*at == '}')
            putchar('\n'), at += at[1] == ',' ? 2 : 0;
        else if (strchr("[{\":,", *at) == NULL)
            putchar(*at);
    }
}

/* Lanes, and flags that nobody has acknowledged: how often they have changed or were raised, and when last. */
enum status history(struct port *port) {
    const char *lanes = port->told != NULL ? strstr(port->told, "\"lanes\": [{") : NULL;
    const char *flags = port->told != NULL ? member(port->told, "flags") : NULL;
    if (flags == NULL) return warnx("%s: no cmisd keeps it, and a module has no history", port->bus.name), REFUSED;
    lanes = lanes != NULL ? strchr(lanes, '[') : "[]";
    if (port->json)
        printf("{\"lanes\": %.*s], \"flags\": %.*s]}\n", (int)strcspn(lanes, "]"), lanes, (int)strcspn(flags, "]"),
               flags);
    else
        print_objects(lanes), print_objects(flags);
    return DONE;
}

/* ---- its bus */

/* Whether the bus may be opened, as far as cmisd is concerned: it has lent it, or has no port with it; the lock shows whether that is so. */
bool borrow_bus(struct port *port) {
    static char answer[LINE_SIZE];
    char path[PATH_MAX];
    const char *name = path_of(port->bus.name, path);
    port->manager = name != NULL ? connect_to_manager() : -1;
    if (port->manager < 0) return true;
    if (!ask(port->manager, "lend", name, answer)) {
        warnx("%s: cmisd has not let go of it", port->bus.name);
        return false;
    }
    if (strncmp(answer, "{\"done\"", 7) != 0) give_back_bus(port);
    return true;
}

void give_back_bus(struct port *port) {
    if (port->manager >= 0) close(port->manager);
    port->manager = -1;
}
