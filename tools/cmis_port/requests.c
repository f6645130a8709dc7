/* What cmisd does at a port that it keeps because it is asked to; its events show what comes of it. */
#include "port.h"

#include <err.h>
#include <stdlib.h>
#include <string.h>
#include <unistd.h>

enum { TEXT_SIZE = 512 };

/* An event of cmisd: of which port, what, and what else is known of it. */
struct event {
    char port[TEXT_SIZE], name[TEXT_SIZE], words[TEXT_SIZE];
};

static bool is_named(const struct event *event, const char *name) { return strcmp(event->name, name) == 0; }

/* Whether cmisd carries the command out itself: it keeps the port, and leaves it to nobody else. */
bool is_kept(const struct port *port) { return port->told != NULL && !is_on(port->told, "held"); }

/* How the command ends if the port is left alone. A module that isn't wanted, or whose lanes may not go down, is awake. */
static enum status status_left(const char *command, const char *reason) {
    bool is_asleep = strcmp(reason, left_reasons[DOVECOUNTER_LEFT_ASLEEP]) == 0;
    bool is_unwanted = strcmp(reason, left_reasons[DOVECOUNTER_LEFT_NO_PLAN]) == 0;
    bool is_unpermitted = strcmp(reason, left_reasons[DOVECOUNTER_LEFT_NEEDS_PERMISSION]) == 0;
    bool sleeps = strcmp(command, "sleep") == 0, wakes = strcmp(command, "wake") == 0;
    if (sleeps ? is_asleep : wakes && (is_unwanted || is_unpermitted)) return DONE;
    return is_unpermitted ? IN_USE : REFUSED;
}

/* Whether somebody else asks for something, or the module or the port is another one or is gone. */
static bool is_interruption(const struct event *event) {
    static const char *const names[] = {"asked", "held", "plugged", "pulled", "removed"};
    for (size_t i = 0; i < sizeof names / sizeof *names; i++)
        if (is_named(event, names[i])) return true;
    return false;
}

/* How the command ends by an event, or goes on without a failure, or though an apply was refused. */
static enum status status_after(const char *command, const struct event *event) {
    bool goes_on = strcmp(event->words, apply_refused) == 0;
    if (is_named(event, "left")) return status_left(command, event->words);
    if (is_named(event, "failed")) return goes_on ? DONE : NOT_PROVISIONED;
    return is_interruption(event) ? REFUSED : DONE;
}

/* Prints an event of the port, or says why the command has failed by it. */
static void print_event(const struct port *port, const struct event *event, enum status status) {
    const char *before = event->words[0] != 0 ? ": " : "",
               *after = is_named(event, "failed") ? "; cmisd tries again" : "";
    if (status == DONE)
        printf("%s%s%s\n", event->name, before, event->words);
    else
        warnx("%s: %s%s%s%s", port->bus.name, event->name, before, event->words, after);
    fflush(stdout);
}

static bool read_event(const char *line, struct event *event) {
    take_text(line, "port", event->port, TEXT_SIZE);
    take_text(line, "words", event->words, TEXT_SIZE);
    return take_text(line, "event", event->name, TEXT_SIZE) > 0;
}

/* Why nothing comes of a request, by the port as it is once that was made; "" if something may. */
static const char *obstacle_in(const char *port) {
    char waits_for[TEXT_SIZE];
    take_text(port, "waits_for", waits_for, sizeof waits_for);
    if (is_on(port, "held")) return "held";
    if (!is_on(port, "present")) return no_module;
    return strcmp(waits_for, "its bus") == 0 ? "cmisd can't open its bus, and tries again" : "";
}

/* Takes lines until the command is over: three answers, the last of which is the port as it is since then, and events, of which those from
   before the second answer are of no account. Once the module was read, something is done at it. */
static enum status follow(const struct port *port, const char *command, const char *name, FILE *lines) {
    struct event event;
    char *line = NULL, error[TEXT_SIZE] = "";
    size_t room = 0;
    unsigned answers = 0;
    bool is_over = false, stores = false;
    enum status status = REFUSED;
    while (!is_over && error[0] == 0 && getline(&line, &room, lines) > 0) {
        answers += is_on(line, "done");
        if (take_text(line, "error", error, sizeof error) > 0 || answers < 2) continue;
        if (strncmp(line, "{\"port\"", 7) == 0) snprintf(error, sizeof error, "%s", obstacle_in(line));
        if (!read_event(line, &event) || strcmp(event.port, name) != 0) continue;
        stores = stores || is_named(&event, "read");
        status = status_after(command, &event);
        is_over = status != DONE || is_named(&event, "left") || is_named(&event, "up");
        if (stores && status != DONE) status = NOT_PROVISIONED;
        print_event(port, &event, status);
    }
    free(line);
    if (!is_over) warnx("%s: %s", port->bus.name, error[0] != 0 ? error : "cmisd has ended");
    return is_over ? status : stores ? NOT_PROVISIONED : REFUSED;
}

/* As cmisd knows the command. One that is refused since lanes are up is given up, and not carried out once none is. */
static const char *request_for(const struct port *port, const char *command) {
    return strcmp(command, "sleep") == 0 && !port->force ? "sleep-once" : command;
}

/* Has cmisd carry the command out, with permission to take every lane down if it is forced to. */
enum status request(struct port *port, const char *command) {
    char name[TEXT_SIZE];
    take_text(port->told, "port", name, sizeof name);
    if (!is_on(port->told, "present")) return warnx("%s: %s", port->bus.name, no_module), REFUSED;
    int manager = connect_to_manager();
    FILE *lines = manager >= 0 ? fdopen(manager, "r") : NULL;
    if (lines == NULL) return warnx("%s: cmisd has ended", port->bus.name), REFUSED;
    dprintf(manager, "events\n%s %s%s\nshow %s\n", request_for(port, command), name, port->force ? " all" : "", name);
    enum status status = follow(port, command, name, lines);
    fclose(lines);
    return status;
}
