/* The transactions of cmis-port: signals that end it between two of them, the log, and when a module counts as silent. */
#include "port.h"

#include <err.h>
#include <errno.h>
#include <fcntl.h>
#include <poll.h>
#include <string.h>
#include <time.h>
#include <unistd.h>

enum { SILENCE = 1000 };                    /* milliseconds */
enum { SLOW_AFTER = 3, SILENT_AFTER = 15 }; /* transactions */

/* On a terminal a message may follow what show_progress wrote. */
void clear_progress(void) {
    if (isatty(STDERR_FILENO)) fputs("\033[K", stderr);
}

void stop(struct port *port, const char *why) {
    clear_progress();
    warnx("%s: %s", port->bus.name, why);
    port->ending = STOPPED;
}

/* Waits, unless a signal comes that ends the program. A program that was stopped and goes on waits for the rest. */
void pause_ms(struct port *port, int64_t ms) {
    int64_t end = now() + ms, left = ms;
    int signal;
    do {
        const struct timespec time = {left / 1000, left % 1000 * 1000000};
        signal = sigtimedwait(&port->signals, NULL, &time);
    } while (signal < 0 && errno == EINTR && (left = end - now()) > 0);
    if (signal <= 0) return;
    while (sigtimedwait(&port->signals, NULL, &(struct timespec){0}) > 0) continue; /* those that came with it */
    stop(port, "interrupted");
}

/* Opens /dev/null in place of each standard stream that is closed, so that no bus becomes one. It is to be read only: what is written
   to such a stream fails, as if it were closed. */
void fill_streams(void) {
    int file;
    do file = open("/dev/null", O_RDONLY);
    while (file >= 0 && file <= STDERR_FILENO);
    if (file >= 0) close(file);
}

/* Holds back the signals that end the program, except those that are ignored, as under nohup. Until then they end it at once. */
void hold_signals(sigset_t *signals) {
    struct sigaction action;
    sigemptyset(signals);
    for (const int *each = (const int[]){SIGINT, SIGTERM, SIGHUP, SIGQUIT, 0}; *each != 0; each++)
        if (sigaction(*each, NULL, &action) == 0 && action.sa_handler != SIG_IGN) sigaddset(signals, *each);
    sigprocmask(SIG_BLOCK, signals, NULL);
}

/* Prints what was said so far, before anything is stored. If its reader stands still, a signal ends the program. */
void print_now(struct port *port) {
    sigprocmask(SIG_UNBLOCK, &port->signals, NULL);
    fflush(stdout);
    sigprocmask(SIG_BLOCK, &port->signals, NULL);
}

/* Whether a line can be printed at once: amid a work nobody waits for its reader, and no signal ends the program. */
bool can_print(void) {
    struct pollfd out = {.fd = STDOUT_FILENO, .events = POLLOUT};
    return poll(&out, 1, 0) == 1 && out.revents == POLLOUT;
}

/* Drops the signals that came too late for a module, and lets further ones end the program while it prints. */
void release_signals(struct port *port) {
    while (sigtimedwait(&port->signals, NULL, &(struct timespec){0}) > 0) continue;
    sigprocmask(SIG_UNBLOCK, &port->signals, NULL);
}

/* If the log's reader stands still, lines are lost, and no procedure waits for it. */
static bool open_log(struct port *port) {
    int file = open_apart(port->log_name, O_WRONLY | O_CREAT | O_TRUNC);
    port->log = file < 0 ? NULL : fdopen(file, "w");
    if (port->log == NULL) return warn("%s", port->log_name), false;
    fcntl(file, F_SETFL, O_NONBLOCK);
    return true;
}

bool open_port(struct port *port) {
    return (port->is_told || open_bus(&port->bus)) && (port->log_name == NULL || open_log(port));
}

/* A line as the command trace of cmisctl prints it. */
static void log_operation(struct port *port, const struct dovecounter_operation *operation, bool answered,
                          const uint8_t *bytes) {
    bool stores = operation->kind == DOVECOUNTER_STORE;
    fprintf(port->log, "%u %s %02X %u", port->made, stores ? "store" : "fetch", operation->device, operation->offset);
    if (stores)
        print_bytes(port->log, operation->bytes, operation->count);
    else
        fprintf(port->log, " %u", operation->count);
    fputs(!answered ? " = refused" : stores ? " = done" : " =", port->log);
    if (answered && !stores) print_bytes(port->log, bytes, operation->count);
    fputc('\n', port->log);
    fflush(port->log);
}

/* Whether the module is silent: it has refused many transactions in a row for a second, and as long as it may while it is busy. An
   adapter may take that time to give up a few, and pauses between them may be so long that a few take it. */
static bool is_silent(const struct port *port) {
    int64_t silence = SILENCE + port->busy_time;
    bool is_slow = port->refused >= SLOW_AFTER && port->given_up > silence;
    return is_slow || (port->refused >= SILENT_AFTER && now() - port->refused_at > silence);
}

static void take_refusal(struct port *port, const struct dovecounter_operation *operation, int64_t began, int error) {
    bool too_long = error == EOPNOTSUPP || error == EMSGSIZE || error == EINVAL;
    if (too_long && port->bus.carry == transact_i2c && operation->count > port->least) {
        warnx("%s: its adapter fetches no %u bytes at once: %s", port->bus.name, operation->count, strerror(error));
        port->most = operation->count / 2;
    }
    if (port->refused++ == 0) port->refused_at = began, port->given_up = 0;
    port->given_up += now() - began;
    if (port->ending != GOES_ON || port->patient || !is_silent(port)) return;
    clear_progress();
    warnx("%s: the module does not answer: %s", port->bus.name, strerror(error));
    port->ending = SILENT;
}

/* What an adapter has fetched at once it can fetch. A selection that is kept here is no answer of the module. */
static void take_answer(struct port *port, const struct dovecounter_operation *operation) {
    bool fetches = operation->kind == DOVECOUNTER_FETCH;
    if (fetches && operation->count > port->least) port->least = operation->count;
    if (!is_selection(operation) || port->bus.carry != transact_in_a_row) port->refused = 0;
}

uint8_t transact(struct port *port, const struct dovecounter_operation *operation, uint8_t bytes[128]) {
    int64_t began = now();
    bool stores = operation->kind == DOVECOUNTER_STORE;
    port->stored = port->stored || (stores && !is_selection(operation));
    bool answered = port->bus.carry(&port->bus, operation, bytes);
    int error = errno;
    port->made++;
    if (port->log != NULL) log_operation(port, operation, answered, bytes);
    pause_ms(port, 0); /* takes a signal */
    if (answered)
        take_answer(port, operation);
    else
        take_refusal(port, operation, began, error);
    return !answered ? DOVECOUNTER_REFUSED : stores ? DOVECOUNTER_STORED : DOVECOUNTER_FETCHED;
}

/* A fetch goes in pieces if the adapter fetches no more at once. */
uint8_t transact_in_pieces(struct port *port, const struct dovecounter_operation *operation, uint8_t bytes[128]) {
    struct dovecounter_operation piece = *operation;
    uint8_t outcome = DOVECOUNTER_REFUSED, most = port->most;
    for (uint8_t at = 0; at < operation->count; at = (uint8_t)(at + piece.count)) {
        piece.offset = (uint8_t)(operation->offset + at);
        piece.count = (uint8_t)(operation->count - at);
        if (operation->kind == DOVECOUNTER_FETCH && piece.count > most) piece.count = most;
        outcome = transact(port, &piece, bytes + at);
        if (outcome == DOVECOUNTER_REFUSED) break;
    }
    return outcome;
}
