/* The commands about a module's firmware. */
#include "port.h"

#include <ctype.h>
#include <err.h>
#include <stdlib.h>
#include <string.h>
#include <unistd.h>

enum { NO_OUTCOME = 255 };                    /* what ends an update in the middle */
enum { ADVERTISED = 163 - 128, SHOWN = 200 }; /* on page 01h; milliseconds between two looks at the progress */

static const char *const known_words[10] = {"",         "untouched", "begun", "aborted",          "may-be-complete",
                                            "complete", "may-run",   "runs",  "may-be-committed", "committed"};
static const char *const known_sentences[10] = {
    "",
    "nothing was begun",
    "a download may be open; the old image runs and is committed",
    "the download was given up; the old image runs and is committed",
    "the other bank may hold the new image; the old one runs and is committed",
    "the other bank holds the new image; the old one runs and is committed",
    "the new image was told to run, and is not committed: a reset brings the old one back",
    "the new image runs, and is not committed: a reset brings the old one back",
    "the new image ran, and may be committed: ask which bank is",
    "the new image runs and is committed"};
static const char *const fault_words[8] = {"done",        "refused",      "unsent",  "unknown",
                                           "unsupported", "not-standing", "gave-up", "left-open"};
static const char *const fault_sentences[8] = {
    "",
    "the module refuses",
    "a command could not be sent",
    "what came of a command is not known",
    "the module takes no blocks of the local payload, or more at the start than the file has",
    "no bank alone runs, is committed and valid: commit what runs, or reset, first",
    "the module did not do it as often as it was asked",
    "the module refuses to begin, as while an earlier download is open: abort that, or reset the module"};

bool read_file(struct port *port, const char *name) {
    FILE *in = fopen(name, "rb");
    if (in == NULL) return warn("%s", name), false;
    size_t room = 1 << 16, count;
    do {
        uint8_t *more = realloc(port->file, room *= 2);
        if (more == NULL) break;
        port->file = more;
        count = fread(more + port->file_size, 1, room - port->file_size, in);
        port->file_size += count;
    } while (count > 0 && port->file_size <= UINT32_MAX);
    bool whole = feof(in) && !ferror(in), fits = port->file_size > 0 && port->file_size <= UINT32_MAX;
    fclose(in);
    if (!whole || !fits) warnx("%s: %s", name, whole ? "this is no firmware, of 1 byte to 4 GiB" : "it can't be read");
    return whole && fits;
}

/* Reads the password, eight hexadecimal digits in a line. */
bool read_password(struct port *port, const char *name) {
    enum { DIGITS = 8 };
    char text[DIGITS + 3] = ""; /* with an LF, and one byte that would be too many */
    FILE *in = fopen(name, "r");
    if (in == NULL) return warn("%s", name), false;
    size_t count = fread(text, 1, DIGITS + 2, in), digits = 0;
    fclose(in);
    while (digits < DIGITS && isxdigit((unsigned char)text[digits])) digits++;
    bool is_password = digits == DIGITS && (count == DIGITS || strcmp(text + DIGITS, "\n") == 0);
    if (!is_password) warnx("%s: this is no password, of eight hexadecimal digits in one line", name);
    port->password = (uint32_t)strtoul(text, NULL, 16);
    return is_password;
}

/* ---- one of them on the bus ---- */

struct sending {
    struct port *port;
    struct dovecounter_update update;
    const uint8_t *file;
    size_t size;
    int64_t began, shown; /* when it began, and when its progress was shown */
};

static struct dovecounter_update_progress progress_of(const struct sending *sending) {
    struct dovecounter_update_progress progress = {0};
    dovecounter_update_progress(&sending->update, sending->file, sending->size, &progress);
    return progress;
}

static void show_on_terminal(const struct sending *sending, const struct dovecounter_update_progress *progress) {
    int64_t passed = now() - sending->began;
    double rate = passed > 0 ? progress->sent / (double)passed : 0; /* in kB/s */
    fprintf(stderr, "\r\033[Kupdate: %u of %u bytes, %.1f kB/s", progress->sent, progress->all, rate);
    if (rate > 0) fprintf(stderr, ", %.0f s left", (progress->all - progress->sent) / rate / 1000);
    fputc('\r', stderr);
}

static void show_progress(struct sending *sending) {
    const struct dovecounter_update_progress progress = progress_of(sending);
    if (progress.all == 0 || now() - sending->shown < SHOWN) return;
    sending->shown = now();
    if (sending->port->json && can_print()) {
        printf("{\"sent\": %u, \"all\": %u, \"known\": \"%s\"}\n", progress.sent, progress.all,
               known_words[progress.known]);
        fflush(stdout);
    } else if (!sending->port->json && isatty(STDERR_FILENO))
        show_on_terminal(sending, &progress);
}

static uint8_t make(void *context, const struct dovecounter_operation *operation, uint8_t bytes[128]) {
    struct sending *sending = context;
    if (sending->port->ending != GOES_ON) return NO_OUTCOME;
    uint8_t outcome = transact_in_pieces(sending->port, operation, bytes);
    show_progress(sending);
    return outcome;
}

static void wait_ms(void *context, uint32_t ms) {
    struct sending *sending = context;
    if (sending->port->ending == GOES_ON) pause_ms(sending->port, ms);
}

/* Whether it came to its end. */
static bool send(struct sending *sending, struct dovecounter_update_ending *ending) {
    sending->began = sending->shown = now();
    dovecounter_update_run(&sending->update, sending->file, sending->size, make, wait_ms, sending);
    clear_progress();
    return dovecounter_update_end(&sending->update, sending->file, sending->size, ending) == DOVECOUNTER_DONE;
}

static void say_end(const struct port *port, const struct dovecounter_update_ending *ending) {
    if (ending->fault == DOVECOUNTER_UPDATE_REFUSED)
        warnx("%s: the module refuses a command with status %02Xh", port->bus.name, ending->status);
    else
        warnx("%s: %s", port->bus.name, fault_sentences[ending->fault]);
}

/* Carries out the single command that has begun: whether it succeeded. Says why not. */
static bool carry_out_command(struct sending *sending, struct dovecounter_update_ending *ending) {
    if (!send(sending, ending)) return false;
    if (ending->fault != DOVECOUNTER_UPDATE_DONE) say_end(sending->port, ending);
    return ending->fault == DOVECOUNTER_UPDATE_DONE;
}

static bool ask(struct port *port, void (*begin)(struct dovecounter_update *update),
                struct dovecounter_update_ending *ending) {
    struct sending sending = {.port = port, .file = port->halves[0].bytes};
    begin(&sending.update);
    return carry_out_command(&sending, ending);
}

static bool give_password(struct port *port) {
    struct sending sending = {.port = port, .file = port->halves[0].bytes};
    struct dovecounter_update_ending ending;
    dovecounter_password_begin(port->password, &sending.update);
    return carry_out_command(&sending, &ending);
}

/* ---- the module ---- */

/* Heeds what the module advertises: how long it may refuse all, and how many bytes of page 9Fh it gives at once. */
static void heed(struct port *port, const struct dovecounter_command_block *block) {
    unsigned length = 8 * (1U + block->length_extension);
    port->busy_time = block->max_busy_time;
    if (length < port->most) port->most = (uint8_t)length;
}

/* Reads the module, and gives it the password if there is one. Says why it has no firmware that can be managed. */
static bool read_manageable(struct port *port) {
    struct dovecounter_command_block block = {0};
    bool whole = read_module(port, false);
    if (!port->json) print_flags(port);
    if (!whole) return false;
    if (is_other_family(port)) return refuse_by(port, DOVECOUNTER_NOT_CMIS), false;
    for (size_t i = 0; i < port->half_count; i++)
        if (port->halves[i].upper == 1 && port->halves[i].page == 1)
            dovecounter_command_block(port->halves[i].bytes + ADVERTISED, &block);
    heed(port, &block);
    if (block.instances == 0) warnx("%s: the module has no command data block", port->bus.name);
    return block.instances > 0 && (port->password_name == NULL || give_password(port));
}

static bool read_banks(struct port *port, struct dovecounter_banks *banks) {
    struct dovecounter_update_ending ending;
    if (!ask(port, dovecounter_banks_begin, &ending)) return false;
    dovecounter_banks(ending.reply, ending.count, banks);
    return true;
}

static void print_bank(const struct port *port, char name, const struct dovecounter_bank *bank) {
    char version[24] = "-";
    if (bank->has_version) snprintf(version, sizeof version, "%u.%u.%u", bank->major, bank->minor, bank->build);
    if (port->json)
        printf("{\"bank\": \"%c\", \"runs\": %s, \"committed\": %s, \"valid\": %s, \"version\": \"%s\"}\n", name,
               bank->runs ? "true" : "false", bank->committed ? "true" : "false", bank->valid ? "true" : "false",
               version);
    else
        printf("bank %c %s %s %s %s\n", name, bank->runs ? "running" : "idle",
               bank->committed ? "committed" : "uncommitted", bank->valid ? "valid" : "invalid", version);
}

static void print_banks(const struct port *port, const struct dovecounter_banks *banks) {
    print_bank(port, 'A', &banks->banks[0]);
    print_bank(port, 'B', &banks->banks[1]);
}

/* ---- the commands ---- */

enum status firmware(struct port *port) {
    struct dovecounter_banks banks;
    if (!read_manageable(port) || !read_banks(port, &banks)) return REFUSED;
    print_banks(port, &banks);
    return DONE;
}

enum status firmware_commit(struct port *port) {
    struct dovecounter_banks banks;
    struct dovecounter_update_ending ending;
    if (!read_manageable(port) || !read_banks(port, &banks)) return REFUSED;
    if (banks.running == 0) warnx("%s: no bank runs that is valid, alone", port->bus.name);
    if (banks.running == 0 || banks.running == banks.committed) {
        if (banks.running != 0 && !port->json) puts("commit has nothing to do");
        print_banks(port, &banks);
        return banks.running != 0 ? DONE : REFUSED;
    }
    uint8_t running = banks.running;
    bool sent = ask(port, dovecounter_commit_begin, &ending);
    if (!read_banks(port, &banks)) return NOT_PROVISIONED;
    print_banks(port, &banks);
    return sent && banks.running == running && banks.committed == running ? DONE : NOT_PROVISIONED;
}

enum status firmware_abort(struct port *port) {
    struct dovecounter_update_ending ending = {.fault = DOVECOUNTER_UPDATE_UNKNOWN}; /* if it comes to no end */
    if (!read_manageable(port)) return REFUSED;
    if (ask(port, dovecounter_abort_begin, &ending)) return puts("the download was given up"), DONE;
    return port->stored && ending.fault == DOVECOUNTER_UPDATE_UNKNOWN ? NOT_PROVISIONED : REFUSED;
}

/* Says what goes down. Whether that is allowed. */
static bool may_reset(const struct port *port) {
    bool shown = bytes_at(port, PATH_STATES) != NULL;
    unsigned up = shown ? 0xFF & ~lanes_in(port, DEACTIVATED) : 0xFF;
    say_lanes(port->json ? stderr : stdout, "the reset takes down", up, up == 0 ? " no lane" : "");
    if (!port->reset) warnx("%s: update it only with --reset", port->bus.name);
    return port->reset;
}

/* A download that a signal has left open is given up. */
static enum status stop_update(struct sending *sending) {
    struct port *port = sending->port;
    struct dovecounter_update_ending ending;
    struct dovecounter_update_progress progress = progress_of(sending);
    if (progress.known == DOVECOUNTER_FIRMWARE_BEGUN) {
        port->ending = GOES_ON;
        if (ask(port, dovecounter_abort_begin, &ending)) progress.known = DOVECOUNTER_FIRMWARE_ABORTED;
    }
    printf(port->json ? "{\"ended\": \"interrupted\", \"known\": \"%s\"}\n" : "firmware %s\n",
           known_words[progress.known]);
    warnx("%s: %s", port->bus.name, known_sentences[progress.known]);
    return progress.known == DOVECOUNTER_FIRMWARE_UNTOUCHED ? REFUSED : NOT_PROVISIONED;
}

/* Whether it came to its end. It begins once more if the module refused to begin, and an earlier download was given up. */
static bool send_update(struct sending *sending, struct dovecounter_update_ending *ending) {
    struct port *port = sending->port;
    for (bool is_first = true;; is_first = false) {
        dovecounter_update_begin((uint32_t)port->file_size, port->no_commit, &sending->update);
        if (!send(sending, ending)) return false;
        bool is_free = ending->fault == DOVECOUNTER_UPDATE_LEFT_OPEN && ending->known == DOVECOUNTER_FIRMWARE_ABORTED;
        if (!is_free || !is_first) return true;
        warnx("%s: an earlier download was open, and was given up: the update begins again", port->bus.name);
    }
}

enum status firmware_update(struct port *port) {
    struct sending sending = {.port = port, .file = port->file, .size = port->file_size};
    struct dovecounter_update_ending ending;
    if (!read_manageable(port)) return REFUSED;
    if (!may_reset(port)) return IN_USE;
    print_now(port);
    port->patient = true;
    if (!send_update(&sending, &ending)) return stop_update(&sending);
    if (port->json)
        printf("{\"ended\": \"%s\", \"status\": %u, \"known\": \"%s\"}\n", fault_words[ending.fault], ending.status,
               known_words[ending.known]);
    else
        printf("firmware %s\n", known_words[ending.known]);
    if (ending.fault == DOVECOUNTER_UPDATE_DONE) return DONE;
    say_end(port, &ending);
    warnx("%s: %s", port->bus.name, known_sentences[ending.known]);
    return ending.known == DOVECOUNTER_FIRMWARE_UNTOUCHED ? REFUSED : NOT_PROVISIONED;
}
