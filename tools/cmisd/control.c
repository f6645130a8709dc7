/* The socket FOLDER/control: a line with a command comes in, a line of JSON goes out; after `events` a line for each event. */
#define _GNU_SOURCE
#include "cmisd.h"

#include <err.h>
#include <errno.h>
#include <fcntl.h>
#include <stdlib.h>
#include <string.h>
#include <sys/socket.h>
#include <sys/stat.h>
#include <sys/un.h>
#include <unistd.h>

enum { LINE_SIZE = 128, WORDS = 3 };

static struct client {
    int file; /* 0 if there is none */
    bool listens;
    char borrowed[TEXT_SIZE]; /* the bus that it has, or "" */
    char awaited[TEXT_SIZE];  /* the bus of a port that it holds, until that is closed, or "" */
    size_t length;            /* of what has come of a line */
    char line[LINE_SIZE];
} clients[MOST_CLIENTS];

/* ---- commands: each answers a line; `port` and `word` are NULL where a command has none */

static void answer_done(FILE *out) { fputs("{\"done\": true}\n", out); }

static void answer_error(FILE *out, const char *error) {
    print_text(out, "{", "error", error);
    fputs("}\n", out);
}

static void answer_ports(FILE *out, struct port *port, const char *word) {
    const char *before = "";
    (void)port, (void)word;
    fputs("{\"ports\": [", out);
    for (const struct port *each = ports; each != NULL; each = each->next) {
        if (each->is_retired) continue;
        fputs(before, out);
        begin_port(out, each);
        before = "}, ";
    }
    fputs(before[0] == '}' ? "}]}\n" : "]}\n", out);
}

static void answer_show(FILE *out, struct port *port, const char *word) {
    (void)word;
    print_port(out, port);
}

static void answer_memory(FILE *out, struct port *port, const char *word) {
    (void)word;
    print_memory(out, port);
}

static void answer_release(FILE *out, struct port *port, const char *word) {
    (void)word;
    hold(port, false);
    answer_done(out);
}

static void answer_request(FILE *out, struct port *port, uint8_t what, const char *word) {
    uint8_t lanes = 0;
    if (word != NULL && !read_lanes(word, &lanes)) return answer_error(out, "lanes are such as 1-4,7, or all");
    request(port, what, lanes, false);
    tell(port, "asked", requests[what]);
    answer_done(out);
}

static void answer_wake(FILE *out, struct port *port, const char *word) {
    answer_request(out, port, DOVECOUNTER_REQUEST_WAKE, word);
}

static void answer_sleep(FILE *out, struct port *port, const char *word) {
    answer_request(out, port, DOVECOUNTER_REQUEST_SLEEP, word);
}

static void answer_sleep_once(FILE *out, struct port *port, const char *word) {
    (void)word;
    request(port, DOVECOUNTER_REQUEST_SLEEP, 0, true);
    tell(port, "asked", requests[DOVECOUNTER_REQUEST_SLEEP]);
    answer_done(out);
}

static void answer_provision(FILE *out, struct port *port, const char *word) {
    answer_request(out, port, DOVECOUNTER_REQUEST_PROVISION, word);
}

static void answer_deactivate(FILE *out, struct port *port, const char *word) {
    answer_request(out, port, DOVECOUNTER_REQUEST_DEACTIVATE, word);
}

/* Flags that were raised after that moment, which `show` has named, nobody knows. */
static void answer_acknowledge(FILE *out, struct port *port, const char *word) {
    bool is_number = word == NULL || (word[0] != 0 && word[strspn(word, "0123456789")] == 0);
    uint64_t moment = word != NULL ? strtoull(word, NULL, 10) : (uint64_t)now();
    if (!is_number || moment > (uint64_t)now()) return answer_error(out, "that is no moment that show has named");
    dovecounter_port_acknowledge(&port->core, moment);
    for (unsigned i = 0; i < FURTHER_BANKS; i++) dovecounter_bank_acknowledge(&port->counts[i], moment);
    port->flags = port->core.flags;
    port->has_new_counts = true;
    tell(port, "acknowledged", "");
    answer_done(out);
}

static void answer_reload(FILE *out, struct port *port, const char *word) {
    (void)port, (void)word;
    if (!reload()) return answer_error(out, "the configuration is wrong: cmisd --check says where");
    answer_done(out);
}

static const struct command {
    const char *name;
    void (*answer)(FILE *out, struct port *port, const char *word);
    int least, most; /* words after the command, of which the first one is a port */
} commands[] = {
    {"ports", answer_ports, 0, 0},
    {"show", answer_show, 1, 1},
    {"memory", answer_memory, 1, 1},
    {"reload", answer_reload, 0, 0},
    {"release", answer_release, 1, 1},
    {"wake", answer_wake, 1, 1},
    {"sleep", answer_sleep, 1, 2},
    {"sleep-once", answer_sleep_once, 1, 1},
    {"provision", answer_provision, 1, 2},
    {"deactivate", answer_deactivate, 2, 2},
    {"acknowledge", answer_acknowledge, 1, 2},
};

/* The port of that name, or with that bus. */
static struct port *named(const char *word) {
    struct port *port = port_of(word);
    return port != NULL ? port : port_on(word);
}

static void answer(FILE *out, char *line) {
    char *words[WORDS + 1] = {NULL}, *rest = line;
    int count = 0;
    while (count <= WORDS && (words[count] = strsep(&rest, " ")) != NULL) count++;
    for (size_t i = 0; i < sizeof commands / sizeof commands[0]; i++) {
        const struct command *command = &commands[i];
        if (strcmp(command->name, words[0]) != 0) continue;
        if (count - 1 < command->least || count - 1 > command->most)
            return answer_error(out, "other words follow that");
        struct port *port = count > 1 ? named(words[1]) : NULL;
        if (count > 1 && port == NULL) return answer_error(out, "there is no such port");
        return command->answer(out, port, count > 2 ? words[2] : NULL);
    }
    answer_error(out, "one of: ports, show, memory, events, reload, hold, release, lend, wake, sleep, sleep-once, "
                      "provision, deactivate, acknowledge");
}

/* ---- clients */

/* Takes a bus back, if it was lent. Meanwhile it may be that of another port, or of none, to which it is not lent. */
static void take_back(const struct client *client) {
    for (struct port *each = ports; each != NULL; each = each->next)
        if (!each->is_retired && strcmp(each->entry.bus, client->borrowed) == 0) lend(each, false);
}

static void drop_client(struct client *client) {
    take_back(client);
    close(client->file);
    memset(client, 0, sizeof *client);
}

/* No send waits: who doesn't read in time is dropped, and holds nobody up. */
static void send_line(struct client *client, const char *line, size_t length) {
    if (send(client->file, line, length, MSG_NOSIGNAL) != (ssize_t)length) shutdown(client->file, SHUT_RDWR);
}

void send_to_listeners(const char *line, size_t length) {
    for (struct client *each = clients; each < clients + MOST_CLIENTS; each++)
        if (each->listens) send_line(each, line, length);
}

void send_to_borrower(const struct port *port) {
    static const char line[] = "{\"done\": true}\n";
    for (struct client *each = clients; each < clients + MOST_CLIENTS; each++)
        if (strcmp(each->borrowed, port->entry.bus) == 0) send_line(each, line, strlen(line));
}

/* To those who hold it and wait for that: its bus is closed, or it was released before. */
void send_to_holders(const struct port *port, bool is_closed) {
    const char *line =
        is_closed ? "{\"done\": true}\n" : "{\"error\": \"it was released before its bus was closed\"}\n";
    for (struct client *each = clients; each < clients + MOST_CLIENTS; each++) {
        if (strcmp(each->awaited, port->entry.bus) != 0) continue;
        each->awaited[0] = 0;
        send_line(each, line, strlen(line));
    }
}

/* Holds a port. The answer comes once the bus is closed: until then an operation, or a reading of what the module lists, may be under way. */
static void hold_for(struct client *client, const char *name, FILE *out) {
    struct port *port = named(name);
    if (port == NULL) return answer_error(out, "there is no such port");
    if (client->awaited[0] != 0) return answer_error(out, "the bus of another one isn't closed yet");
    hold(port, true);
    if (!uses_bus(port)) return answer_done(out);
    snprintf(client->awaited, TEXT_SIZE, "%s", port->entry.bus);
}

/* Lends the port of a bus to a client until that is gone. The answer comes once the bus is free. */
static void lend_to(struct client *client, const char *bus, FILE *out) {
    struct port *port = port_on(bus);
    if (port == NULL) return answer_error(out, "there is no port with that bus");
    for (struct client *each = clients; each < clients + MOST_CLIENTS; each++)
        if (strcmp(each->borrowed, port->entry.bus) == 0) return answer_error(out, "it is lent already");
    if (client->borrowed[0] != 0) return answer_error(out, "another one is lent already");
    snprintf(client->borrowed, TEXT_SIZE, "%s", port->entry.bus);
    lend(port, true);
}

static void answer_client(struct client *client, char *line) {
    char *text = NULL;
    size_t length;
    FILE *out = open_memstream(&text, &length);
    if (out == NULL) return;
    client->listens = client->listens || strcmp(line, "events") == 0;
    if (strcmp(line, "events") == 0)
        answer_done(out);
    else if (strncmp(line, "lend ", 5) == 0)
        lend_to(client, line + 5, out);
    else if (strncmp(line, "hold ", 5) == 0)
        hold_for(client, line + 5, out);
    else
        answer(out, line);
    if (fclose(out) == 0) send_line(client, text, length);
    free(text);
}

size_t list_clients(struct pollfd files[MOST_CLIENTS]) {
    size_t count = 0;
    for (struct client *each = clients; each < clients + MOST_CLIENTS; each++)
        if (each->file != 0) files[count++] = (struct pollfd){.fd = each->file, .events = POLLIN};
    return count;
}

void accept_client(int server) {
    int file = accept4(server, NULL, NULL, SOCK_CLOEXEC | SOCK_NONBLOCK);
    struct client *client = clients;
    while (client < clients + MOST_CLIENTS && client->file != 0) client++;
    if (file >= 0 && client < clients + MOST_CLIENTS)
        client->file = file;
    else if (file >= 0)
        close(file);
}

/* Takes what has come from a client, and answers each whole line. */
void serve(int file) {
    struct client *client = clients;
    while (client->file != file) client++;
    ssize_t got = recv(file, client->line + client->length, sizeof client->line - client->length, 0);
    if (got < 0 && errno == EAGAIN) return;
    if (got <= 0) return drop_client(client);
    client->length += (size_t)got;
    for (char *end; (end = memchr(client->line, '\n', client->length)) != NULL;) {
        *end = 0;
        answer_client(client, client->line);
        client->length -= (size_t)(end + 1 - client->line);
        memmove(client->line, end + 1, client->length);
    }
    if (client->length == sizeof client->line) drop_client(client);
}

/* ---- both ends */

static struct sockaddr_un address(void) {
    struct sockaddr_un address = {.sun_family = AF_UNIX};
    if (snprintf(address.sun_path, sizeof address.sun_path, "%s/control", folder) >= (int)sizeof address.sun_path)
        errx(EXIT_FAILURE, "%s: its name is too long", folder);
    return address;
}

/* Only root may use it. No thread may make files meanwhile. */
int open_control(void) {
    struct sockaddr_un name = address();
    int server = socket(AF_UNIX, SOCK_STREAM | SOCK_CLOEXEC | SOCK_NONBLOCK, 0);
    unlink(name.sun_path);
    mode_t mask = umask(0177);
    if (server < 0 || bind(server, (struct sockaddr *)&name, sizeof name) != 0 || listen(server, MOST_CLIENTS) != 0)
        err(EXIT_FAILURE, "%s", name.sun_path);
    umask(mask);
    return server;
}

/* A connection to the cmisd that runs, or -1, with a number above those of the standard streams, which may be closed. */
static int connect_to(const struct sockaddr_un *name) {
    int made = socket(AF_UNIX, SOCK_STREAM | SOCK_CLOEXEC, 0);
    int file = made >= 0 ? fcntl(made, F_DUPFD_CLOEXEC, STDERR_FILENO + 1) : -1;
    if (made >= 0) close(made);
    if (file < 0 || connect(file, (const struct sockaddr *)name, sizeof *name) == 0) return file;
    close(file);
    return -1;
}

/* Whether an answer is no error, and could be printed. */
static bool print_answer(const char *answer) {
    if (strncmp(answer, "{\"error\"", 8) == 0) return fputs(answer, stderr), false;
    if (fputs(answer, stdout) != EOF && fflush(stdout) == 0) return true;
    return warn("standard output"), false;
}

/* Sends words to the cmisd that runs, and prints what it answers: a line, or lines without an end after `events`. */
int ask(int count, char **words) {
    struct sockaddr_un name = address();
    char line[LINE_SIZE + 1] = "", *answer = NULL;
    size_t length = 0, room = 0;
    for (int i = 0; i < count && length < sizeof line; i++)
        length += (size_t)snprintf(line + length, sizeof line - length, "%s%c", words[i], i + 1 < count ? ' ' : '\n');
    if (length >= sizeof line) errx(EXIT_FAILURE, "these words are too long");
    int file = connect_to(&name);
    FILE *answers = file >= 0 ? fdopen(file, "r") : NULL;
    if (answers == NULL || send(file, line, length, MSG_NOSIGNAL) != (ssize_t)length)
        err(EXIT_FAILURE, "%s", name.sun_path);
    bool goes_on = true, is_good = false;
    while (goes_on && getline(&answer, &room, answers) > 0) {
        is_good = print_answer(answer);
        goes_on = is_good && strcmp(words[0], "events") == 0;
    }
    if (goes_on && !is_good) warnx("%s: no answer has come", name.sun_path);
    free(answer);
    fclose(answers);
    return is_good ? EXIT_SUCCESS : EXIT_FAILURE;
}
