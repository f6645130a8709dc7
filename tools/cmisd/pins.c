/* The pins of a port, each a file. A name that begins with ! is of a pin that is on if it reads 0. Others use the state meanwhile, since a
   pin may be on a bus that hangs: so the port may be retired once it was read or set. */
#include "cmisd.h"

#include <err.h>
#include <errno.h>
#include <fcntl.h>
#include <stdlib.h>
#include <unistd.h>

/* Answers whether it is on if it reads 0, and its name, which others may write to meanwhile. */
static bool leave_state(struct port *port, const char *pin, char name[TEXT_SIZE]) {
    bool is_low = pin[0] == '!';
    snprintf(name, TEXT_SIZE, "%s", pin + is_low);
    port->began = now();
    pthread_mutex_unlock(&state);
    return is_low;
}

static void take_state(struct port *port) {
    int error = errno;
    pthread_mutex_lock(&state);
    port->began = 0;
    errno = error;
}

/* Answers -1 if it can't be read. */
int read_pin(struct port *port, const char *pin) {
    char name[TEXT_SIZE], text[16] = "";
    bool is_low = leave_state(port, pin, name);
    int file = open(name, O_RDONLY | O_CLOEXEC);
    if (file >= 0) errno = ENODATA; /* if it is empty */
    bool is_read = file >= 0 && read(file, text, sizeof text - 1) > 0;
    if (file >= 0) close(file);
    take_state(port);
    return is_read ? (strtol(text, NULL, 0) != 0) != is_low : -1;
}

/* Of a port that is managed, if it has that pin. */
void set_pin(struct port *port, const char *pin, bool on) {
    char name[TEXT_SIZE];
    if (pin[0] == 0 || !port->entry.manage) return;
    bool is_low = leave_state(port, pin, name);
    int file = open(name, O_WRONLY | O_CLOEXEC);
    bool is_set = file >= 0 && write(file, on != is_low ? "1\n" : "0\n", 2) == 2;
    if (file >= 0) close(file);
    take_state(port);
    if (!is_set) warn("%s: %s", port->entry.name, name);
}
