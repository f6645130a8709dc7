/* usb FIFO FILE: an adapter "i2c-tiny-usb" with the emulator behind it, plugged into the kernel's virtual host for USB (vhci_hcd), so that
   the kernel's own driver makes a bus of it. Lines that come through FIFO are said to its owner; after each FILE describes the module.
   The line `end-of-usb` pulls the adapter out. */
#include "owner.h"

#include <arpa/inet.h>
#include <errno.h>
#include <fcntl.h>
#include <poll.h>
#include <stdio.h>
#include <stdlib.h>
#include <string.h>
#include <sys/socket.h>
#include <time.h>
#include <unistd.h>

static struct owner owner;

static void catch_up(void) {
    struct timespec time;
    clock_gettime(CLOCK_MONOTONIC, &time);
    live_until(&owner, (int64_t)time.tv_sec * 1000 + time.tv_nsec / 1000000);
}

/* ---- what it is, and what its driver asks (drivers/i2c/busses/i2c-tiny-usb.c) ---- */

enum { GET_FUNCTIONS = 1, SET_DELAY, GET_STATUS, TRANSFER, FIRST = 1, LAST = 2 };

static int answer_driver(const uint8_t setup[8], uint8_t *data, uint16_t length) {
    static const uint8_t functions[] = {0x09, 0x00, 0xFE, 0x0E}; /* I2C, and SMBus made of it */
    static bool acknowledged;
    unsigned command = setup[1];
    switch (command) {
    case GET_FUNCTIONS: return memcpy(data, functions, sizeof functions), sizeof functions;
    case SET_DELAY: return 0;
    case GET_STATUS: return data[0] = acknowledged ? 1 : 2, 1;
    default: break;
    }
    if (command < TRANSFER || command > (TRANSFER | FIRST | LAST)) return -1;
    catch_up();
    if (command & FIRST) begin_transaction(&owner);
    acknowledged = carry_message(&owner, setup[4], setup[0] & 0x80, data, length);
    return length;
}

/* The answer to a control transfer, in bytes; -1 for a stall. */
static int answer(const uint8_t setup[8], uint8_t *data) {
    static const uint8_t device[18] = {18, 1, 0x10, 1, 0xFF, 0, 0, 64, 0x03, 0x04, 0x31, 0xC6, 0, 2, 0, 0, 0, 1};
    static const uint8_t configuration[18] = {9, 2, 18, 0, 1, 1, 0, 0x80, 50, 9, 4, 0, 0, 0, 0xFF, 0, 0, 0};
    enum { GET_STATUS_OF_DEVICE = 0, GET_DESCRIPTOR = 6 };
    uint16_t length = (uint16_t)(setup[6] | setup[7] << 8);
    if ((setup[0] & 0x60) != 0) return answer_driver(setup, data, length);
    if ((setup[0] & 0x80) == 0) return 0;
    if (setup[1] == GET_STATUS_OF_DEVICE) return memset(data, 0, 2), 2;
    if (setup[1] != GET_DESCRIPTOR || (setup[3] != 1 && setup[3] != 2)) return -1;
    memcpy(data, setup[3] == 1 ? device : configuration, 18);
    return length < 18 ? length : 18;
}

/* ---- USB over a socket (Documentation/usb/usbip_protocol.rst) ---- */

static bool take(int host, void *bytes, size_t count) {
    return count == 0 || recv(host, bytes, count, MSG_WAITALL) == (ssize_t)count;
}

static bool give(int host, const void *bytes, size_t count) {
    return count == 0 || send(host, bytes, count, MSG_NOSIGNAL) == (ssize_t)count;
}

/* One request of the host; false at the end. */
static bool serve(int host) {
    enum { SUBMIT = 1, ANSWERED = 3, UNLINKED = 4 };
    static uint8_t data[65536];
    uint32_t request[12];
    if (!take(host, request, sizeof request)) return false;
    if (ntohl(request[0]) != SUBMIT) return give(host, (uint32_t[12]){htonl(UNLINKED), request[1]}, sizeof request);
    bool in = ntohl(request[3]) == 1;
    uint32_t length = ntohl(request[6]);
    if (length > sizeof data || (!in && !take(host, data, length))) return false;
    int count = request[4] == 0 ? answer((const uint8_t *)(request + 10), data) : -1;
    uint32_t head[12] = {htonl(ANSWERED),
                         request[1],
                         0,
                         0,
                         0,
                         htonl(count < 0 ? (uint32_t)-EPIPE : 0),
                         htonl(count < 0 ? 0 : (uint32_t)count)};
    return give(host, head, sizeof head) && (!in || count <= 0 || give(host, data, (size_t)count));
}

static void describe_to(const char *name) {
    char text[256], other[256];
    snprintf(other, sizeof other, "%s.new", name);
    FILE *file = fopen(other, "w");
    if (file == NULL) abort();
    catch_up();
    fwrite(text, 1, describe(&owner.module, text, sizeof text), file);
    fclose(file);
    rename(other, name);
}

/* Lines that were written at once are read at once; false if the adapter is pulled out. */
static bool take_lines(int fifo) {
    static char text[65537];
    char *rest = text, *line;
    ssize_t count = read(fifo, text, sizeof text - 1);
    text[count > 0 ? count : 0] = 0;
    catch_up();
    while ((line = strsep(&rest, "\n")) != NULL) {
        if (strcmp(line, "end-of-usb") == 0) return false;
        obey(&owner, line);
    }
    return true;
}

static bool plug_into(int host) {
    FILE *attach = fopen("/sys/devices/platform/vhci_hcd.0/attach", "w");
    return attach != NULL && fprintf(attach, "0 %d 65538 2", host) > 0 &&
           fclose(attach) == 0; /* the first port, full speed */
}

int main(int count, char **words) {
    int ends[2], fifo = count == 3 ? open(words[1], O_RDWR) : -1;
    if (fifo < 0 || socketpair(AF_UNIX, SOCK_STREAM, 0, ends) != 0 || !plug_into(ends[0])) return perror("usb"), 1;
    close(ends[0]);
    for (;;) {
        struct pollfd waits[] = {{ends[1], POLLIN, 0}, {fifo, POLLIN, 0}};
        if (poll(waits, 2, -1) < 0) continue;
        if (waits[1].revents != 0) {
            if (!take_lines(fifo)) return 0;
            describe_to(words[2]);
        }
        if (waits[0].revents != 0 && !serve(ends[1])) return 0;
    }
}
