/* Takes a lock's file away when cmis-port is about to lock it, as another run does that ends, and with ANEW makes another one, as a third run
   does that begins: preloaded by tests/port/locks. */
#define _GNU_SOURCE
#include <dlfcn.h>
#include <fcntl.h>
#include <stdbool.h>
#include <stdio.h>
#include <stdlib.h>
#include <sys/file.h>
#include <unistd.h>

int flock(int file, int how) {
    static unsigned calls;
    bool is_first = calls++ == 0;
    if (is_first) remove(getenv("LOCK"));
    if (is_first && getenv("ANEW") != NULL) close(open(getenv("LOCK"), O_RDWR | O_CREAT | O_CLOEXEC, 0600));
    return ((int (*)(int, int))dlsym(RTLD_NEXT, "flock"))(file, how);
}
