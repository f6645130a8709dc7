/* reader FILE: locks the file in each way that takes no more than to read it, says so, and waits until it is killed: for tests/port/locks. */
#define _GNU_SOURCE
#include <fcntl.h>
#include <stdio.h>
#include <sys/file.h>
#include <unistd.h>

int main(int count, char **words) {
    int file = count == 2 ? open(words[1], O_RDONLY | O_CLOEXEC) : -1;
    struct flock shared = {.l_type = F_RDLCK, .l_whence = SEEK_SET};
    if (flock(file, LOCK_EX) != 0 || fcntl(file, F_OFD_SETLK, &shared) != 0) return 1;
    puts("locked");
    fflush(stdout);
    pause();
    return 0;
}
