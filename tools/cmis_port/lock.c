/* The lock of a bus. Root's is a file that nobody else can open, since whoever can open a file can lock it. */
#define _GNU_SOURCE
#include "bus.h"

#include <err.h>
#include <errno.h>
#include <fcntl.h>
#include <sys/file.h>
#include <sys/stat.h>
#include <unistd.h>

static const char folder[] = "/run/dovecounter";

/* Whether the folder is there, and only root may enter it; says why not. */
static bool is_own_folder(void) {
    struct stat about;
    bool is_there = mkdir(folder, 0700) == 0 || errno == EEXIST;
    if (!is_there || lstat(folder, &about) != 0) return warn("%s", folder), false;
    if (S_ISDIR(about.st_mode) && about.st_uid == 0 && (about.st_mode & 077) == 0) return true;
    return warnx("%s: it is no folder that root alone may enter (mode 0700)", folder), false;
}

/* A lock is named after the device or the inode of the bus's file, whatever name it was opened by. */
static void name_lock(struct lock *lock, int file) {
    struct stat about = {0};
    fstat(file, &about);
    bool is_device = S_ISCHR(about.st_mode);
    uintmax_t place = is_device ? 0 : about.st_dev, number = is_device ? about.st_rdev : about.st_ino;
    snprintf(lock->path, sizeof lock->path, "%s/port_%jx_%jx.lock", folder, place, number);
}

/* Whether the file that was locked still has its name: whoever held the lock before may have removed it. */
static bool has_name(const struct lock *lock) {
    struct stat opened, named;
    return fstat(lock->file, &opened) == 0 && stat(lock->path, &named) == 0 && opened.st_ino == named.st_ino;
}

static bool take_lock(struct lock *lock) {
    do {
        if (lock->file >= 0) close(lock->file);
        lock->file = open(lock->path, O_RDWR | O_CREAT | O_NOFOLLOW | O_CLOEXEC, 0600);
        if (lock->file < 0 || flock(lock->file, LOCK_EX | LOCK_NB) != 0) return false;
    } while (!has_name(lock));
    return lock->is_named = true;
}

static bool say_locked(const char *name, const char *locked) {
    if (errno == EWOULDBLOCK)
        warn("%s: another program has locked it (fuser -v names it)", name);
    else
        warn("%s", locked);
    return false;
}

/* Locks the file of the bus too, against programs of other users, and in containers that have a /run of their own. Who may only read it can
   keep this lock away by a shared one. Root goes on then, with a shared one too: it can't be had beside an exclusive one, which takes more
   than to read, and keeps that away until this run ends, also if the reader ends before. */
static bool lock_file(const struct bus *bus, bool is_root) {
    struct flock own = {.l_type = F_WRLCK, .l_whence = SEEK_SET}, shared = {.l_type = F_RDLCK, .l_whence = SEEK_SET};
    if (fcntl(bus->file, F_OFD_SETLK, &own) == 0) return true;
    if (!is_root || fcntl(bus->file, F_OFD_SETLK, &shared) != 0) return say_locked(bus->name, bus->name);
    warnx("%s: a program that may only read it has locked it (fuser -v names it)", bus->name);
    return true;
}

bool lock_bus(struct bus *bus) {
    bool is_root = geteuid() == 0;
    if (is_root && !is_own_folder()) return false;
    name_lock(&bus->lock, bus->file);
    if (is_root && !take_lock(&bus->lock)) return say_locked(bus->name, bus->lock.path);
    return lock_file(bus, is_root);
}

void unlock_bus(struct bus *bus) {
    if (bus->lock.is_named) unlink(bus->lock.path);
    if (bus->lock.file >= 0) close(bus->lock.file);
    bus->lock.file = -1;
    bus->lock.is_named = false;
}
