/* Calls of the C library in place of Linux's: /dev/i2c-99 is an adapter with the emulator behind it, and
   /sys/bus/i2c/devices/99-0050/eeprom the file that optoe has for it. All other files are those of Linux. Loaded by LD_PRELOAD, it takes
   what it is to be from the environment (PORT, words as in `image=FILE refuse=40`); linked in, from who calls. */
#ifndef SHIM_H
#define SHIM_H
#include "diagnostics.h"
#include "emulator.h"
#include "statistics.h"
#include "two_banks.h"

struct shim {
    struct emulator module, fresh; /* the second comes in place of the first */
    uint64_t random;
    unsigned refuse;       /* percent of the transactions */
    unsigned longest;      /* bytes of a message; 0 for any number */
    unsigned made;         /* transactions */
    unsigned unplug, swap; /* after so many of them the module is gone, or is a fresh one; 0 for never */
    unsigned interrupt;    /* after so many of them the program gets SIGINT */
    unsigned print;        /* or while it prints for this time */
    unsigned signal;       /* or this signal; 0 for SIGINT */
    bool twice;            /* and SIGTERM with it */
    unsigned fault, lose;  /* after so many of them the module is in ModuleFault, or lacks page 11h; 0 for never */
    bool smbus;            /* the adapter is for SMBus alone */
    bool real_time;        /* a pause is one; else the clock goes on by it at once */
    uint8_t durations; /* codes that the module advertises for the states of its data paths; 0 for those of the image */
    int error;         /* of a refused transaction */
    char driver[32];   /* that is bound to 50h */
    char image[256], out[256]; /* files: the module's memory, and what is told at the end */
    int64_t microseconds;      /* of the clock */
    int64_t lived;             /* milliseconds that the module has seen */
    int file;
    bool in_a_row;   /* it is that of optoe */
    uint8_t pointer; /* the address from which a fetch reads */

    /* what few adapters and modules do */
    int too_long;     /* the error of a message that is too long; 0 for EOPNOTSUPP */
    unsigned answers; /* each transaction of this number is answered, and no other; 0 for all */
    unsigned mute;    /* from the twentieth on, none is answered for so many milliseconds */
    int64_t muted;    /* microseconds: until then */
    unsigned takes;   /* milliseconds until one that isn't answered is given up */
    bool locked;      /* an adapter's stores of one byte on page 10h are refused */
    bool partial;     /* of two messages the first alone is carried; of bytes that are stored in a row the last isn't */
    char other[256];  /* the memory of the module that comes in place of the first; else that of the first */
    char hold[256];   /* a file that is made at the tenth transaction, which waits until it is gone */
    struct shim_byte {
        unsigned page, address, byte;
    } bytes[64]; /* in place of those of the memory; an address below 80h is in the lower half */
    size_t byte_count;

    /* its firmware, if it has a command data block */
    struct diagnostics diagnostics;
    bool links;                      /* the module has them */
    struct statistics statistics[4]; /* of each bank */
    bool lists;                      /* so it has pages 20h to 2Fh */
    struct two_banks firmware;
    bool banks;
    char keep[256]; /* a file for the image that runs at the end */
};

extern struct shim shim;
#endif
