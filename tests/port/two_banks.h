/* The firmware of a module with two banks, as its host sees it: bytes 8 and 37, and page 9Fh. Written from OIF-CMIS-05.0, "CDB Messaging" and the
   commands that manage firmware, apart from the library. */
#ifndef TWO_BANKS_H
#define TWO_BANKS_H
#include <stdbool.h>
#include <stddef.h>
#include <stdint.h>

#ifndef MOST_IMAGE
#define MOST_IMAGE (1 << 16)
#endif

struct two_banks {
    uint8_t images[2][MOST_IMAGE];
    uint32_t lengths[2];
    bool valid[2], committed[2];
    int running;

    /* the download */
    bool open;
    uint32_t size, covered; /* of the file; how many of its first bytes came */

    /* page 9Fh, and the command in hand */
    uint8_t page[128], status;
    bool completed;                /* CdbCmdCompleteFlag1, until byte 8 is fetched */
    unsigned busy_left;            /* milliseconds until it ends; 0 if none is in hand */
    unsigned reset_left, off_left; /* until the reset of a Run; until the module is back from one */
    int reset_to;
    uint64_t random;

    /* what kind of module it is */
    uint8_t start_size;  /* bytes of the file in a Start */
    uint8_t mechanism;   /* 01h: blocks by the local payload */
    uint8_t reply_count; /* bytes of the reply about the banks */
    uint8_t instances;   /* that page 01h advertises */
    uint8_t not_again;   /* the status of a Start while a download is open; 0: that one begins anew */
    uint8_t no_block;    /* the status of each block, none of which is taken; 0: they are taken */
    bool stays_open;     /* a download is open even after an abort that succeeded */
    bool aborts_none;    /* it has no command that gives up a download */
    bool commits_none;   /* a commit that succeeded has changed nothing */
    bool background;     /* it answers while it is busy */
    bool tens;           /* its durations count tens of milliseconds */
    bool boots;          /* what is loaded can run */
    unsigned slowest;    /* milliseconds of a command */
    unsigned late;       /* milliseconds between a Run and its reset */
    unsigned unlucky;    /* of 100 commands, so many fail, before or after their effect, or take for ever */
    uint32_t password;   /* that it wants first; 0 for none */
    bool is_open_to_all; /* it was given */

    /* what a test looks at */
    unsigned starts, runs, commits, aborts, restarts;
    unsigned moments_without; /* moments without a committed image that can run */
};

void begin_two_banks(struct two_banks *module, uint64_t seed);
void load_bank(struct two_banks *module, int bank, const uint8_t *image, uint32_t length);
bool is_deaf(const struct two_banks *module);  /* it refuses each transaction */
uint8_t fetch_flags(struct two_banks *module); /* byte 8 */
uint8_t fetch_status(const struct two_banks *module);
uint8_t fetch_of_block(const struct two_banks *module, uint8_t address);
void store_to_block(struct two_banks *module, uint8_t address, uint8_t byte);
void pass_time(struct two_banks *module, unsigned milliseconds);
void lose_power(struct two_banks *module);
bool has_image(const struct two_banks *module); /* one that is committed and can run */
#endif
