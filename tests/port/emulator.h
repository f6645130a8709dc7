/* A CMIS module with paged memory, as its host sees it, of which the lanes of bank 0 can be changed: for tests of cmis-port. Written from OIF-CMIS-05.0, apart from the
   simulated module of cmisctl. */
#ifndef EMULATOR_H
#define EMULATOR_H
#include <stdbool.h>
#include <stddef.h>
#include <stdint.h>

enum path_state { DEACTIVATED = 1, INIT, DEINIT, ACTIVATED, TX_TURN_ON, TX_TURN_OFF, INITIALIZED };
enum config_status {
    SUCCESS = 1,
    REJECTED,
    BAD_APPLICATION,
    BAD_PATH,
    BAD_SIGNAL,
    LANES_IN_USE,
    PARTIAL_PATH,
    IN_PROGRESS = 12
};

struct emulator {
    uint8_t lower[128], pages[256][128]; /* as they were loaded, with what is stored and latched */
    bool present[256];                   /* pages of bank 0 */
    uint8_t further[3][0x30][128];       /* of banks 1 to 3 pages 11h and 20h to 2Fh */
    bool has_further[3][0x30];
    uint8_t bank, page, next_bank; /* the selection; what was stored at 126 */
    uint8_t path[8], status[8];
    unsigned path_left[8]; /* milliseconds until a transient state ends */
    uint8_t applied[8];    /* what becomes active */
    uint8_t applied_settings[21];
    uint8_t applying; /* lanes */
    unsigned apply_left, silent_left;
    bool is_low;         /* low power is requested */
    unsigned power_left; /* milliseconds until ModulePwrUp or ModulePwrDn ends */

    unsigned slowest; /* milliseconds that a state may last */
    unsigned silent;  /* milliseconds before an apply shows in the statuses */
    int stuck;        /* the page that is selected for good, or -1 */
    uint64_t random;

    /* what few modules do */
    unsigned ignored;  /* so many applies are told to have succeeded, and change nothing */
    uint8_t reject;    /* the status of each apply, which changes nothing; 0 for what it would be */
    unsigned unstaged; /* the lane, from 1 on, whose staged byte is not kept; 0 for none */

    bool fixed;   /* controls of single lanes, and settings, are not kept */
    bool untuned; /* lanes get the defaults of their Application, under explicit control too */

    /* what a test looks at */
    uint8_t left_activated;  /* lanes */
    uint8_t deinit, applies; /* bits that were stored to DPDeinit and ApplyDPInit */
    unsigned astray;         /* bytes stored elsewhere, but for the selection and the staged control bytes */
    unsigned powers;         /* stores of byte 26 */
    unsigned switched;       /* stores of controls of single lanes */
    unsigned tuned;          /* bytes of signal integrity settings that were stored */
    uint8_t tuned_lanes;     /* bits that were stored to ApplyImmediate */
};

uint64_t next_random(uint64_t *state);
void begin_emulator(struct emulator *module, uint64_t seed);
void load_line(struct emulator *module, const char *line); /* of an image's text */
void power_up(struct emulator *module); /* once the memory is loaded: lanes with active control bytes are up */
void enter_state(struct emulator *module, uint8_t state); /* of the module */
uint8_t fetch_byte(struct emulator *module, uint8_t address);
void store_byte(struct emulator *module, uint8_t address, uint8_t byte);
void pass_millisecond(struct emulator *module);
/* What a case compares: the active bytes, the states of the data paths, and what was done to the module. */
size_t describe(const struct emulator *module, char *text, size_t room);
#endif
