/* The bus that leads to a module in a port of a Linux machine, for cmis-port and cmisd: an adapter, the file of the driver optoe, or a
   simulated module in its place. Where words go to standard error, they begin with the name of the bus. */
#ifndef BUS_H
#define BUS_H
#include "dovecounter.h"

#include <stdbool.h>
#include <stdio.h>

struct directive {
    enum { OK, NACK, CUT, TICK, LPMODE } kind;
    unsigned number;
};

enum { MOST_SIMULATED = 64 }; /* halves */

/* The banks whose lanes are read, bank 0 and those above it, and the most halves of what a module lists in them (VDM). */
enum { FURTHER_BANKS = 3, BANKS = 1 + FURTHER_BANKS, MOST_LISTED = BANKS * DOVECOUNTER_MOST_VDM };

/* Milliseconds after a fruitless operation of a conversation, of which 101 may be so until the statistics of a bank are frozen. */
enum { PAUSE = 20 };

struct simulated {
    struct dovecounter_half halves[MOST_SIMULATED];
    size_t count;
    struct dovecounter_module module;
    struct directive script[1024];
    size_t length, at; /* of the script: directives, and the one in hand */
};

/* Of root's locks: the file that is locked, or -1, and its name once it is. */
struct lock {
    char path[96];
    int file;
    bool is_named;
};

/* All is 0 but for `name`, `file` and `lock.file`, which are -1, before it is opened. */
struct bus {
    const char *name;
    int file;
    bool (*carry)(struct bus *bus, const struct dovecounter_operation *operation, uint8_t *bytes); /* answered? */
    struct simulated simulated;
    uint8_t selection[2]; /* bank and page that would be selected */
    struct lock lock;
};

/* bus.c */
int64_t now(void); /* in milliseconds */
int open_apart(const char *name, int flags);
bool open_bus(struct bus *bus);
void close_bus(struct bus *bus);
bool is_selection(const struct dovecounter_operation *operation);
bool transact_in_a_row(struct bus *bus, const struct dovecounter_operation *operation, uint8_t *bytes);
bool transact_i2c(struct bus *bus, const struct dovecounter_operation *operation, uint8_t *bytes);

/* lock.c */
bool lock_bus(struct bus *bus);
void unlock_bus(struct bus *bus);

/* simulated.c */
size_t read_halves(FILE *file, struct dovecounter_half *halves, size_t most);
bool open_simulated(struct simulated *simulated, const char *names);
bool transact_simulated(struct bus *bus, const struct dovecounter_operation *operation, uint8_t *bytes);

/* weights.c */
bool read_weights(const char *name, uint32_t weights[256]);

/* words.c */
extern const char *const module_states[8], *const path_states[16], *const config_statuses[16];
extern const char *const left_reasons[DOVECOUNTER_LEFT_ASLEEP + 1];
extern const char apply_refused[];
void print_image(FILE *out, const struct dovecounter_half *halves, size_t count, const struct dovecounter_half *listed,
                 size_t listed_count, const char *end);
uint8_t lanes_of_word(const char *word);
unsigned code_of(const uint8_t codes[4], unsigned lane);
const char *sentence(uint32_t status);
#endif
