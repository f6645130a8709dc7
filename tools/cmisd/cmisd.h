/* cmisd: keeps the modules in the ports of a machine as they are wanted, by the proved library (docs/manager.md). */
#ifndef CMISD_H
#define CMISD_H
#include "../cmis_port/bus.h"

#include <poll.h>
#include <pthread.h>
#include <stddef.h>

enum { NAME_SIZE = 32, TEXT_SIZE = 128, WORDS_SIZE = 512 };
enum { ADVERTISED_PAGE = 0x01, LANES_PAGE = 0x11, MODULE_FLAGS = 32, LANE_FLAGS = 152, OUTPUTS = 2 };

/* Of a module that is read again, and of another one that may have replaced it. */
enum { MOST_HALVES = 2 * DOVECOUNTER_MOST_READ };

/* Milliseconds for which an operation of a reading of a page may be fruitless. */
enum { LIMIT = 200 };

/* A section of the configuration. */
struct entry {
    char name[NAME_SIZE], weights[TEXT_SIZE];
    char bus[TEXT_SIZE], presence[TEXT_SIZE], low_power[TEXT_SIZE],
        reset[TEXT_SIZE]; /* the last three are files of pins */
    struct dovecounter_times times;
    struct dovecounter_wanted wanted;
    uint32_t vdm; /* seconds between two readings of what a module lists itself; 0 for none */
    uint8_t manage;
};

/* What a module lists itself (VDM). A round reads one bank after the other. */
struct listing {
    struct dovecounter_vdm reading;
    struct dovecounter_half halves[DOVECOUNTER_MOST_VDM]; /* of the reading under way */
    uint8_t bank, next; /* of that reading; the first that may be read after it, 0 to begin a round */
    bool is_under_way;
    int64_t due; /* when to read the next one */
    struct listed_bank {
        struct dovecounter_half read[DOVECOUNTER_MOST_VDM]; /* of its last reading, so many: */
        uint8_t read_count;
        const char *told; /* how that ended */
    } banks[BANKS];
};

/* What PORT.image has: the memory as it was read, and what the module lists. Zeros follow both. */
struct image {
    uint8_t half_count, listed_count;
    struct dovecounter_half halves[MOST_HALVES + FURTHER_BANKS], listed[MOST_LISTED];
};

/* The lanes above 8. */
struct banks {
    struct dovecounter_conversation reading;
    struct dovecounter_half halves[DOVECOUNTER_MOST_READ]; /* of the reading under way */
    struct dovecounter_half read[FURTHER_BANKS];           /* of the last one, so many: */
    uint8_t read_count;
    bool is_due, is_under_way;
};

/* Which outputs are disabled, by lane: of the transmitters, and of the receivers. */
struct outputs {
    struct dovecounter_changing_lanes reading;
    uint8_t at, read[OUTPUTS]; /* of the reading under way: which control; what was read */
    uint8_t disabled[OUTPUTS]; /* as read last */
    bool is_due, is_under_way, is_known;
};

/* What tells modules apart: all of a dovecounter_identity, and page 01h of one of CMIS. */
struct known {
    uint8_t identity[offsetof(struct dovecounter_identity, date) + 17], advertised[128];
};

struct configuration {
    struct entry *entries;
    size_t count;
    unsigned errors;
};

/* A port, and its memory as it was read since its module was plugged or has failed. The thread of its adapter alone uses `bus`, and takes
   it out of the list; all else is used by whoever holds `state`. */
struct port {
    struct entry entry;
    struct port *next, *beside; /* of all; of those on its adapter */
    struct adapter *adapter;
    struct bus bus;
    struct dovecounter_port core;
    bool is_open, is_held, is_retired; /* is_retired: no longer configured */
    bool is_lent, is_free;             /* a client has its bus until it is gone; it knows that */
    bool is_blind, is_seen;            /* its pin can't be read; it was read before */
    bool is_lost;                      /* since its bus was opened another file got that name */
    int64_t due, looks_at;          /* when something is to be done next, and when to look whether a module is there */
    int64_t reopens_in, reopens_at; /* how long to wait if the bus can't be opened, and until when */

    int64_t began;              /* when the transaction under way began, or 0 */
    unsigned operations, nacks; /* all transactions; all refused */
    struct dovecounter_half halves[MOST_HALVES];
    size_t half_count;
    struct known known;           /* what was read last */
    int64_t read_at;              /* when one was read last as a whole */
    uint8_t page;                 /* that was read to be selected last */
    struct image image;           /* as its file has it; zeros if there is none */
    bool has_new_counts;          /* than its PORT.prom */
    bool is_unwritten;            /* its PORT.json or PORT.prom couldn't be written */
    bool lacks_image;             /* its PORT.image couldn't */
    struct dovecounter_plan plan; /* whose paths are shown, if its control bytes are those that the port works for */

    struct listing listing;
    struct outputs outputs;
    struct banks banks;
    bool is_rested;     /* the last operation of the library has ended a look, or a job in a failure */
    int64_t goes_on_at; /* until when the reading of `listing`, `outputs` or `banks` under way pauses, or 0 */

    struct {
        bool is_once;           /* what is asked; if lanes that are up stand against it, */
        uint8_t request, lanes; /* this is asked again, which was asked before */
    } before;

    uint16_t anew;                /* bits of the halves that were read as wholes since it was last read again */
    bool is_read_again;           /* by itself, so that what comes of it is told only if it is another reason: */
    struct dovecounter_left left; /* as it was told last, */
    uint8_t stage;                /* and so was this */
    int64_t since, failed_at;
    char failure[WORDS_SIZE]; /* the last one, or "" */
    struct dovecounter_flag_counts flags;
    struct dovecounter_bank_counts counts[FURTHER_BANKS]; /* of the lanes above 8, whatever module they were read of */
    uint8_t counted;                                      /* a bit for each bank that was: 1 for bank 1 */
};

/* config.c */
bool read_lanes(const char *text, uint8_t *lanes);
const struct entry *entry_of(const struct configuration *configuration, const char *name);
bool read_configuration(const char *name, struct configuration *configuration);

/* port.c */
extern pthread_mutex_t state;
extern struct port *ports;
void begin_ports(void);
int64_t make(struct port *port, const struct dovecounter_operation *operation, uint8_t bytes[128], bool *answered);
struct port *port_of(const char *name);
struct port *port_on(const char *bus);
bool is_still(const struct port *port);
bool is_there(const struct port *port);
bool uses_bus(const struct port *port);
void request(struct port *port, uint8_t what, uint8_t lanes, bool is_once);
void hold(struct port *port, bool held);
void lend(struct port *port, bool lent);
void apply(const struct configuration *configuration);
bool stop_all(int64_t most);

/* pins.c */
int read_pin(struct port *port, const char *pin);
void set_pin(struct port *port, const char *pin, bool on);

/* listing.c */
bool is_pausing(struct port *port, const struct dovecounter_operation *operation);
uint8_t make_aside(struct port *port, const struct dovecounter_operation *operation, uint8_t bytes[128]);
void forget_module(struct port *port);
void begin_round(struct port *port);
void list_anew(struct port *port);
void begin_listing(struct port *port);
void go_on_listing(struct port *port);

/* outputs.c */
bool begin_outputs(struct port *port);
void go_on_with_outputs(struct port *port);
void print_outputs(FILE *out, const struct port *port);

/* banks.c */
void expect_banks(struct port *port, const struct dovecounter_port_outcome *led_to);
void forget_banks(struct port *port);
bool begin_banks(struct port *port);
uint8_t bank_from(const struct port *port, uint8_t first);
void go_on_with_banks(struct port *port);

/* told.c */
void say_reason(char words[WORDS_SIZE], const struct dovecounter_left *left);
void tell(struct port *port, const char *event, const char *words);
void tell_flags(struct port *port);
void tell_bank_flags(struct port *port, uint8_t bank, const struct dovecounter_bank_counts *was);
void hear(struct port *port, const struct dovecounter_port_outcome *outcome);

/* status.c */
struct raised {
    char name[NAME_SIZE];
    unsigned lane; /* 0 of a flag of the module */
    uint16_t count;
    int64_t last;
};
struct lane_counts {
    const uint16_t *counts;
    const uint64_t *last;
    const struct dovecounter_lane_codes *states, *statuses;
};
extern const char *const requests[4];
void print_text(FILE *out, const char *before, const char *name, const char *text);
int64_t clock_offset(void);
void print_seconds(FILE *out, int64_t moment);
void print_moment(FILE *out, const char *before, const char *name, int64_t moment);
void print_lane_list(FILE *out, const char *name, uint8_t lanes);
void begin_port(FILE *out, const struct port *port);
void print_port(FILE *out, const struct port *port);
void print_memory(FILE *out, const struct port *port);
struct lane_counts counts_of(const struct port *port, unsigned bank);
size_t flag_count(const struct port *port);
struct raised raised_of(const struct port *port, size_t flag);
const struct dovecounter_half *half_of(const struct port *port, uint8_t upper, uint8_t page);

/* files.c */
extern const char *folder;
void print_image_of(FILE *out, const struct port *port, const char *end);
void put_image(struct port *port);
void put_status(struct port *port);
void renew_files(void);
void remove_file(const char *port, const char *ending);
void remove_image(struct port *port);
void remove_old_files(void);

/* control.c */
enum { MOST_CLIENTS = 256 };
int open_control(void);
int ask(int count, char **words);
void send_to_listeners(const char *line, size_t length);
void send_to_borrower(const struct port *port);
void send_to_holders(const struct port *port, bool is_closed);
size_t list_clients(struct pollfd files[MOST_CLIENTS]);
void accept_client(int server);
void serve(int file);

/* main.c */
bool reload(void);
#endif
