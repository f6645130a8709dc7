/* cmis-port: reads, plans and provisions the module in a port of a Linux machine, over the proved library (docs/port.md). */
#ifndef PORT_H
#define PORT_H
#include "bus.h"

#include <signal.h>

enum status { DONE = 0, REFUSED = 1, COMMAND_LINE = 2, NOT_PROVISIONED = 3, IN_USE = 4, NOT_WRITTEN = 6 };
enum { SETTINGS = 8 };                                        /* of a lane's signal */
enum { MOST_HALVES = DOVECOUNTER_MOST_READ + FURTHER_BANKS }; /* with page 11h of these */
enum work { PROVISION, ACTIVATE, WAKE, SLEEP };

/* The words of flags about a link, or NULL. */
struct link_words {
    const char *side, *pattern, *lanes, *time, *shown, *loopback;
};

struct port {
    /* what is asked for */
    const char *log_name, *password_name;
    bool activate, ensure, force, wake, help, version, unpaired, counts_by_id, reset, no_commit, json, vdm;
    uint32_t weights[256], stay;
    unsigned application; /* whose paths alone are worth something, or 0 */
    bool is_weighed;      /* by words of the command line */
    struct dovecounter_path kept[9];
    size_t kept_count;
    struct dovecounter_lane_change change;
    struct dovecounter_link_plan link;
    struct link_words words;
    uint8_t tuned_lanes;
    int16_t tuned[SETTINGS]; /* what these settings are to be, or -1 */
    bool is_tuned;           /* by --settings: lanes of the plan get them */
    uint8_t *file;           /* the firmware */
    size_t file_size;
    uint32_t password; /* of the firmware, if there is a name of its file */

    /* the bus */
    struct bus bus;
    int manager;      /* a connection to cmisd, which lends the bus as long as that stands, or -1 */
    const char *told; /* what cmisd has answered about the port, or NULL */
    bool is_told;     /* the memory is as cmisd has it, and no bus is opened */
    FILE *log;
    uint8_t most, least; /* bytes that are fetched at once: at most, as far as is known, and by the adapter certainly */
    sigset_t signals;    /* they end the program between two operations */

    /* what came of it */
    unsigned made, refused;       /* operations; those that were refused since one was answered */
    int64_t refused_at, given_up; /* when the first of these began, and how long they took */
    int64_t busy_time;            /* for which the module may refuse all while it is busy, in milliseconds */
    enum { GOES_ON, STOPPED, SILENT } ending; /* whether no further operation is to be made */
    bool stored;                              /* or tried to, but for page selections */
    bool patient;                             /* a module that does not answer may be back */
    unsigned steps[4];                        /* of each work that was done */
    struct dovecounter_half halves[MOST_HALVES];
    uint8_t half_count; /* of those, as many as were read */
    struct dovecounter_plan plan;
    struct dovecounter_settings_change tunes; /* what lanes of the plan get, of a module with these limits */
    struct dovecounter_settings_limits limits;
};

/* transactions.c */
void clear_progress(void);
void stop(struct port *port, const char *why);
void pause_ms(struct port *port, int64_t ms);
void fill_streams(void);
void hold_signals(sigset_t *signals);
void print_now(struct port *port);
bool can_print(void);
void release_signals(struct port *port);
bool open_port(struct port *port);
uint8_t transact(struct port *port, const struct dovecounter_operation *operation, uint8_t bytes[128]);
uint8_t transact_in_pieces(struct port *port, const struct dovecounter_operation *operation, uint8_t bytes[128]);

/* manager.c */
extern const char no_module[]; /* why nothing comes of a command about an empty port */
int connect_to_manager(void);
bool is_on(const char *line, const char *name);
size_t take_text(const char *line, const char *name, char *text, size_t size);
void ask_manager(struct port *port, bool reads);
bool take_told(struct port *port);
enum status history(struct port *port);
bool borrow_bus(struct port *port);
void give_back_bus(struct port *port);

/* requests.c */
bool is_kept(const struct port *port);
enum status request(struct port *port, const char *command);

/* module.c */
enum { MODULE_STATE = 3, PATH_STATES = 128, CONFIG_STATUSES = 202, ACTIVE = 206 }; /* the last three on page 11h */
enum { LOW_POWER = 1, READY = 3, POWER_DOWN = 4 };                                 /* states of the module */
enum { DEACTIVATED = 1, ALL_LANES = 0xFF, NO_ANSWER = 255 };
bool is_other_family(const struct port *port);
bool read_module(struct port *port, bool of_any_family);
bool read_further_banks(struct port *port);
const uint8_t *bytes_at(const struct port *port, uint8_t offset);
unsigned state_of(const struct port *port);
unsigned lanes_in(const struct port *port, unsigned path_state);
struct dovecounter_patience patience_for(const struct port *port);
unsigned carry_out(struct port *port, enum work work);

/* flags.c */
void print_flags(const struct port *port);

/* commands.c */
void print_line(const char *name, const uint8_t control[8], const char *after);
enum status refuse_by(const struct port *port, uint32_t status);
enum status image(struct port *port);
enum status state(struct port *port);

/* power.c */
enum status wake(struct port *port);
enum status put_to_sleep(struct port *port);

/* firmware.c */
bool read_file(struct port *port, const char *name);
bool read_password(struct port *port, const char *name);
enum status firmware(struct port *port);
enum status firmware_commit(struct port *port);
enum status firmware_abort(struct port *port);
enum status firmware_update(struct port *port);

/* controls.c */
bool read_switchable(struct port *port);
uint8_t make_on_lanes(void *context, const struct dovecounter_operation *operation, uint8_t bytes[128]);
void wait_on_lanes(void *context, uint32_t ms);
void print_list(const char *name, unsigned lanes);
bool read_change(struct port *port, const char *name, const char *word, const char *lanes);
enum status print_controls(struct port *port);
enum status change_lanes(struct port *port);

/* links.c */
bool read_loopback(struct port *port, const char *side, const char *kind, const char *lanes);
bool read_prbs(struct port *port);
enum status test_link(struct port *port);

/* settings.c */
bool read_targets(struct port *port, char **words, int count);
bool read_plan_targets(struct port *port, char *word);
enum status print_settings(struct port *port);
enum status change_settings(struct port *port);
bool begin_tuned(struct port *port);
bool has_tuned(const struct port *port);
unsigned provision_tuned(struct port *port);

/* lanes.c */
struct dovecounter_effect judge_control(const struct port *port);
struct dovecounter_effect judge(const struct port *port);
enum status status_by(const struct dovecounter_effect *effect);
void say_lanes(FILE *out, const char *before, unsigned lanes, const char *after);
void say_state(FILE *out, const char *before, unsigned state, const char *after);
void say_hindrance(FILE *out, const char *before, const struct dovecounter_effect *effect);

/* listed.c */
/* What a module lists itself (VDM) in a bank, as it was read. */
struct listed_bank {
    struct dovecounter_half halves[DOVECOUNTER_MOST_VDM + 1]; /* the lower one after those that were read */
    uint8_t bank, count;                                      /* its number; how many of those */
    uint8_t release;                                          /* what became of a freeze */
    bool ended;
    struct dovecounter_vdm_end end; /* if it has ended */
};
/* The same of its banks, so many of them, from bank 0 on. */
struct listed {
    struct listed_bank banks[BANKS];
    uint8_t count;
    bool interrupted;
};
bool read_listed(struct port *port, struct listed *listed);
size_t join_listed(const struct listed *listed, struct dovecounter_half halves[MOST_LISTED]);
uint8_t absent_page(const struct listed *listed);

/* observables.c */
enum status observables(struct port *port);

/* provision.c */
enum status plan(struct port *port);
enum status provision(struct port *port);

/* words.c */
void print_bytes(FILE *out, const uint8_t *bytes, size_t count);
void print_codes(FILE *out, const uint8_t codes[4], const char *const names[16]);
void print_lanes(FILE *out, unsigned lanes);
void say_fault(const char *name, struct dovecounter_fault fault);
#endif
