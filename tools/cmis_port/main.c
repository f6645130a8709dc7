/* The words of the command line, and how the program ends. */
#include "port.h"

#include <err.h>
#include <getopt.h>
#include <signal.h>
#include <stdlib.h>
#include <string.h>
#include <unistd.h>

static const char usage[] =
    "usage: cmis-port BUS image | state | history | plan [WEIGHTS] | provision [WEIGHTS] | wake | sleep\n"
    "       cmis-port BUS observables\n"
    "       cmis-port BUS firmware [commit | abort | update FILE]\n"
    "       cmis-port BUS lanes\n"
    "       cmis-port BUS tx | rx on | off LANES\n"
    "       cmis-port BUS tx-polarity | rx-polarity normal | flipped LANES\n"
    "       cmis-port BUS tx-squelch | rx-squelch auto | disabled LANES\n"
    "       cmis-port BUS tx-squelch forced | released LANES\n"
    "       cmis-port BUS loopback media | host output | input [LANES]\n"
    "       cmis-port BUS prbs --side media | host --pattern PATTERN --for TIME\n"
    "       cmis-port BUS settings [set lane=LANES SETTING=VALUE ..]\n"
    "  BUS             /dev/i2c-N, the eeprom file of the driver optoe, or sim:IMAGE[,SCRIPT] to simulate a module;\n"
    "                  or a port of cmisd, as swp1, which answers image, state, history and plan without the bus,\n"
    "                  and carries out provision, wake and sleep itself\n"
    "  LANES           such as 3 or 1-4,7: media lanes of tx and tx-squelch, else host lanes\n"
    "  WEIGHTS         a file with a line [host] and lines such as 0Dh = 101\n"
    "  image           print the module's memory, for cmisctl\n"
    "  observables     print all that the module measures, with limits and flags, as cmisctl observables does\n"
    "  state           print the states of the module and its lanes, its flags, and the active control bytes\n"
    "  history         print how often flags were raised and lanes have changed, and when last, as cmisd has it\n"
    "  plan            print the best plan, and whether provision would accept it; without WEIGHTS by cmisd's\n"
    "  provision       write the best plan to the module; without WEIGHTS cmisd does, and brings it up\n"
    "  wake            take the module out of low power\n"
    "  sleep           put it into low power\n"
    "  firmware        print what the module's firmware banks hold\n"
    "    commit        have the image that runs run after each reset\n"
    "    abort         give an open download up\n"
    "    update        write FILE to the bank that doesn't run, run it, and commit it\n"
    "  lanes           print which lanes have which control: outputs disabled, polarity flipped and so on\n"
    "  tx, rx          switch outputs of these lanes on or off; so their polarity, and their squelch\n"
    "  loopback        loop lanes back, all if none are named, for a time or until a signal comes\n"
    "  prbs            make and check a pattern, such as PRBS31Q, and print what each lane has shown\n"
    "  settings        print the signal integrity settings of each lane, and what the module can do\n"
    "    set           change some: adaptive, cdr-tx, cdr-rx (on, off), recall, input, pre, post, amplitude (a code)\n"
    "  --app A         plan paths of this Application alone, in place of WEIGHTS\n"
    "  --keep A,H,M    keep a data path that is active: its Application, first host lane, first media lane\n"
    "  --unpaired      let any first host lane go with any first media lane\n"
    "  --counts-by-id  look up lane counts of 0 by interface ID\n"
    "  --activate      bring the plan's data paths up\n"
    "  --ensure        take down what is in the way, but no active path that the plan has too\n"
    "  --settings X    give lanes of the plan settings such as 'lane=1-4 pre=2', as settings set does\n"
    "  --force         take down, or disturb, whatever is up; accept a plan without paths\n"
    "  --wake          take the module out of low power first\n"
    "  --reset         let an update restart the module, which takes its lanes down\n"
    "  --no-commit     end an update once the new image runs\n"
    "  --password FILE first give the module the password in FILE, eight hexadecimal digits\n"
    "  --for TIME      such as 60s, 5m or 2h: test a link for so long\n"
    "  --lanes LANES   make and check the pattern on these lanes of the side alone\n"
    "  --loopback X    loop them back meanwhile: media-output, media-input, host-output or host-input\n"
    "  --show X        print error ratios, counts (of lanes 1 to 4 or 5 to 8), or noise\n"
    "  --vdm           add to the image what the module lists itself (VDM)\n"
    "  --json          print a line of JSON each\n"
    "  --log FILE      write each transaction to FILE\n"
    "  --version       print the version\n"
    "Examples:\n"
    "  cmis-port /dev/i2c-7 image | cmisctl inventory\n"
    "  cmis-port /dev/i2c-7 provision --activate --ensure --wake weights.txt\n";

static bool read_path(const char *word, struct dovecounter_path *path) {
    unsigned application, host, media;
    char rest;
    if (word[strspn(word, "0123456789,")] != 0) return false;
    if (sscanf(word, "%2u,%1u,%1u%c", &application, &host, &media, &rest) != 3) return false;
    *path = (struct dovecounter_path){(uint8_t)application, (uint8_t)host, (uint8_t)media};
    return true;
}

static bool read_application(struct port *port, const char *word) {
    char rest;
    if (word[strspn(word, "0123456789")] != 0 || sscanf(word, "%2u%c", &port->application, &rest) != 1) return false;
    return port->is_weighed = port->application >= 1 && port->application <= 15;
}

static bool take_flag(struct port *port, int flag) {
    switch (flag) {
    case 'A': return read_application(port, optarg);
    case 'V': return port->version = true;
    case 'k': return port->kept_count < 9 && read_path(optarg, &port->kept[port->kept_count++]);
    case 'l': return (port->log_name = optarg) != NULL;
    case 'P': return (port->password_name = optarg) != NULL;
    case 'a': return port->activate = true;
    case 'u': return port->unpaired = true;
    case 'c': return port->counts_by_id = true;
    case 'e': return port->ensure = true;
    case 'f': return port->force = true;
    case 'w': return port->wake = true;
    case 'r': return port->reset = true;
    case 'n': return port->no_commit = true;
    case 'j': return port->json = true;
    case 'v': return port->vdm = true;
    case 'h': return port->help = true;
    case 's': return (port->words.side = optarg) != NULL;
    case 'p': return (port->words.pattern = optarg) != NULL;
    case 'L': return (port->words.lanes = optarg) != NULL;
    case 't': return (port->words.time = optarg) != NULL;
    case 'S': return (port->words.shown = optarg) != NULL;
    case 'b': return (port->words.loopback = optarg) != NULL;
    case 'g': return port->is_tuned = read_plan_targets(port, optarg);
    default: return false;
    }
}

static bool read_flags(int count, char **words, struct port *port) {
    static const struct option flags[] = {{"app", required_argument, NULL, 'A'},
                                          {"version", no_argument, NULL, 'V'},
                                          {"keep", required_argument, NULL, 'k'},
                                          {"log", required_argument, NULL, 'l'},
                                          {"activate", no_argument, NULL, 'a'},
                                          {"force", no_argument, NULL, 'f'},
                                          {"ensure", no_argument, NULL, 'e'},
                                          {"wake", no_argument, NULL, 'w'},
                                          {"help", no_argument, NULL, 'h'},
                                          {"unpaired", no_argument, NULL, 'u'},
                                          {"counts-by-id", no_argument, NULL, 'c'},
                                          {"reset", no_argument, NULL, 'r'},
                                          {"no-commit", no_argument, NULL, 'n'},
                                          {"password", required_argument, NULL, 'P'},
                                          {"vdm", no_argument, NULL, 'v'},
                                          {"json", no_argument, NULL, 'j'},
                                          {"side", required_argument, NULL, 's'},
                                          {"pattern", required_argument, NULL, 'p'},
                                          {"lanes", required_argument, NULL, 'L'},
                                          {"for", required_argument, NULL, 't'},
                                          {"show", required_argument, NULL, 'S'},
                                          {"loopback", required_argument, NULL, 'b'},
                                          {"settings", required_argument, NULL, 'g'},
                                          {0}};
    int flag;
    optind = 0;
    while ((flag = getopt_long(count, words, "h", flags, NULL)) != -1)
        if (!take_flag(port, flag)) return false;
    return true;
}

struct command {
    const char *name, *second; /* its words; the second is NULL if it has one */
    enum status (*run)(struct port *port);
    bool (*read)(struct port *port, const char *name); /* the file that it takes, or NULL */
    bool plans;                                        /* it takes --keep, --unpaired and --counts-by-id */
    bool chooses;                                      /* it takes --app, and needs it if it stores */
    bool stores, forces; /* it takes --activate, --ensure, --wake and --settings; it takes --force */
    bool resets, shows;  /* it takes --reset and --no-commit; it takes --json */
    bool asks;           /* it takes the memory as cmisd has it */
    bool borrows;        /* it may have the bus of a port that cmisd keeps */
    bool requests;       /* cmisd carries it out at a port that it keeps */
    bool unlocks;        /* it takes --password */
    bool sets;           /* its words are followed by a setting and lanes */
    bool loops, checks;  /* by a side, a kind and perhaps lanes; by flags about a pattern */
    bool tunes;          /* its words are followed by settings with their values */
    bool lists;          /* it takes --vdm */
};

static bool read_host(struct port *port, const char *name) {
    return port->is_weighed = read_weights(name, port->weights);
}

static bool is_stray(const struct port *port, const struct command *command) {
    bool asks = port->kept_count > 0 || port->unpaired || port->counts_by_id;
    bool changes = port->activate || port->ensure || port->wake || port->is_tuned;
    const struct link_words *words = &port->words;
    bool of_pattern = words->side || words->pattern || words->lanes || words->shown || words->loopback;
    if (port->vdm && !command->lists) return true;
    if (port->application > 0 && !command->chooses) return true;
    if ((of_pattern && !command->checks) || (words->time && !command->checks && !command->loops)) return true;
    if (port->password_name && !command->unlocks) return true;
    return (asks && !command->plans) || (changes && !command->stores) || (port->force && !command->forces) ||
           ((port->reset || port->no_commit) && !command->resets) || (port->json && !command->shows);
}

/* The command that the words name, if all flags are its own; else NULL. The last word is that of the file that it takes. */
static const struct command *read_words(int count, char **words, struct port *port) {
    static const struct command commands[] = {
        {.name = "image", .run = image, .asks = true, .shows = true, .lists = true},
        {.name = "observables", .run = observables, .shows = true, .borrows = true},
        {.name = "state", .run = state, .asks = true, .shows = true},
        {.name = "history", .run = history, .asks = true, .shows = true},
        {.name = "plan", .run = plan, .asks = true, .plans = true, .chooses = true, .shows = true},
        {.name = "plan", .run = plan, .read = read_host, .asks = true, .plans = true, .shows = true},
        {.name = "provision", .run = provision, .read = read_host, .plans = true, .stores = true, .forces = true},
        {.name = "provision", .run = provision, .plans = true, .chooses = true, .stores = true, .forces = true},
        {.name = "provision", .run = provision, .requests = true, .forces = true},
        {.name = "wake", .run = wake, .requests = true},
        {.name = "sleep", .run = put_to_sleep, .requests = true, .forces = true},
        {.name = "firmware", .run = firmware, .shows = true, .borrows = true, .unlocks = true},
        {.name = "firmware",
         .second = "commit",
         .run = firmware_commit,
         .shows = true,
         .borrows = true,
         .unlocks = true},
        {.name = "firmware", .second = "abort", .run = firmware_abort, .borrows = true, .unlocks = true},
        {.name = "firmware",
         .second = "update",
         .run = firmware_update,
         .read = read_file,
         .resets = true,
         .shows = true,
         .borrows = true,
         .unlocks = true},
        {.name = "lanes", .run = print_controls, .shows = true, .borrows = true},
        {.name = "settings", .run = print_settings, .shows = true, .borrows = true},
        {.name = "settings",
         .second = "set",
         .run = change_settings,
         .tunes = true,
         .forces = true,
         .shows = true,
         .borrows = true},
        {.name = "tx", .run = change_lanes, .sets = true, .forces = true, .shows = true, .borrows = true},
        {.name = "rx", .run = change_lanes, .sets = true, .forces = true, .shows = true, .borrows = true},
        {.name = "tx-polarity", .run = change_lanes, .sets = true, .forces = true, .shows = true, .borrows = true},
        {.name = "rx-polarity", .run = change_lanes, .sets = true, .forces = true, .shows = true, .borrows = true},
        {.name = "tx-squelch", .run = change_lanes, .sets = true, .forces = true, .shows = true, .borrows = true},
        {.name = "rx-squelch", .run = change_lanes, .sets = true, .forces = true, .shows = true, .borrows = true},
        {.name = "loopback", .run = test_link, .loops = true, .forces = true, .shows = true, .borrows = true},
        {.name = "prbs", .run = test_link, .checks = true, .forces = true, .shows = true, .borrows = true}};
    if (!read_flags(count, words, port) || port->help || port->version || optind + 1 >= count) return NULL;
    port->bus.name = words[optind];
    for (const struct command *each = commands; each < commands + sizeof commands / sizeof *commands; each++) {
        int length = 2 + (each->second != NULL) + (each->read != NULL) + 2 * each->sets + 2 * each->loops;
        int more = count - optind - length; /* the settings, or the lanes of a loopback */
        if (more < 0 || (more > each->loops && !each->tunes) || strcmp(words[optind + 1], each->name) != 0) continue;
        if (each->second != NULL && strcmp(words[optind + 2], each->second) != 0) continue;
        if (each->chooses && each->stores && port->application == 0) continue;
        if (each->sets && !read_change(port, each->name, words[optind + 2], words[optind + 3])) return NULL;
        const char *lanes = more > 0 ? words[optind + 4] : NULL;
        if (each->loops && !read_loopback(port, words[optind + 2], words[optind + 3], lanes)) return NULL;
        if (each->checks && !read_prbs(port)) return NULL;
        if (each->tunes && !read_targets(port, words + optind + length, more)) return NULL;
        return is_stray(port, each) ? NULL : each;
    }
    return NULL;
}

static void close_log(struct port *port) {
    bool is_whole = !ferror(port->log);
    if (fclose(port->log) != 0 || !is_whole) warnx("%s: not each operation could be written there", port->log_name);
}

/* What it takes to begin: a file, cmisd's answer, the bus. */
static enum status prepare(const struct command *command, struct port *port, const char *name) {
    if (port->password_name != NULL && !read_password(port, port->password_name)) return REFUSED;
    if (command->read != NULL && !command->read(port, name)) return REFUSED;
    bool asks = command->asks && !port->vdm, borrows = command->borrows || port->vdm;
    ask_manager(port, asks);
    if (command->run == history) return DONE;
    if (asks && !take_told(port)) return REFUSED;
    if (command->requests && is_kept(port) && port->log_name != NULL)
        return warnx("%s: cmisd makes the transactions, and logs none", port->bus.name), COMMAND_LINE;
    if (command->requests && is_kept(port)) return DONE;
    if ((command->run == plan || command->run == provision) && !port->is_weighed && !port->is_told)
        return warnx("%s: cmisd doesn't keep it, so a file with weights has to be named", port->bus.name), COMMAND_LINE;
    return (!borrows || borrow_bus(port)) && open_port(port) ? DONE : REFUSED;
}

/* Whatever may keep the program waiting is read before signals are held back, and before the module is touched. */
static enum status run(const struct command *command, struct port *port, const char *name) {
    enum status status = prepare(command, port, name);
    bool is_request = command->requests && is_kept(port);
    if (status == DONE && is_request) status = request(port, command->name);
    hold_signals(&port->signals);
    if (status == DONE && !is_request) status = command->run(port);
    unlock_bus(&port->bus);
    release_signals(port);
    if (port->log != NULL) close_log(port);
    close_bus(&port->bus);
    give_back_bus(port);
    free(port->file);
    return status;
}

/* What there is to say without a command; whether that was asked for. */
static bool print_about(const struct port *port) {
    uint8_t text[DOVECOUNTER_TEXT_SIZE];
    size_t length = 0;
    dovecounter_version(text, sizeof text, &length);
    if (port->version)
        printf("cmis-port %.*s\n", (int)length, (const char *)text);
    else
        fputs(usage, port->help ? stdout : stderr);
    return port->version || port->help;
}

int main(int count, char **words) {
    static char output[1 << 18]; /* holds all of it, to be written where a signal may end the program */
    struct port port = {.bus = {.file = -1, .lock.file = -1}, .manager = -1, .most = 128, .least = 8};
    fill_streams();
    signal(SIGPIPE, SIG_IGN); /* writes fail instead, */
    signal(SIGXFSZ, SIG_IGN); /* also those above a limit of the file's size */
    setvbuf(stdout, output, _IOFBF, sizeof output);
    const struct command *command = read_words(count, words, &port);
    enum status status = command != NULL      ? run(command, &port, words[count - 1])
                         : print_about(&port) ? DONE
                                              : COMMAND_LINE;
    if (fflush(stdout) == 0 && !ferror(stdout)) return (int)status;
    warn("standard output");
    return status == DONE ? NOT_WRITTEN : (int)status;
}
