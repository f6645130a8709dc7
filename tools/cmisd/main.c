/* The words of the command line, and the loop that waits for signals, for clients, and for the watchdog. */
#define _GNU_SOURCE
#include "cmisd.h"

#include <err.h>
#include <fcntl.h>
#include <getopt.h>
#include <malloc.h>
#include <signal.h>
#include <stdlib.h>
#include <string.h>
#include <sys/file.h>
#include <sys/signalfd.h>
#include <sys/stat.h>
#include <systemd/sd-daemon.h>
#include <time.h>
#include <unistd.h>

enum { STOPS_WITHIN = 2000, MOST_WAIT = 5000 }; /* milliseconds */

static const char usage[] =
    "usage: cmisd [--config FILE] [--folder FOLDER] [--check | COMMAND..]\n"
    "  without COMMAND   keep the modules in the ports of FILE (/etc/cmisd.conf) as they are wanted\n"
    "  --check           say what is wrong with FILE, by line\n"
    "  COMMAND           ask the cmisd that runs on FOLDER (/run/cmisd):\n"
    "    ports | show PORT              all ports; all of one\n"
    "    events                         what happens from now on\n"
    "    reload                         read FILE again\n"
    "    hold PORT | release PORT       leave its bus to others, or no longer\n"
    "    sleep PORT [LANES]             put its module to sleep; LANES may go down\n"
    "    deactivate PORT LANES          take down the data paths of these lanes\n"
    "    wake PORT                      end both\n"
    "    provision PORT [LANES]         end both, and judge the module anew; LANES may go down\n"
    "    acknowledge PORT [MOMENT]      its flags are known\n"
    "Examples:\n"
    "  cmisd --check\n"
    "  cmisd show swp1\n";

static const char *configuration_name = "/etc/cmisd.conf";

/* Reads the configuration again. If anything is wrong with it, it stays as it was. */
bool reload(void) {
    struct configuration configuration;
    bool is_good = read_configuration(configuration_name, &configuration);
    if (is_good) apply(&configuration);
    free(configuration.entries);
    return is_good;
}

/* systemd takes no moment from before its signal, not even one that is rounded to that. */
static void reload_by_signal(void) {
    struct timespec time;
    clock_gettime(CLOCK_MONOTONIC, &time);
    sd_notifyf(0, "RELOADING=1\nMONOTONIC_USEC=%lld", time.tv_sec * 1000000LL + time.tv_nsec / 1000);
    pthread_mutex_lock(&state);
    if (!reload()) warnx("%s: what was read before stays", configuration_name);
    pthread_mutex_unlock(&state);
    sd_notify(0, "READY=1");
}

/* One cmisd for a folder: its lock ends with the program. Others may read what is there. */
static void take_folder(void) {
    if (mkdir(folder, 0755) != 0) chmod(folder, 0755); /* as it is made by systemd, root alone may enter */
    int file = open(folder, O_RDONLY | O_DIRECTORY | O_CLOEXEC);
    if (file < 0) err(EXIT_FAILURE, "%s", folder);
    if (flock(file, LOCK_EX | LOCK_NB) != 0) errx(EXIT_FAILURE, "%s: another cmisd runs there", folder);
}

/* Those that end the program or reload, in a file to wait for: threads that begin later don't take them. */
static int open_signals(void) {
    sigset_t signals;
    sigemptyset(&signals);
    for (const int *each = (const int[]){SIGHUP, SIGINT, SIGTERM, 0}; *each != 0; each++) sigaddset(&signals, *each);
    pthread_sigmask(SIG_BLOCK, &signals, NULL);
    int file = signalfd(-1, &signals, SFD_CLOEXEC | SFD_NONBLOCK);
    if (file < 0) err(EXIT_FAILURE, "signals");
    return file;
}

/* Whether the program goes on. */
static bool take_signal(int file) {
    struct signalfd_siginfo signal;
    if (read(file, &signal, sizeof signal) != sizeof signal) return true;
    if (signal.ssi_signo == SIGHUP) reload_by_signal();
    return signal.ssi_signo == SIGHUP;
}

/* The watchdog hears of this thread as long as it gets the state, which no thread keeps while it waits for a bus or a pin. */
static void serve_until_stopped(int signals, int server, int most_wait) {
    for (bool goes_on = true; goes_on;) {
        struct pollfd files[2 + MOST_CLIENTS] = {{.fd = signals, .events = POLLIN}, {.fd = server, .events = POLLIN}};
        pthread_mutex_lock(&state);
        size_t count = 2 + list_clients(files + 2);
        renew_files();
        pthread_mutex_unlock(&state);
        sd_notify(0, "WATCHDOG=1");
        if (poll(files, count, most_wait) <= 0) continue;
        pthread_mutex_lock(&state);
        for (size_t i = 2; i < count; i++)
            if (files[i].revents != 0) serve(files[i].fd);
        if (files[1].revents != 0) accept_client(server);
        pthread_mutex_unlock(&state);
        if (files[0].revents != 0) goes_on = take_signal(signals);
    }
}

static int run(void) {
    uint64_t watchdog = 0; /* microseconds */
    int signals = open_signals();
    mallopt(M_ARENA_MAX, 1); /* or each thread takes memory of its own */
    signal(SIGPIPE, SIG_IGN);
    signal(SIGXFSZ, SIG_IGN);
    take_folder();
    int server = open_control();
    pthread_mutex_lock(&state);
    begin_ports();
    if (!reload()) return EXIT_FAILURE;
    remove_old_files();
    pthread_mutex_unlock(&state);
    sd_watchdog_enabled(0, &watchdog);
    sd_notify(0, "READY=1");
    serve_until_stopped(signals, server, watchdog > 0 ? (int)(watchdog / 2000) : MOST_WAIT);
    sd_notify(0, "STOPPING=1");
    pthread_mutex_lock(&state);
    bool has_ended = stop_all(STOPS_WITHIN);
    pthread_mutex_unlock(&state);
    if (!has_ended) warnx("a bus has not answered, and is left");
    close(server);
    return EXIT_SUCCESS;
}

/* Whether it could be printed. */
static int print_help(void) { return fputs(usage, stdout) == EOF || fflush(stdout) != 0 ? EXIT_FAILURE : EXIT_SUCCESS; }

int main(int count, char **words) {
    static const struct option flags[] = {{"config", required_argument, NULL, 'c'},
                                          {"folder", required_argument, NULL, 'd'},
                                          {"check", no_argument, NULL, 'k'},
                                          {"help", no_argument, NULL, 'h'},
                                          {0}};
    bool checks = false;
    int flag;
    while ((flag = getopt_long(count, words, "+h", flags, NULL)) != -1) {
        if (flag == 'c')
            configuration_name = optarg;
        else if (flag == 'd')
            folder = optarg;
        else if (flag == 'k')
            checks = true;
        else
            return flag == 'h' ? print_help() : (fputs(usage, stderr), 2);
    }
    if (checks && optind < count) return fputs(usage, stderr), 2;
    if (optind < count) return ask(count - optind, words + optind);
    if (!checks) return run();
    struct configuration configuration;
    bool is_good = read_configuration(configuration_name, &configuration);
    free(configuration.entries);
    return is_good ? EXIT_SUCCESS : EXIT_FAILURE;
}
