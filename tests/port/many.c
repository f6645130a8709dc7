/* Runs cmis-port, linked in, on modules made by chance: `many FIRST COUNT`. Each success has the plan active, lanes that are kept never
   leave DPActivated, nothing is stored but what the plan allows, nothing that is up is taken down without --force or --ensure, and by
   --ensure alone no path that the plan has. Faults are planted in how runs have ended, each of which has to be found. */
#include "dovecounter.h"
#include "shim.h"

#include <fcntl.h>
#include <stdio.h>
#include <stdlib.h>
#include <string.h>
#include <unistd.h>

int cmis_port_main(int count, char **words);

struct run {
    uint64_t random;
    struct dovecounter_half halves[3]; /* what planning looks at */
    struct dovecounter_path paths[8];  /* those that are active */
    uint8_t lanes[8];                  /* host lanes of each */
    size_t path_count, kept_count;     /* the first of them are kept */
    uint8_t up;                        /* host lanes of these paths */
    uint32_t weights[256];
    bool activate, ensure, force, in_a_row;
};

static unsigned below(struct run *run, unsigned limit) { return (unsigned)(next_random(&run->random) % limit); }

static unsigned lanes_from(unsigned first, unsigned count) { return ((1U << count) - 1) << (first - 1); }

/* ---- a module ---- */

static void make_application(struct run *run, unsigned number) {
    static const uint8_t counts[] = {1, 1, 2, 2, 4, 8};
    struct emulator *module = &shim.module;
    uint8_t *bytes = number <= 8 ? &module->lower[86 + 4 * (number - 1)] : &module->pages[1][95 + 4 * (number - 9)];
    bytes[0] = (uint8_t)(1 + below(run, 20));
    bytes[1] = (uint8_t)(1 + below(run, 200));
    bytes[2] = (uint8_t)(counts[below(run, 6)] << 4 | counts[below(run, 6)]);
    bytes[3] = (uint8_t)(1 + below(run, 255));
    module->pages[1][176 - 128 + number - 1] = (uint8_t)(1 + below(run, 255));
}

static uint8_t sum(const uint8_t *bytes, size_t count) {
    unsigned total = 0;
    for (size_t i = 0; i < count; i++) total += bytes[i];
    return (uint8_t)total;
}

static void make_memory(struct run *run) {
    struct emulator *module = &shim.module;
    unsigned count = 1 + below(run, 15);
    for (unsigned page = 0; page < 256; page++) module->present[page] = page < 3 || page == 0x10 || page == 0x11;
    memset(&module->lower[86], 0xFF, 32);
    memset(&module->pages[1][95], 0xFF, 28);
    for (unsigned at = 0; at < 82; at++) module->pages[0][at] = (uint8_t)below(run, 256);
    module->lower[0] = below(run, 2) ? 0x18 : 0x19;
    module->lower[1] = 0x50;
    module->lower[3] = 3 << 1;
    for (unsigned number = 1; number <= count; number++) make_application(run, number);
    module->pages[0][94] = sum(module->pages[0], 94);
    module->pages[1][127] = sum(module->pages[1] + 2, 125);
}

static void take_halves(struct run *run) {
    const uint8_t *bytes[3] = {shim.module.lower, shim.module.pages[0], shim.module.pages[1]};
    for (unsigned i = 0; i < 3; i++) {
        run->halves[i] = (struct dovecounter_half){.device = 0xA0, .upper = i > 0, .page = i == 2};
        memcpy(run->halves[i].bytes, bytes[i], 128);
    }
}

/* Puts paths into the Active Control Set, each if it is allowed and free beside those before. */
static void make_active(struct run *run) {
    struct dovecounter_plan plan;
    for (unsigned tries = below(run, 30); tries > 0 && run->path_count < 8; tries--) {
        struct dovecounter_path *path = &run->paths[run->path_count];
        *path = (struct dovecounter_path){(uint8_t)(1 + below(run, 15)), (uint8_t)(1 + below(run, 8)),
                                          (uint8_t)(1 + below(run, 8))};
        if (dovecounter_plan(run->halves, 3, 1, 0, run->weights, 0, run->paths, run->path_count + 1, &plan) ==
            DOVECOUNTER_DONE)
            run->path_count++;
    }
    for (size_t i = 0; i < run->path_count; i++) {
        struct dovecounter_advertisement said;
        dovecounter_advertisement(run->halves, 3, 0, &said);
        unsigned lanes = lanes_from(run->paths[i].host, said.applications[run->paths[i].application - 1].host_lanes);
        for (unsigned lane = 0; lane < 8; lane++)
            if (lanes >> lane & 1)
                shim.module.pages[0x11][206 - 128 + lane] =
                    (uint8_t)(run->paths[i].application << 4 | (run->paths[i].host - 1) << 1);
        run->lanes[i] = (uint8_t)lanes;
        run->up |= (uint8_t)lanes;
    }
}

static void make_run(struct run *run, uint64_t number, const char *file) {
    *run = (struct run){.random = number * 0x9E3779B9U + 1};
    shim = (struct shim){.random = number, .refuse = below(run, 5) * 10, .error = 121};
    snprintf(shim.image, sizeof shim.image, "%s", file);
    begin_emulator(&shim.module, number);
    shim.module.slowest = 1 + below(run, below(run, 4) ? 20 : 4000);
    shim.module.silent = below(run, 3) ? 0 : 1 + below(run, 60);
    shim.longest = below(run, 4) ? 0 : 16U << below(run, 4);
    for (unsigned id = 0; id < 256; id++) run->weights[id] = below(run, 8) ? below(run, 400) : 0;
    make_memory(run);
    take_halves(run);
    make_active(run);
    memset(shim.module.status, (int)below(run, 2), sizeof shim.module.status);
    if (below(run, 4) == 0) shim.module.pages[0x10][0] = (uint8_t)below(run, 256); /* DPDeinit */
    power_up(&shim.module);
    shim.fresh = shim.module;
    switch (below(run, 12)) {
    case 0: shim.swap = 1 + below(run, 80); break;
    case 1: shim.unplug = 1 + below(run, 80); break;
    case 2: shim.interrupt = 1 + below(run, 80); break;
    default: break;
    }
    run->kept_count = run->path_count > 0 ? below(run, (unsigned)run->path_count + 1) : 0;
    run->activate = below(run, 2);
    run->force = below(run, 3) > 0;
    run->in_a_row = below(run, 4) == 0;
    run->ensure = below(run, 3) == 0;
}

static void write_weights(const struct run *run, const char *name) {
    FILE *file = fopen(name, "w");
    if (file == NULL) abort();
    fputs("[host]\n", file);
    for (unsigned id = 0; id < 256; id++)
        if (run->weights[id] != 0) fprintf(file, "%02Xh = %u\n", id, run->weights[id]);
    fclose(file);
}

/* ---- the program ---- */

static int carry_out(const struct run *run, char *weights) {
    static char bus[] = "/dev/i2c-99", eeprom[] = "/sys/bus/i2c/devices/99-0050/eeprom", program[] = "cmis-port";
    static char provision[] = "provision", keep[] = "--keep", activate[] = "--activate", force[] = "--force";
    static char ensure[] = "--ensure";
    char kept[8][16], *words[24] = {program, run->in_a_row ? eeprom : bus, provision, weights};
    int count = 4;
    for (size_t i = 0; i < run->kept_count; i++) {
        const struct dovecounter_path *path = &run->paths[i];
        snprintf(kept[i], sizeof kept[i], "%u,%u,%u", path->application, path->host, path->media);
        words[count++] = keep;
        words[count++] = kept[i];
    }
    if (run->activate) words[count++] = activate;
    if (run->force) words[count++] = force;
    if (run->ensure) words[count++] = ensure;
    return cmis_port_main(count, words);
}

/* The lanes of the paths that were up, and that the plan has too. */
static uint8_t staying(const struct run *run, const struct dovecounter_plan *plan) {
    unsigned lanes = 0;
    for (size_t i = 0; i < run->path_count; i++) {
        const struct dovecounter_path *path = &run->paths[i];
        for (size_t other = 0; other < plan->count; other++)
            if (plan->paths[other].application == path->application && plan->paths[other].host == path->host &&
                shim.fresh.path[path->host - 1] == ACTIVATED)
                for (unsigned lane = 0; lane < 8; lane++)
                    if (plan->control[lane] == plan->control[path->host - 1]) lanes |= 1U << lane;
    }
    return (uint8_t)lanes;
}

/* What is wrong with how the program ended; NULL if nothing is. */
static const char *judge(const struct run *run, int status) {
    struct dovecounter_plan plan;
    const struct emulator *module = &shim.module;
    const uint8_t *active = &module->pages[0x11][206 - 128];
    if (dovecounter_plan(run->halves, 3, 1, 0, run->weights, 0, run->paths, run->kept_count, &plan) != DOVECOUNTER_DONE)
        return "no plan";
    uint8_t kept = (uint8_t)~plan.outside;
    if (run->ensure) kept |= staying(run, &plan);
    if (module->left_activated & kept) return "a kept lane went down";
    if (module->deinit & kept) return "a kept lane was asked to go down";
    if (module->applies & kept) return "a kept lane was applied to";
    /* between a selection and its store another module may come, which has page 00h selected */
    if (module->astray != 0 && shim.swap == 0) return "a store went astray";
    if (!run->force && !run->ensure && module->left_activated != 0) return "a lane went down without --force";
    for (unsigned lane = 0; lane < 8 && shim.swap == 0 && !run->force && !run->activate; lane++)
        if (kept >> lane & 1 && shim.fresh.path[lane] == DEACTIVATED && module->path[lane] != DEACTIVATED)
            return "a kept lane came up unasked";
    if ((status == 1 || status == 4) && (module->deinit | module->applies) != 0) return "stored, and refused";
    if (shim.made == shim.swap) return NULL; /* by the last transaction, after which nobody can notice */
    if (status == 0 && memcmp(active, plan.control, 8) != 0) return "another plan is active";
    for (unsigned lane = 0; lane < 8; lane++)
        if (status == 0 && run->activate && plan.lanes >> lane & 1 && module->path[lane] != ACTIVATED)
            return "a lane is not up";
    bool disturbed = shim.swap + shim.unplug + shim.interrupt > 0;
    if (status == 1 && run->force && !disturbed) return "refused";
    if (status == 4 && (run->force || run->ensure)) return "refused what is up";
    return status <= 1 || status == 4 || (status == 3 && disturbed) ? NULL : "not provisioned";
}

/* ---- what is wrong on purpose ---- */

enum { ENOUGH = 20, EACH = 500 }; /* so often a fault is planted; in so many runs each is */

static const char *const faults[] = {"no plan",
                                     "a kept lane went down",
                                     "a kept lane was asked to go down",
                                     "a kept lane was applied to",
                                     "a store went astray",
                                     "a lane went down without --force",
                                     "a kept lane came up unasked",
                                     "stored, and refused",
                                     "another plan is active",
                                     "a lane is not up",
                                     "refused",
                                     "refused what is up",
                                     "not provisioned"};
enum { FAULTS = sizeof faults / sizeof *faults };

static uint8_t kept_lanes(const struct run *run) {
    unsigned lanes = 0;
    for (size_t i = 0; i < run->kept_count; i++) lanes |= run->lanes[i];
    return (uint8_t)lanes;
}

/* The first of these lanes, counted from 0, or 8. */
static unsigned first_of(uint8_t lanes) {
    unsigned lane = 0;
    while (lane < 8 && !(lanes >> lane & 1)) lane++;
    return lane;
}

/* The first lane of an active path, or 8. */
static unsigned first_active(void) {
    unsigned lane = 0;
    while (lane < 8 && shim.module.pages[0x11][206 - 128 + lane] >> 4 == 0) lane++;
    return lane;
}

/* Has a run that was good end with this fault; whether it can. */
static bool plant(unsigned fault, struct run *run, int *status) {
    struct emulator *module = &shim.module;
    const uint8_t kept = kept_lanes(run), others = (uint8_t)~kept;
    bool is_free = !run->force && !run->ensure, is_last = shim.made == shim.swap;
    bool is_disturbed = shim.swap + shim.unplug + shim.interrupt > 0;
    unsigned lane = first_of(kept), active = first_active();
    switch (fault) {
    case 0: return run->halves[0].bytes[0] = 0, true;
    case 1: return module->left_activated |= kept, kept != 0;
    case 2: return module->deinit |= kept, kept != 0;
    case 3: return module->applies |= kept, kept != 0;
    case 4: return module->astray++, shim.swap == 0;
    case 5: return module->left_activated |= others, is_free && others != 0;
    case 6:
        shim.fresh.path[lane % 8] = DEACTIVATED, module->path[lane % 8] = ACTIVATED;
        return !run->force && !run->activate && shim.swap == 0 && lane < 8;
    case 7: return module->deinit |= others, (*status == 1 || *status == 4) && !run->ensure && others != 0;
    case 8: return module->pages[0x11][206 - 128] ^= 0x10, *status == 0 && !is_last;
    case 9: module->path[active % 8] = INIT; return *status == 0 && run->activate && !is_last && active < 8;
    default: module->deinit = module->applies = 0;
    }
    *status = fault == 10 ? 1 : fault == 11 ? 4 : 3;
    return fault == 10 ? run->force && !is_disturbed : fault == 11 ? !is_free && !is_last : !is_disturbed;
}

/* Plants each fault that it can have, and counts those that aren't found. */
static unsigned plant_faults(FILE *out, const struct run *run, int status, unsigned planted[FAULTS]) {
    static struct emulator ended, began;
    unsigned unseen = 0;
    ended = shim.module, began = shim.fresh;
    for (unsigned fault = 0; fault < FAULTS; fault++) {
        struct run other = *run;
        int other_status = status;
        if (planted[fault] < ENOUGH && plant(fault, &other, &other_status)) {
            const char *wrong = judge(&other, other_status);
            bool is_seen = wrong != NULL && strcmp(wrong, faults[fault]) == 0;
            if (!is_seen) fprintf(out, "many: planted: %s; and found: %s\n", faults[fault], wrong ? wrong : "nothing");
            planted[fault]++;
            unseen += !is_seen;
        }
        shim.module = ended, shim.fresh = began;
    }
    return unseen;
}

/* How many were planted. Each has to have been, unless there were few runs: `bad` counts those that were not. */
static unsigned count_planted(FILE *out, uint64_t runs, const unsigned planted[FAULTS], unsigned *bad) {
    unsigned all = 0;
    for (unsigned fault = 0; fault < FAULTS; fault++) {
        all += planted[fault];
        if (runs < EACH || planted[fault] > 0) continue;
        fprintf(out, "many: never planted: %s\n", faults[fault]);
        ++*bad;
    }
    return all;
}

int main(int count, char **words) {
    char weights[] = "/tmp/cmis-port-many.XXXXXX";
    unsigned ends[8] = {0}, planted[FAULTS] = {0}, bad = 0;
    FILE *out = fdopen(dup(STDOUT_FILENO), "w");
    int file = mkstemp(weights);
    if (count != 3 || out == NULL || file < 0) return 2;
    close(file);
    if (freopen("/dev/null", "w", stdout) == NULL || freopen("/dev/null", "w", stderr) == NULL) return 2;
    uint64_t first = strtoull(words[1], NULL, 10), end = first + strtoull(words[2], NULL, 10);
    for (uint64_t number = first; number < end; number++) {
        struct run run;
        make_run(&run, number, weights);
        write_weights(&run, weights);
        int status = carry_out(&run, weights);
        const char *wrong = judge(&run, status);
        ends[status & 7]++;
        if (wrong != NULL) fprintf(out, "many: run %llu: status %d: %s\n", (unsigned long long)number, status, wrong);
        bad += wrong != NULL;
        if (wrong == NULL) bad += plant_faults(out, &run, status, planted);
    }
    unlink(weights);
    unsigned all = count_planted(out, end - first, planted, &bad);
    fprintf(out, "many: %u provisioned, %u refused, %u else, %u planted, %u wrong\n", ends[0], ends[1] + ends[4],
            ends[2] + ends[3] + ends[6], all, bad);
    fclose(out);
    return bad != 0;
}
