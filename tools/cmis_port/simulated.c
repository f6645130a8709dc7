/* A simulated module in place of a bus: sim:IMAGE, or sim:IMAGE,SCRIPT, with texts as cmisctl has them. */
#include "bus.h"

#include <err.h>
#include <errno.h>
#include <string.h>

enum { MOST_LINES = 128 }; /* of an image's text that are looked at */

static bool read_digits(const char *digits, uint8_t bytes[128]) {
    for (size_t i = 0; i < 128; i++)
        if (sscanf(digits + 2 * i, "%2hhx", &bytes[i]) != 1) return false;
    return true;
}

static bool read_half(const char *line, struct dovecounter_half *half) {
    char digits[257] = "";
    *half = (struct dovecounter_half){0};
    half->upper = sscanf(line, "lower %hhx %256s", &half->device, digits) != 2;
    if (half->upper && sscanf(line, "upper %hhx %hhx %hhx %256s", &half->device, &half->bank, &half->page, digits) != 4)
        return false;
    return strlen(digits) == 256 && read_digits(digits, half->bytes);
}

/* The halves of an image text; how many there are. */
size_t read_halves(FILE *file, struct dovecounter_half *halves, size_t most) {
    char line[400];
    size_t count = 0;
    for (int lines = 0; lines < MOST_LINES && count < most; lines++) {
        if (fgets(line, sizeof line, file) == NULL || strcmp(line, "end\n") == 0) break;
        if (read_half(line, &halves[count])) count++;
    }
    return count;
}

static bool read_image(const char *name, struct simulated *simulated) {
    FILE *file = fopen(name, "r");
    if (file == NULL) return warn("%s", name), false;
    simulated->count = read_halves(file, simulated->halves, MOST_SIMULATED);
    fclose(file);
    return true;
}

static bool read_script(const char *name, struct simulated *simulated) {
    static const char *const words[] = {"ok", "nack", "cut", "tick", "lpmode"};
    struct directive directive;
    char word[8];
    int found;
    FILE *file = fopen(name, "r");
    if (file == NULL) return warn("%s", name), false;
    while ((found = fscanf(file, "%7s %5u", word, &directive.number)) == 2 && simulated->length < 1024) {
        for (directive.kind = OK; directive.kind <= LPMODE && strcmp(word, words[directive.kind]) != 0;)
            directive.kind++;
        if (directive.kind > LPMODE || directive.number > (directive.kind == LPMODE ? 1 : UINT16_MAX)) break;
        simulated->script[simulated->length++] = directive;
    }
    fclose(file);
    if (found != EOF) warnx("%s: this is no script", name);
    return found == EOF;
}

/* `names` is the image's file, and perhaps a comma and the script's. */
bool open_simulated(struct simulated *simulated, const char *names) {
    const struct dovecounter_delays delays = {4, 4, 4, 4, 4, 4, 4};
    const char *comma = strchr(names, ',');
    char image[4096];
    snprintf(image, sizeof image, "%.*s", comma != NULL ? (int)(comma - names) : (int)strlen(names), names);
    if (!read_image(image, simulated) || (comma != NULL && !read_script(comma + 1, simulated))) return false;
    uint32_t status = dovecounter_module_begin(simulated->halves, simulated->count, &delays, &simulated->module);
    if (status != DOVECOUNTER_DONE) warnx("%s: %s", image, sentence(status));
    return status == DOVECOUNTER_DONE;
}

static void tick(struct simulated *simulated, unsigned times) {
    while (times-- > 0) dovecounter_module_tick(&simulated->module);
}

/* What happens to the next transaction; after the last directive all are passed on. */
static struct directive follow_script(struct simulated *it) {
    for (; it->at < it->length; it->at++) {
        struct directive *directive = &it->script[it->at];
        switch (directive->kind) {
        case TICK: tick(it, directive->number); break;
        case LPMODE: dovecounter_module_pin(&it->module, directive->number == 1); break;
        case CUT: return it->at++, *directive;
        default:
            if (directive->number-- > 0) return *directive;
        }
    }
    return (struct directive){OK, 0};
}

/* How many bytes of a store the module takes. */
static size_t taken(struct directive directive, size_t count) {
    if (directive.kind == OK) return count;
    return directive.kind == NACK ? 0 : directive.number < count ? directive.number : count;
}

bool transact_simulated(struct bus *bus, const struct dovecounter_operation *operation, uint8_t *bytes) {
    struct simulated *it = &bus->simulated;
    struct directive directive = follow_script(it);
    size_t count = taken(directive, operation->count);
    uint32_t status = DOVECOUNTER_DONE;
    if (operation->kind == DOVECOUNTER_STORE && count > 0)
        status = dovecounter_module_store(it->halves, it->count, &it->module, operation->device, operation->offset,
                                          operation->bytes, count);
    if (operation->kind == DOVECOUNTER_FETCH && directive.kind == OK)
        status = dovecounter_module_fetch(it->halves, it->count, &it->module, operation->device, operation->offset,
                                          bytes, count);
    tick(it, 1);
    errno = EREMOTEIO;
    return directive.kind == OK && status == DOVECOUNTER_DONE;
}
