/* The configuration: a section for each port, and perhaps one before them, [DEFAULT], with what they have in common. */
#include "cmisd.h"

#include <err.h>
#include <ini.h>
#include <stddef.h>
#include <stdlib.h>
#include <string.h>

enum kind { TEXT, FLAG, NUMBER, WATTS, LANES };

static const struct key {
    const char *name;
    enum kind kind;
    size_t place; /* in an entry */
} keys[] = {
    {"bus", TEXT, offsetof(struct entry, bus)},
    {"weights", TEXT, offsetof(struct entry, weights)},
    {"presence", TEXT, offsetof(struct entry, presence)},
    {"low_power", TEXT, offsetof(struct entry, low_power)},
    {"reset", TEXT, offsetof(struct entry, reset)},
    {"manage", FLAG, offsetof(struct entry, manage)},
    {"paired", FLAG, offsetof(struct entry, wanted.paired)},
    {"counts_by_id", FLAG, offsetof(struct entry, wanted.counts_by_id)},
    {"stay", NUMBER, offsetof(struct entry, wanted.stay)},
    {"max_power", WATTS, offsetof(struct entry, wanted.most_power)},
    {"take_down", LANES, offsetof(struct entry, wanted.may_take_down)},
    {"settle", NUMBER, offsetof(struct entry, times.settle)},
    {"period", NUMBER, offsetof(struct entry, times.period)},
    {"first", NUMBER, offsetof(struct entry, times.first)},
    {"most", NUMBER, offsetof(struct entry, times.most)},
    {"recheck", NUMBER, offsetof(struct entry, times.recheck)},
    {"vdm", NUMBER, offsetof(struct entry, vdm)},
};
enum { KEYS = sizeof keys / sizeof keys[0] };

/* What is read, and how far. */
struct reader {
    const char *name;
    struct configuration *configuration;
    struct entry common, entry; /* what each port begins with; the section in hand */
    unsigned line, begun;       /* the line in hand, and that of the section's head, or 0 before the first one */
    unsigned given, wrong;      /* keys of the section, a bit for each; how many of its lines are wrong */
    bool is_first;              /* of the sections */
};

static void say_wrong(struct reader *reader, unsigned line, const char *which, const char *what) {
    warnx("%s:%u: %s%s", reader->name, line, which, what);
    reader->configuration->errors++;
    reader->wrong++;
}

/* ---- values */

static bool take_number(const char *text, uint32_t most, uint32_t *number) {
    size_t digits = strspn(text, "0123456789");
    unsigned long long value = strtoull(text, NULL, 10); /* of too many digits the most that there is */
    if (digits == 0 || text[digits] != 0 || value > most) return false;
    *number = (uint32_t)value;
    return true;
}

/* In quarters of a watt, below 255, which is no limit: 12, 12.5 or 12.25. */
static bool take_watts(const char *text, uint8_t *quarters) {
    static const char *const parts[] = {"", ".25", ".5", ".75"};
    char whole[4] = "";
    uint32_t watts;
    size_t digits = strspn(text, "0123456789");
    if (digits > 2) return false;
    memcpy(whole, text, digits);
    for (unsigned quarter = 0; quarter < 4 && take_number(whole, 63, &watts); quarter++)
        if (strcmp(text + digits, parts[quarter]) == 0) return (*quarters = (uint8_t)(4 * watts + quarter)) < 255;
    return false;
}

/* Such as 1-4,7; none; or all. */
bool read_lanes(const char *text, uint8_t *lanes) {
    *lanes = strcmp(text, "all") == 0 ? 0xFF : lanes_of_word(text);
    return *lanes != 0 || strcmp(text, "none") == 0;
}

static const char *const demands[] = {
    [TEXT] = " has to be a text of 1 to 127 bytes",
    [FLAG] = " has to be yes or no",
    [NUMBER] = " has to be a number up to 4294967295",
    [WATTS] = " has to be watts in quarters, up to 63.5, such as 12.25",
    [LANES] = " has to be lanes, such as 1-4,7, or none, or all",
};

static bool take_value(const struct key *key, const char *value, void *place) {
    switch (key->kind) {
    case TEXT: memset(place, 0, TEXT_SIZE); return value[0] != 0 && snprintf(place, TEXT_SIZE, "%s", value) < TEXT_SIZE;
    case FLAG: return *(uint8_t *)place = strcmp(value, "yes") == 0, *(uint8_t *)place || strcmp(value, "no") == 0;
    case NUMBER: return take_number(value, UINT32_MAX, place);
    case WATTS: return take_watts(value, place);
    case LANES: return read_lanes(value, place);
    }
    return false;
}

/* ---- sections */

static bool is_common(const struct reader *reader) { return strcmp(reader->entry.name, "DEFAULT") == 0; }

static bool is_name(const char *name) {
    size_t length = strspn(name, "ABCDEFGHIJKLMNOPQRSTUVWXYZabcdefghijklmnopqrstuvwxyz0123456789_-.");
    return length > 0 && length < NAME_SIZE && name[length] == 0 && name[0] != '.';
}

static void begin_section(struct reader *reader, const char *name) {
    const struct configuration *all = reader->configuration;
    reader->entry = reader->common;
    snprintf(reader->entry.name, NAME_SIZE, "%s", name);
    if (!is_name(name))
        say_wrong(reader, reader->begun, name, ": a port's name has up to 31 letters, digits, and _ - .");
    if (is_common(reader) && !reader->is_first) say_wrong(reader, reader->begun, name, " has to be the first section");
    if (entry_of(all, name) != NULL) say_wrong(reader, reader->begun, name, " is the name of an earlier port");
}

/* What can be judged once all lines of a section were read. */
static void end_section(struct reader *reader) {
    struct configuration *all = reader->configuration;
    struct entry *entry = &reader->entry;
    if (reader->begun == 0) return;
    if (reader->given == 0 && reader->wrong == 0)
        return say_wrong(reader, reader->begun, "the section", " has no lines");
    if (reader->wrong > 0) return;
    if (is_common(reader)) return (void)(reader->common = *entry);
    if (entry->bus[0] == 0) return say_wrong(reader, reader->begun, entry->name, " has no bus");
    if (entry->weights[0] == 0 && entry->manage)
        return say_wrong(reader, reader->begun, entry->name, " has no weights");
    if (entry->low_power[0] != 0 && entry->presence[0] == 0) /* or refusals might put what is up to sleep */
        return say_wrong(reader, reader->begun, entry->name, " has low_power, and no presence");
    for (size_t i = 0; i < all->count; i++)
        if (strcmp(all->entries[i].bus, entry->bus) == 0)
            return say_wrong(reader, reader->begun, entry->name, " has the bus of an earlier port");
    all->entries = realloc(all->entries, (all->count + 1) * sizeof *entry);
    if (all->entries == NULL) err(EXIT_FAILURE, "%s", reader->name);
    memcpy(&all->entries[all->count++], entry, sizeof *entry);
}

static int take_line(void *context, const char *section, const char *name, const char *value) {
    struct reader *reader = context;
    size_t at = 0;
    if (reader->begun == 0) return say_wrong(reader, reader->line, name, " stands before the first section"), 1;
    if (reader->entry.name[0] == 0) begin_section(reader, section);
    while (at < KEYS && strcmp(keys[at].name, name) != 0) at++;
    if (at == KEYS) return say_wrong(reader, reader->line, name, " is no key"), 1;
    if (reader->given >> at & 1) return say_wrong(reader, reader->line, name, " is given twice"), 1;
    reader->given |= 1U << at;
    char *place = (char *)&reader->entry + keys[at].place;
    if (!take_value(&keys[at], value, place)) return say_wrong(reader, reader->line, name, demands[keys[at].kind]), 1;
    if (place == reader->entry.weights && !read_weights(value, reader->entry.wanted.weights))
        say_wrong(reader, reader->line, name, " can't be taken from there");
    return 1;
}

struct source {
    struct reader reader;
    FILE *file;
};

/* Gives a line to the library, which has room for `size` bytes of it, and sees where sections begin. */
static char *give_line(char *line, int size, void *context) {
    struct source *source = context;
    struct reader *reader = &source->reader;
    int byte;
    if (fgets(line, size, source->file) == NULL) return NULL;
    reader->line++;
    if (strchr(line, '\n') == NULL && !feof(source->file)) {
        while ((byte = getc(source->file)) != EOF && byte != '\n') continue;
        say_wrong(reader, reader->line, "the line", " is too long");
        line[0] = 0;
    }
    if (line[strspn(line, " \t")] != '[') return line;
    end_section(reader);
    reader->is_first = reader->begun == 0;
    reader->begun = reader->line;
    reader->given = reader->wrong = 0;
    reader->entry.name[0] = 0;
    return line;
}

const struct entry *entry_of(const struct configuration *configuration, const char *name) {
    for (size_t i = 0; i < configuration->count; i++)
        if (strcmp(configuration->entries[i].name, name) == 0) return &configuration->entries[i];
    return NULL;
}

/* Whether the file could be read, and nothing is wrong with it; says what is. */
bool read_configuration(const char *name, struct configuration *configuration) {
    struct source source = {.reader = {.name = name, .configuration = configuration}, .file = fopen(name, "r")};
    struct reader *reader = &source.reader;
    memset(configuration, 0, sizeof *configuration);
    if (source.file == NULL) return warn("%s", name), false;
    reader->common.manage = reader->common.wanted.paired = 1;
    reader->common.wanted.most_power = UINT8_MAX;
    reader->common.times =
        (struct dovecounter_times){.settle = 2000, .period = 10000, .first = 1000, .most = 300000, .recheck = 60000};
    int wrong = ini_parse_stream(give_line, &source, take_line, reader);
    end_section(reader);
    if (wrong > 0) say_wrong(reader, (unsigned)wrong, "", "this is neither [PORT] nor a line such as bus = /dev/i2c-7");
    bool is_whole = !ferror(source.file);
    if (!is_whole) warn("%s", name);
    fclose(source.file);
    return is_whole && configuration->errors == 0;
}
