/* The files of a port, each put in its place whole: PORT.image, its memory as a text of cmisctl; PORT.json, how it is; and PORT.prom, what
   was counted, for Prometheus. */
#include "cmisd.h"

#include <dirent.h>
#include <err.h>
#include <fcntl.h>
#include <stdio_ext.h>
#include <stdlib.h>
#include <string.h>
#include <unistd.h>

const char *folder = "/run/cmisd";

/* ---- PORT.prom */

static void begin_metric(FILE *out, const char *name, const char *type, const char *about) {
    fprintf(out, "# HELP %s %s\n# TYPE %s %s\n", name, about, name, type);
}

/* A sample without its value; lane 0 and no flag are left out. */
static void begin_sample(FILE *out, const char *name, const struct port *port, unsigned lane, const char *flag) {
    fprintf(out, "%s{port=\"%s\"", name, port->entry.name);
    if (lane > 0) fprintf(out, ",lane=\"%u\"", lane);
    if (flag != NULL) fprintf(out, ",flag=\"%s\"", flag);
    fputs("} ", out);
}

/* How often flags were read as raised, or when last. */
static void print_flags(FILE *out, const struct port *port, const char *name, bool counts) {
    for (size_t flag = 0, count = flag_count(port); flag < count; flag++) {
        const struct raised raised = raised_of(port, flag);
        if (raised.count == 0) continue;
        begin_sample(out, name, port, raised.lane, raised.name);
        if (counts)
            fprintf(out, "%u", raised.count);
        else
            print_seconds(out, raised.last);
        fputc('\n', out);
    }
}

/* The states of a bank's lanes, or their statuses; NULL of a bank that was never read, if that isn't bank 0. */
static const struct dovecounter_lane_codes *codes_of(const struct port *port, unsigned bank, bool of_states) {
    const struct lane_counts counts = counts_of(port, bank);
    bool is_there = bank == 0 || (port->counted >> (bank - 1) & 1) != 0;
    return !is_there ? NULL : of_states ? counts.states : counts.statuses;
}

static void print_totals(FILE *out, const struct port *port, unsigned bank, const char *name, bool of_states) {
    const struct dovecounter_lane_codes *codes = codes_of(port, bank, of_states);
    for (unsigned lane = 0; lane < 8 && codes != NULL; lane++) {
        begin_sample(out, name, port, 8 * bank + lane + 1, NULL);
        fprintf(out, "%u\n", codes->changes[lane]);
    }
}

static void print_last(FILE *out, const struct port *port, unsigned bank, const char *name, bool of_states) {
    const struct dovecounter_lane_codes *codes = codes_of(port, bank, of_states);
    for (unsigned lane = 0; lane < 8 && codes != NULL; lane++) {
        if (codes->changes[lane] == 0) continue;
        begin_sample(out, name, port, 8 * bank + lane + 1, NULL);
        print_seconds(out, (int64_t)codes->last[lane]);
        fputc('\n', out);
    }
}

/* How often a code of each lane was read to have changed, and when last. */
static void print_codes(FILE *out, const struct port *port, bool of_states, const char *name, const char *about) {
    char total[64], last[64];
    snprintf(total, sizeof total, "dovecounter_lane_%s_changes_total", name);
    begin_metric(out, total, "counter", about);
    for (unsigned bank = 0; bank < BANKS; bank++) print_totals(out, port, bank, total, of_states);
    snprintf(last, sizeof last, "dovecounter_lane_%s_changed_timestamp_seconds", name);
    begin_metric(out, last, "gauge", "when cmisd last read that it has changed");
    for (unsigned bank = 0; bank < BANKS; bank++) print_last(out, port, bank, last, of_states);
}

static void print_metrics(FILE *out, const struct port *port) {
    static const char total[] = "dovecounter_flag_reads_total", last[] = "dovecounter_flag_read_timestamp_seconds";
    begin_metric(out, total, "counter", "how often cmisd has read the flag as raised");
    print_flags(out, port, total, true);
    begin_metric(out, last, "gauge", "when cmisd last read the flag as raised");
    print_flags(out, port, last, false);
    print_codes(out, port, true, "data_path_state", "how often cmisd has read another data path state");
    print_codes(out, port, false, "config_status", "how often cmisd has read another configuration status");
}

/* ---- all of them */

static struct image image_of(const struct port *port) {
    struct image image = {.half_count = (uint8_t)port->half_count};
    memcpy(image.halves, port->halves, image.half_count * sizeof *image.halves);
    for (uint8_t i = 0; image.half_count > 0 && i < port->banks.read_count; i++)
        image.halves[image.half_count++] = port->banks.read[i];
    for (unsigned bank = 0; port->entry.vdm > 0 && bank < BANKS; bank++) {
        const struct listed_bank *each = &port->listing.banks[bank];
        memcpy(image.listed + image.listed_count, each->read, each->read_count * sizeof *image.listed);
        image.listed_count = (uint8_t)(image.listed_count + each->read_count);
    }
    return image;
}

void print_image_of(FILE *out, const struct port *port, const char *end) {
    const struct image image = image_of(port);
    print_image(out, image.halves, image.half_count, image.listed, image.listed_count, end);
}

static void print_lines(FILE *out, const struct port *port) { print_image_of(out, port, "\n"); }

static bool is_full;               /* it was said that files can't be written: */
static char unwritten[WORDS_SIZE]; /* this one, or "" if it was removed since */

/* Says once that files can't be written, and once that they can again: others may fit in what is left of a disk meanwhile. */
static void note_disk(const char *name, bool is_written) {
    if (unwritten[0] != 0 && strcmp(name, unwritten) != 0) return;
    if (!is_written && !is_full) warn("%s", name);
    if (is_written && is_full) warnx("%s: files can be written again", name);
    is_full = !is_written;
    snprintf(unwritten, sizeof unwritten, "%s", is_written ? "" : name);
}

/* Whether the file has the whole text, whenever there was room for it. */
static bool write_file(const char *name, const char *text, size_t length) {
    int file = open(name, O_WRONLY | O_CREAT | O_TRUNC | O_CLOEXEC, 0666);
    ssize_t written;
    if (file < 0) return false;
    for (; length > 0 && (written = write(file, text, length)) > 0; length -= (size_t)written) text += written;
    return close(file) == 0 && length == 0;
}

/* Whether it is in its place. */
static bool put_file(const struct port *port, const char *ending, void (*print)(FILE *out, const struct port *port)) {
    char name[WORDS_SIZE], made[WORDS_SIZE], *text = NULL;
    size_t length;
    FILE *out = open_memstream(&text, &length);
    if (out == NULL) return false;
    __fsetlocking(out, FSETLOCKING_BYCALLER); /* no other thread has it */
    print(out, port);
    snprintf(name, sizeof name, "%s/%s.%s", folder, port->entry.name, ending);
    snprintf(made, sizeof made, "%s/.%s.%s", folder, port->entry.name, ending);
    bool is_whole = fclose(out) == 0 && write_file(made, text, length) && rename(made, name) == 0;
    note_disk(name, is_whole);
    if (!is_whole) unlink(made);
    free(text);
    return is_whole;
}

_Static_assert(sizeof(struct image) ==
                   2 + (MOST_HALVES + FURTHER_BANKS + MOST_LISTED) * sizeof(struct dovecounter_half),
               "images are compared byte by byte, so each byte has to be a member's");

/* Written only if it differs from what the file has. */
void put_image(struct port *port) {
    const struct image image = image_of(port);
    bool is_new = memcmp(&image, &port->image, sizeof image) != 0;
    port->lacks_image = is_new && !put_file(port, "image", print_lines);
    if (!port->lacks_image) port->image = image;
}

/* PORT.json is written although nothing has changed, so that others see when the port was looked at. */
void put_status(struct port *port) {
    bool is_written = put_file(port, "json", print_port);
    if (port->has_new_counts) port->has_new_counts = !put_file(port, "prom", print_metrics);
    port->is_unwritten = !is_written || port->has_new_counts;
}

/* Writes files anew that could not be written, since nothing more may happen at a port, and all of them once the clock was set by a second or
   more, since the times in them are wrong. */
void renew_files(void) {
    static int64_t was;
    int64_t is = clock_offset();
    bool is_set = is - was >= 1000 || was - is >= 1000;
    if (is_set) was = is;
    for (struct port *each = ports; each != NULL; each = each->next) {
        if (each->is_retired) continue;
        if (each->lacks_image && each->core.stage == DOVECOUNTER_PORT_LEFT && each->half_count > 0) put_image(each);
        if (!is_set && !each->is_unwritten) continue;
        each->has_new_counts = each->has_new_counts || is_set;
        put_status(each);
    }
}

void remove_file(const char *port, const char *ending) {
    char name[WORDS_SIZE];
    snprintf(name, sizeof name, "%s/%s.%s", folder, port, ending);
    unlink(name);
    if (strcmp(name, unwritten) == 0) unwritten[0] = 0;
}

void remove_image(struct port *port) {
    remove_file(port->entry.name, "image");
    memset(&port->image, 0, sizeof port->image);
    port->lacks_image = false;
}

/* Of a run before this one there may be files of ports that are no longer configured, and images of modules that are gone. */
void remove_old_files(void) {
    static const char *const endings[] = {"image", "json", "prom"};
    char name[NAME_SIZE];
    DIR *entries = opendir(folder);
    for (struct dirent *each; entries != NULL && (each = readdir(entries)) != NULL;) {
        const char *dot = strrchr(each->d_name, '.');
        bool is_own = false;
        for (size_t i = 0; i < 3 && dot != NULL; i++) is_own = is_own || strcmp(dot + 1, endings[i]) == 0;
        if (!is_own) continue;
        snprintf(name, sizeof name, "%.*s", (int)(dot - each->d_name), each->d_name);
        if (port_of(name) == NULL || strcmp(dot, ".image") == 0) remove_file(name, dot + 1);
    }
    if (entries != NULL) closedir(entries);
}
