/* Runs a program on damaged inputs, and judges the status and the form of what comes:
 *     damage PROGRAM SEED RUNS FOLDER WORDS=FILE ..
 * Each WORDS are a command with its flags, and FILE an input of it. Run number N of a SEED does always the same. What falls
 * short is shown, and its input stands in FOLDER/damaged.N. The last lines count by command and status. */
#define _GNU_SOURCE
#include <fcntl.h>
#include <stdint.h>
#include <stdio.h>
#include <stdlib.h>
#include <string.h>
#include <sys/resource.h>
#include <sys/wait.h>
#include <unistd.h>

enum { MOST = 1 << 21, INPUTS = 1024, WORDS = 8, STATUSES = 5 };

struct input {
    char *words[WORDS], *text;
    const char *name;
    size_t size;
    long runs[STATUSES];
};

static struct input inputs[INPUTS];
static size_t input_count;
static char text[MOST], answer[MOST];
static size_t size;
static uint64_t state;

/* splitmix64 */
static uint64_t next(void) {
    uint64_t z = state += 0x9e3779b97f4a7c15;
    z = (z ^ z >> 30) * 0xbf58476d1ce4e5b9;
    z = (z ^ z >> 27) * 0x94d049bb133111eb;
    return z ^ z >> 31;
}

/* A number below the limit. */
static size_t below(size_t limit) { return limit ? next() % limit : 0; }

/* Puts other bytes in the place of some. */
static void replace(size_t at, size_t count, const char *bytes, size_t length) {
    if (at + count > size || size - count + length > MOST) return;
    memmove(text + at + length, text + at + count, size - at - count);
    memmove(text + at, bytes, length);
    size += length - count;
}

/* A place: of any byte alike, or of any line alike and then of any of its bytes. */
static size_t any_place(void) {
    size_t lines = 0, line, at;
    if (size == 0 || below(2)) return below(size);
    for (at = 0; at < size; at++) lines += text[at] == '\n';
    line = below(lines + 1);
    for (at = 0; at < size && line; at++) line -= text[at] == '\n';
    char *end = memchr(text + at, '\n', size - at);
    return at + below(end ? (size_t)(end - text) - at + 1 : size - at);
}

/* Where the line begins that holds this place, and how long it is with its LF. */
static size_t line_at(size_t place, size_t *length) {
    size_t at = place, end = place;
    while (at > 0 && text[at - 1] != '\n') at--;
    while (end < size && text[end] != '\n') end++;
    *length = (end < size ? end + 1 : end) - at;
    return at;
}

/* A place of a byte of these, so many bytes after the beginning of a line that begins with one of those; or the size. */
static size_t place_of(const char *bytes, size_t behind, const char *beginnings) {
    for (int tries = 0; tries < 200 && size; tries++) {
        size_t length, at = any_place(), line = line_at(at, &length);
        if (at < size && text[at] && strchr(bytes, text[at]) && at - line >= behind && strchr(beginnings, text[line]))
            return at;
    }
    return size;
}

/* Makes the sum of a page right, if there is such a page: it stands at an address, over all addresses from one on. */
static void make_sum_right(const char *key, int from, int address) {
    char digits[3] = "", *line = memmem(text, size, key, strlen(key));
    unsigned sum = 0;
    if (!line || line + strlen(key) + 256 > text + size) return;
    line += strlen(key);
    for (int at = from; at < address; at++) {
        memcpy(digits, line + 2 * (at - 128), 2);
        sum += (unsigned)strtoul(digits, 0, 16);
    }
    snprintf(digits, sizeof digits, "%02x", sum & 255);
    memcpy(line + 2 * (address - 128), digits, 2);
}

/* Digits of pages, half of them such as are not 0. */
static void turn_digits(size_t count) {
    for (; count; count--) {
        size_t at = place_of(below(2) ? "123456789abcdef" : "0123456789abcdef", strlen("lower A0 "), "lu");
        if (at < size) text[at] = "0123456789abcdef"[below(16)];
    }
}

static void turn_digits_under_right_sums(void) {
    turn_digits(1 + below(3));
    make_sum_right("\nupper A0 00 00 ", 128, 222);
    make_sum_right("\nupper A0 00 01 ", 130, 255);
    make_sum_right("\nupper A0 00 02 ", 128, 255);
}

/* A number of weights, of a certificate or of a script. */
static void turn_number(void) {
    static const char *numbers[] = {"0",
                                    "1",
                                    "2",
                                    "3",
                                    "8",
                                    "9",
                                    "15",
                                    "255",
                                    "256",
                                    "1024",
                                    "5000",
                                    "65535",
                                    "65536",
                                    "4294967295",
                                    "4294967296",
                                    "18446744073709551615",
                                    "18446744073709551616",
                                    "-1",
                                    "01"};
    size_t at = place_of("0123456789", 2, "wpsontc01"), end = at;
    if (at == size) return;
    while (at > 0 && text[at - 1] != ' ' && text[at - 1] != '\n') at--;
    while (end < size && text[end] != ' ' && text[end] != '\n') end++;
    const char *number = numbers[below(sizeof numbers / sizeof *numbers)];
    replace(at, end - at, number, strlen(number));
}

static void exchange_lines(void) {
    static char first[MOST];
    size_t length, other_length, at = line_at(any_place(), &length), other = line_at(any_place(), &other_length);
    if (at >= other) return;
    memcpy(first, text + at, length);
    replace(at, length, text + other, other_length);
    replace(other + other_length - length, other_length, first, length);
}

static void insert_run(void) {
    static char run[200000];
    size_t length = 1 + below(below(8) ? 300 : sizeof run);
    memset(run, "x 0\n-#\t\"["[below(9)], length);
    replace(any_place(), 0, run, length);
}

static void insert_foreign_line(void) {
    struct input *other = &inputs[below(input_count)];
    size_t from = below(other->size), to = from;
    while (from > 0 && other->text[from - 1] != '\n') from--;
    while (to < other->size && other->text[to++] != '\n') {}
    size_t length, at = line_at(any_place(), &length);
    replace(at, 0, other->text + from, to - from);
}

/* Half of the runs are spared what no text survives. */
static void damage(int is_spared) {
    size_t length, at = line_at(any_place(), &length);
    char byte = (char)below(256);
    switch (is_spared ? 2 + below(7) : below(18)) {
    case 0:
        if ((at = any_place()) < size) text[at] = byte;
        break;
    case 1:
        if ((at = any_place()) < size) text[at] ^= (char)(1 << below(8));
        break;
    case 2: turn_digits(1); break;
    case 3:
    case 4:
    case 5: turn_digits_under_right_sums(); break;
    case 6:
    case 7:
    case 8: turn_number(); break;
    case 9: replace(at, length, "", 0); break;
    case 10: replace(at, 0, text + at, length); break;
    case 11: exchange_lines(); break;
    case 12:
        if (below(2))
            size = below(size + 1);
        else
            replace(0, below(size + 1), "", 0);
        break;
    case 13: insert_run(); break;
    case 14:
        if ((at = place_of("\n", 0, "mluew[0123456789cpsont-")) < size) replace(at, 1, "", 0);
        break;
    case 15:
        if ((at = place_of("\n", 0, "mluew[0123456789cpsont-")) < size) replace(at, 0, "\r", 1);
        break;
    case 16:
        if (below(2))
            replace(any_place(), 0, &byte, 1);
        else
            replace(any_place(), 1, "", 0);
        break;
    case 17: insert_foreign_line(); break;
    }
}

/* Runs the program on the text, within a second of the processor's time; answers how it ended, and the length of the answer. */
static int run(const char *program, char **words, int in, int out, size_t *length) {
    int status;
    if (ftruncate(in, 0) || ftruncate(out, 0) || pwrite(in, text, size, 0) != (ssize_t)size) exit(2);
    lseek(in, 0, SEEK_SET);
    lseek(out, 0, SEEK_SET);
    pid_t child = fork();
    if (child == 0) {
        setrlimit(RLIMIT_CPU, &(struct rlimit){1, 1});
        alarm(60);
        dup2(in, 0);
        dup2(out, 1);
        execv(program, words);
        _exit(127);
    }
    waitpid(child, &status, 0);
    ssize_t count = pread(out, answer, MOST - 1, 0);
    *length = count < 0 ? 0 : (size_t)count;
    answer[*length] = 0;
    return status;
}

static int begins(const char *line, const char *start) { return strncmp(line, start, strlen(start)) == 0; }

/* How many lines begin so. */
static int lines_with(const char *start) {
    int count = 0;
    for (const char *line = answer; line; line = strchr(line, '\n'), line = line ? line + 1 : 0)
        count += *line && begins(line, start);
    return count;
}

static int has_word(char **words, const char *word) {
    while (*words && strcmp(*words, word)) words++;
    return *words != 0;
}

/* What the first and the last line of a command's answer begin with. */
static int is_whole_answer(char **words, const char *last) {
    static const char *forms[][3] = {{"inventory", "family ", "sum-"},
                                     {"apps", "apps ", "unsupported-media "},
                                     {"monitors", "temperature ", ""},
                                     {"flags", "", ""},
                                     {"details", "family ", ""},
                                     {"draw", "weight ", ""},
                                     {"plan", "certificate ", "end\n"},
                                     {"check", "good\n", "control "},
                                     {"provision", "provisioned ", "active "},
                                     {"trace", "1 fetch A0 3 1 = ", "active "}};
    /* What provision and trace begin with if they wake the module first. */
    static const char *woken[] = {"woken ", "1 fetch A0 26 1 = "};
    if (has_word(words, "--svg")) return begins(answer, "<svg ") && begins(last, "</svg>\n");
    for (size_t form = 0; form < sizeof forms / sizeof *forms; form++) {
        if (strcmp(words[1], forms[form][0])) continue;
        const char *first = has_word(words, "--wake") ? woken[!strcmp(words[1], "trace")] : forms[form][1];
        return begins(answer, first) && begins(last, has_word(words, "--first") ? "first " : forms[form][2]);
    }
    return 0;
}

/* Whether it is one object that has what its status asks for. */
static int is_well_formed_json(char **words, int status, const char *last) {
    int faults = lines_with("  \"fault\": {\n"), bad = lines_with("  \"good\": false,\n");
    int provisioning = lines_with("    \"code\": \"PV"), unread = lines_with("    \"code\": \"IO\"");
    if (!begins(answer, "{\n  \"dovecounter\": 1,\n") || !begins(last, "}\n")) return 0;
    switch (status) {
    case 0: return faults == 0 && bad == 0;
    case 1: return faults == 1 && bad == 0 && provisioning == 0 && unread == 0;
    case 3: return faults == 1 && provisioning == 1 && (!strcmp(words[1], "provision") || !strcmp(words[1], "trace"));
    case 4: return faults == 0 && bad == 1 && !strcmp(words[1], "check");
    default: return 0;
    }
}

/* Whether each line is a comment or a sample, and one of them the fault if and only if the status tells of one. */
static int is_well_formed_metrics(int status, const char *last) {
    int lines = lines_with(""), comments = lines_with("# HELP dovecounter_") + lines_with("# TYPE dovecounter_");
    int faults = lines_with("dovecounter_fault{");
    /* a metric without samples has its two comments alone */
    int ended = faults ? begins(last, "dovecounter_fault{")
                       : begins(last, "dovecounter_") || begins(last, "# TYPE dovecounter_");
    return faults == (status == 1) && (status == 0 || status == 1) && begins(answer, "# HELP dovecounter_") && ended &&
           comments + lines_with("dovecounter_") == lines;
}

/* Whether the answer has the form that its status asks for. */
static int is_well_formed(char **words, int status, size_t length) {
    if (!WIFEXITED(status) || length == 0 || answer[length - 1] != '\n') return 0;
    for (size_t at = 0; at < length; at++) {
        if (answer[at] != '\n' && (answer[at] < ' ' || answer[at] > '~')) return 0;
    }
    const char *last = answer + length - 1;
    while (last > answer && last[-1] != '\n') last--;
    int faults = lines_with("fault "), bad = lines_with("bad ");
    if (!strcmp(words[1], "metrics") && !begins(answer, "fault "))
        return is_well_formed_metrics(WEXITSTATUS(status), last);
    if (has_word(words, "--json")) return is_well_formed_json(words, WEXITSTATUS(status), last);
    switch (WEXITSTATUS(status)) {
    case 0: return faults == 0 && bad == 0 && is_whole_answer(words, last);
    case 1:
        return faults == 1 && last == answer && length > 9 && !begins(last, "fault PV") && !begins(last, "fault IO");
    case 3:
        return faults == 1 && begins(last, "fault PV") &&
               (!strcmp(words[1], "provision") || !strcmp(words[1], "trace"));
    case 4: return bad == 1 && last == answer && begins(last, "bad VR") && !strcmp(words[1], "check");
    default: return 0;
    }
}

/* Cuts the last part of the text off, with the separator before it. */
static void drop_last_part(void) {
    size_t length;
    do size = line_at(size - 1, &length);
    while (size > 0 && memcmp(text + size, "---\n", 4));
}

/* Whether the program judges the certificate that it printed for the text good, and its plan the first of the best. */
static int is_judged_good(const char *program, char **words, int in, int out, size_t length) {
    if (size && text[size - 1] != '\n') replace(size, 0, "\n", 1);
    if (has_word(words, "--keep")) drop_last_part();
    replace(size, 0, "---\n", 4);
    replace(size, 0, answer, length);
    char *judge[WORDS] = {"cmisctl", "check", "--first"};
    int count = 3;
    for (char **word = words; *word; word++)
        if (!strcmp(*word, "--paired") || !strcmp(*word, "--counts-by-id") || !strcmp(*word, "--now"))
            judge[count++] = *word;
    int status = run(program, judge, in, out, &length);
    return WIFEXITED(status) && WEXITSTATUS(status) == 0 && begins(answer, "good\n") && lines_with("first yes\n") == 1;
}

static void take_input(char *said) {
    struct input *it = &inputs[input_count++];
    char *file = strrchr(said, '=');
    if (!file || input_count == INPUTS) exit(2);
    *file++ = 0;
    it->name = strdup(said);
    it->words[0] = "cmisctl";
    int count = 1;
    for (char *word = strtok(said, " "); word && count < WORDS - 1; word = strtok(0, " ")) it->words[count++] = word;
    int from = open(file, O_RDONLY);
    it->text = malloc(MOST);
    ssize_t length = it->text ? read(from, it->text, MOST) : -1;
    if (length <= 0) exit(2);
    it->size = (size_t)length;
    close(from);
}

/* Shows a run that fell short, and keeps its input. */
static void show(const struct input *it, long number, int status, const char *folder, const char *kept,
                 size_t kept_size) {
    char name[4096];
    snprintf(name, sizeof name, "%s/damaged.%ld", folder, number);
    int to = open(name, O_WRONLY | O_CREAT | O_TRUNC, 0644);
    if (to < 0 || write(to, kept, kept_size) != (ssize_t)kept_size) perror(name);
    close(to);
    if (WIFEXITED(status))
        printf("%s < %s: status %d: %.300s\n", it->name, name, WEXITSTATUS(status), answer);
    else
        printf("%s < %s: signal %d\n", it->name, name, WTERMSIG(status));
}

/* Adds the runs of inputs of one command, and prints them. */
static void count_by_command(void) {
    printf("%-28s%10s%10s%10s%10s\n", "command", "status 0", "1", "3", "4");
    for (size_t first = 0; first < input_count; first++) {
        long runs[STATUSES] = {0};
        for (size_t at = 0; at < input_count; at++) {
            if (strcmp(inputs[at].name, inputs[first].name)) continue;
            if (at < first) goto told;
            for (int status = 0; status < STATUSES; status++) runs[status] += inputs[at].runs[status];
        }
        printf("%-28s%10ld%10ld%10ld%10ld\n", inputs[first].name, runs[0], runs[1], runs[3], runs[4]);
    told:;
    }
}

int main(int count, char **words) {
    static char kept[MOST];
    long failed = 0, good = 0;
    if (count < 6) return 2;
    uint64_t seed = strtoull(words[2], 0, 10);
    long runs = strtol(words[3], 0, 10);
    for (int at = 5; at < count; at++) take_input(words[at]);
    snprintf(kept, sizeof kept, "%s/in", words[4]);
    int in = open(kept, O_RDWR | O_CREAT | O_TRUNC, 0600);
    snprintf(kept, sizeof kept, "%s/out", words[4]);
    int out = open(kept, O_RDWR | O_CREAT | O_TRUNC, 0600);
    for (long number = 1; number <= runs; number++) {
        size_t length;
        state = seed << 32 ^ (uint64_t)number;
        struct input *it = &inputs[below(input_count)];
        memcpy(text, it->text, size = it->size);
        for (size_t is_spared = below(2), damages = below(2) ? 1 : 1 + below(6); damages; damages--)
            damage((int)is_spared);
        memcpy(kept, text, size);
        size_t kept_size = size;
        int status = run(words[1], it->words, in, out, &length);
        int is_well = is_well_formed(it->words, status, length);
        if (is_well) it->runs[WEXITSTATUS(status)]++;
        if (is_well && WEXITSTATUS(status) == 0 && !strcmp(it->words[1], "plan") && !has_word(it->words, "--json")) {
            is_well = is_judged_good(words[1], it->words, in, out, length);
            good++;
        }
        if (is_well) continue;
        failed++;
        show(it, number, status, words[4], kept, kept_size);
    }
    count_by_command();
    printf("%ld certificates that were printed were judged again, each with --first\n", good);
    printf("%ld passed, %ld failed\n", runs - failed, failed);
    return failed > 0;
}
