/* How many microseconds the library for firmware takes to plan, to check a certificate and to look at a port, and how many a program
   takes that is written by hand to do the same. Both have to answer alike. Reads an image from standard input. */
#include "dovecounter.h"
#include "image.h"

#include <stdbool.h>
#include <stdlib.h>
#include <string.h>
#include <time.h>

static uint32_t weights[256];
static struct dovecounter_plan plan, plan_by_hand;

static void expect(bool holds, const char *what) {
    if (holds) return;
    fprintf(stderr, "firmware_time: %s\n", what);
    exit(1);
}

/* ---- by hand: Applications and plans ---- */

static const uint8_t *page_of(uint8_t upper, uint8_t page) {
    for (size_t i = 0; i < half_count; i++)
        if (halves[i].device == 0xA0 && halves[i].upper == upper && halves[i].bank == 0 && halves[i].page == page)
            return halves[i].bytes;
    return 0;
}

static bool has_sum(const uint8_t *page, unsigned first, unsigned last, unsigned at) {
    uint8_t sum = 0;
    for (unsigned i = first; i <= last; i++) sum = (uint8_t)(sum + page[i - 128]);
    return sum == page[at - 128];
}

/* A path that may begin at a host lane. */
struct choice {
    uint64_t weight;
    uint8_t app, media, host_count, media_mask;
};

static struct choice choices[8][120];
static unsigned choice_counts[8];

/* The paths that the module allows, by host lane, Application and media lane; whether it advertises any. */
static bool list_choices(void) {
    const uint8_t *lower = page_of(0, 0), *first = page_of(1, 0), *second = page_of(1, 1);
    memset(choice_counts, 0, sizeof choice_counts);
    if (!lower || !first || !second || (lower[0] != 0x18 && lower[0] != 0x19) || lower[2] & 0x80) return false;
    if ((lower[1] >> 4 != 4 && lower[1] >> 4 != 5) || !has_sum(first, 128, 221, 222) || !has_sum(second, 130, 254, 255))
        return false;
    for (unsigned n = 0; n < 15; n++) {
        const uint8_t *app = n < 8 ? lower + 86 + 4 * n : second + 95 + 4 * (n - 8);
        unsigned host_count = app[2] >> 4, media_count = app[2] & 15;
        if (app[0] == 0xFF) break;
        if (host_count < 1 || host_count > 8 || media_count < 1 || media_count > 8) continue;
        for (unsigned host = 0; host + host_count <= 8; host++) {
            if (!(app[3] >> host & 1)) continue;
            for (unsigned media = 0; media + media_count <= 8; media++) {
                uint8_t mask = (uint8_t)(((1u << media_count) - 1) << media);
                if (!(second[48 + n] >> media & 1) || mask & first[82]) continue;
                choices[host][choice_counts[host]++] =
                    (struct choice){weights[app[0]], (uint8_t)(n + 1), (uint8_t)(media + 1), (uint8_t)host_count, mask};
            }
        }
    }
    return true;
}

static uint64_t gain[9][256];
static bool reached[9][256];

static void find_gains(void) {
    memset(gain, 0, sizeof gain);
    memset(reached, 0, sizeof reached);
    reached[0][0] = true;
    for (unsigned b = 0; b < 8; b++)
        for (unsigned used = 0; used < 256; used++) {
            if (!reached[b][used]) continue;
            reached[b + 1][used] = true;
            for (unsigned i = 0; i < choice_counts[b]; i++)
                if (!(choices[b][i].media_mask & used))
                    reached[b + choices[b][i].host_count][used | choices[b][i].media_mask] = true;
        }
    for (unsigned b = 8; b-- > 0;)
        for (unsigned used = 0; used < 256; used++) {
            if (!reached[b][used]) continue;
            uint64_t best = gain[b + 1][used];
            for (unsigned i = 0; i < choice_counts[b]; i++) {
                const struct choice *c = &choices[b][i];
                if (c->media_mask & used) continue;
                uint64_t sum = c->weight + gain[b + c->host_count][used | c->media_mask];
                if (sum > best) best = sum;
            }
            gain[b][used] = best;
        }
}

static void plan_with_hands(void) {
    unsigned b = 0, used = 0;
    memset(&plan_by_hand, 0, sizeof plan_by_hand);
    plan_by_hand.outside = 0xFF;
    if (!list_choices()) return;
    find_gains();
    plan_by_hand.weight = gain[0][0];
    while (b < 8) {
        const struct choice *taken = 0;
        for (unsigned i = 0; i < choice_counts[b] && !taken; i++) {
            const struct choice *c = &choices[b][i];
            if (c->weight > 0 && !(c->media_mask & used) &&
                c->weight + gain[b + c->host_count][used | c->media_mask] == gain[b][used])
                taken = c;
        }
        if (!taken) {
            b++;
            continue;
        }
        plan_by_hand.paths[plan_by_hand.count++] =
            (struct dovecounter_path){taken->app, (uint8_t)(b + 1), taken->media};
        for (unsigned lane = b; lane < b + taken->host_count; lane++) {
            plan_by_hand.control[lane] = (uint8_t)(taken->app << 4 | b << 1);
            plan_by_hand.lanes |= (uint8_t)(1u << lane);
        }
        used |= taken->media_mask;
        b += taken->host_count;
    }
}

/* ---- by hand: certificates of version 1 ---- */

static const char *read_number(const char *at, uint64_t *number) {
    const char *begin = at;
    *number = 0;
    while (*at >= '0' && *at <= '9') {
        if (*number > (UINT64_MAX - (uint64_t)(*at - '0')) / 10) return 0;
        *number = *number * 10 + (uint64_t)(*at++ - '0');
    }
    return at == begin || (*begin == '0' && at > begin + 1) ? 0 : at;
}

static int digit(char c) { return c >= '0' && c <= '9' ? c - '0' : c >= 'a' && c <= 'f' ? c - 'a' + 10 : -1; }

static uint64_t potential[9][256];
static bool listed[9][256];

/* The sum of paths of the text that are allowed and share no lane; moves past them. */
static bool read_paths(const char **text, uint64_t *sum) {
    unsigned host_used = 0, media_used = 0;
    for (*sum = 0; strncmp(*text, "path ", 5) == 0; (*text)++) {
        uint64_t app, host, media;
        const struct choice *found = 0;
        const char *at = read_number(*text + 5, &app);
        if (!at || *at != ' ' || !(at = read_number(at + 1, &host)) || *at != ' ' ||
            !(at = read_number(at + 1, &media)) || *at != '\n')
            return false;
        if (host < 1 || host > 8) return false;
        for (unsigned i = 0; i < choice_counts[host - 1]; i++)
            if (choices[host - 1][i].app == app && choices[host - 1][i].media == media) found = &choices[host - 1][i];
        if (!found) return false;
        unsigned host_mask = ((1u << found->host_count) - 1) << (host - 1);
        if (host_used & host_mask || media_used & found->media_mask) return false;
        host_used |= host_mask;
        media_used |= found->media_mask;
        *sum += found->weight;
        *text = at;
    }
    return true;
}

static bool read_states(const char **text) {
    int before = -1;
    for (; strncmp(*text, "state ", 6) == 0; (*text)++) {
        const char *at = *text + 6;
        if (at[0] < '0' || at[0] > '8' || at[1] != ' ' || digit(at[2]) < 0 || digit(at[3]) < 0 || at[4] != ' ')
            return false;
        int b = at[0] - '0', used = digit(at[2]) * 16 + digit(at[3]);
        if (b * 256 + used <= before) return false;
        before = b * 256 + used;
        listed[b][used] = true;
        at = read_number(at + 5, &potential[b][used]);
        if (!at || *at != '\n') return false;
        *text = at;
    }
    return true;
}

static bool is_step_good(unsigned b, unsigned used, unsigned end, unsigned end_used, uint64_t weight) {
    return listed[end][end_used] && potential[end][end_used] <= UINT64_MAX - weight &&
           potential[end][end_used] + weight <= potential[b][used];
}

static bool check_with_hands(const char *text) {
    uint64_t weight, sum;
    memset(listed, 0, sizeof listed);
    if (!list_choices() || strncmp(text, "certificate 1\nweight ", 21) != 0) return false;
    text = read_number(text + 21, &weight);
    if (!text || *text++ != '\n' || !read_paths(&text, &sum) || !read_states(&text) || strcmp(text, "end\n") != 0)
        return false;
    if (sum != weight || !listed[0][0] || potential[0][0] != weight) return false;
    for (unsigned b = 0; b < 8; b++)
        for (unsigned used = 0; used < 256; used++) {
            if (!listed[b][used]) continue;
            if (!is_step_good(b, used, b + 1, used, 0)) return false;
            for (unsigned i = 0; i < choice_counts[b]; i++) {
                const struct choice *c = &choices[b][i];
                if (!(c->media_mask & used) &&
                    !is_step_good(b, used, b + c->host_count, used | c->media_mask, c->weight))
                    return false;
            }
        }
    return true;
}

/* ---- a bus to a module that is up, for both ---- */

static uint8_t selected;

static bool fetch(uint8_t offset, uint8_t count, uint8_t *bytes) {
    const uint8_t selection[2] = {0, selected};
    const uint8_t *half = offset < 128 ? page_of(0, 0) : page_of(1, selected);
    if (!half) return false;
    memcpy(bytes, half + (offset & 127), count);
    if (offset <= 126 && offset + count == 128) memcpy(bytes + (126 - offset), selection, 2);
    return true;
}

static void store(uint8_t offset, const uint8_t *bytes, uint8_t count) {
    expect(offset == 126 && count == 2, "a store to a module that is as wanted");
    selected = page_of(1, bytes[1]) ? bytes[1] : 0;
}

static struct dovecounter_port port;
static struct dovecounter_wanted wanted;
static uint64_t now;

/* Makes what the port names until it waits for its next look; how many operations that were. */
static unsigned look(void) {
    struct dovecounter_port_next next;
    struct dovecounter_port_outcome outcome;
    for (unsigned made = 0;; made++) {
        uint8_t bytes[128], reply = DOVECOUNTER_STORED;
        expect(dovecounter_port_next(&port, now, &next) == 0, "no operation");
        if (next.kind == DOVECOUNTER_PORT_UNTIL) {
            now = next.moment;
            return made;
        }
        expect(next.kind == DOVECOUNTER_PORT_DO, "a port that waits for nothing");
        if (next.operation.kind == DOVECOUNTER_FETCH)
            reply =
                fetch(next.operation.offset, next.operation.count, bytes) ? DOVECOUNTER_FETCHED : DOVECOUNTER_REFUSED;
        else
            store(next.operation.offset, next.operation.bytes, next.operation.count);
        expect(dovecounter_port_take(&port, reply, bytes, next.operation.count, &wanted, now, &outcome) == 0,
               "a reply that was refused");
    }
}

/* What a port by hand keeps of a module: its memory, and the flags that it saw. */
static struct {
    uint8_t lower[128], status[128];
    uint16_t counts[184];
    uint64_t last[184];
    uint64_t due;
} kept;

static void count_flags(const uint8_t *bytes, unsigned byte_count, unsigned first) {
    for (unsigned i = 0; i < byte_count; i++)
        for (unsigned bit = 0; bytes[i] >> bit != 0; bit++)
            if (bytes[i] >> bit & 1) {
                if (kept.counts[first + 8 * i + bit] < UINT16_MAX) kept.counts[first + 8 * i + bit]++;
                kept.last[first + 8 * i + bit] = now;
            }
}

/* A look at a port by hand: whether its module is still as wanted. */
static bool look_with_hands(void) {
    static const uint8_t status_page[2] = {0, 0x11};
    uint8_t selection[2];
    if (now < kept.due) return true;
    if (!fetch(0, 128, kept.lower)) return false;
    count_flags(kept.lower + 8, 4, 0);
    store(126, status_page, 2);
    if (!fetch(126, 2, selection) || memcmp(selection, status_page, 2) != 0 || !fetch(128, 128, kept.status))
        return false;
    count_flags(kept.status + 6, 19, 32);
    kept.due = now + 100;
    if ((kept.lower[3] >> 1 & 7) != 3 || memcmp(kept.status + 78, plan.control, 8) != 0) return false;
    for (unsigned lane = 0; lane < 8; lane++)
        if (plan.lanes >> lane & 1 && (kept.status[lane / 2] >> (lane % 2 * 4) & 15) != 4) return false;
    return true;
}

/* ---- times ---- */

static char certificate[DOVECOUNTER_CERTIFICATE_SIZE + 1];
static size_t length;

static void plans(void) { expect(dovecounter_plan(halves, half_count, 0, 0, weights, 0, 0, 0, &plan) == 0, "no plan"); }

static void checks(void) {
    struct dovecounter_judgement judgement;
    expect(dovecounter_check(halves, half_count, 0, 0, weights, 0, (const uint8_t *)certificate, length, &judgement) ==
               0,
           "no judgement");
    expect(judgement.reason == 0, "a bad certificate");
}

static void checks_with_hands(void) { expect(check_with_hands(certificate), "a bad certificate, by hand"); }

static void looks(void) {
    expect(look() == 4 && port.stage == DOVECOUNTER_PORT_WATCHING, "a look of other than four operations");
}

static void looks_with_hands(void) {
    expect(look_with_hands(), "a module that isn't as wanted, by hand");
    now += 100;
}

/* The least time of a call, of nine rounds of so many. */
static double microseconds(void (*run)(void), unsigned rounds) {
    double least = 1e9;
    for (unsigned round = 0; round < 9; round++) {
        struct timespec begin, end;
        clock_gettime(CLOCK_PROCESS_CPUTIME_ID, &begin);
        for (unsigned i = 0; i < rounds; i++) run();
        clock_gettime(CLOCK_PROCESS_CPUTIME_ID, &end);
        double taken =
            ((double)(end.tv_sec - begin.tv_sec) * 1e9 + (double)(end.tv_nsec - begin.tv_nsec)) / 1e3 / rounds;
        if (taken < least) least = taken;
    }
    return least;
}

static void print_times(const char *name, void (*ours)(void), void (*by_hand)(void), unsigned rounds) {
    double took = microseconds(ours, rounds), took_by_hand = microseconds(by_hand, rounds);
    printf("%-8s %9.2f %9.2f %6.2f\n", name, took, took_by_hand, took / took_by_hand);
}

/* The module as the plan wants it. */
static void bring_up(void) {
    uint8_t *lower = (uint8_t *)(uintptr_t)page_of(0, 0), *status = (uint8_t *)(uintptr_t)page_of(1, 0x11);
    lower[3] = 3 << 1;
    memset(status, 0x44, 4);
    memset(status + 74, 0x11, 4);
    memcpy(status + 78, plan.control, 8);
}

int main(void) {
    static const struct dovecounter_times times = {.settle = 1, .period = 100, .first = 50, .most = 400};
    read_halves();
    weights[0x0D] = 101, weights[0x11] = 410, weights[0x0F] = 200, weights[0x4B] = 101, weights[0x4C] = 102;
    weights[0x4F] = 400, weights[0x50] = 405, weights[0x51] = 800, weights[0x52] = 810;
    plans();
    plan_with_hands();
    expect(memcmp(&plan, &plan_by_hand, sizeof plan) == 0, "another plan by hand");
    print_times("plan", plans, plan_with_hands, 200);
    expect(dovecounter_certificate(halves, half_count, 0, 0, weights, 0, 0, 0, (uint8_t *)certificate,
                                   sizeof certificate - 1, &length) == 0,
           "no certificate");
    print_times("check", checks, checks_with_hands, 200);
    bring_up();
    memcpy(wanted.weights, weights, sizeof weights);
    wanted.most_power = 255;
    dovecounter_port_new(&times, &port);
    expect(dovecounter_port_plug(&port, now) == 0, "no module");
    while (port.stage != DOVECOUNTER_PORT_WATCHING) look();
    look();
    print_times("look", looks, looks_with_hands, 10000);
    return 0;
}
