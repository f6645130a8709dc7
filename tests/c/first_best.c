/* first_best RUNS SEED FOLDER [keep] [paired] [counts] [tables] [now]: writes, for each number N from 1 to RUNS, the files N, an input of the command plan for a
   module made by chance, N.wanted, the weight and the paths of the plan that is to be given, and N.drawing, what draw is to say
   of it, but for the names of interfaces. With keep, each third plan keeps paths, and its input is one of plan --keep. With paired,
   the modules pair first lanes, as plan --paired takes them. With counts, descriptors leave lane counts at 0 by chance, for plan
   --counts-by-id: a path takes the lanes of its interface (SFF-8024), and there is none if that has no count, or isn't known. With
   tables, media interfaces and Applications weigh something too, by chance as much as a weight can be, and a path weighs the sum.
   With now, for plan --now, the Active Control Set (page 11h) has bytes of some paths and others, and a path weighs more if each of
   its host lanes has its AppSelCode and DataPathID there.

   A plan is a set of data paths. All plans that the module can carry are gone through, and the first of the best without needless
   paths is what docs/planning.md, "The first best plan", says, and not how the planner finds it. */
#include <stdint.h>
#include <stdio.h>
#include <stdlib.h>
#include <string.h>

enum { LANES = 8, APPS = 4 };

/* An interface's code (SFF-8024), and how many lanes it has; 0: more than eight, or not said by the code. */
struct interface {
    int code, lanes;
};

/* Host interfaces, and media interfaces of the media types 1, 2 and 3. */
static const struct interface host_interfaces[] = {{0x01, 1}, {0x0A, 1}, {0x46, 1}, {0x08, 2}, {0x0D, 2},
                                                   {0x4D, 2}, {0x0B, 4}, {0x0F, 4}, {0x4F, 4}, {0x3A, 4},
                                                   {0x11, 8}, {0x51, 8}, {0x10, 0}, {0xC3, 0}};
static const struct interface media_interfaces[3][10] = {
    {{0x02, 1}, {0x0D, 1}, {0x1D, 1}, {0x0C, 2}, {0x1B, 2}, {0x09, 4}, {0x11, 4}, {0x10, 8}, {0x0F, 0}, {0xC0, 0}},
    {{0x14, 1}, {0x3E, 1}, {0x4C, 1}, {0x17, 4}, {0x1C, 4}, {0x1D, 4}, {0x31, 4}, {0x1B, 8}, {0x32, 8}, {0x00, 0}},
    {{0x01, 0}, {0x02, 0}, {0x09, 0}, {0x0C, 0}, {0x11, 0}, {0x14, 0}, {0x1C, 0}, {0x1D, 0}, {0x00, 0}, {0xBF, 0}}};

struct app {
    int host_id, host_lanes, media_lanes, host_starts, media_starts;
    int media_code, counts; /* the code of the media interface; what the descriptor says of both lane counts */
};

struct path {
    int app, host, media;
};

struct plan {
    long long weight;
    struct path at[LANES + 1]; /* the path that begins at a host lane: no app, none does */
};

struct module {
    int count, unsupported, paired, media_type;
    struct app apps[APPS + 1];
    int host_codes[4], weights[4]; /* by an Application's host_id */
    int tables;                    /* whether the weights have tables of media interfaces and of Applications */
    int media_weights[256], app_weights[APPS + 1];
    long long unit;               /* what a weight of 1 stands for */
    int now, stay, active[LANES]; /* whether active paths weigh more, how much, and the Active Control Set */
    struct plan kept;
};

static uint64_t state;

/* A number below the limit. */
static int chance(int below) {
    state ^= state << 13, state ^= state >> 7, state ^= state << 17;
    return (int)(state >> 33) % below;
}

static int run(int first, int count) { return ((1 << count) - 1) << (first - 1); }

static int host_run(const struct module *m, struct path p) { return run(p.host, m->apps[p.app].host_lanes); }

static int media_run(const struct module *m, struct path p) { return run(p.media, m->apps[p.app].media_lanes); }

/* How many of these lanes come before this one. */
static int before(int lanes, int lane) {
    int count = 0;
    while (--lane > 0) count += lanes >> (lane - 1) & 1;
    return count;
}

static int allowed(const struct module *m, struct path p) {
    struct app a = m->apps[p.app];
    if (!a.host_lanes || !a.media_lanes) return 0;
    if (m->paired && before(a.host_starts, p.host) != before(a.media_starts, p.media)) return 0;
    return p.host + a.host_lanes <= 9 && p.media + a.media_lanes <= 9 && (a.host_starts >> (p.host - 1) & 1) &&
           (a.media_starts >> (p.media - 1) & 1) && !(media_run(m, p) & m->unsupported);
}

static int same(struct path p, struct path q) { return p.app == q.app && p.host == q.host && p.media == q.media; }

/* At the lowest host lane where they differ: the lower Application, then the lower media lane, then a free lane. */
static int comes_before(const struct plan *one, const struct plan *other) {
    for (int lane = 1; lane <= LANES; lane++) {
        struct path p = one->at[lane], q = other->at[lane];
        if (!p.app && !q.app) continue;
        if (p.app && q.app && same(p, q)) continue;
        if (!p.app || !q.app) return p.app != 0;
        return p.app != q.app ? p.app < q.app : p.media < q.media;
    }
    return 0;
}

static const struct module *of;
static struct plan best;
static int found;
static long seen;

static int is_kept(struct path p) { return of->kept.at[p.host].app && same(of->kept.at[p.host], p); }

/* Whether each host lane of the path has its Application and its first lane in the Active Control Set. */
static int stays(struct path p) {
    for (int lane = p.host; lane < p.host + of->apps[p.app].host_lanes; lane++)
        if (of->active[lane - 1] / 16 != p.app || of->active[lane - 1] / 2 % 8 != p.host - 1) return 0;
    return 1;
}

static long long weight_of(struct path p) {
    struct app a = of->apps[p.app];
    return of->unit * ((long long)of->weights[a.host_id] + of->media_weights[a.media_code] + of->app_weights[p.app] +
                       (of->now && stays(p) ? of->stay : 0));
}

static int keeps(const struct plan *plan) {
    for (int lane = 1; lane <= LANES; lane++) {
        struct path kept = of->kept.at[lane], p = plan->at[lane];
        if (kept.app && !(p.app && same(p, kept))) return 0;
    }
    return 1;
}

static void judge(const struct plan *plan) {
    seen++;
    if (!keeps(plan)) return;
    for (int lane = 1; lane <= LANES; lane++)
        if (plan->at[lane].app && !weight_of(plan->at[lane]) && !is_kept(plan->at[lane])) return;
    if (!found || plan->weight > best.weight || (plan->weight == best.weight && comes_before(plan, &best)))
        best = *plan;
    found = 1;
}

/* What the heaviest plan weighs that agrees with the best below a host lane, and begins there the path of an Application and a
   media lane, or (0, 0) leaves the lane free; -1 if none does. */
static long long most[LANES + 1][APPS + 1][LANES + 1];

static void compare(const struct plan *plan) {
    int free_from = 1;
    if (!keeps(plan)) return;
    for (int lane = 1; lane <= LANES; lane++) {
        struct path p = plan->at[lane], q = best.at[lane];
        long long *most_here = &most[lane][p.app][p.app ? p.media : 0];
        if ((p.app || lane >= free_from) && *most_here < plan->weight) *most_here = plan->weight;
        if (p.app ? !q.app || !same(p, q) : q.app) return;
        if (p.app) free_from = lane + of->apps[p.app].host_lanes;
    }
}

static void (*each_plan)(const struct plan *) = judge;

/* All plans that have this one's paths and others from a host lane on. */
static void extend(struct plan *plan, int lane, int host, int media) {
    if (seen > 300000) return;
    if (lane > LANES) {
        each_plan(plan);
        return;
    }
    for (int app = 1; app <= of->count; app++)
        for (int first = 1; first <= LANES; first++) {
            struct path p = {app, lane, first};
            if (!allowed(of, p) || (host_run(of, p) & host) || (media_run(of, p) & media)) continue;
            plan->at[lane] = p, plan->weight += weight_of(p);
            extend(plan, lane + 1, host | host_run(of, p), media | media_run(of, p));
            plan->at[lane].app = 0, plan->weight -= weight_of(p);
        }
    extend(plan, lane + 1, host, media);
}

/* Leaves lane counts to the interfaces by chance: the descriptor says 0, and the lanes are those of the interface. */
static void leave_counts(struct module *m) {
    const struct interface *of_host[4];
    m->media_type = 1 + (chance(8) ? chance(2) : 2);
    for (int id = 1; id < 4; id++) {
        int same;
        do {
            same = 0;
            of_host[id] = &host_interfaces[chance(14)];
            for (int other = 1; other < id; other++) same |= of_host[other] == of_host[id];
        } while (same);
        m->host_codes[id] = of_host[id]->code;
    }
    for (int app = 1; app <= m->count; app++) {
        struct app *a = &m->apps[app];
        const struct interface *of_media = &media_interfaces[m->media_type - 1][chance(10)];
        a->media_code = of_media->code;
        if (chance(3)) a->counts &= 0x0F, a->host_lanes = of_host[a->host_id]->lanes;
        if (chance(3)) a->counts &= 0xF0, a->media_lanes = of_media->lanes;
    }
}

/* Weighs media interfaces and Applications too. Three media interfaces are on the module, unless their codes stand already. */
static void weigh_tables(struct module *m, int counts) {
    static const int media_codes[] = {0x14, 0x1c, 0x1d};
    m->tables = 1;
    if (!chance(3)) m->unit = 1431655765;
    for (int app = 1; app <= m->count; app++) {
        if (!counts) m->apps[app].media_code = media_codes[chance(3)];
        m->media_weights[m->apps[app].media_code] = chance(4);
    }
    for (int app = 1; app <= m->count; app++) m->app_weights[app] = chance(3) ? 0 : chance(4);
    if (!chance(4)) memset(m->weights, 0, sizeof m->weights);
}

static void make(struct module *m, int paired, int counts, int tables) {
    memset(m, 0, sizeof *m);
    m->paired = paired;
    m->unit = 1;
    for (int id = 1; id < 4; id++) m->host_codes[id] = id;
    m->count = 1 + chance(APPS);
    m->unsupported = chance(4) ? 0 : chance(256) & chance(256);
    for (int id = 1; id < 4; id++) m->weights[id] = chance(4);
    for (int app = 1; app <= m->count; app++) {
        struct app *a = &m->apps[app];
        a->host_id = 1 + chance(3);
        a->host_lanes = 1 + chance(chance(3) ? 4 : 8);
        a->media_lanes = 1 + chance(4);
        a->host_starts = chance(256) | (chance(2) ? 1 : 0x11);
        a->media_starts = chance(256) | 1;
        a->media_code = 0x1c;
        a->counts = a->host_lanes << 4 | a->media_lanes;
    }
    if (counts) leave_counts(m);
    if (tables) weigh_tables(m, counts);
}

/* Some paths of the module that share no lane. */
static void keep(struct module *m) {
    int host = 0, media = 0;
    for (int tries = 0; tries < 12; tries++) {
        struct path p = {1 + chance(m->count), 1 + chance(LANES), 1 + chance(LANES)};
        if (!allowed(m, p) || (host_run(m, p) & host) || (media_run(m, p) & media)) continue;
        m->kept.at[p.host] = p;
        host |= host_run(m, p), media |= media_run(m, p);
    }
}

/* Puts the control bytes of some paths into the Active Control Set, and by chance another byte. */
static void activate(struct module *m) {
    int host = 0;
    m->now = 1;
    m->stay = chance(4);
    for (int tries = 0; tries < 6; tries++) {
        struct path p = {1 + chance(m->count), 1 + chance(LANES), 1};
        int lanes = m->apps[p.app].host_lanes;
        if (!lanes || p.host + lanes > 9 || (run(p.host, lanes) & host)) continue;
        host |= run(p.host, lanes);
        for (int lane = p.host; lane < p.host + lanes; lane++)
            m->active[lane - 1] = 16 * p.app + 2 * (p.host - 1) + chance(2);
    }
    if (!chance(3)) m->active[chance(LANES)] = chance(256);
}

static void write_half(FILE *out, const char *key, const int bytes[128]) {
    fprintf(out, "%s ", key);
    for (int i = 0; i < 128; i++) fprintf(out, "%02x", (unsigned)bytes[i]);
    fprintf(out, "\n");
}

static void write_image(FILE *out, const struct module *m) {
    int lower[128] = {0x18, 0x50}, page00[128] = {0x18}, page01[128] = {0};
    int sum = 0;
    lower[85] = m->media_type;
    for (int i = 86; i <= 117; i++) lower[i] = 0xff;
    for (int app = 1; app <= m->count; app++) {
        struct app a = m->apps[app];
        int *d = lower + 86 + 4 * (app - 1);
        d[0] = m->host_codes[a.host_id], d[1] = a.media_code, d[2] = a.counts, d[3] = a.host_starts;
        page01[176 - 128 + app - 1] = a.media_starts;
    }
    page00[210 - 128] = m->unsupported;
    for (int i = 128; i <= 221; i++) sum += page00[i - 128];
    page00[222 - 128] = sum % 256;
    sum = 0;
    for (int i = 130; i <= 254; i++) sum += page01[i - 128];
    page01[255 - 128] = sum % 256;
    fprintf(out, "module-image 1\n");
    write_half(out, "lower A0", lower);
    write_half(out, "upper A0 00 00", page00);
    write_half(out, "upper A0 00 01", page01);
    if (m->now) {
        int page11[128] = {0};
        memcpy(page11 + 206 - 128, m->active, sizeof m->active);
        write_half(out, "upper A0 00 11", page11);
    }
    fprintf(out, "end\n---\n");
    if (m->now) fprintf(out, "stay = %lld\n", m->unit * m->stay);
    fprintf(out, "[host]\n");
    for (int id = 1; id < 4; id++)
        fprintf(out, "%02xh = %lld\n", (unsigned)m->host_codes[id], m->unit * m->weights[id]);
    if (!m->tables) return;
    fprintf(out, "[app]\n");
    for (int app = 1; app <= m->count; app++)
        if (m->app_weights[app]) fprintf(out, "%d = %lld\n", app, m->unit * m->app_weights[app]);
    fprintf(out, "[media]\n");
    for (int code = 0; code < 256; code++)
        if (m->media_weights[code]) fprintf(out, "%02Xh = %lld\n", (unsigned)code, m->unit * m->media_weights[code]);
}

static void write_paths(FILE *out, const char *word, const struct plan *plan) {
    for (int lane = 1; lane <= LANES; lane++)
        if (plan->at[lane].app) fprintf(out, "%s %d %d %d\n", word, plan->at[lane].app, lane, plan->at[lane].media);
}

#include "drawing.h"

static FILE *open_at(const char *folder, int number, const char *end) {
    char name[4096];
    snprintf(name, sizeof name, "%s/%d%s", folder, number, end);
    FILE *out = fopen(name, "w");
    if (!out) {
        perror(name);
        exit(2);
    }
    return out;
}

int main(int argc, char **argv) {
    if (argc < 4) return 2;
    int runs = atoi(argv[1]), keeping = 0, paired = 0, counts = 0, tables = 0, now = 0;
    for (int i = 4; i < argc; i++) {
        keeping |= !strcmp(argv[i], "keep");
        paired |= !strcmp(argv[i], "paired");
        counts |= !strcmp(argv[i], "counts");
        tables |= !strcmp(argv[i], "tables");
        now |= !strcmp(argv[i], "now");
    }
    state = strtoull(argv[2], 0, 10) * 2654435761u + 88172645463325252u;
    for (int number = 1; number <= runs;) {
        struct module m;
        struct plan empty = {0};
        make(&m, paired, counts, tables);
        if (now) activate(&m);
        if (keeping && number % 3 == 0) keep(&m);
        of = &m, found = 0, seen = 0;
        extend(&empty, 1, 0, 0);
        if (!found || seen > 300000) continue; /* too many plans to go through */
        memset(most, -1, sizeof most);
        each_plan = compare;
        extend(&empty, 1, 0, 0);
        each_plan = judge;
        FILE *in = open_at(argv[3], number, ""), *wanted = open_at(argv[3], number, ".wanted");
        FILE *drawing = open_at(argv[3], number, ".drawing");
        write_drawing(drawing);
        write_image(in, &m);
        if (keeping && number % 3 == 0) {
            fprintf(in, "---\n");
            write_paths(in, "keep", &m.kept);
        }
        fprintf(wanted, "weight %lld\n", best.weight);
        write_paths(wanted, "path", &best);
        if (fclose(in) || fclose(wanted) || fclose(drawing)) return 2;
        number++;
    }
    return 0;
}
