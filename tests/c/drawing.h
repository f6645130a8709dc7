/* What the command draw says of the best plan that first_best.c has found, but for the names of interfaces: after its lines and its
   picture, for each host lane on which it decides, what else could have been done there, and what the heaviest plan weighs that
   agrees so far and does that, of all plans that were gone through. Included by first_best.c. */

struct row {
    struct path path; /* no app: the lane stays free */
    long long weight, total;
};

/* The number of the best plan's path that takes a lane; 0 if none does. */
static int owner(int lane, int media) {
    int number = 0;
    for (int host = 1; host <= LANES; host++) {
        struct path p = best.at[host];
        if (!p.app) continue;
        number++;
        if ((media ? media_run(of, p) : host_run(of, p)) >> (lane - 1) & 1) return number;
    }
    return 0;
}

static struct path numbered(int number) {
    int host = 0;
    while (number) number -= best.at[++host].app != 0;
    return best.at[host];
}

static void write_row(FILE *out, char kind, int media) {
    char line[128] = "             ";
    size_t end = strlen(line);
    for (int lane = 1; lane <= LANES + 1; lane++) {
        int before = lane > 1 ? owner(lane - 1, media) : 0, now = lane <= LANES ? owner(lane, media) : 0;
        char inside[8] = "       ";
        line[end++] = kind == 'f' ? (before != now ? '+' : now ? '-' : ' ') : before != now ? '|' : ' ';
        if (lane > LANES) break;
        struct path p = numbered(now);
        if (kind == 'f' && now) memset(inside, '-', 7);
        if (kind == 'n' && !now) inside[3] = '-';
        if (kind == 'n' && now && before != now)
            snprintf(inside, sizeof inside, "%c%capp%-2d", 'A' + now - 1, is_kept(p) ? '*' : ' ', p.app);
        if (kind == 'c' && now) snprintf(inside, sizeof inside, " %02x    ", (unsigned)(16 * p.app + 2 * (p.host - 1)));
        memcpy(line + end, inside, 7);
        end += 7;
    }
    while (line[end - 1] == ' ') end--;
    fprintf(out, "%.*s\n", (int)end, line);
}

/* By falling totals, and those of the same total in their order. */
static void put_row(struct row *rows, int *count, struct row row) {
    int at = (*count)++;
    for (; at && rows[at - 1].total < row.total; at--) rows[at] = rows[at - 1];
    rows[at] = row;
}

static void write_lane(FILE *out, int lane, long long below) {
    struct row rows[APPS + 1];
    int count = 0;
    for (int app = 1; app <= of->count; app++) {
        struct row row = {{0, lane, 0}, 0, -1};
        for (int media = 1; media <= LANES; media++) {
            struct path p = {app, lane, media};
            if (most[lane][app][media] > row.total && (weight_of(p) || is_kept(p)))
                row = (struct row){p, weight_of(p), most[lane][app][media]};
        }
        if (row.path.app) put_row(rows, &count, row);
    }
    if (most[lane][0][0] >= 0) put_row(rows, &count, (struct row){{0, lane, 0}, 0, most[lane][0][0]});
    fprintf(out, "host lane %d, %lld to gain\n", lane, best.weight - below);
    for (int i = 0; i < count; i++) {
        struct row row = rows[i];
        char name[64] = "left free", note[64];
        if (row.path.app) snprintf(name, sizeof name, "app %d, media lane %d", row.path.app, row.path.media);
        int taken = best.at[lane].app ? row.path.app && same(row.path, best.at[lane]) : !row.path.app;
        snprintf(note, sizeof note, "%lld less", best.weight - row.total);
        fprintf(out, "  %-24s %6lld + %6lld = %6lld  %s\n", name, row.weight, row.total - below - row.weight,
                row.total - below,
                taken                      ? "taken"
                : row.total == best.weight ? "as much"
                                           : note);
    }
}

static void write_drawing(FILE *out) {
    const char *numbers = "       1       2       3       4       5       6       7       8";
    long long below = 0;
    fprintf(out, "weight %lld\n", best.weight);
    for (int lane = 1; lane <= LANES; lane++) {
        struct path p = best.at[lane];
        if (p.app)
            fprintf(out, "path app %d host %d-%d media %d-%d\n", p.app, p.host, p.host + of->apps[p.app].host_lanes - 1,
                    p.media, p.media + of->apps[p.app].media_lanes - 1);
    }
    fprintf(out, "control");
    for (int lane = 1; lane <= LANES; lane++) {
        struct path p = numbered(owner(lane, 0));
        fprintf(out, " %02x", (unsigned)(p.app ? 16 * p.app + 2 * (p.host - 1) : 0));
    }
    fprintf(out, "\n\nhost lanes %s\n", numbers);
    for (const char *kind = "fncf"; *kind; kind++) write_row(out, *kind, 0);
    fprintf(out, "media lanes%s\n", numbers);
    for (const char *kind = "fnf"; *kind; kind++) write_row(out, *kind, 1);
    fprintf(out, "\n");
    for (int lane = 1; lane <= LANES; lane++) {
        if (owner(lane, 0) && !best.at[lane].app) continue;
        write_lane(out, lane, below);
        if (best.at[lane].app) below += weight_of(best.at[lane]);
    }
}
