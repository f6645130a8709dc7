/* Calls the library for firmware as its header says, and compares: each status once, what is written if there is one, and
   what is not. */
#include "expect.h"

#include <stddef.h>
#include <stdlib.h>

/* ---- a module with one Application ---- */

static struct dovecounter_half halves[4];
static uint32_t weights[256];

static void make_module(void) {
    memset(halves, 0, sizeof halves);
    for (int i = 0; i < 3; i++) halves[i].device = 0xA0;
    halves[1].upper = halves[2].upper = 1;
    halves[2].page = 1;
    advertise_one(&halves[0], &halves[1], &halves[2]);
    weights[0x11] = 400;
}

static const struct dovecounter_path nothing[1];

static uint32_t plan_status(size_t count) {
    struct dovecounter_plan plan, before;
    memset(&plan, 0x5A, sizeof plan);
    before = plan;
    uint32_t status = dovecounter_plan(halves, count, 0, 0, weights, 0, nothing, 0, &plan);
    if (status != DOVECOUNTER_DONE) expect_same("a refused plan is not written", &before, &plan, sizeof plan);
    return status;
}

/* Each status of the halves, from dovecounter_plan and from dovecounter_advertisement. */
static void expect_status(const char *what, uint32_t wanted, size_t count) {
    struct dovecounter_advertisement advertisement, before;
    memset(&advertisement, 0x5A, sizeof advertisement);
    before = advertisement;
    expect(what, wanted, plan_status(count));
    expect(what, wanted, dovecounter_advertisement(halves, count, 0, &advertisement));
    if (wanted != DOVECOUNTER_DONE)
        expect_same("a refused advertisement is not written", &before, &advertisement, sizeof advertisement);
}

/* One byte of a half that is changed, and the status that comes of it. */
struct change {
    const char *what;
    uint32_t wanted;
    int half; /* 0 for the lower half, 1 for page 00h, 2 for page 01h */
    size_t place;
    uint8_t byte;
};

enum {
    DEVICE = offsetof(struct dovecounter_half, device),
    UPPER = offsetof(struct dovecounter_half, upper),
    BANK = offsetof(struct dovecounter_half, bank),
    PAGE = offsetof(struct dovecounter_half, page),
    BYTES = offsetof(struct dovecounter_half, bytes)
};

static const struct change changes[] = {
    {"another device", DOVECOUNTER_NO_PLACE, 1, DEVICE, 0xA1},
    {"another half", DOVECOUNTER_NO_PLACE, 1, UPPER, 2},
    {"a lower half of a page", DOVECOUNTER_NO_PLACE, 0, PAGE, 1},
    {"a lower half of a bank", DOVECOUNTER_NO_PLACE, 0, BANK, 1},
    {"the other device", DOVECOUNTER_ABSENT, 0, DEVICE, 0xA2},
    {"an SFP+ module", DOVECOUNTER_NOT_CMIS, 0, BYTES + 0, 0x03},
    {"CMIS 3.0", DOVECOUNTER_REVISION, 0, BYTES + 1, 0x30},
    {"QSFP+ with CMIS", DOVECOUNTER_NOT_EIGHT_LANES, 0, BYTES + 0, 0x1E},
    {"flat memory", DOVECOUNTER_FLAT_MEMORY, 0, BYTES + 2, 0x80},
    {"a wrong sum of page 00h", DOVECOUNTER_BAD_SUM, 1, BYTES + 130 - 128, 1},
    {"a wrong sum of page 01h", DOVECOUNTER_BAD_SUM, 2, BYTES + 130 - 128, 1},
};

static void try_halves(void) {
    static struct dovecounter_half many[17];
    struct dovecounter_plan plan;
    make_module();
    expect_status("three halves", DOVECOUNTER_DONE, 3);
    expect_status("no half", DOVECOUNTER_ABSENT, 0);
    expect_status("two halves", DOVECOUNTER_ABSENT, 2);
    memset(many, 0, sizeof many);
    expect("seventeen halves", DOVECOUNTER_TOO_MANY_HALVES,
           dovecounter_plan(many, 17, 0, 0, weights, 0, nothing, 0, &plan));
    expect("sixteen halves without a device", DOVECOUNTER_NO_PLACE,
           dovecounter_plan(many, 16, 0, 0, weights, 0, nothing, 0, &plan));
    for (size_t i = 0; i < sizeof changes / sizeof changes[0]; i++) {
        const struct change *change = &changes[i];
        make_module();
        memcpy((uint8_t *)&halves[change->half] + change->place, &change->byte, 1);
        expect_status(change->what, change->wanted, 3);
    }
    make_module();
}

static void try_advertisement(void) {
    struct dovecounter_advertisement advertisement;
    static const struct dovecounter_application none;
    make_module();
    dovecounter_advertisement(halves, 3, 0, &advertisement);
    expect("Applications", 1, advertisement.count);
    expect("unsupported media lanes", 0, advertisement.unsupported);
    expect("number", 1, advertisement.applications[0].number);
    expect("HostInterfaceID", 0x11, advertisement.applications[0].host_id);
    expect("MediaInterfaceID", 0x1C, advertisement.applications[0].media_id);
    expect("host lanes", 8, advertisement.applications[0].host_lanes);
    expect("media lanes", 4, advertisement.applications[0].media_lanes);
    expect("host starts", 1, advertisement.applications[0].host_starts);
    expect("media starts", 1, advertisement.applications[0].media_starts);
    expect_same("behind the last Application", &none, &advertisement.applications[1], sizeof none);

    memcpy(halves[0].bytes + 86, "\x0D\x14\x21\x55\xFF", 5);
    halves[2].bytes[176 - 128] = 0x0F;
    set_sum(&halves[2], 130, 254, 255);
    dovecounter_advertisement(halves, 3, 0, &advertisement);
    expect("host starts of pairs", 0x55, advertisement.applications[0].host_starts);
    expect("media starts of pairs", 0x0F, advertisement.applications[0].media_starts);
}

static void try_plan(struct dovecounter_plan *plan) {
    static const uint8_t control[8] = {0x10, 0x10, 0x10, 0x10, 0x10, 0x10, 0x10, 0x10};
    static const struct dovecounter_path none;
    make_module();
    expect("plan", DOVECOUNTER_DONE, dovecounter_plan(halves, 3, 0, 0, weights, 0, nothing, 0, plan));
    expect("weight", 400, (unsigned long)plan->weight);
    expect("paths", 1, plan->count);
    expect("lanes", 0xFF, plan->lanes);
    expect("lanes outside of no kept path", 0xFF, plan->outside);
    expect_same("control bytes", control, plan->control, 8);
    expect("Application of the path", 1, plan->paths[0].application);
    expect("first host lane", 1, plan->paths[0].host);
    expect("first media lane", 1, plan->paths[0].media);
    expect_same("behind the last path", &none, &plan->paths[1], sizeof none);
}

/* ---- kept paths ---- */

static void refuse_kept(const char *what, uint32_t wanted, const struct dovecounter_path *kept, size_t count) {
    struct dovecounter_plan plan, before;
    memset(&plan, 0x5A, sizeof plan);
    before = plan;
    expect(what, wanted, dovecounter_plan(halves, 3, 0, 0, weights, 0, kept, count, &plan));
    expect_same("a plan with refused kept paths is not written", &before, &plan, sizeof plan);
}

/* A second Application, 100GAUI-2 on host lanes 1, 3, 5 and 7 and a media lane, weighs 50: four of them less than the first. */
static void make_two_applications(void) {
    make_module();
    memcpy(halves[0].bytes + 90, "\x0D\x14\x21\x55\xFF", 5);
    halves[2].bytes[177 - 128] = 0x0F;
    set_sum(&halves[2], 130, 254, 255);
    weights[0x0D] = 50;
}

static void try_kept(void) {
    static const struct dovecounter_path first = {2, 3, 2}, nine[9] = {{1, 1, 1}};
    static const struct dovecounter_path other[2] = {{2, 3, 2}, {2, 5, 2}}, absent = {3, 1, 1};
    static const uint8_t control[8] = {0x20, 0x20, 0x24, 0x24, 0x28, 0x28, 0x2C, 0x2C};
    struct dovecounter_plan plan;
    make_two_applications();
    expect("plan with two Applications", DOVECOUNTER_DONE,
           dovecounter_plan(halves, 3, 0, 0, weights, 0, nothing, 0, &plan));
    expect("nothing kept: Application", 1, plan.paths[0].application);
    expect("kept", DOVECOUNTER_DONE, dovecounter_plan(halves, 3, 0, 0, weights, 0, &first, 1, &plan));
    expect("kept: weight", 200, (unsigned long)plan.weight);
    expect("kept: paths", 4, plan.count);
    expect("kept: lanes", 0xFF, plan.lanes);
    expect("kept: lanes outside", 0xF3, plan.outside);
    expect_same("kept: control bytes", control, plan.control, 8);
    expect_same("kept: the path", &first, &plan.paths[1], sizeof first);
    refuse_kept("KP2", DOVECOUNTER_TOO_MANY_KEPT, nine, 9);
    refuse_kept("KP3, a lane twice", DOVECOUNTER_KEPT_NOT_ADMISSIBLE, other, 2);
    refuse_kept("KP3, no such Application", DOVECOUNTER_KEPT_NOT_ADMISSIBLE, &absent, 1);
    expect("the halves come before kept paths", DOVECOUNTER_ABSENT,
           dovecounter_plan(halves, 0, 0, 0, weights, 0, nine, 9, &plan));
    weights[0x0D] = 0;
}

/* ---- a module that pairs first lanes ---- */

static void judge_text(const char *what, uint8_t reason, uint8_t paired, const uint8_t *text, size_t length) {
    struct dovecounter_judgement judgement = {77, 77};
    expect(what, DOVECOUNTER_DONE, dovecounter_check(halves, 3, paired, 0, weights, 0, text, length, &judgement));
    expect(what, reason, judgement.reason);
    expect(what, 0, (unsigned long)judgement.number);
}

/* The second of the second Application's first host lanes is 3, and the second of its first media lanes is 2. */
static void try_paired(void) {
    static const struct dovecounter_path own = {2, 3, 2}, other = {2, 3, 1};
    static uint8_t text[DOVECOUNTER_CERTIFICATE_SIZE];
    struct dovecounter_plan plan;
    size_t length;
    make_two_applications();
    expect("lanes apart", DOVECOUNTER_DONE, dovecounter_plan(halves, 3, 0, 0, weights, 0, &other, 1, &plan));
    expect("lanes apart, paired", DOVECOUNTER_KEPT_NOT_ADMISSIBLE,
           dovecounter_plan(halves, 3, 1, 0, weights, 0, &other, 1, &plan));
    expect("lanes apart, certified", DOVECOUNTER_KEPT_NOT_ADMISSIBLE,
           dovecounter_certificate(halves, 3, 1, 0, weights, 0, &other, 1, text, sizeof text, &length));
    expect("lanes of one place, by any number but 0", DOVECOUNTER_DONE,
           dovecounter_plan(halves, 3, 255, 0, weights, 0, &own, 1, &plan));
    expect("their weight", 200, (unsigned long)plan.weight);
    for (size_t i = 0; i < 4; i++) expect("media lanes in order", (unsigned long)i + 1, plan.paths[i].media);
    for (uint8_t paired = 0; paired < 2; paired++) {
        expect("certified", DOVECOUNTER_DONE,
               dovecounter_certificate(halves, 3, paired, 0, weights, 0, &own, 1, text, sizeof text, &length));
        expect_same("its first line", paired ? "certificate 4\n" : "certificate 2\n", text, 14);
        judge_text("a certificate of the same module", 0, paired, text, length);
        judge_text("VR10", 10, !paired, text, length);
    }
    weights[0x0D] = 0;
}

/* ---- a module that leaves lane counts to the interface IDs ---- */

static void expect_counts(const char *what, uint8_t host, uint8_t media, uint8_t counts_by_id) {
    struct dovecounter_advertisement advertisement;
    dovecounter_advertisement(halves, 3, counts_by_id, &advertisement);
    expect(what, host, advertisement.applications[0].host_lanes);
    expect(what, media, advertisement.applications[0].media_lanes);
}

/* 400GAUI-8 to 400GBASE-DR4, and 100GAUI-2 to 100GBASE-DR. */
static void try_counts(void) {
    static const struct dovecounter_path first = {2, 3, 2};
    static uint8_t text[DOVECOUNTER_CERTIFICATE_SIZE];
    struct dovecounter_plan said, plan;
    struct dovecounter_judgement judgement;
    size_t length;
    make_two_applications();
    halves[0].bytes[85] = 2;
    expect("counts that stand", DOVECOUNTER_DONE, dovecounter_plan(halves, 3, 0, 1, weights, 0, &first, 1, &said));
    halves[0].bytes[88] = halves[0].bytes[92] = 0;
    expect_counts("as they stand", 0, 0, 0);
    expect_counts("by the IDs", 8, 4, 1);
    expect_counts("by any number but 0", 8, 4, 255);
    expect("no lanes", DOVECOUNTER_KEPT_NOT_ADMISSIBLE,
           dovecounter_plan(halves, 3, 0, 0, weights, 0, &first, 1, &plan));
    expect("counts by the IDs", DOVECOUNTER_DONE, dovecounter_plan(halves, 3, 0, 1, weights, 0, &first, 1, &plan));
    expect("their weight", 200, (unsigned long)plan.weight);
    expect_same("the same plan", &said, &plan, sizeof plan);
    expect("certified without lanes", DOVECOUNTER_KEPT_NOT_ADMISSIBLE,
           dovecounter_certificate(halves, 3, 0, 0, weights, 0, &first, 1, text, sizeof text, &length));
    expect("certified", DOVECOUNTER_DONE,
           dovecounter_certificate(halves, 3, 0, 2, weights, 0, &first, 1, text, sizeof text, &length));
    expect("judged", DOVECOUNTER_DONE, dovecounter_check(halves, 3, 0, 3, weights, 0, text, length, &judgement));
    expect("good", 0, judgement.reason);
    expect("judged without lanes", DOVECOUNTER_DONE,
           dovecounter_check(halves, 3, 0, 0, weights, 0, text, length, &judgement));
    expect("VR8", 8, judgement.reason);
    halves[0].bytes[88] = 0x80;
    expect_counts("media lanes by the ID", 8, 4, 1);
    halves[0].bytes[85] = 3;
    expect_counts("copper, whose IDs tell no lanes", 8, 0, 1);
    weights[0x0D] = 0;
}

/* ---- a module that has data paths already ---- */

/* Two of the four paths that weigh 200 are active, and one that weighs 400 is not: these gain 101 for each that stays. */
static void try_active(void) {
    static const uint8_t active[8] = {0x20, 0x21, 0x24, 0x24};
    static uint8_t text[DOVECOUNTER_CERTIFICATE_SIZE];
    struct dovecounter_plan plan;
    struct dovecounter_judgement judgement;
    size_t length;
    make_two_applications();
    halves[3] = (struct dovecounter_half){.device = 0xA0, .upper = 1, .page = 0x11};
    memcpy(halves[3].bytes + 206 - 128, active, 8);
    expect("nothing stays", DOVECOUNTER_DONE, dovecounter_plan(halves, 4, 0, 0, weights, 0, nothing, 0, &plan));
    expect("the heavier path", 400, (unsigned long)plan.weight);
    expect("as much", DOVECOUNTER_DONE, dovecounter_plan(halves, 4, 0, 0, weights, 100, nothing, 0, &plan));
    expect("the first of two best plans", 1, plan.paths[0].application);
    expect("more", DOVECOUNTER_DONE, dovecounter_plan(halves, 4, 0, 0, weights, 101, nothing, 0, &plan));
    expect("the paths that stay", 402, (unsigned long)plan.weight);
    expect("their Application", 2, plan.paths[0].application);
    expect("their number", 4, plan.count);
    expect("certified", DOVECOUNTER_DONE,
           dovecounter_certificate(halves, 4, 0, 0, weights, 101, nothing, 0, text, sizeof text, &length));
    expect("judged", DOVECOUNTER_DONE, dovecounter_check(halves, 4, 0, 0, weights, 101, text, length, &judgement));
    expect("good", 0, judgement.reason);
    expect("judged by another weight", DOVECOUNTER_DONE,
           dovecounter_check(halves, 4, 0, 0, weights, 100, text, length, &judgement));
    expect("VR3", 3, judgement.reason);
    expect("no page 11h", DOVECOUNTER_ABSENT, dovecounter_plan(halves, 3, 0, 0, weights, 1, nothing, 0, &plan));
    expect("no page 11h, certified", DOVECOUNTER_ABSENT,
           dovecounter_certificate(halves, 3, 0, 0, weights, 1, nothing, 0, text, sizeof text, &length));
    expect("no page 11h, judged", DOVECOUNTER_ABSENT,
           dovecounter_check(halves, 3, 0, 0, weights, 1, text, length, &judgement));
    weights[0x0D] = 0;
}

/* ---- certificates ---- */

/* The states behind the first one, from which nothing is gained. */
#define REST                                                                                                           \
    "state 1 00 0\nstate 2 00 0\nstate 3 00 0\nstate 4 00 0\nstate 5 00 0\nstate 6 00 0\nstate 7 00 0\n"               \
    "state 8 00 0\nstate 8 0f 0\nend\n"

static void check_text(const char *what, const char *text, uint32_t status, uint8_t reason, size_t number) {
    struct dovecounter_judgement judgement, before;
    memset(&judgement, 0x5A, sizeof judgement);
    before = judgement;
    make_module();
    expect(what, status,
           dovecounter_check(halves, 3, 0, 0, weights, 0, (const uint8_t *)text, strlen(text), &judgement));
    if (status != DOVECOUNTER_DONE) {
        expect_same("a refused judgement is not written", &before, &judgement, sizeof judgement);
        return;
    }
    expect(what, reason, judgement.reason);
    expect(what, (unsigned long)number, (unsigned long)judgement.number);
}

static const char good[] = "certificate 1\nweight 400\npath 1 1 1\nstate 0 00 400\n" REST;

/* A certificate that is good but for a state that no decision reaches, and where the lane after it leads. */
static void check_unreached(const char *what, const char *potential, const char *later, uint8_t reason, size_t number) {
    char text[500];
    snprintf(text, sizeof text,
             "certificate 1\nweight 400\npath 1 1 1\nstate 0 00 400\nstate 1 00 0\nstate 2 00 0\nstate 3 00 0\n"
             "state 4 00 0\nstate 5 00 0\nstate 6 00 0\nstate 7 00 0\nstate 7 ff %s\nstate 8 00 0\nstate 8 0f 0\n%s"
             "end\n",
             potential, later);
    check_text(what, text, DOVECOUNTER_DONE, reason, number);
}

/* Potentials from 254 * 2 ^ 32 on are looked up in the text. */
static void try_large(void) {
    check_unreached("the largest", "18446744073709551615", "state 8 ff 18446744073709551615\n", 0, 0);
    check_unreached("one too low", "18446744073709551614", "state 8 ff 18446744073709551615\n", 6, 9);
    check_unreached("the last that is kept", "1090921693183", "state 8 ff 1090921693184\n", 6, 9);
    check_unreached("the first that is not", "1090921693184", "state 8 ff 1090921693183\n", 0, 0);
    check_unreached("two that are not", "1099511627776", "state 8 ff 1090921693184\n", 0, 0);
    check_unreached("one that is not, and nothing", "1090921693184", "", 5, 9);
    check_text("the start's", "certificate 1\nweight 400\npath 1 1 1\nstate 0 00 18446744073709551615\n" REST,
               DOVECOUNTER_DONE, 7, 0);
}

static void try_check(void) {
    struct dovecounter_judgement judgement;
    try_large();
    check_text("a good certificate", good, DOVECOUNTER_DONE, 0, 0);
    check_text("CT1", "certificate 5\n", DOVECOUNTER_BAD_LINE, 0, 0);
    check_text("CT2", "certificate 1\nweight 0\nstate 1 00 0\nstate 0 00 0\nend\n", DOVECOUNTER_OUT_OF_ORDER, 0, 0);
    check_text("CT3",
               "certificate 1\nweight 0\npath 1 1 1\npath 1 1 1\npath 1 1 1\npath 1 1 1\npath 1 1 1\npath 1 1 1\n"
               "path 1 1 1\npath 1 1 1\npath 1 1 1\nend\n",
               DOVECOUNTER_TOO_MANY, 0, 0);
    check_text("CT4", "certificate 1\nweight 0\n", DOVECOUNTER_NO_END, 0, 0);
    check_text("VR1", "certificate 1\nweight 0\npath 2 1 1\nend\n", DOVECOUNTER_DONE, 1, 1);
    check_text("VR2", "certificate 1\nweight 0\npath 1 1 1\npath 1 1 1\nend\n", DOVECOUNTER_DONE, 2, 2);
    check_text("VR3", "certificate 1\nweight 399\npath 1 1 1\nend\n", DOVECOUNTER_DONE, 3, 0);
    check_text("VR4", "certificate 1\nweight 400\npath 1 1 1\nend\n", DOVECOUNTER_DONE, 4, 0);
    check_text("VR5", "certificate 1\nweight 0\nstate 0 00 0\nend\n", DOVECOUNTER_DONE, 5, 1);
    check_text("VR6", "certificate 1\nweight 0\nstate 0 00 0\n" REST, DOVECOUNTER_DONE, 6, 1);
    check_text("VR7", "certificate 1\nweight 400\npath 1 1 1\nstate 0 00 401\n" REST, DOVECOUNTER_DONE, 7, 0);
    check_text("VR8", "certificate 2\nweight 0\nkeep 2 1 1\nend\n", DOVECOUNTER_DONE, 8, 1);
    check_text("VR9", "certificate 2\nweight 0\nkeep 1 1 1\nend\n", DOVECOUNTER_DONE, 9, 1);
    check_text("a good certificate that keeps its path",
               "certificate 2\nweight 400\nkeep 1 1 1\npath 1 1 1\nstate 0 00 400\nstate 8 0f 0\nend\n",
               DOVECOUNTER_DONE, 0, 0);
    make_module();
    expect("the halves come before the text", DOVECOUNTER_ABSENT,
           dovecounter_check(halves, 0, 0, 0, weights, 0, (const uint8_t *)"", 0, &judgement));
}

/* ---- written certificates ---- */

/* A buffer of this very size, so that a byte after it is noticed: written if the text fits, and else left. */
static void write_text(const char *what, const struct dovecounter_path *kept, size_t kept_count, size_t size,
                       const char *wanted) {
    size_t needed = strlen(wanted), length = 12345;
    uint8_t *buffer = malloc(size + (size == 0));
    memset(buffer, 0x5A, size + (size == 0));
    uint32_t status = dovecounter_certificate(halves, 3, 0, 0, weights, 0, kept, kept_count, buffer, size, &length);
    expect(what, size < needed ? DOVECOUNTER_TOO_SMALL : DOVECOUNTER_DONE, status);
    expect("length of a certificate's text", (unsigned long)needed, (unsigned long)length);
    if (status == DOVECOUNTER_DONE) expect_same(what, wanted, buffer, needed);
    for (size_t i = status == DOVECOUNTER_DONE ? needed : 0; i < size; i++)
        expect("a byte that is no text is not written", 0x5A, buffer[i]);
    free(buffer);
}

static void refuse_text(const char *what, uint32_t wanted, const struct dovecounter_half *in, size_t count,
                        const struct dovecounter_path *kept, size_t kept_count) {
    uint8_t buffer[DOVECOUNTER_CERTIFICATE_SIZE], before[DOVECOUNTER_CERTIFICATE_SIZE];
    size_t length = 12345;
    memset(buffer, 0x5A, sizeof buffer);
    memcpy(before, buffer, sizeof buffer);
    expect(what, wanted,
           dovecounter_certificate(in, count, 0, 0, weights, 0, kept, kept_count, buffer, sizeof buffer, &length));
    expect("a refused certificate has no length", 12345, (unsigned long)length);
    expect_same("a refused certificate is not written", before, buffer, sizeof buffer);
}

/* What is written for the module as it is now is good for it, and of the plan's weight and paths. */
static void expect_good_text(const char *what, const struct dovecounter_path *kept, size_t kept_count) {
    static char text[DOVECOUNTER_CERTIFICATE_SIZE + 1], head[400];
    struct dovecounter_judgement judgement = {77, 77};
    struct dovecounter_plan plan;
    size_t length = 0;
    expect(what, DOVECOUNTER_DONE, dovecounter_plan(halves, 3, 0, 0, weights, 0, kept, kept_count, &plan));
    expect(what, DOVECOUNTER_DONE,
           dovecounter_certificate(halves, 3, 0, 0, weights, 0, kept, kept_count, (uint8_t *)text, sizeof text - 1,
                                   &length));
    text[length] = 0;
    expect(what, DOVECOUNTER_DONE,
           dovecounter_check(halves, 3, 0, 0, weights, 0, (const uint8_t *)text, length, &judgement));
    expect(what, 0, judgement.reason);
    int end = snprintf(head, sizeof head, "certificate %d\nweight %llu\n", kept_count ? 2 : 1,
                       (unsigned long long)plan.weight);
    for (size_t i = 0; i < kept_count; i++)
        end += snprintf(head + end, sizeof head - (size_t)end, "keep %d %d %d\n", kept[i].application, kept[i].host,
                        kept[i].media);
    for (int i = 0; i < plan.count; i++)
        end += snprintf(head + end, sizeof head - (size_t)end, "path %d %d %d\n", plan.paths[i].application,
                        plan.paths[i].host, plan.paths[i].media);
    expect_same("the lines of a certificate before its states", head, text, (size_t)end);
    for (size_t size = 0; size <= length + 3; size += size < 3 || size + 3 > length ? 1 : 97)
        write_text(what, kept, kept_count, size, text);
}

static void try_certificate(void) {
    static const char keeps[] = "certificate 2\nweight 400\nkeep 1 1 1\npath 1 1 1\n"
                                "state 0 00 400\nstate 8 0f 0\nend\n";
    static const struct dovecounter_half many[17];
    static const struct dovecounter_path all = {1, 1, 1}, first = {2, 3, 2}, absent = {3, 1, 1},
                                         other[2] = {{2, 3, 2}, {1, 1, 1}}, nine[9];
    make_module();
    for (size_t size = 0; size < sizeof good + 3; size++) write_text("a certificate", nothing, 0, size, good);
    for (size_t size = 0; size < sizeof keeps + 3; size++) write_text("a kept path", &all, 1, size, keeps);
    refuse_text("a certificate of too many halves", DOVECOUNTER_TOO_MANY_HALVES, many, 17, nothing, 0);
    refuse_text("a certificate of halves without a device", DOVECOUNTER_NO_PLACE, many, 16, nothing, 0);
    refuse_text("a certificate of no halves", DOVECOUNTER_ABSENT, halves, 0, nine, 9);
    refuse_text("a certificate that keeps too many paths", DOVECOUNTER_TOO_MANY_KEPT, halves, 3, nine, 9);
    refuse_text("a certificate that keeps what isn't there", DOVECOUNTER_KEPT_NOT_ADMISSIBLE, halves, 3, &absent, 1);
    make_two_applications();
    weights[0x0D] = 101;
    expect_good_text("four paths", nothing, 0);
    expect_good_text("four paths, one of which is kept", &first, 1);
    refuse_text("a certificate that keeps a lane twice", DOVECOUNTER_KEPT_NOT_ADMISSIBLE, halves, 3, other, 2);
    weights[0x0D] = weights[0x11] = UINT32_MAX;
    expect_good_text("paths of the greatest weight", nothing, 0);
    weights[0x0D] = 0;
}

/* ---- procedures ---- */

static struct dovecounter_half none[DOVECOUNTER_MOST_READ]; /* is read by them */
static const struct dovecounter_patience patience = {.pause = 40, .limit = 100};

static void expect_operation(const char *what, const struct dovecounter_conversation *procedure, uint8_t kind,
                             uint8_t offset, uint8_t count, uint8_t first, uint8_t second) {
    struct dovecounter_operation operation;
    expect(what, DOVECOUNTER_DONE, dovecounter_next(procedure, none, &operation));
    expect(what, kind, operation.kind);
    expect(what, 0xA0, operation.device);
    expect(what, offset, operation.offset);
    expect(what, count, operation.count);
    expect(what, first, operation.bytes[0]);
    expect(what, second, operation.bytes[1]);
    expect(what, 0, operation.milliseconds);
}

static void expect_wait(const char *what, struct dovecounter_conversation *procedure) {
    struct dovecounter_operation operation;
    expect(what, DOVECOUNTER_DONE, dovecounter_next(procedure, none, &operation));
    expect(what, DOVECOUNTER_WAIT, operation.kind);
    expect(what, 40, operation.milliseconds);
    expect(what, 0, operation.device | operation.offset | operation.count | operation.bytes[0]);
    expect(what, DOVECOUNTER_DONE, dovecounter_reply(procedure, none, DOVECOUNTER_WAITED, operation.bytes, 0));
}

/* A reply that is refused changes nothing. */
static void refuse_reply(const char *what, uint32_t wanted, struct dovecounter_conversation procedure, uint8_t outcome,
                         size_t count) {
    static const uint8_t bytes[200];
    struct dovecounter_conversation before = procedure;
    expect(what, wanted, dovecounter_reply(&procedure, none, outcome, bytes, count));
    expect_same(what, &before, &procedure, sizeof procedure);
}

static void take(const char *what, struct dovecounter_conversation *procedure, uint8_t outcome, const uint8_t *bytes,
                 size_t count) {
    expect(what, DOVECOUNTER_DONE, dovecounter_reply(procedure, none, outcome, bytes, count));
}

/* What a fetch of the module's state shows. */
static uint8_t shows(uint8_t state) { return (uint8_t)(state << 1); }

/* Page 10h is confirmed, and the store that takes lanes down is refused: a wait is over, after it. */
static void begin_down(const struct dovecounter_plan *plan, uint8_t trusts,
                       struct dovecounter_conversation *procedure) {
    static const uint8_t ready = 3 << 1, page[] = {0, 0x10};
    const struct dovecounter_patience patient = {.pause = 40, .limit = 100, .trusts = trusts};
    dovecounter_provision_begin(plan->control, 0xFF, &patient, procedure);
    take("ready", procedure, DOVECOUNTER_FETCHED, &ready, 1);
    take("selected", procedure, DOVECOUNTER_STORED, &ready, 0);
    take("read back", procedure, DOVECOUNTER_FETCHED, page, 2);
    expect_operation("lanes are taken down", procedure, DOVECOUNTER_STORE, 128, 1, 0xFF, 0);
    take("refused", procedure, DOVECOUNTER_REFUSED, &ready, 0);
    expect_wait("after a refusal", procedure);
}

/* A store that is refused is made again, by whoever trusts the selection; whoever doubts looks at the module's state, and selects the
   page again. */
static void try_doubt(const struct dovecounter_plan *plan) {
    const uint8_t ready = shows(3);
    struct dovecounter_conversation procedure;
    begin_down(plan, 1, &procedure);
    expect_operation("the store again", &procedure, DOVECOUNTER_STORE, 128, 1, 0xFF, 0);
    begin_down(plan, 0, &procedure);
    expect_operation("the module's state again", &procedure, DOVECOUNTER_FETCH, 3, 1, 0, 0);
    refuse_reply("a look is not stored", DOVECOUNTER_NO_REPLY, procedure, DOVECOUNTER_STORED, 0);
    take("still ready", &procedure, DOVECOUNTER_FETCHED, &ready, 1);
    expect_operation("the selection again", &procedure, DOVECOUNTER_STORE, 126, 2, 0, 0x10);
}

/* The module shows another state than ModuleReady after a wait. */
static void try_left(const struct dovecounter_plan *plan) {
    static const uint8_t codes[8] = {7, 9, 9, 0, 9, 10, 7, 7}; /* of the faults, by the states */
    struct dovecounter_conversation procedure, before;
    struct dovecounter_operation operation;
    for (uint8_t state = 0; state < 8; state++) {
        const uint8_t shown = shows(state);
        struct dovecounter_ending ending;
        begin_down(plan, 0, &procedure);
        take("the module's state", &procedure, DOVECOUNTER_FETCHED, &shown, 1);
        if (state == 3) continue;
        expect("no more operation", DOVECOUNTER_ENDED, dovecounter_next(&procedure, none, &operation));
        refuse_reply("nothing after a reset", DOVECOUNTER_ENDED, procedure, DOVECOUNTER_REFUSED, 0);
        expect("an end of what was reset", DOVECOUNTER_DONE, dovecounter_end(&procedure, none, &ending));
        expect("how it left ModuleReady", codes[state], ending.fault.code);
        expect("where it is", state, ending.fault.first);
        expect("no more of it", 0, ending.fault.second);
        expect("no steps of what was reset", 0, ending.steps);
    }
    expect("9 is a reset", 9, DOVECOUNTER_RESET);
    expect("10 is ModuleFault", 10, DOVECOUNTER_FAULTY);

    /* A look that is refused is a refusal of what was to come: another wait, and another look. */
    begin_down(plan, 0, &procedure);
    take("a refused look", &procedure, DOVECOUNTER_REFUSED, none[0].bytes, 0);
    expect_wait("after a refused look", &procedure);
    expect_operation("another look", &procedure, DOVECOUNTER_FETCH, 3, 1, 0, 0);
    take("a refused look", &procedure, DOVECOUNTER_REFUSED, none[0].bytes, 0);
    expect_wait("after another refused look", &procedure);
    take("a refused look", &procedure, DOVECOUNTER_REFUSED, none[0].bytes, 0);
    expect("looks have an end", DOVECOUNTER_ENDED, dovecounter_next(&procedure, none, &operation));

    begin_down(plan, 0, &procedure);
    for (int i = 0; i < 9; i++) {
        before = procedure;
        if (i == 0) before.watches = 2;
        if (i == 1) before.look = 2;
        if (i == 2) before.left.code = 11;
        if (i == 3) before.left = (struct dovecounter_fault){6, 1, 0}; /* while a look is due */
        if (i > 3) before.look = 0, before.left.first = i < 8;
        if (i > 4) before.left.code = (uint8_t)(i - 4); /* 1 to 4, which no state is */
        expect("no procedure left ModuleReady so", DOVECOUNTER_NO_CONVERSATION,
               dovecounter_next(&before, none, &operation));
        refuse_reply("none takes a reply", DOVECOUNTER_NO_CONVERSATION, before, DOVECOUNTER_REFUSED, 0);
    }
    procedure.look = 0;
    procedure.left = (struct dovecounter_fault){6, 1, 0};
    expect("it left ModuleReady so", DOVECOUNTER_ENDED, dovecounter_next(&procedure, none, &operation));
}

/* A bus that refuses all: 0, 40, 80 and 120 milliseconds were waited, and then no more. */
static void try_limit(const struct dovecounter_plan *plan) {
    struct dovecounter_conversation procedure;
    struct dovecounter_ending ending;
    struct dovecounter_operation operation;
    dovecounter_provision_begin(plan->control, 0xFF, &patience, &procedure);
    for (int refused = 0; refused < 3; refused++) {
        take("refused", &procedure, DOVECOUNTER_REFUSED, none[0].bytes, 0);
        expect_wait("a pause", &procedure);
    }
    take("refused at last", &procedure, DOVECOUNTER_REFUSED, none[0].bytes, 0);
    expect("overdue", DOVECOUNTER_ENDED, dovecounter_next(&procedure, none, &operation));
    expect("an end", DOVECOUNTER_DONE, dovecounter_end(&procedure, none, &ending));
    expect("the fault 8", DOVECOUNTER_OVERDUE, ending.fault.code);
    expect("no steps", 0, ending.steps);
}

static void try_procedure(const struct dovecounter_plan *plan) {
    static const uint8_t ready = 3 << 1, low_power = 1 << 1;
    struct dovecounter_conversation procedure;
    struct dovecounter_ending ending;
    memset(&procedure, 0, sizeof procedure);
    dovecounter_provision_begin(plan->control, 0xFF, &patience, &procedure);
    expect_operation("the module's state", &procedure, DOVECOUNTER_FETCH, 3, 1, 0, 0);
    expect("not ended", DOVECOUNTER_NOT_ENDED, dovecounter_end(&procedure, none, &ending));
    refuse_reply("a fetch is not stored", DOVECOUNTER_NO_REPLY, procedure, DOVECOUNTER_STORED, 0);
    refuse_reply("a fetch is no wait", DOVECOUNTER_NO_REPLY, procedure, DOVECOUNTER_WAITED, 0);
    refuse_reply("two bytes are not one", DOVECOUNTER_NO_REPLY, procedure, DOVECOUNTER_FETCHED, 2);
    refuse_reply("200 bytes are not one", DOVECOUNTER_NO_REPLY, procedure, DOVECOUNTER_FETCHED, 200);
    refuse_reply("no such outcome", DOVECOUNTER_NO_REPLY, procedure, 4, 1);
    take("refused", &procedure, DOVECOUNTER_REFUSED, &ready, 0);
    refuse_reply("a wait is not refused", DOVECOUNTER_NO_REPLY, procedure, DOVECOUNTER_REFUSED, 0);
    expect("a wait is no end", DOVECOUNTER_NOT_ENDED, dovecounter_end(&procedure, none, &ending));
    expect_wait("after a refusal", &procedure);
    expect_operation("asked again", &procedure, DOVECOUNTER_FETCH, 3, 1, 0, 0);
    take("ready", &procedure, DOVECOUNTER_FETCHED, &ready, 1);
    expect_operation("page 10h", &procedure, DOVECOUNTER_STORE, 126, 2, 0, 0x10);
    refuse_reply("a store is not fetched", DOVECOUNTER_NO_REPLY, procedure, DOVECOUNTER_FETCHED, 2);

    dovecounter_activate_begin(plan->control, 0xFF, &patience, &procedure);
    take("low power", &procedure, DOVECOUNTER_FETCHED, &low_power, 1);
    expect("ended", DOVECOUNTER_DONE, dovecounter_end(&procedure, none, &ending));
    expect("PV6", 6, ending.fault.code);
    expect("PV6 1", 1, ending.fault.first);
    expect("no steps", 0, ending.steps);
    refuse_reply("nothing after the end", DOVECOUNTER_ENDED, procedure, DOVECOUNTER_REFUSED, 0);
    struct dovecounter_operation operation, before;
    memset(&operation, 0x5A, sizeof operation);
    before = operation;
    expect("no operation after the end", DOVECOUNTER_ENDED, dovecounter_next(&procedure, none, &operation));
    expect_same("no operation is written", &before, &operation, sizeof operation);
}

/* ---- a run that the caller ends ---- */

static uint8_t say_nothing(void *context, const struct dovecounter_operation *operation, uint8_t bytes[128]) {
    (void)operation;
    (void)bytes;
    if (++*(int *)context == 10) exit(1); /* it is called again and again */
    return 77;
}

static void pause_never(void *context, uint32_t milliseconds) {
    (void)context;
    expect("no pause", 0, milliseconds);
}

static void try_run(const struct dovecounter_plan *plan) {
    struct dovecounter_conversation procedure, before;
    int calls = 0;
    dovecounter_provision_begin(plan->control, 0xFF, &patience, &procedure);
    before = procedure;
    expect("no outcome", DOVECOUNTER_NO_REPLY, dovecounter_run(&procedure, none, say_nothing, pause_never, &calls));
    expect("one call", 1, (unsigned)calls);
    expect_same("goes on where it was", &before, &procedure, sizeof procedure);
    memset(&procedure, 0, sizeof procedure);
    expect("zeros", DOVECOUNTER_NO_CONVERSATION, dovecounter_run(&procedure, none, say_nothing, pause_never, &calls));
}

/* All else that is carried out by a loop of the header. */
struct others {
    struct dovecounter_update update;
    struct dovecounter_changing_lanes lanes;
    struct dovecounter_link_test test;
    struct dovecounter_changing_settings settings;
    struct dovecounter_explicit provisioning;
    struct dovecounter_vdm reading;
};

static void run_others(const char *what, unsigned wanted, struct others *it) {
    static const uint8_t file[1] = {0};
    struct dovecounter_half halves[DOVECOUNTER_MOST_VDM] = {0};
    int calls = 0;
    expect(what, wanted, dovecounter_update_run(&it->update, file, 1, say_nothing, pause_never, &calls));
    expect(what, wanted, dovecounter_lane_run(&it->lanes, say_nothing, pause_never, &calls));
    expect(what, wanted, dovecounter_link_test_run(&it->test, say_nothing, pause_never, &calls));
    expect(what, wanted, dovecounter_settings_run(&it->settings, say_nothing, pause_never, &calls));
    expect(what, wanted, dovecounter_explicit_run(&it->provisioning, say_nothing, pause_never, &calls));
    expect(what, wanted, dovecounter_vdm_run(&it->reading, halves, say_nothing, pause_never, &calls));
    expect("a call of each", wanted == DOVECOUNTER_NO_REPLY ? 6 : 0, (unsigned)calls);
}

struct waits {
    unsigned calls, pauses, milliseconds;
};

static uint8_t refuse_all(void *context, const struct dovecounter_operation *operation, uint8_t bytes[128]) {
    struct waits *waits = context;
    expect("an operation", 1, operation->kind == DOVECOUNTER_FETCH || operation->kind == DOVECOUNTER_STORE);
    memset(bytes, 0, 128);
    waits->calls++;
    return DOVECOUNTER_REFUSED;
}

static void count_pause(void *context, uint32_t milliseconds) {
    struct waits *waits = context;
    waits->pauses++;
    waits->milliseconds += milliseconds;
}

/* Over a bus that refuses all, each pauses as it is told to. */
static void try_pauses(struct others *it) {
    static const uint8_t file[1] = {0};
    struct dovecounter_half halves[DOVECOUNTER_MOST_VDM] = {0};
    struct waits waits[6] = {{0}};
    dovecounter_update_run(&it->update, file, 1, refuse_all, count_pause, &waits[0]);
    dovecounter_lane_run(&it->lanes, refuse_all, count_pause, &waits[1]);
    dovecounter_link_test_run(&it->test, refuse_all, count_pause, &waits[2]);
    dovecounter_settings_run(&it->settings, refuse_all, count_pause, &waits[3]);
    dovecounter_explicit_run(&it->provisioning, refuse_all, count_pause, &waits[4]);
    dovecounter_vdm_run(&it->reading, halves, refuse_all, count_pause, &waits[5]);
    for (int i = 0; i < 6; i++) {
        expect("a loop is over at once", 1, waits[i].calls > 1 && waits[i].pauses > 0);
        expect("other pauses", 1, waits[i].milliseconds >= 5 * waits[i].pauses);
    }
}

static void try_other_runs(const struct dovecounter_plan *plan) {
    static const struct dovecounter_lane_change change = {.lanes = 1, .on = 1, .most_stores = 1};
    static const struct dovecounter_link_plan link = {.period = 1000,
                                                      .rounds = 1,
                                                      .shown = DOVECOUNTER_ERROR_RATIOS,
                                                      .generator = DOVECOUNTER_NO_PATTERN,
                                                      .checker = DOVECOUNTER_NO_PATTERN};
    static const struct dovecounter_settings_limits limits = {.amplitudes = 1};
    static const struct dovecounter_settings_change settings = {.lanes = 1, .permitted = 1, .tries = 1};
    struct others it, before;
    memset(&it, 0, sizeof it);
    run_others("zeros of another loop", DOVECOUNTER_NO_CONVERSATION, &it);
    dovecounter_update_begin(1, 0, &it.update);
    dovecounter_lane_begin(&change, &patience, &it.lanes);
    dovecounter_link_test_begin(&link, &patience, &it.test);
    dovecounter_settings_begin(&settings, &limits, &patience, &it.settings);
    dovecounter_explicit_begin(plan->control, 0xFF, &settings, &limits, &patience, &it.provisioning);
    dovecounter_vdm_begin(40, 0, &it.reading);
    memcpy(&before, &it, sizeof it);
    run_others("no outcome of another loop", DOVECOUNTER_NO_REPLY, &it);
    expect_same("each goes on where it was", &before, &it, sizeof it);
    try_pauses(&it);
}

static uint8_t refuse(void *context, const struct dovecounter_operation *operation, uint8_t bytes[128]) {
    struct waits *waits = context;
    expect("no wait is a transaction", DOVECOUNTER_FETCH, operation->kind);
    memset(bytes, 3 << 1, 128); /* ModuleReady, if anybody looks at it */
    waits->calls++;
    return DOVECOUNTER_REFUSED;
}

/* A bus that refuses all, as in try_limit. */
static void try_waits(const struct dovecounter_plan *plan) {
    struct dovecounter_conversation procedure;
    struct dovecounter_ending ending;
    struct waits waits = {0};
    dovecounter_provision_begin(plan->control, 0xFF, &patience, &procedure);
    expect("a run without an answer", DOVECOUNTER_DONE, dovecounter_run(&procedure, none, refuse, count_pause, &waits));
    expect("its end", DOVECOUNTER_DONE, dovecounter_end(&procedure, none, &ending));
    expect("the fault 8 of a run", DOVECOUNTER_OVERDUE, ending.fault.code);
    expect("its transactions", 4, waits.calls);
    expect("its pauses", 3, waits.pauses);
    expect("the milliseconds of all", 120, waits.milliseconds);
}

/* ---- durations ---- */

static void try_durations(void) {
    static const uint32_t longest[] = {1, 5, 10, 50, 100, 500, 1000, 5000, 10000, 60000, 300000, 600000, 3000000};
    struct dovecounter_durations durations, before;
    for (unsigned code = 0; code < 16; code++) {
        uint32_t wanted = code < 13 ? longest[code] : DOVECOUNTER_UNBOUNDED;
        for (int field = 0; field < 6; field++) {
            static const uint8_t places[] = {167, 167, 144, 144, 168, 168}, shifts[] = {0, 4, 0, 4, 0, 4};
            make_module();
            halves[2].bytes[places[field] - 128] = (uint8_t)(code << shifts[field]);
            set_sum(&halves[2], 130, 254, 255);
            expect("durations", DOVECOUNTER_DONE, dovecounter_durations(halves, 3, &durations));
            const uint32_t found[] = {durations.module_power_up, durations.module_power_down,
                                      durations.path_init,       durations.path_deinit,
                                      durations.path_tx_turn_on, durations.path_tx_turn_off};
            for (int other = 0; other < 6; other++) expect("a duration", other == field ? wanted : 1, found[other]);
        }
    }
    make_module();
    memset(&durations, 0x5A, sizeof durations);
    before = durations;
    expect("no durations without page 01h", DOVECOUNTER_ABSENT, dovecounter_durations(halves, 2, &durations));
    expect_same("refused durations are not written", &before, &durations, sizeof durations);
}

static void try_patience(void) {
    struct dovecounter_patience found, before;
    memset(&found, 0x5A, sizeof found);
    before = found;
    make_module();
    expect("no patience without page 01h", DOVECOUNTER_ABSENT, dovecounter_patience(halves, 2, &found));
    expect_same("refused patience is not written", &before, &found, sizeof found);
    expect("patience", DOVECOUNTER_DONE, dovecounter_patience(halves, 3, &found));
    expect("the shortest pause", 100, found.pause);
    expect("it doubts", 0, found.trusts);
    halves[2].bytes[144 - 128] = 0x0B; /* 10 minutes */
    set_sum(&halves[2], 130, 254, 255);
    expect("patience", DOVECOUNTER_DONE, dovecounter_patience(halves, 3, &found));
    expect("a pause for states of 10 minutes", 450, found.pause);
    expect("a limit for states of 10 minutes", 1800000, found.limit);
}

/* ---- a module in software, on which a path is up ---- */

struct module {
    uint8_t page;          /* that is selected */
    uint8_t deinitialized; /* the DPDeinit bits */
    uint8_t touched;       /* lanes that were ever taken down or applied to */
    uint8_t staged[8];
    uint8_t active[8];
    int made; /* operations */
};

static void store(struct module *module, const struct dovecounter_operation *operation) {
    uint8_t first = operation->bytes[0];
    if (operation->offset == 126) module->page = operation->bytes[1];
    if (operation->offset == 128) module->deinitialized = first;
    if (operation->offset == 145) memcpy(module->staged, operation->bytes, 8);
    if (operation->offset == 128 || operation->offset == 143) module->touched |= first;
    for (int lane = 0; operation->offset == 143 && lane < 8; lane++)
        if (first >> lane & 1) module->active[lane] = module->staged[lane];
}

/* Four bits for each lane: `code` for the lanes of the mask, `other` for the others. */
static void set_codes(uint8_t *bytes, uint8_t lanes, unsigned code, unsigned other) {
    for (int lane = 0; lane < 8; lane += 2) {
        unsigned low = lanes >> lane & 1 ? code : other, high = lanes >> (lane + 1) & 1 ? code : other;
        bytes[lane / 2] = (uint8_t)(high << 4 | low);
    }
}

static void fetch(const struct module *module, uint8_t offset, uint8_t *bytes) {
    if (offset == 3) bytes[0] = 3 << 1; /* ModuleReady */
    if (offset == 126) bytes[0] = 0, bytes[1] = module->page;
    if (offset == 128) set_codes(bytes, module->deinitialized, 1, 4); /* DPDeactivated, DPActivated */
    if (offset == 145) memcpy(bytes, module->staged, 8);
    if (offset == 202) set_codes(bytes, module->touched, 1, 2); /* ConfigSuccess, ConfigRejected */
    if (offset == 206) memcpy(bytes, module->active, 8);
}

static uint8_t transact(void *context, const struct dovecounter_operation *operation, uint8_t bytes[128]) {
    struct module *module = context;
    if (++module->made == 5000) {
        expect("operations at most", 4096, 5000);
        exit(1);
    }
    if (operation->kind == DOVECOUNTER_STORE) return store(module, operation), DOVECOUNTER_STORED;
    fetch(module, operation->offset, bytes);
    return DOVECOUNTER_FETCHED;
}

static void pause(void *context, uint32_t milliseconds) {
    (void)context;
    expect("a pause", patience.pause, milliseconds);
}

static struct dovecounter_fault carry_out(struct module *module, struct dovecounter_conversation *procedure) {
    struct dovecounter_ending ending;
    module->made = 0;
    expect("a run", DOVECOUNTER_DONE, dovecounter_run(procedure, none, transact, pause, module));
    expect("the end", DOVECOUNTER_DONE, dovecounter_end(procedure, none, &ending));
    return ending.fault;
}

/* Lanes 3 and 4 carry a kept path: they are neither taken down nor applied to. */
static void try_kept_procedure(void) {
    static const struct dovecounter_path kept = {2, 3, 2};
    static const uint8_t before[8] = {0, 0, 0x24, 0x24}, others[8] = {0, 0, 0x24, 0x14};
    struct module module = {0};
    struct dovecounter_plan plan;
    struct dovecounter_conversation procedure;
    struct dovecounter_fault fault;
    make_two_applications();
    expect("kept", DOVECOUNTER_DONE, dovecounter_plan(halves, 3, 0, 0, weights, 0, &kept, 1, &plan));
    memcpy(module.active, before, 8);
    dovecounter_provision_begin(plan.control, plan.outside, &patience, &procedure);
    expect("provisioned beside a kept path", 0, carry_out(&module, &procedure).code);
    expect("lanes that were touched", 0xF3, module.touched);
    expect_same("active bytes", plan.control, module.active, 8);
    dovecounter_activate_begin(plan.control, plan.lanes, &patience, &procedure);
    expect("activated beside a kept path", 0, carry_out(&module, &procedure).code);
    expect("lanes that are down", 0, module.deinitialized);
    expect("lanes that were touched until then", 0xF3, module.touched);

    memset(&module, 0, sizeof module);
    memcpy(module.active, others, 8);
    dovecounter_provision_begin(plan.control, plan.outside, &patience, &procedure);
    fault = carry_out(&module, &procedure);
    expect("PV3, the kept path is another one", 3, fault.code);
    expect("PV3 4", 4, fault.first);
    expect("the kept lanes are left all the same", 0xF3, module.touched);
    weights[0x0D] = 0;
}

static void try_other_numbers(const struct dovecounter_plan *plan) {
    struct dovecounter_conversation procedure, other;
    struct dovecounter_operation operation;
    struct dovecounter_ending ending;
    memset(&procedure, 0, sizeof procedure);
    dovecounter_provision_begin(plan->control, 0xFF, &patience, &procedure);
    for (int i = 0; i < 19; i++) {
        other = procedure;
        if (i == 0) other.saved.work = 6;
        if (i == 1) other.saved.selection = 3;
        if (i == 2) other.saved.fault.code = 8;
        if (i == 3) other.saved.work = 0;
        if (i == 4) other.magic = 0;
        if (i == 5) other.saved.due = 2;
        if (i == 6) memset(&other, 0, sizeof other);
        if (i == 7) other.saved.steps = 4097;
        if (i == 8) other.saved.met = 9;
        if (i == 9) {
            other.saved.work = 2; /* activation has four tasks */
            other.saved.met = 5;
        }
        if (i == 10) {
            other.saved.work = 3; /* waking up has three */
            other.saved.met = 4;
        }
        if (i == 11) other.saved.fault.code = 4; /* no reply shows it */
        if (i == 12) other.doubts = 2;
        if (i == 13) other.taken = 2;
        if (i == 14) other.taken_page = 1;
        if (i == 15) other.saved.page = 1;
        if (i == 16) other.saved.steps = 33342;
        if (i == 17) other.saved.work = 5; /* a reading without pieces */
        if (i == 18) other.saved.selection = 1, other.saved.page = 0x10;
        expect("no procedure has an operation", DOVECOUNTER_NO_CONVERSATION,
               dovecounter_next(&other, none, &operation));
        expect("no procedure has an end", DOVECOUNTER_NO_CONVERSATION, dovecounter_end(&other, none, &ending));
        refuse_reply("no procedure takes a reply", DOVECOUNTER_NO_CONVERSATION, other, DOVECOUNTER_REFUSED, 0);
    }
    for (int place = 0; place < (int)sizeof procedure; place++)
        for (int byte = 0; byte < 256; byte++) {
            other = procedure;
            memset((unsigned char *)&other + place, byte, 1);
            uint32_t status = dovecounter_next(&other, none, &operation);
            expect("a known status", 1,
                   status == DOVECOUNTER_DONE || status == DOVECOUNTER_ENDED || status == DOVECOUNTER_NO_CONVERSATION);
        }
}

int main(void) {
    struct dovecounter_plan plan;
    try_halves();
    try_advertisement();
    try_plan(&plan);
    try_kept();
    try_paired();
    try_counts();
    try_active();
    try_check();
    try_certificate();
    try_durations();
    try_patience();
    try_procedure(&plan);
    try_doubt(&plan);
    try_left(&plan);
    try_limit(&plan);
    try_run(&plan);
    try_other_runs(&plan);
    try_waits(&plan);
    try_kept_procedure();
    try_other_numbers(&plan);
    return judged("firmware");
}
