/* Reads weights from lines, as the header says: each status, what is written and what is not. With a word it reads a text from
   standard input and prints what came of it: the status with the line, or the weights that aren't 0 as a text of their own. */
#include "expect.h"

#include <stdlib.h>

/* What a text of this very size says, so that a byte after it is noticed. */
static uint32_t call(const char *text, size_t length, uint32_t weights[256], size_t *line) {
    uint8_t *copy = malloc(length + (length == 0));
    memcpy(copy, text, length);
    uint32_t status = dovecounter_weights(copy, length, weights, line);
    free(copy);
    return status;
}

static void refuses(const char *text, size_t length, uint32_t wanted, size_t wanted_line) {
    uint32_t weights[256], before[256];
    size_t line = 12345;
    memset(weights, 0x5A, sizeof weights);
    memcpy(before, weights, sizeof weights);
    expect(text, wanted, call(text, length, weights, &line));
    expect(text, wanted_line, line);
    expect_same("weights that are not written", before, weights, sizeof weights);
}

#define REFUSES(text, status, line) refuses(text, sizeof text - 1, status, line)

/* The text gives these weights to two IDs, and 0 to all others. */
static void says(const char *text, size_t length, int id, uint32_t weight, int other, uint32_t other_weight) {
    uint32_t weights[256];
    size_t line = 12345;
    memset(weights, 0x5A, sizeof weights);
    expect(text, DOVECOUNTER_DONE, call(text, length, weights, &line));
    expect("a line that is not written", 12345, line);
    for (int at = 0; at < 256; at++) expect(text, at == id ? weight : at == other ? other_weight : 0, weights[at]);
}

#define SAYS(text, id, weight, other, other_weight) says(text, sizeof text - 1, id, weight, other, other_weight)

static void try_texts(void) {
    SAYS("[host]", -1, 0, -1, 0);
    SAYS("[host]\n0Dh = 101\n", 0x0D, 101, -1, 0);
    SAYS("[host]\n0dh=101\n11h = 400", 0x0D, 101, 0x11, 400);
    SAYS("# what each is worth\n\n \t[host]\t # here\n\t11h\t=\t4294967295 # 400GAUI-8\n\n#\n00h = 0\n \n", 0x11,
         UINT32_MAX, -1, 0);
    SAYS("[host]\n# gr\xC3\xBC\xC3\x9F\n0Bh = 1 # = 2\nfFh = 7#", 0x0B, 1, 0xFF, 7);

    REFUSES("", DOVECOUNTER_NO_HOST_LINE, 0);
    REFUSES("# nothing\n\n", DOVECOUNTER_NO_HOST_LINE, 0);
    REFUSES("0Dh = 101\n[host]\n", DOVECOUNTER_BAD_WEIGHT_LINE, 1);
    REFUSES("[host]\n[host]\n", DOVECOUNTER_BAD_WEIGHT_LINE, 2);
    REFUSES("[host]\n0Dh = 101\n\n0dh = 101\nx", DOVECOUNTER_SAME_ID_TWICE, 4);
    REFUSES("[host]\r\n", DOVECOUNTER_BAD_WEIGHT_LINE, 1);
    REFUSES("\xEF\xBB\xBF[host]\n", DOVECOUNTER_BAD_WEIGHT_LINE, 1);
    REFUSES("[host]\n#\x1F\n", DOVECOUNTER_BAD_WEIGHT_LINE, 2);
    REFUSES("[host]\n#\x7F\n", DOVECOUNTER_BAD_WEIGHT_LINE, 2);
    REFUSES("[host]\n#\xC3\n", DOVECOUNTER_BAD_WEIGHT_LINE, 2);
    REFUSES("[host]\n\x0C\n", DOVECOUNTER_BAD_WEIGHT_LINE, 2);
    REFUSES("[host]\n0Dh = 1\0\n", DOVECOUNTER_BAD_WEIGHT_LINE, 2);
    static const char *const lines[] = {"[ho st]",
                                        "[hosts]",
                                        "host",
                                        "[host",
                                        "0Dh",
                                        "0Dh =",
                                        "= 1",
                                        "0Dh 1",
                                        "Dh = 1",
                                        "0D = 1",
                                        "0DH = 1",
                                        "00Dh = 1",
                                        "0Gh = 1",
                                        "0x0D = 1",
                                        "\"0Dh\" = 1",
                                        "0Dh = 01",
                                        "0Dh = +1",
                                        "0Dh = -1",
                                        "0Dh = 1.0",
                                        "0Dh = 1_000",
                                        "0Dh = 0x1",
                                        "0Dh = '1'",
                                        "0Dh = 1 2",
                                        "0Dh = 1 = 1",
                                        "0Dh = 1 // x",
                                        "0Dh = 4294967296",
                                        "0Dh = 18446744073709551617",
                                        "0D h = 1",
                                        "[media]",
                                        "host.0Dh = 1"};
    for (size_t i = 0; i < sizeof lines / sizeof lines[0]; i++) {
        char text[64];
        int length = snprintf(text, sizeof text, "[host]\n\n%s\n11h = 1\n", lines[i]);
        refuses(text, (size_t)length, DOVECOUNTER_BAD_WEIGHT_LINE, 3);
    }
}

/* Each ID, in both cases. */
static void try_ids(void) {
    for (int id = 0; id < 256; id++) {
        char text[64];
        int length = snprintf(text, sizeof text, "[host]\n%02Xh = %d\n", (unsigned)id, id + 1);
        says(text, (size_t)length, id, (uint32_t)id + 1, -1, 0);
        length = snprintf(text, sizeof text, "[host]\n%02xh = %d\n", (unsigned)id, id + 1);
        says(text, (size_t)length, id, (uint32_t)id + 1, -1, 0);
    }
}

static int read_one(void) {
    static char text[1 << 20];
    uint32_t weights[256];
    size_t line = 0;
    uint32_t status = call(text, fread(text, 1, sizeof text, stdin), weights, &line);
    if (status != DOVECOUNTER_DONE) {
        printf("status %lu line %lu\n", (unsigned long)status, (unsigned long)line);
        return 0;
    }
    puts("[host]");
    for (int id = 0; id < 256; id++)
        if (weights[id] != 0) printf("%02Xh = %lu\n", (unsigned)id, (unsigned long)weights[id]);
    return 0;
}

int main(int count, char **words) {
    (void)words;
    if (count > 1) return read_one();
    try_texts();
    try_ids();
    return judged("weights");
}
