/* Asks the library for its texts, as its header says: each number and code once, buffers that just fit, and those that do not. */
#include "dovecounter.h"

#include <stdio.h>
#include <stdlib.h>
#include <string.h>

static int failures;

static void expect(const char *what, unsigned long number, unsigned long wanted, unsigned long found) {
    if (wanted == found) return;
    printf("texts: %s of %lu: wanted %lu, found %lu\n", what, number, wanted, found);
    failures++;
}

typedef uint32_t text_call(uint32_t number, uint8_t *buffer, size_t buffer_size, size_t *text_length);

static uint32_t version(uint32_t number, uint8_t *buffer, size_t buffer_size, size_t *text_length) {
    (void)number;
    return dovecounter_version(buffer, buffer_size, text_length);
}

/* The names of codes: of which table, or of which media type. */
static uint32_t table;

static uint32_t code_name(uint32_t code, uint8_t *buffer, size_t buffer_size, size_t *text_length) {
    return dovecounter_code_name(table, (uint8_t)code, buffer, buffer_size, text_length);
}

static uint32_t media_name(uint32_t code, uint8_t *buffer, size_t buffer_size, size_t *text_length) {
    return dovecounter_media_name((uint8_t)table, (uint8_t)code, buffer, buffer_size, text_length);
}

/* A buffer of this very size, so that a byte behind it is noticed. */
static uint32_t call(text_call *text_of, uint32_t number, size_t size, size_t wanted_length, uint8_t *text) {
    uint8_t *buffer = malloc(size + (size == 0));
    size_t length = 12345;
    memset(buffer, 0x5A, size + (size == 0));
    uint32_t status = text_of(number, buffer, size, &length);
    if (status != DOVECOUNTER_DONE) {
        expect("length that is not written", number, 12345, length);
        for (size_t i = 0; i < size; i++) expect("byte that is not written", number, 0x5A, buffer[i]);
    } else {
        if (wanted_length != 0) expect("length", number, wanted_length, length);
        for (size_t i = length; i < size; i++) expect("byte after the text", number, 0x5A, buffer[i]);
        memcpy(text, buffer, length);
        text[length] = 0;
    }
    free(buffer);
    return status;
}

/* The text of a number, once with ample room, once with just enough and once with a byte too few. */
static void expect_text(text_call *text_of, uint32_t number) {
    uint8_t text[DOVECOUNTER_TEXT_SIZE + 1], again[DOVECOUNTER_TEXT_SIZE + 1];
    expect("status", number, DOVECOUNTER_DONE, call(text_of, number, DOVECOUNTER_TEXT_SIZE, 0, text));
    size_t length = strlen((const char *)text);
    expect("a text", number, 1, length > 1);
    for (size_t i = 0; i < length; i++) expect("printable byte", number, 1, text[i] >= 0x20 && text[i] <= 0x7E);
    expect("status with just enough", number, DOVECOUNTER_DONE, call(text_of, number, length, length, again));
    expect("the same text", number, 0, (unsigned long)(memcmp(text, again, length) != 0));
    expect("status with too little", number, DOVECOUNTER_TOO_SMALL, call(text_of, number, length - 1, 0, again));
    expect("status with nothing", number, DOVECOUNTER_TOO_SMALL, call(text_of, number, 0, 0, again));
}

static void expect_none(text_call *text_of, uint32_t number) {
    uint8_t text[DOVECOUNTER_TEXT_SIZE + 1];
    expect("status of no number", number, DOVECOUNTER_NO_TEXT, call(text_of, number, DOVECOUNTER_TEXT_SIZE, 0, text));
}

/* Numbers with a text, up to 0 twice; all others below 300 and some large ones have none. */
static void try_numbers(text_call *text_of, const uint32_t *numbers, size_t count) {
    size_t next = 0;
    for (uint32_t number = 0; number < 300; number++)
        if (next < count && numbers[next] == number) {
            expect_text(text_of, number);
            next++;
        } else {
            expect_none(text_of, number);
        }
    expect_none(text_of, 65536);
    expect_none(text_of, UINT32_MAX);
}

static void expect_words(text_call *text_of, uint32_t number, const char *words) {
    uint8_t text[DOVECOUNTER_TEXT_SIZE + 1];
    expect("status", number, DOVECOUNTER_DONE, call(text_of, number, DOVECOUNTER_TEXT_SIZE, 0, text));
    if (strcmp((const char *)text, words) == 0) return;
    printf("texts: %lu is '%s'\n", (unsigned long)number, (const char *)text);
    failures++;
}

/* Each code of each table, and of each media type. */
static void try_names(void) {
    for (table = 0; table < 300; table++)
        for (uint32_t code = 0; code < 256; code += table < 30 ? 1 : 51) {
            if (table >= DOVECOUNTER_TABLE_IDENTIFIERS && table <= DOVECOUNTER_TABLE_SFP_ACTIVE_CABLES)
                expect_text(code_name, code);
            else
                expect_none(code_name, code);
            if (table < 256) expect_text(media_name, code);
        }
    table = UINT32_MAX;
    expect_none(code_name, 1);
    table = 256 + DOVECOUNTER_TABLE_CONNECTORS;
    expect_none(code_name, 1);
    table = DOVECOUNTER_TABLE_CONNECTORS;
    expect_words(code_name, 0x07, "LC");
    expect_words(code_name, 0x28, "MPO 1x16");
    expect_words(code_name, 0x6E, "reserved");
    expect_words(code_name, 0x6F, "not listed");
    expect_words(code_name, 0x80, "vendor specific");
    table = DOVECOUNTER_TABLE_SFP_ACTIVE_CABLES;
    expect_words(code_name, 0xFF, "not listed");
    table = 2; /* single-mode */
    expect_words(media_name, 0x1C, "400GBASE-DR4");
    table = 6;
    expect_words(media_name, 0x1C, "not listed");
}

int main(void) {
    static const uint32_t statuses[] = {0,  1,  2,  3,  4,  11, 12, 13, 14,  15,  16,  21,  22,  23, 24,
                                        31, 32, 33, 34, 36, 42, 43, 51, 53,  54,  61,  62,  63,  71, 74,
                                        76, 83, 84, 85, 86, 91, 92, 94, 101, 102, 103, 104, 105, 106};
    static const uint32_t small[] = {1, 2, 3, 4, 5, 6, 7, 8, 9, 10};
    try_numbers(dovecounter_status_text, statuses, sizeof statuses / sizeof statuses[0]);
    try_numbers(dovecounter_fault_text, small, 10);
    try_numbers(dovecounter_verdict_text, small, 10);
    expect_text(version, 0);
    expect_words(dovecounter_status_text, DOVECOUNTER_REVISION,
                 "only the revisions 4 and 5 of CMIS are read (byte 1 of lower A0)");
    expect_words(dovecounter_fault_text, DOVECOUNTER_BUS_ENDED, "the bus made no further transaction");
    expect_words(dovecounter_verdict_text, 3, "the weight is not the plan's: is the certificate of these weights?");
    expect_words(version, 0, "0.1.0");
    try_names();
    printf("texts: %d failures\n", failures);
    return failures != 0;
}
