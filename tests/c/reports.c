/* Asks for the reports of the image on standard input, as the header says: each allocation refused in turn, buffers that just fit and
   those that do not, and an image that is cut off. Linked with tools/heap.c, and with --wrap=malloc, --wrap=realloc and --wrap=free. */
#include "dovecounter_reports.h"

#include <stdio.h>
#include <stdlib.h>
#include <string.h>

enum { ROOM = 1 << 16 };

void *__real_malloc(size_t size);
void *__real_realloc(void *block, size_t size);
void __real_free(void *block);
void *__wrap_malloc(size_t size);
void *__wrap_realloc(void *block, size_t size);
void __wrap_free(void *block);

/* Of tools/heap.c. */
struct block {
    uint64_t is_there;
    void *bytes;
};
struct block rattle_alloc(uint64_t size, uint64_t alignment);
struct block rattle_realloc(void *bytes, uint64_t old_size, uint64_t size, uint64_t alignment);
void rattle_dealloc(void *bytes);

static int failures;
static long asked, refused_one, held; /* allocations so far, the one that is refused, and blocks that are held */

static int is_refused(size_t size) {
    return ++asked == refused_one || size == 0;
} /* none of no bytes, as in some C libraries */

void *__wrap_malloc(size_t size) {
    if (is_refused(size)) return NULL;
    held++;
    return __real_malloc(size);
}

void *__wrap_realloc(void *block, size_t size) {
    if (is_refused(size)) return NULL;
    held += block == NULL;
    return __real_realloc(block, size);
}

void __wrap_free(void *block) {
    held -= block != NULL;
    __real_free(block);
}

static void expect(const char *what, unsigned long number, unsigned long wanted, unsigned long found) {
    if (wanted == found) return;
    printf("reports: %s of %lu: wanted %lu, found %lu\n", what, number, wanted, found);
    failures++;
}

static uint8_t image[ROOM], text[ROOM], again[ROOM];

typedef uint32_t report_call(size_t image_length, uint8_t *buffer, size_t size, size_t *length);

static uint32_t details(size_t image_length, uint8_t *buffer, size_t size, size_t *length) {
    return dovecounter_details(image, image_length, buffer, size, length);
}

static uint32_t raised(size_t image_length, uint8_t *buffer, size_t size, size_t *length) {
    return dovecounter_metrics(image, image_length, 0, buffer, size, length);
}

static uint32_t all_flags(size_t image_length, uint8_t *buffer, size_t size, size_t *length) {
    return dovecounter_metrics(image, image_length, 255, buffer, size, length);
}

static void expect_untouched(unsigned long number, size_t from) {
    for (size_t i = from; i < sizeof again; i++)
        if (again[i] != 0x5A) expect("byte that is not written", number, 0x5A, again[i]);
}

/* One call into a buffer of this size, with the status and the length that it has to have; nothing is held after it. */
static void try_call(report_call *report, size_t image_length, size_t size, uint32_t status, size_t wanted) {
    size_t length = 12345;
    memset(again, 0x5A, sizeof again);
    asked = 0;
    expect("status", size, status, report(image_length, again, size, &length));
    expect("length", size, wanted, length);
    expect("blocks that are held", size, 0, (unsigned long)held);
    int has_text = status == DOVECOUNTER_DONE || status == DOVECOUNTER_REPORT_FAULT;
    expect_untouched(size, has_text ? wanted : 0);
}

static void try_report(report_call *report, size_t image_length) {
    size_t length = 0;
    refused_one = asked = 0;
    expect("status", 0, DOVECOUNTER_DONE, report(image_length, text, sizeof text, &length));
    long allocations = asked;
    expect("allocations", 0, 1, allocations > 3);
    try_call(report, image_length, length, DOVECOUNTER_DONE, length);
    expect("the same text", 0, 0, (unsigned long)(memcmp(text, again, length) != 0));
    try_call(report, image_length, length - 1, DOVECOUNTER_TOO_SMALL, length);
    try_call(report, image_length, 0, DOVECOUNTER_TOO_SMALL, length);
    for (refused_one = 1; refused_one <= allocations; refused_one++)
        try_call(report, image_length, length, DOVECOUNTER_NO_MEMORY, 12345);
    refused_one = 0;
    static const char line[] = "fault IM5\n";
    try_call(report, image_length - 4, sizeof again, DOVECOUNTER_REPORT_FAULT, sizeof line - 1);
    expect("the fault", 0, 0, (unsigned long)(memcmp(line, again, sizeof line - 1) != 0));
    try_call(report, image_length - 4, sizeof line - 2, DOVECOUNTER_TOO_SMALL, sizeof line - 1);
}

/* A block of no bytes has a place of its own, and one that is refused a place, too, while the earlier one stays. */
static void try_blocks(void) {
    struct block none = rattle_alloc(0, 8), few = rattle_realloc(none.bytes, 0, 4, 8);
    expect("block of no bytes", 0, 1, none.is_there);
    expect("block that grows", 4, 1, few.is_there);
    memcpy(few.bytes, "few", 4);
    refused_one = asked + 1;
    struct block refused = rattle_realloc(few.bytes, 4, 64, 8);
    expect("block that is refused", 64, 0, refused.is_there);
    expect("place of what is refused", 64, 1, refused.bytes != NULL);
    expect("bytes of the earlier block", 4, 0, (unsigned long)(memcmp(few.bytes, "few", 4) != 0));
    struct block many = rattle_realloc(few.bytes, 4, 64, 8);
    expect("bytes of a block that has grown", 64, 0, (unsigned long)(memcmp(many.bytes, "few", 4) != 0));
    memset(many.bytes, 1, 64);
    struct block emptied = rattle_realloc(many.bytes, 64, 0, 8);
    expect("block that is emptied", 0, 1, emptied.is_there);
    rattle_dealloc(emptied.bytes);
    expect("blocks that are held", 0, 0, (unsigned long)held);
}

int main(void) {
    try_blocks();
    size_t length = fread(image, 1, sizeof image, stdin);
    try_report(details, length);
    expect("JSON", 0, '{', text[0]);
    try_report(raised, length);
    expect("a metric", 0, 0, (unsigned long)strncmp((const char *)text, "# HELP dovecounter_", 19));
    size_t fewer = strlen((const char *)text);
    memset(text, 0, sizeof text);
    try_report(all_flags, length);
    expect("more metrics", 0, 1, strlen((const char *)text) > fewer);
    printf("reports: %d failures\n", failures);
    return failures != 0;
}
