/* Preloaded: refuses the allocations whose numbers stand in $REFUSE, counted from 1 and with spaces between them, and no other. A
 * number with a plus sign before it means each allocation from there on. */
#define _GNU_SOURCE
#include <dlfcn.h>
#include <stdlib.h>

static int is_refused(void) {
    static unsigned long allocations;
    const char *text = getenv("REFUSE");
    char *rest;
    allocations++;
    for (; text && *text; text = rest) {
        unsigned long number = strtoul(text, &rest, 10);
        if (rest == text) break;
        if (allocations == number || (*text == '+' && allocations > number)) return 1;
        while (*rest == ' ') rest++;
    }
    return 0;
}

void *malloc(size_t size) {
    static void *(*real)(size_t);
    if (!real) real = (void *(*)(size_t))dlsym(RTLD_NEXT, "malloc");
    return is_refused() ? 0 : real(size);
}

void *realloc(void *block, size_t size) {
    static void *(*real)(void *, size_t);
    if (!real) real = (void *(*)(void *, size_t))dlsym(RTLD_NEXT, "realloc");
    return is_refused() ? 0 : real(block, size);
}
