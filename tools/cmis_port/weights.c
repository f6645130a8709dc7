/* Weights: a text of lines that the library reads. */
#include "bus.h"

#include <err.h>

enum { MOST = 1 << 16 }; /* bytes */

/* How long the text is without the CR of each CR LF, which the library refuses. */
static size_t drop_returns(uint8_t *text, size_t length) {
    size_t kept = 0;
    for (size_t at = 0; at < length; at++)
        if (text[at] != '\r' || (at + 1 < length && text[at + 1] != '\n')) text[kept++] = text[at];
    return kept;
}

bool read_weights(const char *name, uint32_t weights[256]) {
    static uint8_t text[MOST + 1];
    FILE *file = fopen(name, "r");
    if (file == NULL) return warn("%s", name), false;
    size_t line = 0, length = fread(text, 1, sizeof text, file);
    bool failed = ferror(file);
    if (failed) warn("%s", name);
    fclose(file);
    if (length > MOST) warnx("%s: it has more than %d bytes, and weights need fewer", name, MOST);
    if (failed || length > MOST) return false;
    switch (dovecounter_weights(text, drop_returns(text, length), weights, &line)) {
    case DOVECOUNTER_DONE: return true;
    case DOVECOUNTER_NO_HOST_LINE: warnx("%s: there is no line [host]", name); return false;
    default:
        warnx("%s:%zu: neither the one line [host] nor a new weight after it, as 0Dh = 101", name, line);
        return false;
    }
}
