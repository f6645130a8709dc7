/* What a module lists itself (VDM), bank by bank, each of which is frozen while it is read. */
#include "port.h"

#include <err.h>
#include <string.h>

enum { ADVERTISED = 0x01, LANES = 0x11, GROUPS = 0x2F };

/* What is said of a bank's statistics: the words before its number, which bank 0 goes without, and after it. */
struct sentence {
    const char *before, *after;
};

static const struct sentence statistics_sentences[5] = {
    [DOVECOUNTER_VDM_UNKNOWN] = {"page 01h or 2Fh", " can't be read"},
    [DOVECOUNTER_VDM_NOT_TAKEN] = {"the module doesn't take the request to freeze its statistics",
                                   ": they may not belong together"},
    [DOVECOUNTER_VDM_PENDING] = {"the module doesn't freeze its statistics", " in time: they may not belong together"}};

static const struct sentence release_sentences[4] = {
    [DOVECOUNTER_VDM_MAY_BE_FROZEN] = {"its statistics", " may still be frozen, until this command runs again"},
    [DOVECOUNTER_VDM_ACCEPTED] = {"the module doesn't show that its statistics", " go on, though it took the request"}};

static void say(const struct port *port, const struct sentence *sentence, const char *of_bank) {
    clear_progress();
    if (sentence->before != NULL) warnx("%s: %s%s%s", port->bus.name, sentence->before, of_bank, sentence->after);
}

static void say_end(const struct port *port, const struct listed_bank *listed) {
    const struct dovecounter_vdm_end *end = &listed->end;
    char of_bank[16] = "";
    if (listed->bank != 0) snprintf(of_bank, sizeof of_bank, " of bank %u", listed->bank);
    if (listed->ended) say(port, &statistics_sentences[end->statistics], of_bank);
    for (unsigned i = 0; listed->ended && i < end->missing_count; i++)
        warnx("%s: page %02Xh%s can't be read", port->bus.name, end->missing[i] % 256U, of_bank);
    say(port, &release_sentences[listed->release], of_bank);
}

static bool is_unsupported(const struct listed_bank *listed) {
    return listed->ended && listed->end.statistics == DOVECOUNTER_VDM_UNSUPPORTED;
}

static bool is_whole(const struct listed_bank *listed) {
    const struct dovecounter_vdm_end *end = &listed->end;
    if (is_unsupported(listed)) return true;
    return listed->ended && end->statistics == DOVECOUNTER_VDM_FROZEN && end->release == DOVECOUNTER_VDM_RELEASED &&
           end->missing_count == 0;
}

/* A signal ends it as soon as the statistics are released. After one, or once the module is silent, nothing is read of another bank. */
static void carry_out_reading(struct port *port, struct listed *listed, struct listed_bank *it) {
    struct dovecounter_vdm reading;
    struct dovecounter_operation operation;
    uint8_t bytes[128];
    dovecounter_vdm_begin(PAUSE, it->bank, &reading);
    while (dovecounter_vdm_next(&reading, it->halves, &operation) == DOVECOUNTER_DONE && port->ending != SILENT) {
        uint8_t outcome = DOVECOUNTER_WAITED;
        if (listed->interrupted && reading.release == DOVECOUNTER_VDM_NEVER_FROZEN) break;
        if (operation.kind == DOVECOUNTER_WAIT)
            pause_ms(port, operation.milliseconds);
        else
            outcome = transact_in_pieces(port, &operation, bytes);
        dovecounter_vdm_reply(&reading, it->halves, outcome, bytes, operation.count);
        if (port->ending == STOPPED) listed->interrupted = true, port->ending = GOES_ON;
    }
    it->count = reading.halves;
    it->release = reading.release;
    it->ended = dovecounter_vdm_end(&reading, it->halves, &it->end) == DOVECOUNTER_DONE;
}

static const struct dovecounter_half *half_of(const struct dovecounter_half *halves, size_t count, uint8_t upper,
                                              uint8_t bank, uint8_t page) {
    for (size_t i = 0; i < count; i++)
        if (halves[i].device == 0xA0 && halves[i].bank == bank && halves[i].upper == upper && halves[i].page == page)
            return &halves[i];
    return NULL;
}

static const struct dovecounter_half *own_half(const struct port *port, uint8_t upper, uint8_t bank, uint8_t page) {
    return half_of(port->halves, port->half_count, upper, bank, page);
}

/* Reads what the module lists in one more bank. Says what isn't whole. */
static bool read_bank(struct port *port, struct listed *listed, uint8_t bank) {
    struct listed_bank *it = &listed->banks[listed->count++];
    it->bank = bank;
    carry_out_reading(port, listed, it);
    it->halves[it->count] = *own_half(port, 0, 0, 0);
    say_end(port, it);
    return is_whole(it);
}

/* Reads what the module lists itself, if it is CMIS and has pages, once it was read: in bank 0, and then in each further bank whose lanes
   were read. Each is frozen by itself, and one that can't be read leaves the others whole. */
bool read_listed(struct port *port, struct listed *listed) {
    memset(listed, 0, sizeof *listed);
    if (own_half(port, 0, 0, 0) == NULL || own_half(port, 1, 0, ADVERTISED) == NULL) return true;
    bool whole = read_bank(port, listed, 0);
    if (is_unsupported(&listed->banks[0])) return !listed->interrupted;
    for (uint8_t bank = 1; bank < BANKS; bank++)
        if (own_half(port, 1, bank, LANES) != NULL) whole = read_bank(port, listed, bank) && whole;
    return whole && !listed->interrupted;
}

/* The halves that were read of all banks; how many. */
size_t join_listed(const struct listed *listed, struct dovecounter_half halves[MOST_LISTED]) {
    size_t count = 0;
    for (const struct listed_bank *each = listed->banks; each < listed->banks + listed->count; each++) {
        memcpy(halves + count, each->halves, each->count * sizeof *halves);
        count += each->count;
    }
    return count;
}

/* The first page of bank 0 that the module advertises, and that wasn't read; 0 if there is none. */
uint8_t absent_page(const struct listed *listed) {
    const struct listed_bank *first = &listed->banks[0];
    if (first->end.missing_count > 0) return (uint8_t)first->end.missing[0];
    bool is_known = half_of(first->halves, first->count, 1, 0, GROUPS) != NULL;
    return first->end.statistics == DOVECOUNTER_VDM_UNKNOWN && first->count > 0 && !is_known ? GROUPS : 0;
}
