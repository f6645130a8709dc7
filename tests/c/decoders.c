/* Asks the library what modules of each family are and which flags they raise, as its header says: each status, what is written, and what is not. */
#include "expect.h"

static void expect_text(const char *what, const char *wanted, const char *found) {
    if (memchr(found, 0, 17) && strcmp(wanted, found) == 0) return;
    printf("%s: wanted '%s'\n", what, wanted);
    failures++;
}

static struct dovecounter_half halves[2];

/* The lower half of 0xA0 and page 00h, with nothing in them. */
static void make_halves(void) {
    memset(halves, 0, sizeof halves);
    halves[0].device = halves[1].device = 0xA0;
    halves[1].upper = 1;
}

static void put(int half, int address, const char *text) {
    memcpy(&halves[half].bytes[address % 128], text, strlen(text));
}

static void expect_status(const char *what, uint32_t wanted, size_t count) {
    struct dovecounter_identity identity, before;
    memset(&identity, 0x5A, sizeof identity);
    before = identity;
    expect(what, wanted, dovecounter_identity(halves, count, &identity));
    expect_same("an identity that is not written", &before, &identity, sizeof identity);
}

static void try_cmis(void) {
    struct dovecounter_identity identity;
    make_halves();
    memcpy(halves[0].bytes, "\x18\x52", 2);
    halves[0].bytes[2] = 0x80;
    halves[0].bytes[85] = 2;
    put(1, 129, "Dove\x01\x7F  Optics ");
    memcpy(&halves[1].bytes[145 - 128], "\x00\x1B\x21", 3);
    put(1, 148, "DR4-ABCDEFGHIJKL");
    put(1, 164, "A ");
    put(1, 166, "   X");
    put(1, 182, "240131  ");
    halves[1].bytes[200 - 128] = 0xE0; /* power class 8 */
    halves[1].bytes[201 - 128] = 255;
    halves[1].bytes[202 - 128] = 0xFF; /* 63 times 10 to the power of 3, in tenths of a metre */
    halves[1].bytes[203 - 128] = 0x0C;
    halves[1].bytes[212 - 128] = 6;
    set_sum(&halves[1], 128, 221, 222);
    expect("status", DOVECOUNTER_DONE, dovecounter_identity(halves, 2, &identity));
    expect("family", DOVECOUNTER_CMIS, identity.family);
    expect("identifier", 0x18, identity.identifier);
    expect("revision", 0x52, identity.revision);
    expect("flat", 1, identity.flat);
    expect("media type", 2, identity.media_type);
    expect("power class", 8, identity.power_class);
    expect("power", 63750, (unsigned long)identity.max_power);
    expect("length", 6300000, (unsigned long)identity.length);
    expect("connector", 0x0C, identity.connector);
    expect("technology", 6, identity.technology);
    expect("sum", 1, identity.sum_base);
    expect("other sum", 0, identity.sum_ext);
    expect_same("vendor's number", "\x00\x1B\x21", identity.oui, 3);
    expect_text("vendor", "Dove??  Optics", identity.vendor);
    expect_text("part", "DR4-ABCDEFGHIJKL", identity.part);
    expect_text("part revision", "A", identity.part_revision);
    expect_text("serial", "   X", identity.serial);
    expect_text("date", "240131", identity.date);
    halves[1].bytes[222 - 128]++;
    expect("status", DOVECOUNTER_DONE, dovecounter_identity(halves, 2, &identity));
    expect("wrong sum", 0, identity.sum_base);

    expect_status("no page 00h", DOVECOUNTER_LACKS_HALF, 1);
    expect_status("no half", DOVECOUNTER_LACKS_HALF, 0);
    halves[0].bytes[1] = 0x30;
    expect_status("revision 3", DOVECOUNTER_UNREAD_REVISION, 2);
    halves[0].bytes[0] = 0x05;
    expect_status("no known module", DOVECOUNTER_UNKNOWN_MODULE, 2);
    halves[0].device = 0xA4;
    expect_status("no such device", DOVECOUNTER_NO_PLACE, 2);
}

/* Texts at these addresses, which expect_sff wants again. */
static void put_texts(int half, int vendor, int part, int part_revision, int serial, int date) {
    put(half, vendor, "Vendor");
    put(half, part, "Part");
    put(half, part_revision, "R1");
    put(half, serial, "Serial");
    put(half, date, "230228");
}

static void expect_sff(uint8_t family, uint8_t connector, uint8_t sum_base, uint8_t sum_ext, size_t count) {
    struct dovecounter_identity identity;
    expect("status", DOVECOUNTER_DONE, dovecounter_identity(halves, count, &identity));
    expect("family", family, identity.family);
    expect("identifier", halves[0].bytes[0], identity.identifier);
    expect("connector", connector, identity.connector);
    expect("first sum", sum_base, identity.sum_base);
    expect("second sum", sum_ext, identity.sum_ext);
    expect_text("vendor", "Vendor", identity.vendor);
    expect_text("part", "Part", identity.part);
    expect_text("part revision", "R1", identity.part_revision);
    expect_text("serial", "Serial", identity.serial);
    expect_text("date", "230228", identity.date);
    expect("no power", 1, identity.max_power == 0 && identity.power_class == 0);
    expect("no length", 1, identity.length == 0);
    expect("no revision", 0, identity.revision);
    expect("no media type", 0, identity.media_type);
    expect("no technology", 0, identity.technology);
}

static void try_sff8636(void) {
    make_halves();
    halves[0].bytes[0] = 0x11;
    halves[1].bytes[130 - 128] = 0x0C;
    put_texts(1, 148, 168, 184, 196, 212);
    set_sum(&halves[1], 128, 190, 191);
    expect_sff(DOVECOUNTER_SFF_8636, 0x0C, 1, 0, 2);
    expect_status("no page 00h", DOVECOUNTER_SFF_LACKS_HALF, 1);
}

static void try_sff8472(void) {
    make_halves();
    halves[0].bytes[0] = 0x03;
    halves[0].bytes[2] = 0x07;
    put_texts(0, 20, 40, 56, 68, 84);
    set_sum(&halves[0], 64, 94, 95);
    expect_sff(DOVECOUNTER_SFF_8472, 0x07, 0, 1, 1);
}

static void expect_flags_status(const char *what, uint32_t wanted, size_t count) {
    struct dovecounter_flags flags, before;
    memset(&flags, 0x5A, sizeof flags);
    before = flags;
    expect(what, wanted, dovecounter_flags(halves, count, &flags));
    expect_same("flags that are not written", &before, &flags, sizeof flags);
}

static void expect_flags(const char *what, const struct dovecounter_flags *wanted, size_t count) {
    struct dovecounter_flags flags;
    memset(&flags, 0x5A, sizeof flags);
    expect(what, DOVECOUNTER_DONE, dovecounter_flags(halves, count, &flags));
    for (size_t i = 0; i < sizeof flags; i++) expect(what, ((const uint8_t *)wanted)[i], ((const uint8_t *)&flags)[i]);
}

static void try_cmis_flags(void) {
    static const struct dovecounter_flags paged = {.family = DOVECOUNTER_CMIS,
                                                   .lanes = 8,
                                                   .state = 3,
                                                   .path_states = {1, 4, 1, 4, 1, 4, 1, 4},
                                                   .statuses = {1, 2},
                                                   .path_state_changed = 0xE1,
                                                   .tx_fault = 0xE0,
                                                   .tx_los = 0xDF,
                                                   .tx_lol = 0xDE,
                                                   .tx_eq_fail = 0xDD,
                                                   .rx_los = 0xD4,
                                                   .rx_lol = 0xD3,
                                                   .temperature = {.high_alarm = 1},
                                                   .vcc = {.low_warning = 1},
                                                   .tx_power = {0xDC, 0xDB, 0xDA, 0xD9},
                                                   .tx_bias = {0xD8, 0xD7, 0xD6, 0xD5},
                                                   .rx_power = {0xD2, 0xD1, 0xD0, 0xCF}};
    static const struct dovecounter_flags flat = {
        .family = DOVECOUNTER_CMIS, .state = 3, .temperature = {.high_alarm = 1}, .vcc = {.low_warning = 1}};
    make_halves();
    memcpy(halves[0].bytes, "\x19\x40", 2);
    halves[0].bytes[3] = 3 << 1; /* ModuleReady */
    halves[0].bytes[9] = 0x81;   /* temperature's high alarm, vcc's low warning */
    halves[1].page = 0x11;
    for (int i = 0; i < 4; i++) halves[1].bytes[i] = 0x41;
    for (int flag = 0; flag < 19; flag++) halves[1].bytes[134 - 128 + flag] = (uint8_t)(0xE1 - flag);
    halves[1].bytes[202 - 128] = 0x21;
    expect_flags("flags of CMIS", &paged, 2);
    expect_flags_status("no page 11h", DOVECOUNTER_LACKS_HALF, 1);
    halves[0].bytes[2] = 0x80;
    expect_flags("flags of flat memory", &flat, 1);
    expect_flags("flags of flat memory with page 11h", &flat, 2);
}

static void try_sff8636_flags(void) {
    static const struct dovecounter_flags wanted = {.family = DOVECOUNTER_SFF_8636,
                                                    .lanes = 4,
                                                    .tx_fault = 0x03,
                                                    .tx_los = 0x0A,
                                                    .tx_lol = 0x0C,
                                                    .rx_los = 0x05,
                                                    .rx_lol = 0x06,
                                                    .temperature = {.low_alarm = 1},
                                                    .vcc = {.low_warning = 1},
                                                    .rx_power = {.high_alarm = 1}};
    make_halves();
    halves[0].bytes[0] = 0x0D;
    memcpy(halves[0].bytes + 3, "\xA5\x03\xC6\x40\x10", 5);
    halves[0].bytes[9] = 0x80; /* lane 1's high alarm of rx power */
    expect_flags("flags of SFF-8636", &wanted, 1);
}

static void try_sff8472_flags(void) {
    static const struct dovecounter_flags wanted = {.family = DOVECOUNTER_SFF_8472,
                                                    .lanes = 1,
                                                    .tx_fault = 1,
                                                    .rx_los = 1,
                                                    .temperature = {.high_alarm = 1},
                                                    .vcc = {.low_alarm = 1},
                                                    .tx_power = {.low_alarm = 1},
                                                    .rx_power = {.low_warning = 1}};
    make_halves();
    halves[0].bytes[0] = 0x03;
    expect_flags_status("no diagnostics", DOVECOUNTER_NO_DIAGNOSTICS, 2);
    halves[0].bytes[92] = 0x44;
    expect_flags_status("an address change", DOVECOUNTER_ADDRESS_CHANGE, 2);
    halves[0].bytes[92] = 0x40;
    expect_flags_status("no second device", DOVECOUNTER_SFF_LACKS_HALF, 2);
    halves[1].device = 0xA2;
    halves[1].upper = 0;
    halves[1].bytes[110] = 0x06;
    halves[1].bytes[112] = 0x91; /* temperature high, vcc low, tx power low */
    halves[1].bytes[117] = 0x40; /* rx power's low warning */
    expect_flags("flags of SFF-8472", &wanted, 2);
}

int main(void) {
    try_cmis();
    try_sff8636();
    try_sff8472();
    try_cmis_flags();
    try_sff8636_flags();
    try_sff8472_flags();
    return judged("decoders");
}
