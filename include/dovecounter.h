/* Dovecounter for C: reads pluggable optical modules, plans the lanes of CMIS modules (OIF-CMIS-05.0), checks such
   plans, provisions modules over your own bus, and simulates modules for tests.

     Statuses                     the return values of all functions
     Texts for people             sentences for statuses, faults and verdicts
     What a module is             decode a module's memory
     What a module measures       as one list
     Plans                        weights, plans, certificates
     Conversations with a module  read, provision, activate, wake, sleep
     A module's firmware          look at it, update it
     Single lanes                 switch outputs, polarity and squelch
     Signal integrity settings    look at them, change them while lanes are up
     Provisioning with settings   stage them first, compare them last
     Tests of links               make and check patterns, loop lanes back
     Statistics                   freeze what a module lists itself (VDM), read it, release it
     A port's manager             keep the module in a port as wanted
     A simulated module           a module without hardware

   Every function except dovecounter_run, _update_run, _lane_run, _settings_run, _explicit_run, _link_test_run and _vdm_run is proved
   to return and to do what this file says, except where it says "tested". Nothing is proved about real modules. No function allocates, prints, waits, keeps a pointer or has state
   of its own, so calls may run in parallel unless one writes what another uses.

   You have to ensure what no function can check:
   - each pointer is valid for its type and length, and not null, even for a length of 0;
   - what a const pointer points to doesn't change during the call;
   - what a function writes overlaps none of its other arguments.

   Numbers and bytes may have any value.

   A set of lanes is a byte whose bit i-1 is lane i: 0x01 is lane 1, 0x80 is lane 8.

   In C++ write `struct dovecounter_plan` in full, since functions share the names of structures, and include this as a
   system header (-isystem) if you compile with -Wshadow. */
#ifndef DOVECOUNTER_H
#define DOVECOUNTER_H

#include <stddef.h>
#include <stdint.h>

#ifdef __cplusplus
extern "C" {
#endif

/* Changes whenever a structure, a number or a function below changes. */
#define DOVECOUNTER_VERSION 7

/* ---- Statuses ----

   Each function returns the first of its statuses that applies, and 0 if none does. With any status but 0 it has
   written nothing, with these exceptions: dovecounter_certificate writes the text's length if the buffer is too small,
   and dovecounter_weights the number of the faulty line; dovecounter_run, _update_run, _lane_run,
   _settings_run, _explicit_run, _link_test_run and _vdm_run have gone on up to the reply that they return status 34 for.

     status_text, fault_text, verdict_text   3 4
     code_name                               3 4
     version, media_name                     4
     advertisement, durations, patience      1 2 14 (lower half) 11 12 16 13 14 (page) 15
     identity                                1 2 76 (lower half) 71 74 76 (page) 83
     flags                                   1 2 76 (lower half) 71 74 76 (page) 84 86 83
     monitors                                1 2 76 (lower half) 71 74 76 (page) 84 86 85 83
     observables                             1 2 76 (lower half) 71 74
     weights                                 91 or 94, of the first faulty line; 92
     plan                                    as advertisement, then 14 (page 11h, if stay is not 0) 42 43
     certificate                             as plan, then 4
     check                                   as advertisement, then 14 (as plan); 21 to 24, of the first faulty line
     judge                                   1 2 14 (lower half, page 11h)
     read_begin, read_some_begin             36
     further_banks                           1 2
     next                                    31 32
     reply                                   31 32 34
     end                                     31 33
     run, update_run, lane_run               31 34
     settings_run, link_test_run, vdm_run    31 34
     explicit_run                            31 34
     port_plug to port_next                  31
     port_take                               31 34
     bank_count                              2
     update_next                             31 32
     update_reply                            31 32 34
     update_end                              31 33
     update_progress                         31
     lane_begin                              31
     lane_next                               31 32
     lane_reply                              31 32 34
     lane_end                                31 33
     settings                                as advertisement, then 14 (page 11h)
     settings_limits                         as advertisement
     settings_begin                          106, then 101 to 105
     settings_next                           31 32
     settings_reply                          31 32 34
     settings_end                            31 33
     explicit_begin                          101 to 105
     explicit_next                           31 32
     explicit_reply                          31 32 34
     explicit_end                            31 33
     link_test_begin, _stop, _changes        31
     link_test_next                          31 32
     link_test_reply                         31 32 34
     link_test_end                           31 33
     link_results                            31
     vdm_next                                31 32
     vdm_reply                               31 32 34
     vdm_end                                 31 33
     module_begin                            1 2 51, then as advertisement, then 53 54
     module_fetch, module_store              as advertisement, then 61 62 63
     module_tick, module_pin, module_active  61

   In the comments below, the code before a colon, such as AD1, is the fault that cmisctl prints for this reason
   (docs/faults.md). */
enum dovecounter_status {
    DOVECOUNTER_DONE = 0,

    /* halves */
    DOVECOUNTER_TOO_MANY_HALVES = 1, /* more than 16, or of a simulated module more than 64 */
    DOVECOUNTER_NO_PLACE = 2,        /* a device other than 0xA0 and 0xA2, upper above 1, or upper 0 with a bank or a page; for
                                        dovecounter_bank_count any but page 11h of bank 1, 2 or 3 of 0xA0 */

    /* texts */
    DOVECOUNTER_NO_TEXT = 3,   /* this number has no text */
    DOVECOUNTER_TOO_SMALL = 4, /* the text doesn't fit in the buffer */

    /* what a module advertises; all of device 0xA0, pages of bank 0 */
    DOVECOUNTER_NOT_CMIS = 11,        /* AD1: the identifier, byte 0, isn't 0x18, 0x19 or 0x1E */
    DOVECOUNTER_REVISION = 12,        /* AD2: the major CMIS revision, byte 1, is neither 4 nor 5 */
    DOVECOUNTER_NOT_EIGHT_LANES = 16, /* AD6: the module doesn't have eight lanes */
    DOVECOUNTER_FLAT_MEMORY = 13,     /* AD3: the module has no page but 00h */
    DOVECOUNTER_ABSENT = 14,          /* AD4: the lower half or page 00h or 01h is missing; or page 11h, if stay is not 0 */
    DOVECOUNTER_BAD_SUM = 15,         /* AD5: the sum of page 00h or 01h is wrong */

    /* certificates */
    DOVECOUNTER_BAD_LINE = 21,     /* CT1: a line has no known form, or a wrong place */
    DOVECOUNTER_OUT_OF_ORDER = 22, /* CT2: a state isn't above the one before it */
    DOVECOUNTER_TOO_MANY = 23,     /* CT3: a ninth path, or a ninth kept path */
    DOVECOUNTER_NO_END = 24,       /* CT4: the line `end` is missing */

    /* conversations */
    DOVECOUNTER_NO_CONVERSATION = 31, /* the structure holds no valid conversation, update, change or port; or the file has another size */
    DOVECOUNTER_ENDED = 32,           /* it has ended: there is no operation to make */
    DOVECOUNTER_NOT_ENDED = 33,       /* it goes on: there is an operation to make */
    DOVECOUNTER_NO_REPLY = 34,        /* the operation can't have this reply */
    DOVECOUNTER_TOO_FEW_BYTES = 36,   /* a reading needs a bus that fetches 8 bytes at once */

    /* kept paths */
    DOVECOUNTER_TOO_MANY_KEPT = 42,       /* KP2: more than 8 */
    DOVECOUNTER_KEPT_NOT_ADMISSIBLE = 43, /* KP3: one isn't allowed, or shares a lane with another */

    /* simulated modules */
    DOVECOUNTER_NEEDED_HALF = 51,      /* SM1: device 0xA0 lacks its lower half, or page 00h, 01h, 10h or 11h of bank 0 */
    DOVECOUNTER_BAD_DELAY = 53,        /* SM3: a delay is 0 or above 1000 */
    DOVECOUNTER_ACTIVE_NOT_PATHS = 54, /* SM4: bytes 206 to 213 of page 11h are no host paths */
    DOVECOUNTER_NO_MODULE = 61,        /* the structure holds no valid simulated module */
    DOVECOUNTER_NO_RANGE = 62,         /* BU2: no such device, no bytes, too many (above 128 to fetch, 8 to store), or in two halves */
    DOVECOUNTER_NOT_TAKEN = 63,        /* the module refuses */

    /* decoders */
    DOVECOUNTER_LACKS_HALF = 76,           /* RP6: device 0xA0 has no lower half, or a CMIS module lacks a page */
    DOVECOUNTER_UNKNOWN_MODULE = 71,       /* RP1: the identifier, byte 0, belongs to no family that can be read */
    DOVECOUNTER_UNREAD_REVISION = 74,      /* RP4: the major CMIS revision, byte 1, is neither 4 nor 5 (nor 3, for observables) */
    DOVECOUNTER_NO_DIAGNOSTICS = 84,       /* SF4: an SFF-8472 module has no diagnostics */
    DOVECOUNTER_ADDRESS_CHANGE = 86,       /* SF6: it wants an address change before its diagnostics are read */
    DOVECOUNTER_EXTERNAL_CALIBRATION = 85, /* SF5: the host has to calibrate what it measures */
    DOVECOUNTER_SFF_LACKS_HALF = 83,       /* SF3: an SFF-8636 or SFF-8472 module lacks a half */

    /* weights */
    DOVECOUNTER_BAD_WEIGHT_LINE = 91, /* a line has no known form, or a wrong place */
    DOVECOUNTER_SAME_ID_TWICE = 94,   /* a line repeats the ID of an earlier one */
    DOVECOUNTER_NO_HOST_LINE = 92,    /* WT2: the line `[host]` is missing */

    /* signal integrity settings, of a lane of a change */
    DOVECOUNTER_NO_SUCH_RECALL = 101,      /* it is to recall another stored equalization than 0 to 3 */
    DOVECOUNTER_NO_SUCH_FIXED_INPUT = 102, /* the module advertises no such fixed equalization of the input, */
    DOVECOUNTER_NO_SUCH_PRE_CURSOR = 103,  /* no such equalization of the output before the cursor, */
    DOVECOUNTER_NO_SUCH_POST_CURSOR = 104, /* or after it, */
    DOVECOUNTER_NO_SUCH_AMPLITUDE = 105,   /* or no such amplitude */
    DOVECOUNTER_NOT_PERMITTED = 106        /* it isn't permitted */
};

/* ---- Texts for people ----

   Each function writes ASCII without a line end and without a NUL, and its length to *text_length. It leaves the
   rest of the buffer alone. */

/* The longest text of the functions below. */
#define DOVECOUNTER_TEXT_SIZE 256

/* What a status means, and what to do. If the status names a fault, this is the fault's sentence in docs/faults.md. */
uint32_t dovecounter_status_text(uint32_t status, uint8_t *buffer, size_t buffer_size, size_t *text_length);

/* What a fault means, by its code, 1 to 10. */
uint32_t dovecounter_fault_text(uint32_t code, uint8_t *buffer, size_t buffer_size, size_t *text_length);

/* What is wrong with a certificate, by the reason of a dovecounter_judgement, 1 to 10. */
uint32_t dovecounter_verdict_text(uint32_t reason, uint8_t *buffer, size_t buffer_size, size_t *text_length);

/* The version, such as 0.1.0. */
uint32_t dovecounter_version(uint8_t *buffer, size_t buffer_size, size_t *text_length);

/* Tables of names, by what they name. */
enum dovecounter_table {
    DOVECOUNTER_TABLE_IDENTIFIERS = 1,          /* SFF-8024, Table 4-1 */
    DOVECOUNTER_TABLE_CONNECTORS = 2,           /* SFF-8024, Table 4-3 */
    DOVECOUNTER_TABLE_SFF_8472_ENCODINGS = 3,   /* SFF-8024, Table 4-2 */
    DOVECOUNTER_TABLE_SFF_8636_ENCODINGS = 4,   /* the same for SFF-8636 */
    DOVECOUNTER_TABLE_EXTENDED_COMPLIANCE = 5,  /* SFF-8024, Table 4-4 */
    DOVECOUNTER_TABLE_HOST_INTERFACES = 6,      /* SFF-8024, Table 4-5 */
    DOVECOUNTER_TABLE_MULTI_MODE_MEDIA = 7,     /* SFF-8024, Table 4-6; for these five see media_name */
    DOVECOUNTER_TABLE_SINGLE_MODE_MEDIA = 8,    /* SFF-8024, Table 4-7 */
    DOVECOUNTER_TABLE_PASSIVE_COPPER = 9,       /* SFF-8024, Table 4-8 */
    DOVECOUNTER_TABLE_ACTIVE_CABLES = 10,       /* SFF-8024, Table 4-9 */
    DOVECOUNTER_TABLE_BASE_T_MEDIA = 11,        /* SFF-8024, Table 4-10 */
    DOVECOUNTER_TABLE_MEDIA_TYPES = 12,         /* CMIS */
    DOVECOUNTER_TABLE_MEDIA_TECHNOLOGIES = 13,
    DOVECOUNTER_TABLE_MODULE_FAULTS = 14,
    DOVECOUNTER_TABLE_DURATIONS = 15,
    DOVECOUNTER_TABLE_SQUELCH_METHODS = 16,
    DOVECOUNTER_TABLE_OUTPUT_EQUALIZERS = 17,
    DOVECOUNTER_TABLE_SFF_8636_REVISIONS = 18,
    DOVECOUNTER_TABLE_SFF_8636_RATE_SELECTS = 19,
    DOVECOUNTER_TABLE_SFF_8636_COMPLIANCE = 20, /* a code is a bit from bit 0 of byte 131 on */
    DOVECOUNTER_TABLE_INFINIBAND_SPEEDS = 21,   /* a code is a bit of byte 164 */
    DOVECOUNTER_TABLE_SFF_8472_EXTENDED_IDENTIFIERS = 22,
    DOVECOUNTER_TABLE_SFF_8472_REVISIONS = 23,
    DOVECOUNTER_TABLE_SFF_8472_RATE_SELECTS = 24,
    DOVECOUNTER_TABLE_SFF_8472_COMPLIANCE = 25, /* a code is a bit from bit 0 of byte 3 on; byte 62 comes after byte 10 */
    DOVECOUNTER_TABLE_SFP_PASSIVE_CABLES = 26,
    DOVECOUNTER_TABLE_SFP_ACTIVE_CABLES = 27
};

/* What a table says of a code, as cmisctl prints it: its name, or `reserved`, `vendor specific` or `not listed`. */
uint32_t dovecounter_code_name(uint32_t table, uint8_t code, uint8_t *buffer, size_t buffer_size, size_t *text_length);

/* The same of a MediaInterfaceID, by the media type of its module. */
uint32_t dovecounter_media_name(uint8_t media_type, uint8_t code, uint8_t *buffer, size_t buffer_size,
                                size_t *text_length);

/* ---- What a module is ----

   Pass a module's memory as an array of at most 16 halves, in any order. Of two halves for one place the first counts;
   halves that a function doesn't need are ignored. Pages are in bank 0; dovecounter_observables reads other banks too. */

/* 128 bytes of a module's memory, and their place. */
struct dovecounter_half {
    uint8_t device; /* 8-bit bus address, 0xA0 or 0xA2 (0x50 or 0x51 in 7 bits) */
    uint8_t upper;  /* 0: addresses 0 to 127; 1: addresses 128 to 255 */
    uint8_t bank;   /* 0 if upper is 0 */
    uint8_t page;   /* 0 if upper is 0 */
    uint8_t bytes[128];
};

/* What a data path can carry, and where it may begin. */
struct dovecounter_application {
    uint8_t number;       /* AppSelCode, 1 to 15; 0, like all other members, after the last Application */
    uint8_t host_id;      /* HostInterfaceID (SFF-8024) */
    uint8_t media_id;     /* MediaInterfaceID (SFF-8024) */
    uint8_t host_lanes;   /* how many host lanes a path takes */
    uint8_t media_lanes;  /* how many media lanes a path takes */
    uint8_t host_starts;  /* host lanes where a path may begin */
    uint8_t media_starts; /* media lanes where a path may begin */
};

struct dovecounter_advertisement {
    uint8_t count;       /* of Applications, at most 15 */
    uint8_t unsupported; /* media lanes that no path may use */
    struct dovecounter_application applications[15];
};

/* Writes what the module advertises. Needs the lower half of 0xA0 and pages 00h and 01h. If a module leaves a lane
   count at 0, the interface ID implies the count: with counts_by_id other than 0 it is looked up, and stays 0 if it
   isn't known (docs/planning.md, "Lane counts of 0"). If in doubt pass 0: then no path of such an Application is
   allowed. Pass the counts_by_id of your plans and certificates. */
uint32_t dovecounter_advertisement(const struct dovecounter_half *halves, size_t half_count, uint8_t counts_by_id,
                                   struct dovecounter_advertisement *advertisement);

enum dovecounter_family { DOVECOUNTER_CMIS = 1, DOVECOUNTER_SFF_8636 = 2, DOVECOUNTER_SFF_8472 = 3 };

/* What `cmisctl inventory` prints. Texts end in a NUL and have no padding, and `?` for unprintable bytes. Members
   marked CMIS are 0 in other modules. */
struct dovecounter_identity {
    int64_t max_power;   /* in milliwatts (CMIS) */
    int64_t length;      /* in millimetres (CMIS) */
    uint8_t family;      /* enum dovecounter_family */
    uint8_t identifier;  /* SFF-8024 */
    uint8_t revision;    /* major in the upper four bits, minor in the lower (CMIS) */
    uint8_t flat;        /* 1 if there is no page but 00h (CMIS) */
    uint8_t media_type;  /* MediaType (CMIS) */
    uint8_t power_class; /* 1 to 8 (CMIS) */
    uint8_t connector;   /* SFF-8024 */
    uint8_t technology;  /* MediaInterfaceTechnology (CMIS) */
    uint8_t sum_base;    /* 1 if the sum of page 00h (CMIS) or CC_BASE is right */
    uint8_t sum_ext;     /* 1 if CC_EXT is right; 0 for CMIS */
    uint8_t oui[3];      /* organizationally unique identifier */
    char vendor[17];
    char part[17];
    char part_revision[17];
    char serial[17];
    char date[17];
};

/* Writes what the module is. Needs the lower half of 0xA0, and page 00h unless the module is SFF-8472. */
uint32_t dovecounter_identity(const struct dovecounter_half *halves, size_t half_count,
                              struct dovecounter_identity *identity);

/* Which limits were passed: 0 or 1 for a value of the module, a set of lanes for a value of each lane. */
struct dovecounter_levels {
    uint8_t high_alarm;
    uint8_t low_alarm;
    uint8_t high_warning;
    uint8_t low_warning;
};

/* Codes of states (docs/states.md). Those that have no name here are reserved, or statuses of the vendor's. */
enum dovecounter_module_state {
    DOVECOUNTER_MODULE_LOW_PWR = 1,
    DOVECOUNTER_MODULE_PWR_UP = 2,
    DOVECOUNTER_MODULE_READY = 3,
    DOVECOUNTER_MODULE_PWR_DN = 4,
    DOVECOUNTER_MODULE_FAULT = 5
};

enum dovecounter_path_state {
    DOVECOUNTER_DP_DEACTIVATED = 1,
    DOVECOUNTER_DP_INIT = 2,
    DOVECOUNTER_DP_DEINIT = 3,
    DOVECOUNTER_DP_ACTIVATED = 4,
    DOVECOUNTER_DP_TX_TURN_ON = 5,
    DOVECOUNTER_DP_TX_TURN_OFF = 6,
    DOVECOUNTER_DP_INITIALIZED = 7
};

enum dovecounter_config_status {
    DOVECOUNTER_CONFIG_UNDEFINED = 0,
    DOVECOUNTER_CONFIG_SUCCESS = 1,
    DOVECOUNTER_CONFIG_REJECTED = 2,
    DOVECOUNTER_CONFIG_REJECTED_INVALID_APP_SEL = 3,
    DOVECOUNTER_CONFIG_REJECTED_INVALID_DATA_PATH = 4,
    DOVECOUNTER_CONFIG_REJECTED_INVALID_SI = 5,
    DOVECOUNTER_CONFIG_REJECTED_LANES_IN_USE = 6,
    DOVECOUNTER_CONFIG_REJECTED_PARTIAL_DATA_PATH = 7,
    DOVECOUNTER_CONFIG_IN_PROGRESS = 12
};

/* What `cmisctl flags` prints. A flag of lanes is a set of lanes. A flag that the family, or a CMIS module with flat
   memory, doesn't have is 0. */
struct dovecounter_flags {
    uint8_t family;             /* enum dovecounter_family */
    uint8_t lanes;              /* how many lanes the flags cover: 8, 4 or 1; 0 for a CMIS module with flat memory */
    uint8_t state;              /* enum dovecounter_module_state (CMIS) */
    uint8_t path_states[8];     /* enum dovecounter_path_state, lane 1 first (CMIS) */
    uint8_t statuses[8];        /* enum dovecounter_config_status, lane 1 first (CMIS) */
    uint8_t path_state_changed; /* CMIS */
    uint8_t tx_fault;           /* tx-failure (CMIS) */
    uint8_t tx_los;
    uint8_t tx_lol;
    uint8_t tx_eq_fail; /* CMIS */
    uint8_t rx_los;
    uint8_t rx_lol;
    struct dovecounter_levels temperature; /* of the module */
    struct dovecounter_levels vcc;         /* of the module */
    struct dovecounter_levels tx_power;
    struct dovecounter_levels tx_bias;
    struct dovecounter_levels rx_power;
};

/* Writes the states and flags. Needs the lower half of 0xA0, and page 11h (CMIS with paged memory) or the lower half
   of 0xA2 (SFF-8472). Reading clears most flags, so a later reading shows what was raised since. */
uint32_t dovecounter_flags(const struct dovecounter_half *halves, size_t half_count, struct dovecounter_flags *flags);

/* The limits of a value, in its unit. */
struct dovecounter_limits {
    int64_t high_alarm;
    int64_t low_alarm;
    int64_t high_warning;
    int64_t low_warning;
};

/* A value of the module, and its limits. */
struct dovecounter_value {
    int64_t value;
    struct dovecounter_limits limits; /* zeros if has_limits is 0 */
};

enum dovecounter_support {
    DOVECOUNTER_UNSUPPORTED = 0,        /* the module doesn't measure it, or has flat memory (CMIS) */
    DOVECOUNTER_MEASURED = 1,           /* values, and limits if has_limits is 1 */
    DOVECOUNTER_RESERVED_MULTIPLIER = 2 /* bias is measured, but scaled by a reserved code (CMIS) */
};

/* A value of each lane (CMIS: each media lane). */
struct dovecounter_lane_values {
    int64_t values[8];                /* lane 1 first; zeros after the last lane, and unless support is 1 */
    struct dovecounter_limits limits; /* of every lane; zeros if has_limits is 0, and unless support is 1 */
    uint8_t support;                  /* enum dovecounter_support */
};

/* What `cmisctl monitors` prints, rounded down, below zero too. */
struct dovecounter_monitors {
    struct dovecounter_value temperature;    /* in thousandths of a degree Celsius */
    struct dovecounter_value vcc;            /* supply voltage in microvolts */
    struct dovecounter_lane_values tx_power; /* transmitted light in nanowatts */
    struct dovecounter_lane_values tx_bias;  /* laser bias in microamperes */
    struct dovecounter_lane_values rx_power; /* received light in nanowatts */
    uint8_t family;                          /* enum dovecounter_family */
    uint8_t lanes;                           /* how many lanes have values, as in dovecounter_flags */
    uint8_t has_limits;                      /* 0 for a CMIS or SFF-8636 module with flat memory, else 1 */
    uint8_t sum;                             /* 1 if the sum over the limits (page 02h, or CC_DMI of SFF-8472) is there and right */
};

/* Writes what the module measures. Needs the lower half of 0xA0, and with paged memory pages 01h, 02h and 11h (CMIS)
   or 03h (SFF-8636), or the lower half of 0xA2 (SFF-8472). */
uint32_t dovecounter_monitors(const struct dovecounter_half *halves, size_t half_count,
                              struct dovecounter_monitors *monitors);

/* ---- What a module measures ----

   dovecounter_observables also decodes pages 20h to 2Ch of banks 0 to 3, which dovecounter_vdm_begin reads, a bank at a time
   ("Statistics", below). */

/* What is measured. `cmisctl observables` has the same names (docs/observables.md). */
enum dovecounter_quantity {
    DOVECOUNTER_QUANTITY_LASER_AGE = 1,
    DOVECOUNTER_QUANTITY_TEC_CURRENT_SHARE = 2,
    DOVECOUNTER_QUANTITY_LASER_FREQUENCY_ERROR = 3,
    DOVECOUNTER_QUANTITY_LASER_TEMPERATURE = 4,
    DOVECOUNTER_QUANTITY_SNR = 5,
    DOVECOUNTER_QUANTITY_LEVEL_TRANSITION = 6,
    DOVECOUNTER_QUANTITY_PRE_FEC_BER = 7,
    DOVECOUNTER_QUANTITY_ERRORED_FRAMES = 8,
    DOVECOUNTER_QUANTITY_MODULATOR_BIAS_XI = 9,
    DOVECOUNTER_QUANTITY_MODULATOR_BIAS_XQ = 10,
    DOVECOUNTER_QUANTITY_MODULATOR_BIAS_YI = 11,
    DOVECOUNTER_QUANTITY_MODULATOR_BIAS_YQ = 12,
    DOVECOUNTER_QUANTITY_MODULATOR_BIAS_X_PHASE = 13,
    DOVECOUNTER_QUANTITY_MODULATOR_BIAS_Y_PHASE = 14,
    DOVECOUNTER_QUANTITY_DISPERSION_SHORT_LINK = 15,
    DOVECOUNTER_QUANTITY_DISPERSION_LONG_LINK = 16,
    DOVECOUNTER_QUANTITY_DIFFERENTIAL_GROUP_DELAY = 17,
    DOVECOUNTER_QUANTITY_SECOND_ORDER_PMD = 18,
    DOVECOUNTER_QUANTITY_POLARIZATION_DEPENDENT_LOSS = 19,
    DOVECOUNTER_QUANTITY_OSNR = 20,
    DOVECOUNTER_QUANTITY_ELECTRICAL_SNR = 21,
    DOVECOUNTER_QUANTITY_CARRIER_FREQUENCY_OFFSET = 22,
    DOVECOUNTER_QUANTITY_ERROR_VECTOR_MAGNITUDE = 23,
    DOVECOUNTER_QUANTITY_TX_LEVEL = 24,
    DOVECOUNTER_QUANTITY_RX_TOTAL_LEVEL = 25,
    DOVECOUNTER_QUANTITY_RX_SIGNAL_LEVEL = 26,
    DOVECOUNTER_QUANTITY_POLARIZATION_CHANGE_RATE = 27,
    DOVECOUNTER_QUANTITY_MODULATION_ERROR_RATIO = 28,
    DOVECOUNTER_QUANTITY_TEMPERATURE = 29,
    DOVECOUNTER_QUANTITY_VCC = 30,
    DOVECOUNTER_QUANTITY_VCC_2 = 31,
    DOVECOUNTER_QUANTITY_TX_POWER = 32,
    DOVECOUNTER_QUANTITY_RX_POWER = 33,
    DOVECOUNTER_QUANTITY_TX_BIAS = 34,
    DOVECOUNTER_QUANTITY_TEC_CURRENT = 35
};

/* Its value now, or one of the statistics of an interval. */
enum dovecounter_figure {
    DOVECOUNTER_FIGURE_NOW = 1,
    DOVECOUNTER_FIGURE_MINIMUM = 2,
    DOVECOUNTER_FIGURE_MAXIMUM = 3,
    DOVECOUNTER_FIGURE_AVERAGE = 4,
    DOVECOUNTER_FIGURE_LAST = 5
};

enum dovecounter_side { DOVECOUNTER_SIDE_MEDIA = 1, DOVECOUNTER_SIDE_HOST = 2 };

enum dovecounter_scope {
    DOVECOUNTER_SCOPE_MODULE = 1,
    DOVECOUNTER_SCOPE_HOST_LANE = 2,
    DOVECOUNTER_SCOPE_MEDIA_LANE = 3,
    DOVECOUNTER_SCOPE_HOST_PATH = 4,
    DOVECOUNTER_SCOPE_MEDIA_PATH = 5
};

enum dovecounter_unit {
    DOVECOUNTER_UNIT_PERCENT = 1,
    DOVECOUNTER_UNIT_RATIO = 2,
    DOVECOUNTER_UNIT_FRAMES = 3,
    DOVECOUNTER_UNIT_CELSIUS = 4,
    DOVECOUNTER_UNIT_VOLTS = 5,
    DOVECOUNTER_UNIT_MILLIAMPERES = 6,
    DOVECOUNTER_UNIT_MILLIWATTS = 7,
    DOVECOUNTER_UNIT_DBM = 8,
    DOVECOUNTER_UNIT_DECIBELS = 9,
    DOVECOUNTER_UNIT_MEGAHERTZ = 10,
    DOVECOUNTER_UNIT_PICOSECONDS = 11,
    DOVECOUNTER_UNIT_SQUARE_PICOSECONDS = 12,
    DOVECOUNTER_UNIT_PICOSECONDS_PER_NANOMETRE = 13,
    DOVECOUNTER_UNIT_KILORADIANS_PER_SECOND = 14
};

/* mantissa * 10^exponent / divisor, exactly. Zeros if it isn't known. */
struct dovecounter_amount {
    int64_t mantissa;
    uint16_t divisor;
    int8_t exponent;
    uint8_t is_known;
};

struct dovecounter_amounts {
    struct dovecounter_amount high_alarm;
    struct dovecounter_amount low_alarm;
    struct dovecounter_amount high_warning;
    struct dovecounter_amount low_warning;
};

/* Names are the words of `cmisctl observables`, each with a NUL. */
struct dovecounter_observable {
    struct dovecounter_amount amount;
    struct dovecounter_amounts limits;
    uint8_t quantity;                /* enum dovecounter_quantity */
    uint8_t figure;                  /* enum dovecounter_figure */
    uint8_t side;                    /* enum dovecounter_side */
    uint8_t scope;                   /* enum dovecounter_scope */
    uint8_t lane;                    /* or the first lane of the data path, from 1 on; 0 for the module */
    uint8_t unit;                    /* enum dovecounter_unit */
    uint8_t advertised;              /* 1 if the module says that it measures this, or each module of its family does */
    uint8_t has_flags;               /* 0 if the page of the flags is missing */
    struct dovecounter_levels flags; /* 1 if the limit was passed since the flags were last read */
    char quantity_name[28];
    char figure_name[28];
    char scope_name[28];
    char unit_name[28];
};

/* Writes the first observation from *place on, and to *place where the next one may be. When none is left, *place
   becomes 0 and observable isn't written. Needs the lower half of 0xA0; what is in another half that is missing is
   left out, or not known. For all of them, with `uint16_t place = 0`:

     while (dovecounter_observables(halves, half_count, &place, &observable) == 0 && place != 0) use(&observable); */
uint32_t dovecounter_observables(const struct dovecounter_half *halves, size_t half_count, uint16_t *place,
                                 struct dovecounter_observable *observable);

/* How long states last at most, in milliseconds: the upper end of the advertised range, or DOVECOUNTER_UNBOUNDED if
   it has none or its code is reserved. */
struct dovecounter_durations {
    uint32_t module_power_up;   /* MaxDurationModulePwrUp */
    uint32_t module_power_down; /* MaxDurationModulePwrDn */
    uint32_t path_init;         /* MaxDurationDPInit */
    uint32_t path_deinit;       /* MaxDurationDPDeinit */
    uint32_t path_tx_turn_on;   /* MaxDurationDPTxTurnOn */
    uint32_t path_tx_turn_off;  /* MaxDurationDPTxTurnOff */
};

#define DOVECOUNTER_UNBOUNDED UINT32_MAX

/* Writes the durations that the module advertises. Needs the halves that dovecounter_advertisement needs. */
uint32_t dovecounter_durations(const struct dovecounter_half *halves, size_t half_count,
                               struct dovecounter_durations *durations);

/* ---- Plans ---- */

/* Reads weights from a text: weights[ID] becomes what a HostInterfaceID is worth, 0 if the text doesn't list it. The
   text has a line `[host]`, then lines such as `0Dh = 101`: two hexadecimal digits of either case, `h`, and a decimal
   weight up to 4294967295 without leading zeros. It is UTF-8, LF ends a line, and blanks, tabs, empty lines and
   comments after `#` are allowed; other TOML, and CR LF, is refused. cmisctl reads these weights from it, too
   (tested). With status 91 or 94 *line is the number of the faulty line, from 1 on; with 92 it is 0. */
uint32_t dovecounter_weights(const uint8_t *text, size_t text_length, uint32_t weights[256], size_t *line);

/* A data path: an Application on consecutive host lanes and consecutive media lanes. */
struct dovecounter_path {
    uint8_t application; /* its number */
    uint8_t host;        /* first host lane, 1 to 8 */
    uint8_t media;       /* first media lane, 1 to 8 */
};

/* A division of a module's lanes into data paths. */
struct dovecounter_plan {
    uint64_t weight;                  /* the sum over its paths */
    uint8_t count;                    /* of paths, at most 8 */
    uint8_t lanes;                    /* host lanes that the paths take */
    uint8_t outside;                  /* host lanes that no kept path takes; 0xFF if nothing is kept */
    uint8_t control[8];               /* control bytes of host lanes 1 to 8 */
    struct dovecounter_path paths[8]; /* by rising host lane; zeros after the last one */
};

/* Writes the best plan: every path is allowed, no two share a lane, the kept paths are among them, and no such plan
   weighs more. Of equally good plans it is the first in the order of docs/planning.md. If nothing is worth anything,
   count is 0, and to provision the plan would take all lanes down.

   A path weighs weights[its HostInterfaceID], plus `stay` if the Active Control Set already has it, up or not (needs
   page 11h if stay is not 0). With 0 a slightly better plan replaces paths that are up. But pass 0 for a module that
   carries nothing, since it powers up with a default Application in that set. Pass paired 1 if the module joins an
   Application's first host lanes and first media lanes in order. No register shows that; 1 fits any module, so pass 1
   if in doubt.

   Next ask dovecounter_judge what the plan would take down. Then pass control and the judgement's `taken` to
   dovecounter_provision_begin, then control and lanes to dovecounter_activate_begin. Only for a module that carries
   nothing you may pass `outside` and ask nothing: it has all lanes if nothing is kept. Save paths if you will want to
   keep them: no register holds the media lanes of a path. */
uint32_t dovecounter_plan(const struct dovecounter_half *halves, size_t half_count, uint8_t paired,
                          uint8_t counts_by_id, const uint32_t weights[256], uint32_t stay,
                          const struct dovecounter_path *kept, size_t kept_count, struct dovecounter_plan *plan);

struct dovecounter_judgement {
    uint8_t reason;  /* 0: good, and no plan that keeps its kept paths weighs more; else the number in VR1 to VR10 */
    uint64_t number; /* from 1 on: VR1, VR2: the path; VR8, VR9: the kept path; VR5, VR6: the entry; else 0 */
};

/* Judges a certificate's text for this module and these weights. The text names the paths that it keeps, and whether
   the module pairs first lanes (VR10 if that contradicts paired), but neither counts_by_id nor stay: pass those that
   it was made with. */
uint32_t dovecounter_check(const struct dovecounter_half *halves, size_t half_count, uint8_t paired,
                           uint8_t counts_by_id, const uint32_t weights[256], uint32_t stay, const uint8_t *text,
                           size_t text_length, struct dovecounter_judgement *judgement);

/* The longest text of a certificate. Firmware needs none: dovecounter_plan is proved, so its plan needs no check.
   Store a certificate only to let others check the plan. */
#define DOVECOUNTER_CERTIFICATE_SIZE 74046

/* Writes the certificate of the plan that dovecounter_plan gives for these arguments, byte for byte what `cmisctl
   plan` prints, without a NUL. dovecounter_check finds it good. *text_length is its length even if the buffer is too
   small, so a buffer of size 0 asks for the length. */
uint32_t dovecounter_certificate(const struct dovecounter_half *halves, size_t half_count, uint8_t paired,
                                 uint8_t counts_by_id, const uint32_t weights[256], uint32_t stay,
                                 const struct dovecounter_path *kept, size_t kept_count, uint8_t *buffer,
                                 size_t buffer_size, size_t *text_length);

/* A change from what the module's memory shows to a plan. Flags are 0 or 1. */
struct dovecounter_change {
    uint8_t control[8];       /* of the plan, as the next two */
    uint8_t lanes;
    uint8_t outside;
    uint8_t spares;           /* a path of the plan that is active, and not down, stays, even if it isn't kept */
    uint8_t activates;        /* the plan's lanes are to come up */
    uint8_t wakes;            /* a module in low power is woken up first */
    uint8_t may_take_down;    /* lanes that may go down although they aren't DPDeactivated */
    uint8_t may_bring_up;     /* lanes that may come up although the change doesn't want them up */
    uint8_t may_have_no_path; /* the plan may be empty */
};

enum dovecounter_hindrance {
    DOVECOUNTER_UNHINDERED = 0,
    DOVECOUNTER_OTHER_BYTES = 1,   /* `lanes` are to stay, but have other control bytes than the plan's */
    DOVECOUNTER_OTHER_STATE = 2,   /* the module is in `state`, neither in ModuleReady nor to be woken up from low power */
    DOVECOUNTER_WOULD_COME_UP = 3, /* `lanes` are down, would come up, and may not */
    DOVECOUNTER_NO_PATH = 4,       /* the plan is empty, and may not be */
    DOVECOUNTER_WOULD_GO_DOWN = 5  /* `lanes` aren't down, would go down, and may not */
};

/* What a change does to lanes. */
struct dovecounter_effect {
    uint8_t taken;     /* for dovecounter_provision_begin */
    uint8_t goes_down; /* aren't DPDeactivated, and are taken down, even if they come up again */
    uint8_t comes_up;  /* are DPDeactivated, and come up */
    uint8_t stays;     /* aren't DPDeactivated, and are left as they are */
    uint8_t is_active; /* 1 if the plan's control bytes are active, so that nothing is to be provisioned */
    uint8_t is_done;   /* 1 if there is nothing to do */
    uint8_t hindrance; /* enum dovecounter_hindrance: the first that applies */
    uint8_t lanes;     /* of the hindrance, or 0 */
    uint8_t state;     /* of the hindrance: enum dovecounter_module_state, or a reserved code; else 0 */
};

/* Judges a change before anything is stored, by the module's state and page 11h, for a module that dovecounter_plan
   accepts: for any other the answer means nothing. If hindrance is 0, provisioning `taken` and activating the plan's
   lanes take down no lane that isn't DPDeactivated, except those in may_take_down (they set no other lane's DPDeinit or
   ApplyDPInit bit).

   Then, in this order (examples/plan_and_provision.c):
   1. stop if hindrance isn't 0, even if is_done is 1;
   2. stop if is_done is 1;
   3. if the module is in low power, wake it, read it and judge it again (lanes that came up by that go down only if
      may_take_down has them);
   4. unless is_active is 1, call dovecounter_provision_begin with control, and `taken` in place of outside;
   5. if the change activates, call dovecounter_activate_begin with control and the plan's lanes.

   To learn whether the module is in low power, judge with wakes 0: then that is the hindrance,
   DOVECOUNTER_OTHER_STATE with state DOVECOUNTER_MODULE_LOW_PWR, unless DOVECOUNTER_OTHER_BYTES is.

   After a hindrance: docs/for_firmware.md, "Read, plan, provision, activate". */
uint32_t dovecounter_judge(const struct dovecounter_half *halves, size_t half_count,
                           const struct dovecounter_change *change, struct dovecounter_effect *effect);

/* ---- Conversations with a module ----

   A conversation is a procedure or a reading under way. It touches no bus: dovecounter_next names the operation to
   make, dovecounter_reply takes its outcome, and dovecounter_end tells how it ended. dovecounter_run is that loop,
   for callers that may block. Meanwhile nobody else may use the module: no driver, no process, no second master of
   the bus. Between two transactions you may deselect it (ModSelL) and use other modules on its bus. You may drop a
   conversation at any moment; the module keeps what was stored.

   Make each transaction once. After the first NACK report DOVECOUNTER_REFUSED, and switch off the retries of your
   driver: the module may have gone back to page 00h, so a store that is repeated blindly may land there, and a
   command may run twice. The library selects the page again, and repeats what may be repeated.

   The library drives no pin. Before you begin, select the module (ModSelL low), release its reset (ResetL high), and let
   2 s pass since it was plugged or reset. LPMode may be at either level: dovecounter_wake_begin makes the module ignore
   it. IntL isn't used. */

/* Why a conversation failed. first and second are members of dovecounter_fault, 0 unless named here. */
enum dovecounter_fault_code {
    DOVECOUNTER_NO_FAULT = 0,
    DOVECOUNTER_REJECTED = 1,        /* PV1: the module rejected the configuration of lane `first`, by status `second` */
    DOVECOUNTER_NOT_STAGED = 2,      /* PV2: the staged control byte of lane `first` isn't what was stored */
    DOVECOUNTER_NOT_ACTIVE = 3,      /* PV3: the active control byte of lane `first` isn't the plan's */
    DOVECOUNTER_GAVE_UP_WAITING = 4, /* PV4: after 4096 transactions, answered looks left out */
    DOVECOUNTER_BUS_ENDED = 5,       /* PV5: `first` is the digit of BU1 or BU2; never here */
    DOVECOUNTER_NOT_READY = 6,       /* PV6: the module is in state `first`, not in ModuleReady; wake and sleep: in ModuleFault */
    DOVECOUNTER_RESERVED_CODE = 7,   /* PV7: the module shows `first`, a reserved code */
    DOVECOUNTER_OVERDUE = 8,         /* pauses with nothing done in between exceeded the limit */
    DOVECOUNTER_RESET = 9,           /* the module left ModuleReady, as after a reset, for state `first` */
    DOVECOUNTER_FAULTY = 10          /* the module went to ModuleFault, state `first` */
};

/* What a failure leaves behind, besides page selections:

     reading        any                         nothing (perhaps no module is there), but flags may be cleared
     provisioning   NOT_READY                   nothing
                    NOT_STAGED                  lanes taken down, bytes staged
                    REJECTED, NOT_ACTIVE        as NOT_STAGED, and the apply was requested
                    any other                   any part of this
     activation     NOT_ACTIVE, NOT_READY       nothing
                    any other                   lanes may be going up or down
     wake, sleep    NOT_READY, RESERVED_CODE    byte 26 stored
                    any other                   byte 26 perhaps stored */
struct dovecounter_fault {
    uint8_t code; /* enum dovecounter_fault_code */
    uint8_t first;
    uint8_t second;
};

/* How long to wait, in milliseconds. A transaction is fruitless if it is refused, or if the next one repeats it. */
struct dovecounter_patience {
    uint32_t pause; /* after a fruitless transaction */
    uint32_t limit; /* when pauses with nothing done in between exceed this, it is DOVECOUNTER_OVERDUE; DOVECOUNTER_UNBOUNDED: never */
    uint8_t trusts; /* 0: select and read back the page again after a refusal, since the module may have reset, and read the
                       module's state after each wait of provisioning and activation; else: don't */
};

/* Writes the patience that suits the module; trusts is 0. The limit is three times its longest state (going to sleep
   takes it through three), from 10 s to 150 minutes, since a state without an end counts as 50 minutes. A pause is
   100 ms, or a 4000th of the limit if that is longer, so that 4096 transactions last until the limit. Needs the
   halves that dovecounter_advertisement needs. For a module that you know nothing about, take 100 and 10000. */
uint32_t dovecounter_patience(const struct dovecounter_half *halves, size_t half_count,
                              struct dovecounter_patience *patience);

struct dovecounter_progress {
    uint64_t met;
    uint16_t steps;
    uint8_t work;
    uint8_t lanes; /* in a reading: what is requested */
    uint8_t control[8];
    uint8_t selection;
    uint16_t page;
    struct dovecounter_fault fault;
    uint8_t due;
    uint32_t idle;
    uint32_t pause;
    uint32_t limit;
};

/* A conversation under way. You may copy it, save it and read halves, but don't write its fields: a changed one is
   refused, or taken for another conversation (docs/firmware.md, "The numbers of a conversation"). */
struct dovecounter_conversation {
    uint32_t magic;
    struct dovecounter_progress saved;
    uint8_t doubts;
    uint8_t taken;
    uint16_t taken_page;
    uint8_t watches;
    uint8_t look;
    struct dovecounter_fault left;
    uint8_t halves; /* how many halves a reading has read */
    uint8_t piece;
    uint8_t read;
    uint8_t part[128];
};

/* The most halves of a reading. */
#define DOVECOUNTER_MOST_READ 5

/* Begins to put control bytes into the Active Control Set: takes down and applies `lanes`, which end DPDeactivated.
   Pass the plan's outside, or `taken` of dovecounter_judge.

   Each lane outside `lanes` needs the plan's byte already: before you begin, look for DOVECOUNTER_OTHER_BYTES by
   dovecounter_judge, or compare control there with the active bytes, 206 to 213 of page 11h (bytes[78] to bytes[85]
   of the half with device 0xA0, upper 1 and page 0x11). If one differs, don't begin: the lanes of `lanes` would be
   taken down for nothing, and the end would be DOVECOUNTER_REJECTED, _NOT_ACTIVE or another fault. The DPDeinit bits
   of the lanes outside are cleared, so one that is up stays up, unless something else takes it down, and one that the
   host held down comes up. */
void dovecounter_provision_begin(const uint8_t control[8], uint8_t lanes, const struct dovecounter_patience *patience,
                                 struct dovecounter_conversation *conversation);

/* Begins to bring up the paths of `lanes`, whose control bytes are active, and to take down all other lanes. Pass
   the plan's lanes, which end DPActivated. */
void dovecounter_activate_begin(const uint8_t control[8], uint8_t lanes, const struct dovecounter_patience *patience,
                                struct dovecounter_conversation *conversation);

/* Begins to wake a module: clears bits 6 (LowPwrAllowRequestHW), 4 (LowPwrRequestSW) and 3 (SoftwareReset) of byte
   26, and waits for ModuleReady. An awake module draws more power; make sure that it may. */
void dovecounter_wake_begin(const struct dovecounter_patience *patience, struct dovecounter_conversation *conversation);

/* Begins to put a module into ModuleLowPwr, by bit 4 of byte 26. Its data paths go down. */
void dovecounter_sleep_begin(const struct dovecounter_patience *patience,
                             struct dovecounter_conversation *conversation);

/* Begins to read what reports and plans need (docs/bus.md, "Reading an image"), which clears the module's latched
   flags. The module may be in any state in which it answers, also in low power. Halves come in pieces of the largest
   multiple of 8 up to `most` bytes. A refused piece is fetched again. If trusts is 0, a refusal makes a half of a
   selected page begin anew, so on a bus that often refuses, fetch as much at once as it carries. */
uint32_t dovecounter_read_begin(uint8_t most, const struct dovecounter_patience *patience,
                                struct dovecounter_conversation *conversation);

/* What a reading reads besides the lower half of 0xA0, if the module has it: a bit for each half. */
enum dovecounter_requested {
    DOVECOUNTER_CMIS_PAGE_00 = 1,
    DOVECOUNTER_CMIS_PAGE_01 = 2,
    DOVECOUNTER_CMIS_PAGE_02 = 4,
    DOVECOUNTER_CMIS_PAGE_11 = 8,
    DOVECOUNTER_SFF8636_PAGE_00 = 16,
    DOVECOUNTER_SFF8636_PAGE_03 = 32,
    DOVECOUNTER_SFF8472_DIAGNOSTICS = 64 /* the lower half of 0xA2 */
};

/* In place of these, page 11h of further banks, for lanes 9 to 16, 17 to 24 and 25 to 32 of a CMIS module that has so many. */
enum dovecounter_requested_bank {
    DOVECOUNTER_CMIS_BANK_1 = 0x81,
    DOVECOUNTER_CMIS_BANK_2 = 0x82,
    DOVECOUNTER_CMIS_BANK_3 = 0x84
};

/* Begins to read only the lower half of 0xA0 and the requested halves that the module has, in the order of the bits; `requested` is an or
   of values of one of these. */
uint32_t dovecounter_read_some_begin(uint8_t requested, uint8_t most, const struct dovecounter_patience *patience,
                                     struct dovecounter_conversation *conversation);

/* Writes what to request for the lanes above 8: page 11h of each further bank that page 01h advertises (byte 142); 0 if there is
   none, page 01h is missing, or dovecounter_observables refuses the module. Pass the halves of a first reading. Of the second,
   which reads the lower half again, take those whose bank isn't 0; it leaves out a bank that is advertised and isn't there. */
uint32_t dovecounter_further_banks(const struct dovecounter_half *halves, size_t half_count, uint8_t *requested);

enum dovecounter_kind { DOVECOUNTER_FETCH = 0, DOVECOUNTER_STORE = 1, DOVECOUNTER_WAIT = 2 };

/* A transaction to make, or a time to let pass. On I2C a fetch is START, address and W, offset, repeated START,
   address and R, `count` bytes, STOP; a store is START, address and W, offset, `count` bytes, STOP. */
struct dovecounter_operation {
    uint32_t milliseconds; /* to wait; 0 for a fetch or a store */
    uint8_t kind;          /* enum dovecounter_kind */
    uint8_t device;        /* 8-bit bus address: 0xA0, in a reading also 0xA2; 0, like the next three, for a wait */
    uint8_t offset;        /* address of the first byte */
    uint8_t count;         /* bytes to store: 1 to 8; to fetch: 1 to 8 in procedures and changes of lanes, up to 120 in an
                              update, up to 128 in a reading (not above its `most`) and for a port */
    uint8_t bytes[8];      /* to store; zeros after them, and for a fetch */
};

/* Writes what to do now. A reading keeps what it has read in halves; other conversations ignore them. */
uint32_t dovecounter_next(const struct dovecounter_conversation *conversation,
                          const struct dovecounter_half halves[DOVECOUNTER_MOST_READ],
                          struct dovecounter_operation *operation);

enum dovecounter_outcome {
    DOVECOUNTER_REFUSED = 0, /* a NACK or another failure: the module may have taken some bytes, or none */
    DOVECOUNTER_STORED = 1,  /* all bytes of a store taken */
    DOVECOUNTER_FETCHED = 2, /* all bytes of a fetch given */
    DOVECOUNTER_WAITED = 3   /* the time has passed */
};

/* Takes the outcome of that operation, once, and the bytes of a fetch: with any outcome but DOVECOUNTER_FETCHED,
   bytes and byte_count are ignored. A reading inserts each whole half at halves[0], and counts them in
   conversation->halves. A refused transaction comes again, up to 4096 in all, pieces and page selections included;
   waits don't count, nor do answered looks at the module's state, one after each wait. */
uint32_t dovecounter_reply(struct dovecounter_conversation *conversation,
                           struct dovecounter_half halves[DOVECOUNTER_MOST_READ], uint8_t outcome,
                           const uint8_t *bytes, size_t byte_count);

struct dovecounter_ending {
    uint16_t steps;                 /* transactions of a success, answered looks left out; else 0 */
    struct dovecounter_fault fault; /* code 0 for a success */
};

/* Writes how the conversation ended. If provisioning succeeded, its last operation read the control bytes from the
   Active Control Set. If a reading succeeded, pass halves and conversation->halves to the functions above. After
   DOVECOUNTER_GAVE_UP_WAITING and _OVERDUE you may begin again; after _NOT_ACTIVE of provisioning too, with the same
   lanes, half a second later. After _NOT_ACTIVE of activation read, plan and judge again. Activation is also overdue while
   transmitters are disabled, which keeps their lanes in DPInitialized (7): clear DOVECOUNTER_OUTPUT_DISABLE_TX ("Single
   lanes"), and activate again. */
uint32_t dovecounter_end(const struct dovecounter_conversation *conversation,
                         const struct dovecounter_half halves[DOVECOUNTER_MOST_READ],
                         struct dovecounter_ending *ending);

/* Carries a conversation out. transact makes a transaction, puts what it fetched into bytes and returns a
   dovecounter_outcome; pause lets time pass; both get context. If transact returns anything else, this ends with
   status 34, and you may call it again. */
static inline uint32_t dovecounter_run(struct dovecounter_conversation *conversation,
                                       struct dovecounter_half halves[DOVECOUNTER_MOST_READ],
                                       uint8_t (*transact)(void *context, const struct dovecounter_operation *operation,
                                                           uint8_t bytes[128]),
                                       void (*pause)(void *context, uint32_t milliseconds), void *context) {
    struct dovecounter_operation operation;
    uint8_t bytes[128];
    uint32_t status;
    while ((status = dovecounter_next(conversation, halves, &operation)) == DOVECOUNTER_DONE) {
        uint8_t outcome = DOVECOUNTER_WAITED;
        if (operation.kind == DOVECOUNTER_WAIT)
            pause(context, operation.milliseconds);
        else
            outcome = transact(context, &operation, bytes);
        status = dovecounter_reply(conversation, halves, outcome, bytes, operation.count);
        if (status != DOVECOUNTER_DONE) return status;
    }
    return status == DOVECOUNTER_ENDED ? (uint32_t)DOVECOUNTER_DONE : status;
}

/* ---- A module's firmware ----

   An update, or a single command about the firmware, under way (docs/firmware_update.md). It touches no bus:
   dovecounter_update_next names the operation to make, and dovecounter_update_reply takes its outcome, until
   dovecounter_update_end says how it ended; dovecounter_update_run is that loop. Pass the file, of less than 4 GiB,
   to each call; with a single command any pointer and a size of 0. Nobody else may use the module meanwhile. A fetch
   of up to 120 bytes may be split, as for a port (below), and has to be where it has more bytes than the module gives
   of page 9Fh at once. */

/* What bytes 163 to 166 of page 01h advertise. */
struct dovecounter_command_block {
    uint32_t max_busy_time; /* milliseconds for which the module may refuse transactions */
    uint8_t instances;      /* commands at once; 0: no command data block, so no updates; 3 is reserved */
    uint8_t background_mode;
    uint8_t auto_paging;
    uint8_t epl_pages;
    uint8_t length_extension; /* of page 9Fh it gives 8, and 8 more for each of these, at once */
};

void dovecounter_command_block(const uint8_t bytes[4], struct dovecounter_command_block *block);

struct dovecounter_update_durations {
    uint32_t start;
    uint32_t abort;
    uint32_t block;
    uint32_t complete;
};

struct dovecounter_update_stage {
    uint32_t address;
    uint8_t stage;
    uint8_t header;
    uint8_t old;
};

struct dovecounter_update_delivery {
    uint32_t idle;
    uint16_t steps;
    uint8_t phase;
    uint8_t at;
    uint8_t check;
    uint8_t due;
    uint8_t selection;
    uint16_t page;
    uint8_t taken;
    uint16_t taken_page;
    uint8_t outcome;
    uint8_t status;
    uint8_t count;
    uint8_t reply[128];
};

/* An update or a single command under way. You may copy it and save it, but never write its fields: a Commit or a
   Start may come of it. */
struct dovecounter_update {
    uint32_t magic;
    uint32_t size;
    struct dovecounter_update_durations durations;
    struct dovecounter_update_stage stage;
    uint32_t password;
    uint8_t work;
    uint8_t held;
    uint8_t tries;
    uint8_t fault;
    uint8_t status;
    uint8_t closing;
    struct dovecounter_update_delivery delivery;
};

/* Begins an update to a file of this size, which writes the bank that doesn't run, runs it by a reset, which takes all data
   paths down, and commits it once it runs. With hold other than 0 it ends before the commit. */
void dovecounter_update_begin(uint32_t size, uint8_t hold, struct dovecounter_update *update);

/* Begins the question what the banks hold; dovecounter_banks reads its reply. */
void dovecounter_banks_begin(struct dovecounter_update *update);

/* Begins to commit the image that runs. First ask whether `running` is that bank. */
void dovecounter_commit_begin(struct dovecounter_update *update);

/* Begins to give an open download up. */
void dovecounter_abort_begin(struct dovecounter_update *update);

/* Begins to give the module this password, which the bytes of the message have with the highest first. */
void dovecounter_password_begin(uint32_t password, struct dovecounter_update *update);

/* Writes what to do now. */
uint32_t dovecounter_update_next(const struct dovecounter_update *update, const uint8_t *file, size_t file_size,
                                 struct dovecounter_operation *operation);

/* Takes the outcome of that operation, as dovecounter_reply does. */
uint32_t dovecounter_update_reply(struct dovecounter_update *update, const uint8_t *file, size_t file_size,
                                  uint8_t outcome, const uint8_t *bytes, size_t byte_count);

enum dovecounter_update_fault {
    DOVECOUNTER_UPDATE_DONE = 0,
    DOVECOUNTER_UPDATE_REFUSED = 1,      /* by the module, with a status */
    DOVECOUNTER_UPDATE_UNSENT = 2,       /* a command could not be sent */
    DOVECOUNTER_UPDATE_UNKNOWN = 3,      /* what came of a command is not known */
    DOVECOUNTER_UPDATE_UNSUPPORTED = 4,  /* the module takes no blocks of the local payload, or too much at the Start */
    DOVECOUNTER_UPDATE_NOT_STANDING = 5, /* no bank alone runs, is committed and valid: none may be overwritten */
    DOVECOUNTER_UPDATE_GAVE_UP = 6,      /* asked or sent as often as may be */
    DOVECOUNTER_UPDATE_LEFT_OPEN = 7     /* the module refuses to begin, with status 43h or 47h, as it does while an earlier
                                            download is open; begin again if known is DOVECOUNTER_FIRMWARE_ABORTED */
};

/* What is known of the firmware, from what came of each command. */
enum dovecounter_update_known {
    DOVECOUNTER_FIRMWARE_UNTOUCHED = 1,
    DOVECOUNTER_FIRMWARE_BEGUN = 2,
    DOVECOUNTER_FIRMWARE_ABORTED = 3,
    DOVECOUNTER_FIRMWARE_MAY_BE_COMPLETE = 4,
    DOVECOUNTER_FIRMWARE_COMPLETE = 5,
    DOVECOUNTER_FIRMWARE_MAY_RUN = 6,
    DOVECOUNTER_FIRMWARE_RUNS = 7, /* also the end of an update that holds the commit back */
    DOVECOUNTER_FIRMWARE_MAY_BE_COMMITTED = 8,
    DOVECOUNTER_FIRMWARE_COMMITTED = 9
};

struct dovecounter_update_ending {
    uint8_t fault;      /* enum dovecounter_update_fault */
    uint8_t status;     /* of the module, with DOVECOUNTER_UPDATE_REFUSED and _LEFT_OPEN; else 0 */
    uint8_t known;      /* enum dovecounter_update_known; 0 of a single command */
    uint8_t count;      /* bytes of the reply to a single command */
    uint8_t reply[128]; /* zeros after them */
};

/* Writes how it ended. */
uint32_t dovecounter_update_end(const struct dovecounter_update *update, const uint8_t *file, size_t file_size,
                                struct dovecounter_update_ending *ending);

struct dovecounter_update_progress {
    uint32_t sent; /* bytes of the file that the module has taken */
    uint32_t all;  /* of the file; both 0 of a single command */
    uint8_t known; /* what the ending has if nothing more is done, whatever comes of the command on its way */
};

/* Writes how far an update has come. */
uint32_t dovecounter_update_progress(const struct dovecounter_update *update, const uint8_t *file, size_t file_size,
                                     struct dovecounter_update_progress *progress);

struct dovecounter_bank {
    uint16_t build;
    uint8_t runs;        /* 1 if its image runs, else 0; so the next three */
    uint8_t committed;   /* it runs after each reset */
    uint8_t valid;       /* it can run */
    uint8_t has_version; /* 0: build, major and minor are 0 */
    uint8_t major;
    uint8_t minor;
};

struct dovecounter_banks {
    struct dovecounter_bank banks[2]; /* A and B */
    uint8_t running;                  /* the one that runs alone and is valid: 1 or 2; 0 if none */
    uint8_t committed;                /* the one that is committed alone: 1 or 2; 0 if none */
};

/* Reads the reply to the question what the banks hold. */
void dovecounter_banks(const uint8_t *reply, size_t reply_size, struct dovecounter_banks *banks);

/* Carries an update or a single command out, as dovecounter_run does. */
static inline uint32_t dovecounter_update_run(struct dovecounter_update *update, const uint8_t *file, size_t file_size,
                                              uint8_t (*transact)(void *context,
                                                                  const struct dovecounter_operation *operation,
                                                                  uint8_t bytes[128]),
                                              void (*pause)(void *context, uint32_t milliseconds), void *context) {
    struct dovecounter_operation operation;
    uint8_t bytes[128];
    uint32_t status;
    while ((status = dovecounter_update_next(update, file, file_size, &operation)) == DOVECOUNTER_DONE) {
        uint8_t outcome = DOVECOUNTER_WAITED;
        if (operation.kind == DOVECOUNTER_WAIT)
            pause(context, operation.milliseconds);
        else
            outcome = transact(context, &operation, bytes);
        status = dovecounter_update_reply(update, file, file_size, outcome, bytes, operation.count);
        if (status != DOVECOUNTER_DONE) return status;
    }
    return status == DOVECOUNTER_ENDED ? (uint32_t)DOVECOUNTER_DONE : status;
}

/* ---- Single lanes ----

   A change of one control of page 10h for some lanes, under way (docs/lanes.md). It touches no bus: dovecounter_lane_next names
   the operation to make, and dovecounter_lane_reply takes its outcome, until dovecounter_lane_end says how it ended;
   dovecounter_lane_run is that loop. Nobody else may use the module meanwhile.

   It reads the control, and ends if the lanes are as wanted. Else it reads which data paths are up, and stores the control with the
   bits of these lanes changed, and no other, if no lane of a path that is up is disturbed but the permitted ones; then it reads the
   control back. Here a path is up in any state but DPDeactivated: to switch on transmitters of lanes in DPInitialized, permit these. */

enum dovecounter_lane_control {
    DOVECOUNTER_INPUT_POLARITY_FLIP_TX = 0,
    DOVECOUNTER_OUTPUT_DISABLE_TX = 1, /* this and the next two are of media lanes, the others of host lanes */
    DOVECOUNTER_AUTO_SQUELCH_DISABLE_TX = 2,
    DOVECOUNTER_OUTPUT_SQUELCH_FORCE_TX = 3,
    DOVECOUNTER_ADAPTIVE_INPUT_EQ_FREEZE_TX = 4,
    DOVECOUNTER_OUTPUT_POLARITY_FLIP_RX = 5,
    DOVECOUNTER_OUTPUT_DISABLE_RX = 6,
    DOVECOUNTER_AUTO_SQUELCH_DISABLE_RX = 7
};

/* What to change. */
struct dovecounter_lane_change {
    uint8_t control; /* enum dovecounter_lane_control */
    uint8_t lanes;
    uint8_t on;             /* 1 sets the bits of these lanes, anything else clears them */
    uint8_t most_stores;    /* how often the control may be stored */
    uint8_t permitted;      /* host lanes that may be disturbed though their data path is up */
    uint8_t media_paths[8]; /* the host lanes of the data path of each media lane; 0xFF where you don't know them */
};

/* A change under way. You may copy it and save it, but don't write its fields: a changed one is refused, or taken for
   another. */
struct dovecounter_changing_lanes {
    uint32_t magic;
    uint32_t idle;
    uint32_t pause;
    uint32_t limit;
    uint16_t steps;
    uint16_t most_steps;
    struct dovecounter_lane_change change;
    uint8_t stage;
    uint8_t end;
    uint8_t byte;
    uint8_t disturbed;
    uint8_t left;
    uint8_t refused;
    uint8_t due;
    uint8_t doubts;
    uint8_t selection;
    uint16_t page;
    uint8_t taken;
    uint16_t taken_page;
};

/* Begins to change lanes, by 4096 transactions at most. Status 31 means that there is no such control. */
uint32_t dovecounter_lane_begin(const struct dovecounter_lane_change *change,
                                const struct dovecounter_patience *patience,
                                struct dovecounter_changing_lanes *changing);

/* Writes what to do now. */
uint32_t dovecounter_lane_next(const struct dovecounter_changing_lanes *changing,
                               struct dovecounter_operation *operation);

/* Takes the outcome of that operation, as dovecounter_reply does. */
uint32_t dovecounter_lane_reply(struct dovecounter_changing_lanes *changing, uint8_t outcome, const uint8_t *bytes,
                                size_t byte_count);

enum dovecounter_lane_outcome {
    DOVECOUNTER_LANES_UNCHANGED = 0, /* as wanted from the beginning */
    DOVECOUNTER_LANES_CHANGED = 1,   /* stored, and read back as wanted */
    DOVECOUNTER_LANES_IGNORED = 2,   /* the module accepted the last store, and shows something else */
    DOVECOUNTER_LANES_REFUSED = 3,   /* the module refused the last store, and shows something else */
    DOVECOUNTER_LANES_NOT_PERMITTED =
        4, /* a lane that is up would be disturbed; nothing was stored since the control was read */
    DOVECOUNTER_LANES_OVERDUE = 5, /* out of patience; if it was stored, read the control before anything else */
    DOVECOUNTER_LANES_GAVE_UP = 6  /* 4096 transactions; if it was stored, read the control before anything else */
};

struct dovecounter_lane_end {
    uint8_t outcome; /* enum dovecounter_lane_outcome */
    uint8_t byte;    /* the control as it was read last; 0 if overdue or given up */
    uint8_t lanes;   /* with LANES_NOT_PERMITTED the host lanes that are up and not permitted; else 0 */
    uint8_t stores;  /* how often the control was stored, accepted or not */
};

/* Writes how it ended. */
uint32_t dovecounter_lane_end(const struct dovecounter_changing_lanes *changing, struct dovecounter_lane_end *end);

/* Carries a change of lanes out, as dovecounter_run does. */
static inline uint32_t dovecounter_lane_run(struct dovecounter_changing_lanes *changing,
                                            uint8_t (*transact)(void *context,
                                                                const struct dovecounter_operation *operation,
                                                                uint8_t bytes[128]),
                                            void (*pause)(void *context, uint32_t milliseconds), void *context) {
    struct dovecounter_operation operation;
    uint8_t bytes[128];
    uint32_t status;
    while ((status = dovecounter_lane_next(changing, &operation)) == DOVECOUNTER_DONE) {
        uint8_t outcome = DOVECOUNTER_WAITED;
        if (operation.kind == DOVECOUNTER_WAIT)
            pause(context, operation.milliseconds);
        else
            outcome = transact(context, &operation, bytes);
        status = dovecounter_lane_reply(changing, outcome, bytes, operation.count);
        if (status != DOVECOUNTER_DONE) return status;
    }
    return status == DOVECOUNTER_ENDED ? (uint32_t)DOVECOUNTER_DONE : status;
}

/* ---- Tests of links ----

   A test of patterns and loopbacks (pages 13h and 14h), under way (docs/lanes.md). It touches no bus, as a change of lanes
   doesn't: dovecounter_link_test_next names the operation to make, and dovecounter_link_test_reply takes its outcome, until
   dovecounter_link_test_end says how it ended; dovecounter_link_test_run is that loop. Nobody else may use the module meanwhile.

   It reads what the module can do and which data paths are up, and refuses a plan before it stores anything. Then it switches
   on what the plan has, and no other bit of page 13h, reads results, and switches all of that off again, the newest first; each
   store is read back. Whatever the bus refuses, and wherever it stops, each control that was stored is as before, or
   dovecounter_link_test_changes names it. */

enum dovecounter_link_side { DOVECOUNTER_HOST_SIDE = 0, DOVECOUNTER_MEDIA_SIDE = 1 };

enum dovecounter_link_pattern {
    DOVECOUNTER_PRBS31Q = 0,
    DOVECOUNTER_PRBS31 = 1,
    DOVECOUNTER_PRBS23Q = 2,
    DOVECOUNTER_PRBS23 = 3,
    DOVECOUNTER_PRBS15Q = 4,
    DOVECOUNTER_PRBS15 = 5,
    DOVECOUNTER_PRBS13Q = 6,
    DOVECOUNTER_PRBS13 = 7,
    DOVECOUNTER_PRBS9Q = 8,
    DOVECOUNTER_PRBS9 = 9,
    DOVECOUNTER_PRBS7Q = 10,
    DOVECOUNTER_PRBS7 = 11,
    DOVECOUNTER_SSPRQ = 12,
    DOVECOUNTER_VENDOR_PATTERN = 14,
    DOVECOUNTER_USER_PATTERN = 15,
    DOVECOUNTER_NO_PATTERN = 255
};

enum dovecounter_link_loopback {
    DOVECOUNTER_NO_LOOPBACK = 0,
    DOVECOUNTER_MEDIA_SIDE_OUTPUT = 1,
    DOVECOUNTER_MEDIA_SIDE_INPUT = 2,
    DOVECOUNTER_HOST_SIDE_OUTPUT = 3,
    DOVECOUNTER_HOST_SIDE_INPUT = 4
};

/* Which results page 14h shows: error ratios of all lanes, counts of four lanes of a side, or signal to noise of a side. 0x10 more selects
   those of the last gate time, but for signal to noise. */
enum dovecounter_link_shown {
    DOVECOUNTER_ERROR_RATIOS = 1,
    DOVECOUNTER_COUNTS_OF_HOST_1_TO_4 = 2,
    DOVECOUNTER_COUNTS_OF_HOST_5_TO_8 = 3,
    DOVECOUNTER_COUNTS_OF_MEDIA_1_TO_4 = 4,
    DOVECOUNTER_COUNTS_OF_MEDIA_5_TO_8 = 5,
    DOVECOUNTER_SIGNAL_TO_NOISE_OF_HOST = 6,
    DOVECOUNTER_SIGNAL_TO_NOISE_OF_MEDIA = 7, /* the module has code 6 for both */
    DOVECOUNTER_GATED_ERROR_RATIOS = 17, /* this and the following of the last gate time */
    DOVECOUNTER_GATED_COUNTS_OF_HOST_1_TO_4 = 18,
    DOVECOUNTER_GATED_COUNTS_OF_HOST_5_TO_8 = 19,
    DOVECOUNTER_GATED_COUNTS_OF_MEDIA_1_TO_4 = 20,
    DOVECOUNTER_GATED_COUNTS_OF_MEDIA_5_TO_8 = 21
};

/* What to test. */
struct dovecounter_link_plan {
    uint32_t
        period;     /* milliseconds before each reading of results; 100 at least, or they may be of another selection */
    uint8_t rounds; /* how often results are read; 0 counts as 1 */
    uint8_t shown;  /* enum dovecounter_link_shown */
    uint8_t gate;   /* 0 if results aren't gated, else the code of the gate time, to 7 */
    uint8_t side;   /* enum dovecounter_link_side, of the pattern */
    uint8_t lanes;  /* of that side */
    uint8_t generator;      /* enum dovecounter_link_pattern: what the module makes on these lanes */
    uint8_t checker;        /* what it checks there */
    uint8_t loopback;       /* enum dovecounter_link_loopback */
    uint8_t looped;         /* lanes of the loopback's side; 0xFF if the module has no single ones */
    uint8_t permitted;      /* host lanes that may be disturbed though their data path is up */
    uint8_t tries;          /* how often each control may be stored again */
    uint8_t media_paths[8]; /* the host lanes of the data path of each media lane; 0xFF where you don't know them */
};

/* Bits of a control of page 13h. */
struct dovecounter_link_switch {
    uint8_t control; /* its byte on page 13h; 0 for none */
    uint8_t mask;    /* which bits */
    uint8_t bits;    /* to what they are switched */
};

/* A control that was switched. */
struct dovecounter_link_change {
    struct dovecounter_link_switch what;
    uint8_t original; /* the control before the test: its bits in the mask are to be restored */
};

/* What a test under way is to do. */
struct dovecounter_link_work {
    uint32_t period;
    uint8_t count;
    uint8_t permitted;
    uint8_t tries;
    uint8_t shown;
    uint8_t rounds;
    uint8_t media_paths[8];
    struct dovecounter_link_switch switches[16];
};

/* A test under way. Copy it and save it; change nothing. Changed numbers are refused, or taken for another test. */
struct dovecounter_link_test {
    uint32_t magic;
    uint32_t idle;
    uint32_t pause;
    uint32_t limit;
    struct dovecounter_link_work plan;
    uint64_t next_switch;
    uint16_t steps;
    uint16_t most_steps;
    uint8_t stage;
    uint8_t byte;
    struct dovecounter_link_change hand;
    uint8_t tries;
    uint8_t rounds; /* once results are read: how often they still are to be */
    uint8_t fault;
    uint8_t fault_control;
    uint8_t on_count;
    uint8_t still_on_count;
    uint8_t shown_count;
    uint8_t due;
    uint8_t doubts;
    uint8_t selection;
    uint16_t page;
    uint8_t taken;
    uint16_t taken_page;
    uint8_t flags[8];
    struct dovecounter_link_change on[16];
    struct dovecounter_link_change still_on[16];
    uint8_t shown[128];
};

/* Begins a test, of 4096 operations at most. Status 31 means that there is no such side, pattern, loopback, gate or selection of results.
   What a module can't do, or which lanes are up, the test finds out before it stores anything. */
uint32_t dovecounter_link_test_begin(const struct dovecounter_link_plan *plan,
                                     const struct dovecounter_patience *patience, struct dovecounter_link_test *test);

/* Writes what to do now. */
uint32_t dovecounter_link_test_next(const struct dovecounter_link_test *test, struct dovecounter_operation *operation);

/* Takes the outcome of that operation, as dovecounter_reply does. */
uint32_t dovecounter_link_test_reply(struct dovecounter_link_test *test, uint8_t outcome, const uint8_t *bytes,
                                     size_t byte_count);

/* Has the test switch off what is on, and end: go on with it as before. A test that has done so already, or ended, stays as it is. */
uint32_t dovecounter_link_test_stop(struct dovecounter_link_test *test);

enum dovecounter_link_outcome {
    DOVECOUNTER_LINK_TESTED = 0,         /* results were read as often as wanted, while all of the plan was on */
    DOVECOUNTER_LINK_SWITCHED_TWICE = 1, /* the plan has a control twice; no plan of dovecounter_link_test_begin does */
    /* from here up to 6 the plan was refused, and nothing was stored but page selections */
    DOVECOUNTER_LINK_NO_PAGES = 2,      /* the module has no pages 13h and 14h */
    DOVECOUNTER_LINK_UNSUPPORTED = 3,   /* it doesn't advertise this pattern, loopback or gate */
    DOVECOUNTER_LINK_NO_RESULTS = 4,    /* it doesn't advertise such results */
    DOVECOUNTER_LINK_BOTH_SIDES = 5,    /* it doesn't advertise loopbacks of both sides at once */
    DOVECOUNTER_LINK_NOT_PERMITTED = 6, /* a lane that is up would be disturbed */
    DOVECOUNTER_LINK_STOPPED = 7,       /* by dovecounter_link_test_stop */
    DOVECOUNTER_LINK_NOT_SWITCHED = 8,  /* a control shows something else than was stored */
    DOVECOUNTER_LINK_TOO_MANY = 9,      /* no more can be kept; no plan of dovecounter_link_test_begin has so many */
    DOVECOUNTER_LINK_OVERDUE = 10,      /* out of patience */
    DOVECOUNTER_LINK_GAVE_UP = 11       /* 4096 operations */
};

struct dovecounter_link_end {
    uint8_t outcome; /* enum dovecounter_link_outcome */
    uint8_t control; /* the byte on page 13h that it is about, or 0 */
};

/* Writes how it ended. */
uint32_t dovecounter_link_test_end(const struct dovecounter_link_test *test, struct dovecounter_link_end *end);

/* Controls that may be on. */
struct dovecounter_link_changes {
    struct dovecounter_link_change changes[33];
    uint8_t count;
};

/* Writes the controls that were stored and may be on, as far as is known now: at the end those that couldn't be switched off, if it
   didn't end before. All others have the bits that they had before. */
uint32_t dovecounter_link_test_changes(const struct dovecounter_link_test *test,
                                       struct dovecounter_link_changes *changes);

/* What is known of a lane; zeros for all else. */
struct dovecounter_link_lane {
    uint64_t errors;
    uint64_t bits;
    uint16_t mantissa; /* the error ratio is exactly mantissa * 10^power */
    uint16_t noise;    /* signal to noise in 1/256 dB */
    int8_t power;
    uint8_t known; /* 1: the ratio; 2: errors and bits; 4: signal to noise; 0: nothing */
};

/* What the module showed last, and which lanes lost lock in any round. */
struct dovecounter_link_results {
    struct dovecounter_link_lane host[8];
    struct dovecounter_link_lane media[8];
    uint8_t lost_clock; /* 1 if the reference clock was lost */
    uint8_t host_generator;
    uint8_t media_generator;
    uint8_t host_checker;
    uint8_t media_checker;
};

/* Writes what the test has shown so far, also while it goes on. Of counts and signal to noise the lowest byte comes first; the highest, unless
   `big_endian` is 0. */
uint32_t dovecounter_link_results(const struct dovecounter_link_test *test, uint8_t big_endian,
                                  struct dovecounter_link_results *results);

/* What a module can do. Numbers without a comment are 1 or 0. */
struct dovecounter_link_capabilities {
    uint16_t host_generator; /* bit n: pattern n */
    uint16_t media_generator;
    uint16_t host_checker;
    uint16_t media_checker;
    uint8_t diagnostics; /* 0 if it has no pages 13h and 14h; then all is 0 */
    uint8_t loopbacks;   /* bit n - 1: loopback n */
    uint8_t single_host_lanes;
    uint8_t single_media_lanes;
    uint8_t both_sides;
    uint8_t ratios;
    uint8_t counts;
    uint8_t host_noise;
    uint8_t media_noise;
    uint8_t gates;
};

/* Writes what byte 142 of page 01h and bytes 128 to 139 of page 13h advertise. */
void dovecounter_link_capabilities(uint8_t byte_142, const uint8_t bytes[12],
                                   struct dovecounter_link_capabilities *capabilities);

/* Carries a test out, as dovecounter_run does. */
static inline uint32_t dovecounter_link_test_run(struct dovecounter_link_test *test,
                                                 uint8_t (*transact)(void *context,
                                                                     const struct dovecounter_operation *operation,
                                                                     uint8_t bytes[128]),
                                                 void (*pause)(void *context, uint32_t milliseconds), void *context) {
    struct dovecounter_operation operation;
    uint8_t bytes[128];
    uint32_t status;
    while ((status = dovecounter_link_test_next(test, &operation)) == DOVECOUNTER_DONE) {
        uint8_t outcome = DOVECOUNTER_WAITED;
        if (operation.kind == DOVECOUNTER_WAIT)
            pause(context, operation.milliseconds);
        else
            outcome = transact(context, &operation, bytes);
        status = dovecounter_link_test_reply(test, outcome, bytes, operation.count);
        if (status != DOVECOUNTER_DONE) return status;
    }
    return status == DOVECOUNTER_ENDED ? (uint32_t)DOVECOUNTER_DONE : status;
}

/* ---- Signal integrity settings ----

   What equalizers, outputs and clock recovery of each lane are set to, and a change of it for lanes that are up and stay up
   (docs/lanes.md). It counts only for lanes under explicit control. A change touches no bus, as one of lanes.

   It reads which lanes are up and under explicit control, and ends if one of its lanes isn't. Then it stores and reads back the staged
   settings of these lanes, and no other, applies exactly these lanes at once, and reads the active settings. */

/* A number or a bit for each lane: lane 1 first, and sets of lanes. */
struct dovecounter_signal_targets {
    uint8_t adaptive;       /* lanes whose transmitter equalizes its input by itself */
    uint8_t recall[8];      /* the stored equalization that it recalls, 0 to 3; 0 recalls none */
    uint8_t fixed_input[8]; /* the code of the fixed equalization of the input */
    uint8_t recover_tx;     /* lanes whose transmitter recovers the clock */
    uint8_t recover_rx;     /* lanes whose receiver does */
    uint8_t pre_cursor[8];  /* the code of the output's equalization before the cursor, */
    uint8_t post_cursor[8]; /* and after it */
    uint8_t amplitude[8];   /* the code of the output's amplitude */
};

struct dovecounter_settings {
    struct dovecounter_signal_targets active; /* bytes 214 to 234 of page 11h */
    struct dovecounter_signal_targets staged; /* bytes 153 to 173 of page 10h */
    uint8_t has_staged;                       /* 1 if page 10h is there; else staged is zeros, and this 0 */
};

/* Writes the settings of a module. Needs the lower half of 0xA0 and pages 00h, 01h and 11h. */
uint32_t dovecounter_settings(const struct dovecounter_half *halves, size_t half_count,
                              struct dovecounter_settings *settings);

/* What a module can do. */
struct dovecounter_settings_limits {
    uint8_t amplitudes;  /* bit i: code i, 0 to 3; without any, a target has to be 0 */
    uint8_t fixed_input; /* the greatest codes */
    uint8_t pre_cursor;
    uint8_t post_cursor;
};

/* Writes what bytes 153 and 154 of page 01h advertise. Needs the lower half of 0xA0 and pages 00h and 01h. */
uint32_t dovecounter_settings_limits(const struct dovecounter_half *halves, size_t half_count,
                                     struct dovecounter_settings_limits *limits);

/* What to change. */
struct dovecounter_settings_change {
    uint8_t lanes;     /* host lanes */
    uint8_t permitted; /* host lanes that may be disturbed though their data path is up: each of `lanes` has to be */
    uint8_t tries;     /* how often in all settings may be staged again, or be looked for again */
    struct dovecounter_signal_targets targets; /* those of other lanes don't count */
};

/* A change under way. Copy it and save it; change nothing. Changed numbers are refused, or taken for another change. */
struct dovecounter_changing_settings {
    uint32_t magic;
    uint32_t idle;
    uint32_t pause;
    uint32_t limit;
    uint16_t steps;
    uint16_t most_steps;
    uint8_t lanes;
    uint8_t tries;
    uint8_t stage;
    uint8_t end;
    uint8_t end_lane;
    uint8_t left;
    uint8_t due;
    uint8_t doubts;
    uint8_t selection;
    uint16_t page;
    uint8_t taken;
    uint16_t taken_page;
    uint8_t settings[21];
    uint8_t staged[29];
    uint8_t mixed[21];
};

/* Begins to change settings, by 4096 operations at most, of a module with these limits. Refuses a change of a lane that isn't
   permitted, and one that the module doesn't advertise. */
uint32_t dovecounter_settings_begin(const struct dovecounter_settings_change *change,
                                    const struct dovecounter_settings_limits *limits,
                                    const struct dovecounter_patience *patience,
                                    struct dovecounter_changing_settings *changing);

/* Writes what to do now. */
uint32_t dovecounter_settings_next(const struct dovecounter_changing_settings *changing,
                                   struct dovecounter_operation *operation);

/* Takes the outcome of that operation, as dovecounter_reply does. */
uint32_t dovecounter_settings_reply(struct dovecounter_changing_settings *changing, uint8_t outcome,
                                    const uint8_t *bytes, size_t byte_count);

enum dovecounter_settings_outcome {
    DOVECOUNTER_SETTINGS_ACTIVE = 0, /* the lanes have the settings, as the active ones were read last */
    DOVECOUNTER_SETTINGS_NOT_UP = 1, /* `lane` is neither DPActivated nor DPInitialized */
    DOVECOUNTER_SETTINGS_NOT_EXPLICIT =
        2, /* `lane` isn't under explicit control, or another control byte is staged for it */
    DOVECOUNTER_SETTINGS_NOT_STAGED = 3, /* the module shows other staged settings after all tries */
    DOVECOUNTER_SETTINGS_REJECTED = 4,   /* the module rejected those of `lane` */
    DOVECOUNTER_SETTINGS_NOT_ACTIVE = 5, /* `lane` has other active settings after all tries */
    DOVECOUNTER_SETTINGS_OVERDUE = 6,    /* out of patience */
    DOVECOUNTER_SETTINGS_GAVE_UP = 7     /* 4096 operations */
};

struct dovecounter_settings_end {
    uint8_t outcome; /* enum dovecounter_settings_outcome */
    uint8_t lane;    /* the lowest lane that it is so with, or 0 */
    uint8_t reached; /* 0: nothing was stored; 1: settings may be staged; 2: they may be active, too */
};

/* Writes how it ended. */
uint32_t dovecounter_settings_end(const struct dovecounter_changing_settings *changing,
                                  struct dovecounter_settings_end *end);

/* Carries a change of settings out, as dovecounter_run does. */
static inline uint32_t dovecounter_settings_run(struct dovecounter_changing_settings *changing,
                                                uint8_t (*transact)(void *context,
                                                                    const struct dovecounter_operation *operation,
                                                                    uint8_t bytes[128]),
                                                void (*pause)(void *context, uint32_t milliseconds), void *context) {
    struct dovecounter_operation operation;
    uint8_t bytes[128];
    uint32_t status;
    while ((status = dovecounter_settings_next(changing, &operation)) == DOVECOUNTER_DONE) {
        uint8_t outcome = DOVECOUNTER_WAITED;
        if (operation.kind == DOVECOUNTER_WAIT)
            pause(context, operation.milliseconds);
        else
            outcome = transact(context, &operation, bytes);
        status = dovecounter_settings_reply(changing, outcome, bytes, operation.count);
        if (status != DOVECOUNTER_DONE) return status;
    }
    return status == DOVECOUNTER_ENDED ? (uint32_t)DOVECOUNTER_DONE : status;
}

/* ---- Provisioning with settings ----

   Provisioning that also gives lanes of the plan signal integrity settings of yours (docs/lanes.md). It touches no bus, as a change of
   settings doesn't. It finds the module in ModuleReady, stages the settings and reads them back; only then it provisions as
   dovecounter_provision_begin does, with ExplicitControl for these lanes, and reads their active settings last. */

struct dovecounter_explicit_fault {
    uint8_t kind;
    uint8_t lane;
    struct dovecounter_fault provision;
};

struct dovecounter_explicit_stage {
    uint8_t stage;
    uint8_t left;
    struct dovecounter_explicit_fault fault;
};

/* It under way. Copy it and save it; change nothing. Changed numbers are refused, or taken for another. */
struct dovecounter_explicit {
    uint32_t magic;
    struct dovecounter_progress procedure;
    struct dovecounter_explicit_stage staging;
    struct dovecounter_explicit_stage comparing;
    uint8_t look;
    uint8_t left;
    uint8_t lanes;
    uint8_t tries;
    uint8_t settings[21];
    uint8_t mixed[21];
};

/* Begins it, for a module with these limits: control and lanes as for dovecounter_provision_begin, without ExplicitControl. Lanes of the
   change whose control byte is 0 get no settings, and `permitted` isn't looked at: `lanes` says what is taken down. A lane of the change
   outside `lanes` has to be active under explicit control, with these settings. It doubts after a refusal, whatever trusts is. */
uint32_t dovecounter_explicit_begin(const uint8_t control[8], uint8_t lanes,
                                    const struct dovecounter_settings_change *change,
                                    const struct dovecounter_settings_limits *limits,
                                    const struct dovecounter_patience *patience,
                                    struct dovecounter_explicit *provisioning);

/* Writes what to do now. */
uint32_t dovecounter_explicit_next(const struct dovecounter_explicit *provisioning,
                                   struct dovecounter_operation *operation);

/* Takes the outcome of that operation, as dovecounter_reply does. */
uint32_t dovecounter_explicit_reply(struct dovecounter_explicit *provisioning, uint8_t outcome, const uint8_t *bytes,
                                    size_t byte_count);

enum dovecounter_explicit_settings {
    DOVECOUNTER_EXPLICIT_SETTINGS_RIGHT = 0,      /* `fault` says how it ended */
    DOVECOUNTER_EXPLICIT_SETTINGS_NOT_STAGED = 1, /* others are staged after all tries; no lane was taken down */
    DOVECOUNTER_EXPLICIT_SETTINGS_NOT_ACTIVE = 2  /* the plan is active, but `lane` has others after all tries */
};

/* A success has fault.code 0 and settings 0. A failure may leave settings staged, besides what one of provisioning leaves. */
struct dovecounter_explicit_end {
    uint16_t steps; /* transactions of a success, answered looks left out; else 0 */
    struct dovecounter_fault fault;
    uint8_t settings; /* enum dovecounter_explicit_settings */
    uint8_t lane;     /* the lowest that it is so with, or 0 */
};

/* Writes how it ended. */
uint32_t dovecounter_explicit_end(const struct dovecounter_explicit *provisioning,
                                  struct dovecounter_explicit_end *end);

/* Carries it out, as dovecounter_run does. */
static inline uint32_t dovecounter_explicit_run(struct dovecounter_explicit *provisioning,
                                                uint8_t (*transact)(void *context,
                                                                    const struct dovecounter_operation *operation,
                                                                    uint8_t bytes[128]),
                                                void (*pause)(void *context, uint32_t milliseconds), void *context) {
    struct dovecounter_operation operation;
    uint8_t bytes[128];
    uint32_t status;
    while ((status = dovecounter_explicit_next(provisioning, &operation)) == DOVECOUNTER_DONE) {
        uint8_t outcome = DOVECOUNTER_WAITED;
        if (operation.kind == DOVECOUNTER_WAIT)
            pause(context, operation.milliseconds);
        else
            outcome = transact(context, &operation, bytes);
        status = dovecounter_explicit_reply(provisioning, outcome, bytes, operation.count);
        if (status != DOVECOUNTER_DONE) return status;
    }
    return status == DOVECOUNTER_ENDED ? (uint32_t)DOVECOUNTER_DONE : status;
}

/* ---- Statistics ----

   A reading of what a CMIS module lists itself (VDM), under way (docs/observables.md, "Frozen statistics"). It touches no bus:
   dovecounter_vdm_next names the operation to make, and dovecounter_vdm_reply takes its outcome, until dovecounter_vdm_end says
   how it ended; dovecounter_vdm_run is that loop. Nobody else may use the module meanwhile. A fetch of 128 bytes may be split, as
   for a port (below).

   It freezes the statistics of a bank, reads pages 20h to 2Ch of it as far as the module advertises them, and releases the
   statistics, by 759 operations at most. It stores bit 7 of byte 144 of the bank's page 2Fh, and no other but page selections.
   Whatever the bus refuses, and wherever it stops, the statistics aren't left frozen, or the member `release` names it. Reading
   clears the flags of page 2Ch.

   Begin only with a CMIS module that has pages. Read bank 0, and then, unless the module advertises no statistics
   (DOVECOUNTER_VDM_UNSUPPORTED), each further bank that it advertises, one after the other, since each is frozen by itself: bank 1,
   2 or 3 if bit 0, 1 or 2 is 1 in what dovecounter_further_banks writes.

   For all that the module measures, also read it by dovecounter_read_begin, and for lanes above 8 as dovecounter_further_banks says.
   Then ask dovecounter_observables several times, each time until *place is 0. First pass the halves of those readings, begin at place
   0, and stop once *place is above DOVECOUNTER_FIRST_INSTANCE. Then for each bank pass the halves of its reading and the lower half of
   0xA0, 16 at most, and begin at DOVECOUNTER_FIRST_INSTANCE. */

/* The most halves of a reading: page 01h, and of the bank pages 2Fh and 20h to 2Ch. */
#define DOVECOUNTER_MOST_VDM 15

/* The first place of dovecounter_observables at which isn't a monitor, but what a module lists itself. */
#define DOVECOUNTER_FIRST_INSTANCE 512

enum dovecounter_vdm_statistics {
    DOVECOUNTER_VDM_UNKNOWN = 0,     /* page 01h, or 2Fh of the bank, couldn't be read: whether there are any isn't known */
    DOVECOUNTER_VDM_UNSUPPORTED = 1, /* the module advertises none */
    DOVECOUNTER_VDM_NOT_TAKEN = 2,   /* it took no request to freeze: what was read may not belong together */
    DOVECOUNTER_VDM_PENDING = 3,     /* it took one, and didn't freeze in time: what was read may not belong together */
    DOVECOUNTER_VDM_FROZEN = 4       /* they were frozen while they were read */
};

enum dovecounter_vdm_release {
    DOVECOUNTER_VDM_NEVER_FROZEN = 0,  /* no freeze was asked for */
    DOVECOUNTER_VDM_MAY_BE_FROZEN = 1, /* one was, and no release was accepted since */
    DOVECOUNTER_VDM_ACCEPTED = 2,      /* a release was accepted; whether it is done wasn't seen */
    DOVECOUNTER_VDM_RELEASED = 3       /* a release was accepted, and done */
};

/* A reading under way. You may copy it, save it, and read halves and release, but don't write its fields: a changed one is refused, or
   taken for another. */
struct dovecounter_vdm {
    uint32_t magic;
    uint32_t pause;
    uint16_t left;
    uint8_t stage;
    uint8_t bank;
    uint16_t stage_page;
    uint16_t page;
    uint8_t selection;
    uint8_t due;
    uint8_t control;
    uint8_t statistics;
    uint8_t release; /* enum dovecounter_vdm_release, now */
    uint8_t halves;  /* how many halves it has read */
    uint8_t page_count;
    uint8_t todo_count;
    uint16_t pages[16];
    uint16_t todo[16];
};

/* Begins to read a bank, with a pause of so many milliseconds after each fruitless operation: 100 suits a module that you know nothing
   about, which then has ten seconds to freeze its statistics. */
void dovecounter_vdm_begin(uint32_t pause, uint8_t bank, struct dovecounter_vdm *reading);

/* Writes what to do now. The reading keeps what it has read in halves. */
uint32_t dovecounter_vdm_next(const struct dovecounter_vdm *reading,
                              const struct dovecounter_half halves[DOVECOUNTER_MOST_VDM],
                              struct dovecounter_operation *operation);

/* Takes the outcome of that operation, as dovecounter_reply does: each whole half is inserted at halves[0]. */
uint32_t dovecounter_vdm_reply(struct dovecounter_vdm *reading, struct dovecounter_half halves[DOVECOUNTER_MOST_VDM],
                               uint8_t outcome, const uint8_t *bytes, size_t byte_count);

struct dovecounter_vdm_end {
    uint8_t statistics;    /* enum dovecounter_vdm_statistics */
    uint8_t release;       /* enum dovecounter_vdm_release */
    uint8_t missing_count; /* how many advertised pages couldn't be read */
    uint16_t missing[16];  /* these pages, 256 * bank + page; zeros after them */
};

/* Writes how it ended. With any end the halves are what was read. */
uint32_t dovecounter_vdm_end(const struct dovecounter_vdm *reading,
                             const struct dovecounter_half halves[DOVECOUNTER_MOST_VDM],
                             struct dovecounter_vdm_end *end);

/* Carries a reading out, as dovecounter_run does. */
static inline uint32_t dovecounter_vdm_run(
    struct dovecounter_vdm *reading, struct dovecounter_half halves[DOVECOUNTER_MOST_VDM],
    uint8_t (*transact)(void *context, const struct dovecounter_operation *operation, uint8_t bytes[128]),
    void (*pause)(void *context, uint32_t milliseconds), void *context) {
    struct dovecounter_operation operation;
    uint8_t bytes[128];
    uint32_t status;
    while ((status = dovecounter_vdm_next(reading, halves, &operation)) == DOVECOUNTER_DONE) {
        uint8_t outcome = DOVECOUNTER_WAITED;
        if (operation.kind == DOVECOUNTER_WAIT)
            pause(context, operation.milliseconds);
        else
            outcome = transact(context, &operation, bytes);
        status = dovecounter_vdm_reply(reading, halves, outcome, bytes, operation.count);
        if (status != DOVECOUNTER_DONE) return status;
    }
    return status == DOVECOUNTER_ENDED ? (uint32_t)DOVECOUNTER_DONE : status;
}

/* ---- A port's manager ----

   Keeps the module in one port as you want it, while modules are plugged, pulled and replaced, fail, and the program
   restarts (docs/manager.md). It touches no bus and has no clock: report what happens, make the operation that
   dovecounter_port_next names, pass its reply to dovecounter_port_take, and ask again. Moments are milliseconds by a
   clock of 64 bits that neither goes back nor wraps: extend a tick of 32 bits. Nobody else may read the module:
   reading a flag clears it. examples/port_loop.c is the loop, on a bus that blocks.

   A module that is left alone, such as one that isn't CMIS, isn't looked at, but read and judged anew after
   times.recheck: pass the halves that `whole` names to dovecounter_flags, or read it yourself while
   dovecounter_port_next says DOVECOUNTER_PORT_UNTIL or _IDLE.

   A port fetches up to 128 bytes at once. If your bus carries less, fetch them in pieces of a multiple of 8 bytes, by
   rising address, with nothing in between. If one is refused, pass DOVECOUNTER_REFUSED and fetch no further piece: the
   module may have gone back to page 00h. Flags that the earlier pieces cleared are lost then. (Not proved.)

   Status 31 means that no port began in this memory. */

/* How long a port waits, in milliseconds. cmisd takes 2000, 10000, 1000, 300000 and 60000, unless its file has others. */
struct dovecounter_times {
    uint32_t settle;  /* after a plug, until the module answers: 2000 suits every module */
    uint32_t period;  /* between two looks at a module that is as wanted */
    uint32_t first;   /* after a first failure; doubled with each failure that follows */
    uint32_t most;    /* after a failure at most */
    uint32_t recheck; /* after a module was left alone, until it is read and judged anew: one that reset itself while it
                         was read seems to lack pages. 0: not before somebody asks */
};

enum dovecounter_port_stage {
    DOVECOUNTER_PORT_ABSENT = 0,       /* no module is plugged */
    DOVECOUNTER_PORT_LEFT = 1,         /* the module is left alone; left says why */
    DOVECOUNTER_PORT_READING = 2,      /* its memory is read */
    DOVECOUNTER_PORT_WAKING = 3,       /* it is woken up */
    DOVECOUNTER_PORT_PROVISIONING = 4, /* the plan's control bytes become active */
    DOVECOUNTER_PORT_ACTIVATING = 5,   /* the plan's lanes come up */
    DOVECOUNTER_PORT_WATCHING = 6,     /* it is as wanted, and looked at every period */
    DOVECOUNTER_PORT_SLEEPING = 7,     /* it is put to sleep */
    DOVECOUNTER_PORT_CONFIRMING = 8    /* lanes came up; a look finds whether they are the plan's */
};

/* Why a module is left alone; or, if nothing can be planned, a status of dovecounter_advertisement, 11 to 16. */
enum dovecounter_left_reason {
    DOVECOUNTER_LEFT_NO_PAGE_11 = 1,       /* it has no page 11h */
    DOVECOUNTER_LEFT_NO_PLAN = 2,          /* none of its paths is wanted */
    DOVECOUNTER_LEFT_NEEDS_POWER = 3,      /* it is not ready, and needs more power than it may draw */
    DOVECOUNTER_LEFT_NEEDS_PERMISSION = 4, /* lanes that are up would go down, and may not */
    DOVECOUNTER_LEFT_ASLEEP = 5            /* it is in low power, as was asked */
};

struct dovecounter_left {
    uint8_t reason; /* enum dovecounter_left_reason, or 11 to 16; 0 if the module isn't left alone */
    uint8_t value;  /* 11, 16: the identifier; 12: the revision; 15: the page; else 0 */
    uint8_t device; /* 14: the half that is absent, as in dovecounter_half; else 0 */
    uint8_t upper;
    uint8_t bank;
    uint8_t page;
};

/* A code of a bank's lanes as last read (0 before that), how often it was read to differ from the one before (at most
   65535), and when last (0: never). Neither a pull nor an acknowledgement changes these. */
struct dovecounter_lane_codes {
    uint64_t last[8];
    uint16_t changes[8];
    uint8_t codes[8];
};

/* How often each flag was read as raised since it was acknowledged (at most 65535), and when last (0: never). Flags
   are in the order of the module's memory, in a byte from bit 0 on. Below them, what page 11h shows of the lanes.
   They are a CMIS module's: of one whose byte 0, as last read, names another family, nothing is counted here. */
struct dovecounter_flag_counts {
    uint16_t module_counts[32]; /* bytes 8 to 11 of the lower memory: flag 8 * (byte - 8) + bit */
    uint64_t module_last[32];
    uint16_t lane_counts[152]; /* bytes 134 to 152 of page 11h: flag 8 * (byte - 134) + lane - 1 */
    uint64_t lane_last[152];
    struct dovecounter_lane_codes states;   /* enum dovecounter_path_state */
    struct dovecounter_lane_codes statuses; /* enum dovecounter_config_status */
};

/* What a port works for: the plan that followed from the last reading. */
struct dovecounter_goal {
    uint8_t control[8]; /* control bytes of host lanes 1 to 8 */
    uint8_t lanes;      /* host lanes of its paths */
    uint8_t outside;    /* host lanes that no kept path takes */
};

/* The port's work at the module. */
struct dovecounter_work {
    struct dovecounter_progress saved;
    uint16_t most;
    uint8_t woken;
    uint8_t doubts;
    uint8_t taken;
    uint16_t taken_page;
    uint8_t stage;
    uint8_t found;
};

/* A port. You may copy it, save it, and read flags, due, recheck_at, stage, held, goal (from PROVISIONING to WATCHING,
   and in CONFIRMING), left, request and request_lanes, but don't write its fields: a changed one is refused, or taken
   for another port, perhaps one that no events lead to. */
struct dovecounter_port {
    struct dovecounter_flag_counts flags;
    uint64_t due;        /* no operation is named before this moment */
    uint64_t recheck_at; /* in LEFT, if times.recheck isn't 0: the module is read anew from this moment on */
    uint64_t silent_since;
    struct dovecounter_work work;
    struct dovecounter_times times;
    uint32_t magic;
    uint32_t back_off;
    uint32_t refusals;
    uint16_t half_count;
    uint8_t stage; /* enum dovecounter_port_stage */
    uint8_t held;  /* 1 while dovecounter_port_hold holds it still */
    uint8_t outstanding;
    uint8_t vain;
    uint8_t selection;
    uint16_t page;
    struct dovecounter_goal goal;
    struct dovecounter_left left;
    uint8_t request;       /* what was asked: enum dovecounter_request */
    uint8_t request_lanes; /* and of which lanes */
    uint8_t identifier;
    uint8_t apply_refused; /* 1 after _APPLY_REFUSED, until the module is provisioned, up, left, plugged or pulled */
    uint8_t spare[4];      /* has no meaning */
    struct dovecounter_half halves[DOVECOUNTER_MOST_READ];
};

/* Makes an empty port. */
void dovecounter_port_new(const struct dovecounter_times *times, struct dovecounter_port *port);

/* A module was plugged, or the program has started and one may be there, or you have reset it by its pin (as after a
   failure with fault DOVECOUNTER_NOT_READY and DOVECOUNTER_MODULE_FAULT). It is read after times.settle; what was
   requested is forgotten. Pass an outstanding reply all the same.

   A module carries nothing after a plug that you saw, after you reset it, and when the board itself was just powered:
   then request DOVECOUNTER_REQUEST_PROVISION of 0xFF, and want `stay` 0 while port.request is that, which ends once it
   is up or left alone. After a restart of your program alone, don't. */
uint32_t dovecounter_port_plug(struct dovecounter_port *port, uint64_t now);

/* The module was pulled: only its flags are left. Pass an outstanding reply all the same. */
uint32_t dovecounter_port_pull(struct dovecounter_port *port);

/* The weights changed, or somebody asks: the module is read and judged anew, but not before `due`, so the settle time
   is kept, and a module that is watched waits for its next look. Its lanes stay up meanwhile. */
uint32_t dovecounter_port_reconsider(struct dovecounter_port *port);

/* Holds the port still if held is other than 0: it names no operation. With 0 it goes on, as after reconsider. */
uint32_t dovecounter_port_hold(struct dovecounter_port *port, uint8_t held);

enum dovecounter_request {
    DOVECOUNTER_REQUEST_WAKE = 0,      /* the default: the module is to be awake, and as wanted */
    DOVECOUNTER_REQUEST_SLEEP = 1,     /* it is to be in low power; these lanes may go down for that, and no others */
    DOVECOUNTER_REQUEST_PROVISION = 2, /* these lanes may go down, until it is up or left alone; see
                                          dovecounter_port_plug */
    DOVECOUNTER_REQUEST_DEACTIVATE = 3 /* no data path may have one of these lanes, and they may go down */
};

/* Replaces what was requested before, until a pull. The module is read and judged anew, but not before `due`. Other
   numbers count as WAKE. */
uint32_t dovecounter_port_request(struct dovecounter_port *port, uint8_t request, uint8_t lanes);

enum dovecounter_presence {
    DOVECOUNTER_SAME = 0,    /* a module is there as before, or none is */
    DOVECOUNTER_PLUGGED = 1, /* it answers, so it was plugged, as by dovecounter_port_plug */
    DOVECOUNTER_PULLED = 2   /* it was silent for too long, so it was pulled, as by dovecounter_port_pull */
};

/* For a port without a presence pin: call it after each operation of the port, once its reply was taken, and after a
   fetch of byte 0 alone, which clears no flag, that you make yourself once a second. `answered` is 0 if the
   transaction was refused; `began` and `now` are the moments at which it began and ended. A module that refused more
   than three times in a row, over more than a second, counts as pulled. */
uint32_t dovecounter_port_hear(struct dovecounter_port *port, uint8_t answered, uint64_t began, uint64_t now,
                               uint8_t *presence);

/* Flags that were last read as raised at this moment or before count from 0 again. */
uint32_t dovecounter_port_acknowledge(struct dovecounter_port *port, uint64_t moment);

enum dovecounter_port_do {
    DOVECOUNTER_PORT_DO = 0,    /* make the operation, and pass its reply to dovecounter_port_take */
    DOVECOUNTER_PORT_UNTIL = 1, /* nothing before the moment */
    DOVECOUNTER_PORT_BUSY = 2,  /* nothing before the outstanding reply is passed */
    DOVECOUNTER_PORT_IDLE = 3   /* nothing before plug, hear, reconsider, request or hold is called */
};

/* What is to be done now. */
struct dovecounter_port_next {
    uint64_t moment; /* UNTIL; else 0 */
    uint8_t kind;    /* enum dovecounter_port_do */
    uint8_t whole;   /* 1 if the operation fetches a whole half; the next three are its place, as in dovecounter_half */
    uint8_t upper;
    uint8_t bank;
    uint8_t page;
    struct dovecounter_operation operation; /* DO: a fetch of at most 128 bytes, or a store; else zeros */
};

/* Writes what is to be done now. After DO the port is busy until the reply is passed. A module that has been left alone
   for times.recheck is read and judged anew, as after dovecounter_port_reconsider. */
uint32_t dovecounter_port_next(struct dovecounter_port *port, uint64_t now, struct dovecounter_port_next *next);

/* What you want of the module. */
struct dovecounter_wanted {
    uint32_t weights[256]; /* of each HostInterfaceID, as dovecounter_weights writes them */
    uint32_t stay;         /* the extra weight of a path that the Active Control Set has, up or not */
    uint8_t paired;        /* as for dovecounter_plan */
    uint8_t counts_by_id;
    uint8_t most_power;    /* in quarters of a watt: a module that needs more isn't woken; 255: no limit */
    uint8_t may_take_down; /* lanes that may go down although they are up, but not for a requested sleep */
};

enum dovecounter_port_led_to {
    DOVECOUNTER_PORT_DROPPED = 0, /* the reply was ignored: the module was pulled, or it is read anew */
    DOVECOUNTER_PORT_WENT = 1,    /* progress; see note */
    DOVECOUNTER_PORT_PAUSED = 2,  /* a fruitless transaction; another follows at the moment */
    DOVECOUNTER_PORT_FAILED = 3,  /* failed; see failure; the module is read anew at the moment */
    DOVECOUNTER_PORT_LEAVES = 4   /* the module is left alone; see left */
};

enum dovecounter_port_note {
    DOVECOUNTER_PORT_QUIET = 0,       /* the work goes on */
    DOVECOUNTER_PORT_IDENTIFIED = 1,  /* the memory was read, and there is work to do */
    DOVECOUNTER_PORT_WOKEN = 2,       /* the module was woken up */
    DOVECOUNTER_PORT_PROVISIONED = 3, /* the control bytes are active */
    DOVECOUNTER_PORT_CAME_UP = 4,     /* the module is up as wanted, perhaps as before */
    DOVECOUNTER_PORT_STILL_UP = 5     /* a look found it still up as wanted */
};

enum dovecounter_port_failure {
    DOVECOUNTER_PORT_UNREAD = 1,          /* the memory could not be read */
    DOVECOUNTER_PORT_ASLEEP = 2,          /* the module isn't ready although it was woken */
    DOVECOUNTER_PORT_NOT_WOKEN = 3,       /* it was asked to wake up, and did not; see fault */
    DOVECOUNTER_PORT_NOT_PROVISIONED = 4, /* see fault */
    DOVECOUNTER_PORT_NOT_ACTIVATED = 5,   /* see fault */
    DOVECOUNTER_PORT_UNSEEN = 6,          /* the module could not be looked at */
    DOVECOUNTER_PORT_CHANGED = 7,         /* it is no longer as wanted, did not come up so, or asks for low power again */
    DOVECOUNTER_PORT_NOT_ASLEEP = 8,      /* see fault */
    DOVECOUNTER_PORT_APPLY_REFUSED = 9,   /* an apply was refused, which the module may have taken all the same */
    DOVECOUNTER_PORT_WAKING_REFUSED = 10  /* its global controls were not read or stored, so it wasn't asked to wake up */
};

/* What a reply led to. A port doesn't watch for resets, so it has no fault DOVECOUNTER_RESET or _FAULTY: a reset ends in
   another one, such as DOVECOUNTER_NOT_STAGED, _NOT_ACTIVE or _OVERDUE, or in DOVECOUNTER_PORT_CHANGED. After each
   failure the module is read and judged anew. If its default Application is up by then, the plan may keep that where
   `stay` is above 0; with 0 the module is left alone, as DOVECOUNTER_LEFT_NEEDS_PERMISSION. To have the plan back,
   request and want what dovecounter_port_plug says.

   A refused apply is such a failure, since the module may have taken it: stored again, it could take down lanes that
   it has brought up. If another one is refused before the module is provisioned or up, that one is stored again after
   a pause. */
struct dovecounter_port_outcome {
    uint64_t moment;                /* PAUSED, FAILED; else 0 */
    uint8_t kind;                   /* enum dovecounter_port_led_to */
    uint8_t note;                   /* WENT: enum dovecounter_port_note; else 0 */
    uint8_t failure;                /* FAILED: enum dovecounter_port_failure; else 0 */
    struct dovecounter_fault fault; /* failures 3 to 5, and 8: codes 1 to 8; else zeros */
    struct dovecounter_left left;   /* LEAVES; else zeros */
};

/* Takes the reply to the operation: a dovecounter_outcome, and the bytes of a fetch. With any outcome but
   DOVECOUNTER_FETCHED, bytes and byte_count are ignored. When what you want changes, call
   dovecounter_port_reconsider, before this or after it, even while a reply is outstanding: pass that all the same.
   The `wanted` of the reply that ends the reading decides. Status 34: no reply is outstanding, or the operation can't
   have this one. After a pull any outcome but DOVECOUNTER_WAITED will do. */
uint32_t dovecounter_port_take(struct dovecounter_port *port, uint8_t reply, const uint8_t *bytes, size_t byte_count,
                               const struct dovecounter_wanted *wanted, uint64_t now,
                               struct dovecounter_port_outcome *outcome);

/* What was counted of the eight lanes of a further bank, as a port's flags have it of bank 0. Keep one of each bank, of
   zeros at first, as long as you keep the port. */
struct dovecounter_bank_counts {
    uint16_t lane_counts[152]; /* bytes 134 to 152 of page 11h: flag 8 * (byte - 134) + lane - 1 - 8 * bank */
    uint64_t lane_last[152];
    struct dovecounter_lane_codes states;   /* enum dovecounter_path_state, of the bank's lanes */
    struct dovecounter_lane_codes statuses; /* enum dovecounter_config_status */
};

/* Counts what this half shows, which is page 11h of the bank and was fetched at this moment. Pass each one once: reading a
   flag clears it. A reading of what dovecounter_further_banks answers has them; make one after each look of the port. */
uint32_t dovecounter_bank_count(struct dovecounter_bank_counts *counts, const struct dovecounter_half *half,
                                uint64_t moment);

/* Flags that were last read as raised at this moment or before count from 0 again. */
void dovecounter_bank_acknowledge(struct dovecounter_bank_counts *counts, uint64_t moment);

/* ---- A simulated module ----

   For tests without hardware (docs/module.md). Time passes only by dovecounter_module_tick. Pass each call the
   halves that the module began with, 64 at most. */

/* Ticks that each kind of work takes, 1 to 1000. */
struct dovecounter_delays {
    uint16_t apply;      /* applying staged control bytes */
    uint16_t init;       /* DPInit */
    uint16_t turn_on;    /* DPTxTurnOn */
    uint16_t turn_off;   /* DPTxTurnOff */
    uint16_t deinit;     /* DPDeinit */
    uint16_t power_up;   /* ModulePwrUp */
    uint16_t power_down; /* ModulePwrDn */
};

/* A host lane of a simulated module. */
struct dovecounter_lane {
    uint16_t left;  /* ticks until the work of its path's state is done; 0 if none runs */
    uint8_t path;   /* code of that state, 1 to 7 */
    uint8_t status; /* code of its configuration status */
    uint8_t custom; /* 1 if that code is none of the standard's; never in a module that began here */
    uint8_t staged; /* control byte in Staged Control Set 0 */
    uint8_t active; /* control byte in the Active Control Set */
    uint8_t keeps;  /* 1 if an apply in progress keeps a control byte for it */
    uint8_t kept;   /* that byte, or 0 */
};

/* What changes in a simulated module. You may read it, copy it and save it, but don't write its fields: a changed one
   is refused, or taken for another module, perhaps one that no events lead to. */
struct dovecounter_module {
    struct dovecounter_delays delays;
    uint16_t left;       /* ticks until the work of the module's state is done; 0 if none runs */
    uint16_t apply_left; /* ticks until an apply in progress is done; 0 if there is none */
    uint8_t bank;        /* in the upper half */
    uint8_t page;        /* in the upper half */
    uint8_t waiting;     /* the bank that waits for a page */
    uint8_t pin;         /* 1 if the host holds the low power pin */
    uint8_t control;     /* byte 26 of lower memory */
    uint8_t state;       /* code of the module's state, 1 to 5 */
    uint8_t deinit;      /* lanes whose DPDeinit bit is set */
    uint8_t module_flags;
    uint8_t lane_flags[19];           /* bytes 134 to 152 of page 11h */
    struct dovecounter_lane lanes[8]; /* lane 1 first */
};

/* Makes a module of these halves: at least the lower half and pages 00h, 01h, 10h and 11h of 0xA0. */
uint32_t dovecounter_module_begin(const struct dovecounter_half *halves, size_t half_count,
                                  const struct dovecounter_delays *delays, struct dovecounter_module *module);

/* Fetches 1 to 128 bytes of one half, from address offset on. Reading a flag clears it. */
uint32_t dovecounter_module_fetch(const struct dovecounter_half *halves, size_t half_count,
                                  struct dovecounter_module *module, uint8_t device, uint8_t offset, uint8_t *bytes,
                                  size_t byte_count);

/* Stores 1 to 8 bytes in one half, from address offset on. To cut a store short, store its first bytes. */
uint32_t dovecounter_module_store(const struct dovecounter_half *halves, size_t half_count,
                                  struct dovecounter_module *module, uint8_t device, uint8_t offset,
                                  const uint8_t *bytes, size_t byte_count);

/* Lets one tick pass. */
uint32_t dovecounter_module_tick(struct dovecounter_module *module);

/* Holds the low power pin, or releases it if on is 0. */
uint32_t dovecounter_module_pin(struct dovecounter_module *module, uint8_t on);

/* Writes the control bytes of the Active Control Set, lane 1 first. */
uint32_t dovecounter_module_active(const struct dovecounter_module *module, uint8_t active[8]);

#ifdef __cplusplus
}
#endif
#endif
