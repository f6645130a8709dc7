/* Calls the functions of the header as an input of bytes says: a target for libFuzzer, or, with REPLAY, a program that runs the inputs of the
   files it is given. The status of each call has to be one of the function's in the header, a refusal may write nothing, an answer has to be
   in its range, and the same call has to answer the same. After the end of each input and output there is memory that nobody can touch.

   An input begins with how many halves there are, times two, and one more if their sums are to be right, and then has the halves. After that
   each byte names a call, and the bytes after it are what goes in. What an input doesn't have is 0. */
#define _DEFAULT_SOURCE

#include "fuzz_settings.h"

/* ---- an input ---- */

static void make_memory(void) {
    for (int i = 0; i < PLACES; i++) ends[i] = end_of_memory(MOST_BYTES);
    weights = room(WEIGHTS, 256 * sizeof *weights);
    read_halves = room(READ, DOVECOUNTER_MOST_READ * sizeof *read_halves);
}

static void make_halves(void) {
    uint8_t first = byte();
    half_count = first / 2 % 18;
    halves = filled(HALVES, half_count * sizeof *halves);
    for (size_t i = 0; i < half_count && first & 1; i++) {
        if (halves[i].device != 0xA0 || !halves[i].upper) continue;
        if (halves[i].page == 0) set_sum(&halves[i], 128, 221, 222);
        if (halves[i].page == 1) set_sum(&halves[i], 130, 254, 255);
        if (halves[i].page == 2) set_sum(&halves[i], 128, 254, 255);
    }
}

/* A byte of the input names one. */
static void (*const calls[])(void) = {set_options,
                                      call_text,
                                      call_advertisement,
                                      call_identity,
                                      call_flags,
                                      call_monitors,
                                      call_weights,
                                      call_durations,
                                      call_patience,
                                      call_plan,
                                      call_certificate,
                                      call_check,
                                      call_module,
                                      call_module_begin,
                                      begin_conversation,
                                      call_conversation,
                                      go_on,
                                      begin_port,
                                      call_port,
                                      go_on_with_port,
                                      call_observables,
                                      begin_update,
                                      go_on_with_update,
                                      call_update,
                                      begin_change,
                                      go_on_with_change,
                                      call_change,
                                      begin_test,
                                      go_on_with_test,
                                      call_test,
                                      call_judge,
                                      call_settings,
                                      call_settings_limits,
                                      begin_settings,
                                      go_on_with_settings,
                                      call_tuning,
                                      begin_vdm,
                                      go_on_with_vdm,
                                      call_vdm,
                                      call_capabilities,
                                      begin_explicit,
                                      go_on_with_explicit,
                                      call_explicit,
                                      call_further_banks,
                                      call_bank_counts};

int LLVMFuzzerTestOneInput(const uint8_t *bytes, size_t size);

int LLVMFuzzerTestOneInput(const uint8_t *bytes, size_t size) {
    if (!weights) make_memory();
    input = bytes, input_left = size;
    memset(weights, 0, 256 * sizeof *weights);
    memset(read_halves, 0, DOVECOUNTER_MOST_READ * sizeof *read_halves);
    memset(&module, 0, sizeof module), memset(&conversation, 0, sizeof conversation), memset(&port, 0, sizeof port);
    memset(&bank_counts, 0, sizeof bank_counts);
    memset(&wanted, 0, sizeof wanted), memset(&update, 0, sizeof update);
    memset(&changing, 0, sizeof changing), memset(&testing, 0, sizeof testing), memset(&tuning, 0, sizeof tuning);
    memset(&provisioning, 0, sizeof provisioning);
    memset(&statistics, 0, sizeof statistics), memset(read_statistics, 0, sizeof read_statistics);
    file_size = 0, file = room(TEXT, 0), memset(selected, 0, sizeof selected);
    patience = (struct dovecounter_patience){20, 2000, 0};
    kept_count = 0, kept = room(KEPT, 0), stay = 0, paired = counts_by_id = 0, now = 0;
    make_halves();
    for (int made = 0; input_left && made < MOST_CALLS; made++) calls[byte() % (sizeof calls / sizeof *calls)]();
    return 0;
}

#ifdef REPLAY
int main(int count, char **names) {
    static uint8_t bytes[MOST_BYTES];
    for (int i = 1; i < count; i++) {
        FILE *file = fopen(names[i], "rb");
        if (!file) return perror(names[i]), 2;
        size_t size = fread(bytes, 1, sizeof bytes, file);
        fclose(file);
        LLVMFuzzerTestOneInput(bytes, size);
    }
    printf("fuzz: %d inputs\n", count - 1);
    return 0;
}
#endif
