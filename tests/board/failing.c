/* A call that fails, linked in place of the library's by -Wl,--wrap: with -DEND=2 the second of dovecounter_end, which has a fault
   with -DFAULT too, after the most operations that there can be; with -DPLAN, -DPATIENCE or -DNEXT each such call; with -DEMPTY a
   plan has no path, and with -DSILENT=20 the module refuses the first so many fetches. */
#include "dovecounter.h"

#ifdef END
uint32_t __real_dovecounter_end(const struct dovecounter_conversation *conversation,
                                const struct dovecounter_half *halves, struct dovecounter_ending *ending);
uint32_t __wrap_dovecounter_end(const struct dovecounter_conversation *conversation,
                                const struct dovecounter_half *halves, struct dovecounter_ending *ending);

uint32_t __wrap_dovecounter_end(const struct dovecounter_conversation *conversation,
                                const struct dovecounter_half *halves, struct dovecounter_ending *ending) {
    static int calls;
    uint32_t status = __real_dovecounter_end(conversation, halves, ending);
    if (++calls != END) return status;
#ifdef FAULT
    ending->fault.code = DOVECOUNTER_GAVE_UP_WAITING;
    ending->steps = UINT16_MAX;
    return status;
#else
    return 99;
#endif
}
#endif

#ifdef PLAN
uint32_t __wrap_dovecounter_plan(void);
uint32_t __wrap_dovecounter_plan(void) { return 99; }
#endif

#ifdef EMPTY
uint32_t __wrap_dovecounter_plan(const struct dovecounter_half *halves, size_t half_count, uint8_t paired,
                                 uint8_t counts_by_id, const uint32_t weights[256], uint32_t stay,
                                 const struct dovecounter_path *kept, size_t kept_count, struct dovecounter_plan *plan);
uint32_t __wrap_dovecounter_plan(const struct dovecounter_half *halves, size_t half_count, uint8_t paired,
                                 uint8_t counts_by_id, const uint32_t weights[256], uint32_t stay,
                                 const struct dovecounter_path *kept, size_t kept_count,
                                 struct dovecounter_plan *plan) {
    static const struct dovecounter_plan empty;
    (void)halves, (void)half_count, (void)paired, (void)counts_by_id, (void)weights, (void)stay, (void)kept;
    (void)kept_count;
    *plan = empty;
    return DOVECOUNTER_DONE;
}
#endif

#ifdef PATIENCE
uint32_t __wrap_dovecounter_patience(void);
uint32_t __wrap_dovecounter_patience(void) { return 99; }
#endif

#ifdef NEXT
uint32_t __wrap_dovecounter_next(void);
uint32_t __wrap_dovecounter_next(void) { return 99; }
#endif

#ifdef SILENT
uint32_t __real_dovecounter_module_fetch(const struct dovecounter_half *halves, size_t half_count,
                                         struct dovecounter_module *module, uint8_t device, uint8_t offset,
                                         uint8_t *bytes, size_t count);
uint32_t __wrap_dovecounter_module_fetch(const struct dovecounter_half *halves, size_t half_count,
                                         struct dovecounter_module *module, uint8_t device, uint8_t offset,
                                         uint8_t *bytes, size_t count);
uint32_t __wrap_dovecounter_module_fetch(const struct dovecounter_half *halves, size_t half_count,
                                         struct dovecounter_module *module, uint8_t device, uint8_t offset,
                                         uint8_t *bytes, size_t count) {
    static int calls;
    if (++calls <= SILENT) return DOVECOUNTER_NOT_TAKEN;
    return __real_dovecounter_module_fetch(halves, half_count, module, device, offset, bytes, count);
}
#endif
