/* How a Cortex-M4 begins, and how this one prints and ends: by semihosting, which an emulator or a debugger carries out. */
#include "board.h"

int main(void);
extern uint32_t data_begin[], data_end[], data_kept[], zeros_begin[], zeros_end[], stack_top[];

static uint32_t semihost(uint32_t what, const void *argument) {
    register uint32_t r0 __asm__("r0") = what;
    register const void *r1 __asm__("r1") = argument;
    __asm__ volatile("bkpt 0xAB" : "+r"(r0) : "r"(r1) : "memory");
    return r0;
}

void print(const char *text) { semihost(0x04, text); }

/* Ends the emulation with this status, 0 for success. */
static _Noreturn void end(uint32_t status) {
    const uint32_t arguments[2] = {0x20026, status};
    for (;;) semihost(0x20, arguments);
}

static void fault(void) {
    print("fault of the processor\n");
    end(3);
}

void reset(void) {
    const uint32_t *from = data_kept;
    for (uint32_t *to = data_begin; to < data_end;) *to++ = *from++;
    for (uint32_t *to = zeros_begin; to < zeros_end;) *to++ = 0;
    *(volatile uint32_t *)0xE000ED88 |= 0xF << 20; /* lets the FPU be used, if there is one */
    end((uint32_t)main());
}

__attribute__((section(".vectors"), used)) static const void *const vectors[16] = {
    stack_top, (void *)reset, (void *)fault, (void *)fault, (void *)fault, (void *)fault, (void *)fault};
