/* How a program for examples/board begins, prints and ends on qemu's machine virt, a 32-bit RISC-V. */
#include "board.h"

int main(void);
extern uint32_t zeros_begin[], zeros_end[];

#define SERIAL ((volatile uint8_t *)0x10000000)
#define POWER ((volatile uint32_t *)0x100000)

void print(const char *text) {
    while (*text != '\0') *SERIAL = (uint8_t)*text++;
}

static _Noreturn void end(uint32_t status) {
    for (;;) *POWER = status == 0 ? 0x5555 : status << 16 | 0x3333;
}

__attribute__((aligned(4))) static void fault(void) {
    print("fault of the processor\n");
    end(3);
}

__attribute__((used)) static void begin(void) {
    __asm__ volatile(".option push\n\t.option arch, +zicsr\n\tcsrw mtvec, %0\n\t.option pop" ::"r"(fault));
    for (uint32_t *to = zeros_begin; to < zeros_end;) *to++ = 0;
    end((uint32_t)main());
}

__attribute__((naked, section(".vectors"))) void reset(void) { __asm__("la sp, stack_top\n\tj begin"); }
