/* The memory of qemu's machine virt, into which it puts code and data; the stack is at the end of the first 4 MB. */
ENTRY(reset)
MEMORY { RAM (rwx) : ORIGIN = 0x80000000, LENGTH = 4M }
SECTIONS {
    .text : { KEEP(*(.vectors)) *(.text*) *(.rodata*) *(.srodata*) . = ALIGN(8); } > RAM
    .data : { *(.data*) *(.sdata*) . = ALIGN(8); } > RAM
    .bss : { zeros_begin = .; *(.sbss*) *(.bss*) *(COMMON) . = ALIGN(8); zeros_end = .; } > RAM
    stack_top = ORIGIN(RAM) + LENGTH(RAM);
}
