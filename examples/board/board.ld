/* The memory of qemu's mps2-an386: code from 0 on, data from 0x20000000 on, the stack at the end of the data's 128 KB,
   most of which the simulated module takes. */
ENTRY(reset)
MEMORY {
    CODE (rx) : ORIGIN = 0, LENGTH = 256K
    DATA (rw) : ORIGIN = 0x20000000, LENGTH = 128K
}
SECTIONS {
    .text : { KEEP(*(.vectors)) *(.text*) *(.rodata*) . = ALIGN(4); } > CODE
    .ARM.exidx : { *(.ARM.exidx*) } > CODE
    .data : { data_begin = .; *(.data*) . = ALIGN(4); data_end = .; } > DATA AT > CODE
    data_kept = LOADADDR(.data);
    .bss : { zeros_begin = .; *(.bss*) *(COMMON) . = ALIGN(4); zeros_end = .; } > DATA
    stack_top = ORIGIN(DATA) + LENGTH(DATA);
}
