/* The memory of a board as a program for it has it: code below, variables above, and the stack from the end down. Both of
 * qemu's boards that tools/cross uses, mps2-an386 and microbit, have code and RAM at these places. */
MEMORY {
    CODE (rx) : ORIGIN = 0x00000000, LENGTH = 256K
    DATA (rwx) : ORIGIN = 0x20000000, LENGTH = 256K
}
ENTRY(reset)
SECTIONS {
    .text : { KEEP(*(.vectors)) *(.text*) *(.rodata*) KEEP(*(.init)) KEEP(*(.fini)) } > CODE
    .ARM.exidx : { __exidx_start = .; *(.ARM.exidx*) __exidx_end = .; } > CODE
    .init_array : {
        __preinit_array_start = .; __preinit_array_end = .;
        __init_array_start = .; KEEP(*(.init_array*)) __init_array_end = .;
        __fini_array_start = .; __fini_array_end = .;
    } > CODE
    .data : { data_start = .; *(.data*) data_end = .; } > DATA AT> CODE
    data_kept = LOADADDR(.data);
    .bss : { bss_start = .; *(.bss*) *(COMMON) bss_end = .; end = .; } > DATA
    stack_top = ORIGIN(DATA) + LENGTH(DATA);
}
