/* Code, constants and variables in three segments, with pages between them that belong to none. Constants can neither be written
 * nor executed. */
OUTPUT_ARCH(riscv)
ENTRY(main)

PHDRS
{
    code PT_LOAD FLAGS(5);
    constants PT_LOAD FLAGS(4);
    variables PT_LOAD FLAGS(6);
}

SECTIONS
{
    . = 0x2000;
    .text : { *(.text .text.*) } :code
    . = 0x7000;
    .rodata : { *(.srodata .srodata.*) *(.rodata .rodata.*) *(.eh_frame .eh_frame.*) } :constants
    . = 0x10000;
    .init_array : { KEEP(*(.init_array .init_array.*)) } :variables
    .data : { *(.sdata .sdata.*) *(.data .data.*) } :variables
    .bss : { *(.sbss .sbss.*) *(.bss .bss.*) *(COMMON) } :variables
    PROVIDE(end = .);
}
