/* The layout of a user program of xv6: code and constants from 0 on, variables from the next page on. So each segment begins at a
 * multiple of 4,096, and code cannot be written. */
OUTPUT_ARCH(riscv)
ENTRY(main)

SECTIONS
{
    . = 0x0;
    .text : { *(.text .text.*) }
    .rodata : ALIGN(16) { *(.srodata .srodata.*) . = ALIGN(16); *(.rodata .rodata.*) }
    .eh_frame : { *(.eh_frame .eh_frame.*) }

    . = ALIGN(0x1000);
    /* The addresses of constructors can be written, so they are variables. */
    .init_array : { KEEP(*(.init_array .init_array.*)) }
    .data : ALIGN(16) { *(.sdata .sdata.*) . = ALIGN(16); *(.data .data.*) }
    .bss : ALIGN(16) { *(.sbss .sbss.*) . = ALIGN(16); *(.bss .bss.*) *(COMMON) }
    PROVIDE(end = .);
}
