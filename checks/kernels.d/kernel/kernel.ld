OUTPUT_ARCH(riscv)
ENTRY(_entry)
SECTIONS
{
  . = 0x80000000;
  .text : { *(.text.entry) *(.text .text.*) *(.rodata .rodata.* .srodata .srodata.*) }
  . = ALIGN(4096);
  .data : { *(.data .data.* .sdata .sdata.*) }
  .bss : { *(.bss .bss.* .sbss .sbss.* COMMON) . = ALIGN(4096); end = .; }
  /DISCARD/ : { *(.comment) *(.eh_frame) *(.note*) *(.riscv.attributes) }
}
