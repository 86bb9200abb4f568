# Five pages or more of code, of constants, of variables and of zeros. Of the first three, no two words of a section are equal, so
# that no page can be taken for another one.
    .option norvc
    .globl main
    .text
main:
    .set number, 1
    .rept 5500
    lui a0, number
    .set number, number + 1
    .endr

    .section .rodata
    .balign 16
    .rept 5200
    .word number * 0x10001
    .set number, number + 1
    .endr

    .data
    .balign 16
    .rept 2600
    .dword number * 0x100010001
    .set number, number + 1
    .endr

    .bss
    .balign 16
    .space 21000
