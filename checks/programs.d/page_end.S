# A segment of variables with DATA bytes in the file and ZEROS bytes after them: it ends at the end of a page, just before it or
# just past it. No byte in the file is zero.
#include "code.S"

    .data
    .set number, 0
    .rept DATA
    .byte number % 255 + 1
    .set number, number + 1
    .endr

    .if ZEROS
    .bss
    .space ZEROS
    .endif
