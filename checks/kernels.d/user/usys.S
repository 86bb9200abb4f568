#include "kernel/syscall.h"
#define ENTRY(name) .globl name; name: li a7, SYS_##name; ecall; ret

.globl _start
_start: call    main
        call    exit
ENTRY(fork); ENTRY(exit); ENTRY(wait); ENTRY(pipe); ENTRY(read); ENTRY(kill)
ENTRY(exec); ENTRY(getpid); ENTRY(sbrk); ENTRY(open); ENTRY(write); ENTRY(unlink)
ENTRY(close); ENTRY(mmap); ENTRY(munmap); ENTRY(freepages); ENTRY(program); ENTRY(shutdown)
